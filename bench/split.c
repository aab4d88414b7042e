/* Shares the lines of standard input out among N reducers, as split_bench does: one pass, one MD5 a line (OpenSSL's), the
 * place and length of each line in its reducer's list, which grows by doubling. Prints the same line.
 * usage: split N */
#include <openssl/md5.h>
#include <stdint.h>
#include <stdio.h>
#include <stdlib.h>
#include <string.h>
#include <unistd.h>

struct span { uint32_t from, len; };
struct part { struct span *spans; size_t count, room; };

static void *grown(void *old, size_t size) {
    void *more = realloc(old, size);
    if (!more) exit(8);
    return more;
}

int main(int argc, char **argv) {
    uint32_t n = argc == 2 ? strtoul(argv[1], NULL, 10) : 0;
    size_t size = 0, room = 1 << 16;
    unsigned char *text = grown(NULL, room);
    struct part *parts = n ? calloc(n, sizeof *parts) : NULL;
    ssize_t got;
    if (!parts) return 1;
    while ((got = read(0, text + size, room - size)) > 0) {
        size += got;
        if (size == room) text = grown(text, room *= 2);
    }
    if (got < 0) return 3;
    for (size_t from = 0; from < size;) {
        unsigned char digest[16], *end = memchr(text + from, '\n', size - from);
        size_t len = end ? (size_t)(end - text) - from + 1 : size - from;
        struct part *part;
        MD5(text + from, len - (end != NULL), digest);
        part = &parts[((uint32_t)digest[0] << 24 | digest[1] << 16 | digest[2] << 8 | digest[3]) % n];
        if (part->count == part->room) part->spans = grown(part->spans, (part->room = part->room ? 2 * part->room : 4) * sizeof *part->spans);
        part->spans[part->count++] = (struct span){from, len};
        from += len;
    }
    uint64_t lines = 0, bytes = 0, sum = 0;
    for (uint32_t r = 0; r < n; r++)
        for (size_t k = 0; k < parts[r].count; k++) {
            lines++;
            bytes += parts[r].spans[k].len;
            sum += (uint64_t)r * parts[r].spans[k].from;
        }
    return printf("%lu lines, %lu bytes, %lu\n", lines, bytes, sum) < 0;
}
