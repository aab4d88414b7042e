// Bodies by hand: the calls and the digests of the program body_bench, over a new log. Both take the same words, print the same line
// and leave the same bytes. usage: body store|copy|join FOLDER. With -DPLAIN its MD5 is that of kit_md5.c, else it is OpenSSL's.
#define _GNU_SOURCE
#define OPENSSL_SUPPRESS_DEPRECATED // the plain calls of MD5 cost least
#include <arpa/inet.h>
#include <errno.h>
#include <fcntl.h>
#include <stdint.h>
#include <stdio.h>
#include <stdlib.h>
#include <string.h>
#include <sys/stat.h>
#include <unistd.h>
#ifdef PLAIN
#include "kit_md5.h"
#else
#include <openssl/md5.h>
#endif

enum {
    magic = 8,      // the bytes that a log begins with
    head = 21,      // a record's gate, its payload's length in four bytes and its MD5
    piece = 65536,  // the bytes of a full piece, behind a mark
    parts = 16      // of a join: so often the body that was stored, of full pieces
};

static void fail(const char *what) {
    perror(what);
    exit(1);
}

static void write_at(int file, const void *bytes, size_t count, off_t at) {
    if (pwrite(file, bytes, count, at) != (ssize_t)count) fail("pwrite");
}

static void sync_data(int file) {
    if (fdatasync(file)) fail("fdatasync");
}

static int open_file(const char *folder, const char *name) {
    char path[4096];
    if (snprintf(path, sizeof path, "%s/%s", folder, name) >= (int)sizeof path) exit(1);
    int file = open(path, O_RDWR | O_CREAT | O_CLOEXEC, 0666);
    if (file < 0 || fsync(file)) fail(path);
    return file;
}

// A new log, and the file that holds it.
static int make(const char *folder) {
    if (mkdir(folder, 0777) && errno != EEXIST) fail(folder);
    int named = open_file(folder, "head"), one = open_file(folder, "log1");
    open_file(folder, "log2");
    write_at(one, "MTLOG002", magic + 1, 0);
    sync_data(one);
    write_at(named, "\1", 1, 0);
    sync_data(named);
    return one;
}

static size_t next_piece(uint8_t *into) {
    size_t have = 0;
    while (have < piece) {
        ssize_t more = read(0, into + have, piece - have);
        if (more < 0) fail("read");
        if (more == 0) break;
        have += more;
    }
    return have;
}

static void read_at(int file, uint8_t *into, size_t count, off_t at) {
    if (pread(file, into, count, at) != (ssize_t)count) fail("pread");
}

static void send_body(int one, size_t left) {
    static uint8_t buffer[piece];
    for (off_t at = magic + head + 1; left > 0; at += piece + head + 1) {
        size_t count = left < piece ? left : piece;
        read_at(one, buffer, count, at);
        for (size_t done = 0; done < count;) {
            ssize_t more = write(1, buffer + done, count - done);
            if (more <= 0) fail("write");
            done += more;
        }
        left -= count;
    }
}

// A run of records: the place of the first, and the place behind the last.
struct run {
    int file;
    off_t first, next;
    MD5_CTX body;
};

// Adds a piece, which stands behind its mark.
static void add(struct run *run, uint8_t *marked, size_t count) {
    uint8_t open_head[head] = {1};
    MD5_Update(&run->body, marked + 1, count);
    uint32_t len = htonl(count + 1);
    memcpy(open_head + 1, &len, 4);
    MD5(marked, count + 1, open_head + 5);
    int closed = run->next == run->first; // the first record's gate stays closed until the end
    write_at(run->file, open_head + closed, head - closed, run->next + closed);
    write_at(run->file, marked, count + 1, run->next + head);
    run->next += head + count + 1;
}

static void end(struct run *run) {
    uint8_t sum[16];
    MD5_Final(sum, &run->body);
    if (run->next == run->first) return;
    write_at(run->file, "\0", 1, run->next);
    sync_data(run->file);
    write_at(run->file, "\1", 1, run->first);
    sync_data(run->file);
}

static struct run begin(int file, off_t at) {
    struct run run = {.file = file, .first = at, .next = at};
    MD5_Init(&run.body);
    return run;
}

int main(int argc, char **argv) {
    static uint8_t buffer[piece + 1];
    if (argc != 3) return 1;
    int joins = !strcmp(argv[1], "join");
    struct run run = begin(make(argv[2]), magic);
    size_t all = 0;
    for (size_t count = piece; count == piece; all += count) {
        count = next_piece(buffer + 1);
        if (count > 0) add(&run, buffer, count);
    }
    end(&run);
    if (!strcmp(argv[1], "copy")) {
        send_body(run.file, all);
        return 0;
    }
    if (joins) {
        if (all % piece) return 1;
        run = begin(run.file, run.next);
        for (int part = 0; part < parts; part++)
            for (size_t done = 0; done < all; done += piece) {
                read_at(run.file, buffer + 1, piece, magic + done / piece * (head + 1 + piece) + head + 1);
                add(&run, buffer, piece);
            }
        end(&run);
        all *= parts;
    }
    printf("%zu bytes %s, the log has %ld bytes\n", all, joins ? "joined" : "stored", (long)run.next + 1);
    return fflush(stdout) ? 1 : 0;
}
