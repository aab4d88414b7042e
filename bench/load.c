// The load of the benchmark, and the device calls of its puts made by hand. usage: load puts|gets|directories|device COUNT SIZE [FILE]
#define _GNU_SOURCE
#include <fcntl.h>
#include <stdio.h>
#include <stdlib.h>
#include <string.h>
#include <unistd.h>

static void fail(const char *what) {
    perror(what);
    exit(1);
}

static void put(const char *body, long number, long size) {
    printf("PUT /l/stor/object%07ld HTTP/1.1\r\nContent-Type: text/plain\r\nContent-Length: %ld\r\n\r\n", number, size);
    fwrite(body, 1, size, stdout);
}

// One put for each number.
static void puts_of(const char *body, long count, long size) {
    for (long i = 0; i < count; i++) put(body, i, size);
}

// One put, and then gets of that object.
static void gets_of(const char *body, long count, long size) {
    put(body, 0, size);
    for (long i = 0; i < count; i++) fputs("GET /l/stor/object0000000 HTTP/1.1\r\n\r\n", stdout);
}

// One directory for each number: a command without a body.
static void directories_of(long count) {
    for (long i = 0; i < count; i++)
        printf("PUT /l/stor/folder%07ld HTTP/1.1\r\nContent-Type: application/json; type=directory\r\nContent-Length: 0\r\n\r\n", i);
}

static void write_at(int file, const void *bytes, size_t count, off_t at) {
    if (pwrite(file, bytes, count, at) != (ssize_t)count) fail("pwrite");
}

static void sync_of(int file) {
    if (fdatasync(file)) fail("fdatasync");
}

// The eight calls that the store makes for each put: the record of its piece behind the closed gate, that of its command, a gate, a
// sync, the gate of the run, a sync.
static void device(const char *body, long count, long size, const char *name) {
    // the first byte, the moment, the path with a name of 13 bytes, the content type of 10, and the reference to the body
    const size_t command_size = 1 + 8 + 3 + (2 + 13) + (2 + 10) + 16;
    char head[21] = {0}, command[64] = {0}, *piece = calloc(1, 1 + size);
    if (!piece) fail("calloc");
    memcpy(piece + 1, body, size);
    int file = open(name, O_RDWR | O_CREAT | O_TRUNC, 0644);
    if (file < 0) fail(name);
    write_at(file, "MTLOG002", 9, 0);
    sync_of(file);
    off_t gate = 8;
    for (long i = 0; i < count; i++) {
        off_t second = gate + 21 + 1 + size, next = second + 21 + command_size;
        write_at(file, head, 20, gate + 1);
        write_at(file, piece, 1 + size, gate + 21);
        write_at(file, head, 21, second);
        write_at(file, command, command_size, second + 21);
        write_at(file, "\0", 1, next);
        sync_of(file);
        write_at(file, "\1", 1, gate);
        sync_of(file);
        gate = next;
    }
    close(file);
}

int main(int argc, char **argv) {
    if (argc < 4) return fputs("usage: load puts|gets|directories|device COUNT SIZE [FILE]\n", stderr), 2;
    long count = atol(argv[2]), size = atol(argv[3]);
    char *body = malloc(size + 1);
    if (!body) fail("malloc");
    memset(body, 'x', size);
    if (!strcmp(argv[1], "puts")) puts_of(body, count, size);
    else if (!strcmp(argv[1], "gets")) gets_of(body, count, size);
    else if (!strcmp(argv[1], "directories")) directories_of(count);
    else if (argc > 4) device(body, count, size, argv[4]);
    return fflush(stdout) ? 1 : 0;
}
