// The log by hand: the device calls and the digests of the program log_bench. Both take the same words, print the same
// line and leave the same bytes. usage: log append|run FOLDER COUNT SIZE, log open FOLDER, log digest COUNT SIZE
#define _GNU_SOURCE
#define OPENSSL_SUPPRESS_DEPRECATED // the plain calls of MD5 cost least
#include <arpa/inet.h>
#include <errno.h>
#include <fcntl.h>
#include <openssl/md5.h>
#include <stdint.h>
#include <stdio.h>
#include <stdlib.h>
#include <string.h>
#include <sys/stat.h>
#include <unistd.h>

enum {
    magic = 8,         // the bytes that a log begins with
    sums = 20,         // a payload's length in four bytes and its MD5
    head = 1 + sums,   // a record's gate and these
    piece = 256 * 1024 // the bytes that are read at once
};

static void fail(const char *what) {
    perror(what);
    exit(1);
}

static void refuse(const char *what) {
    fprintf(stderr, "%s\n", what);
    exit(1);
}

// ---- calls of the system

static void write_at(int file, const void *bytes, size_t count, off_t at) {
    if (pwrite(file, bytes, count, at) != (ssize_t)count) fail("pwrite");
}

static void read_at(int file, void *into, size_t count, off_t at) {
    for (size_t have = 0; have < count;) {
        ssize_t more = pread(file, (char *)into + have, count - have, at + have);
        if (more <= 0) fail("pread");
        have += more;
    }
}

static void sync_data(int file) {
    if (fdatasync(file)) fail("fdatasync");
}

static void sync_all(int file) {
    if (fsync(file)) fail("fsync");
}

static off_t len_of(int file) {
    struct stat about;
    if (fstat(file, &about)) fail("fstat");
    return about.st_size;
}

// ---- the three files, and opening

typedef struct {
    int head, one, two;
    off_t gate;
} Log;

static int open_file(const char *folder, const char *name) {
    char path[4096];
    if (snprintf(path, sizeof path, "%s/%s", folder, name) >= (int)sizeof path) refuse("the folder's name is too long");
    int file = open(path, O_RDWR | O_CREAT | O_CLOEXEC, 0666);
    if (file < 0) fail(path);
    return file;
}

// Opens the files, each synced, and then the folder.
static Log open_files(const char *folder) {
    if (mkdir(folder, 0777) && errno != EEXIST) fail(folder);
    int names = open(folder, O_RDONLY | O_CLOEXEC);
    if (names < 0) fail(folder);
    Log log = {open_file(folder, "head"), open_file(folder, "log1"), open_file(folder, "log2"), magic};
    sync_all(log.head);
    sync_all(log.one);
    sync_all(log.two);
    sync_all(names);
    close(names);
    return log;
}

static void make(Log *log) {
    if (ftruncate(log->one, 0)) fail("ftruncate");
    write_at(log->one, "MTLOG002", magic + 1, 0);
    sync_data(log->one);
    write_at(log->head, "\1", 1, 0);
    sync_data(log->head);
}

// A part of a file in memory, which moves from its front to its end.
typedef struct {
    int file;
    off_t end, at;
    uint8_t *bytes;
    size_t from, to;
} Window;

// Has at least so many bytes in memory.
static void fill(Window *w, size_t wanted) {
    size_t held = w->to - w->from;
    if (held >= wanted) return;
    if ((size_t)(w->end - w->at) < wanted) refuse("the log is short");
    memmove(w->bytes, w->bytes + w->from, held);
    size_t more = piece - held, left = w->end - w->at - held;
    if (more > left) more = left;
    read_at(w->file, w->bytes + held, more, w->at + held);
    w->from = 0;
    w->to = held + more;
}

static void skip(Window *w, size_t count) {
    w->from += count;
    w->at += count;
}

// Goes over a record whose gate is open, and holds its payload against its MD5.
static void pass_record(Window *w) {
    uint8_t sum[16], kept[16];
    uint32_t len;
    fill(w, head);
    memcpy(&len, w->bytes + w->from + 1, 4);
    memcpy(kept, w->bytes + w->from + 5, 16);
    skip(w, head);
    MD5_CTX md5;
    MD5_Init(&md5);
    for (size_t left = ntohl(len); left > 0;) {
        fill(w, 1);
        size_t part = w->to - w->from < left ? w->to - w->from : left;
        MD5_Update(&md5, w->bytes + w->from, part);
        skip(w, part);
        left -= part;
    }
    MD5_Final(sum, &md5);
    if (memcmp(sum, kept, 16)) refuse("a record is damaged");
}

static void walk(Log *log) {
    Window w = {log->one, len_of(log->one), 0, calloc(1, piece), 0, 0};
    if (!w.bytes) fail("calloc");
    fill(&w, magic);
    if (memcmp(w.bytes, "MTLOG002", magic)) refuse("not a log");
    skip(&w, magic);
    for (;;) {
        fill(&w, 1);
        if (w.bytes[w.from] != 1) break;
        pass_record(&w);
    }
    log->gate = w.at;
    free(w.bytes);
}

static Log open_log(const char *folder) {
    Log log = open_files(folder);
    char named;
    sync_data(log.head);
    sync_data(log.one);
    sync_data(log.two);
    if (len_of(log.head) == 0) {
        make(&log);
        return log;
    }
    read_at(log.head, &named, 1, 0);
    if (named == 2) refuse("the log is the second file, which is never so here");
    walk(&log);
    return log;
}

// ---- records

// A payload's length and its MD5.
static void sums_of(uint8_t *into, const uint8_t *payload, uint32_t size) {
    uint32_t len = htonl(size);
    memcpy(into, &len, 4);
    MD5(payload, size, into + 4);
}

// Opens the gate of records that stand behind it.
static void publish(Log *log, off_t next) {
    sync_data(log->one);
    write_at(log->one, "\1", 1, log->gate);
    sync_data(log->one);
    log->gate = next;
}

static void append(Log *log, const uint8_t *payload, uint32_t size) {
    uint8_t sum[sums];
    off_t next = log->gate + head + size;
    sums_of(sum, payload, size);
    write_at(log->one, sum, sums, log->gate + 1);
    write_at(log->one, payload, size, log->gate + head);
    write_at(log->one, "\0", 1, next);
    publish(log, next);
}

static void run(Log *log, const uint8_t *payload, uint32_t size, long count) {
    uint8_t open_head[head] = {1};
    off_t next = log->gate;
    for (long i = 0; i < count; i++) {
        sums_of(open_head + 1, payload, size);
        // the first record's gate stays closed until the end
        int closed = next == log->gate;
        write_at(log->one, open_head + closed, head - closed, next + closed);
        write_at(log->one, payload, size, next + head);
        next += head + size;
    }
    if (next == log->gate) return;
    write_at(log->one, "\0", 1, next);
    publish(log, next);
}

// ---- the words

static uint8_t *payload_of(size_t size) {
    uint8_t *payload = malloc(size + 1);
    if (!payload) fail("malloc");
    memset(payload, 'x', size);
    return payload;
}

static void digest(long count, size_t size) {
    uint8_t *payload = payload_of(size), sum[16];
    MD5_CTX all;
    MD5_Init(&all);
    for (long i = 0; i < count; i++) {
        MD5(payload, size, sum);
        MD5_Update(&all, sum, 16);
    }
    MD5_Final(sum, &all);
    for (int i = 0; i < 16; i++) printf("%02x", sum[i]);
    printf("\n");
}

static void tell(const Log *log, long count) {
    printf("%ld records added, the log has %ld bytes\n", count, (long)log->gate + 1);
}

int main(int argc, char **argv) {
    const char *word = argc > 1 ? argv[1] : "";
    long count = argc > 3 ? atol(argv[argc - 2]) : 0;
    size_t size = argc > 3 ? atol(argv[argc - 1]) : 0;
    if (!strcmp(word, "open") && argc == 3) {
        Log log = open_log(argv[2]);
        tell(&log, 0);
    } else if (!strcmp(word, "digest") && argc == 4) {
        digest(count, size);
    } else if (!strcmp(word, "append") && argc == 5) {
        Log log = open_log(argv[2]);
        const uint8_t *payload = payload_of(size);
        for (long i = 0; i < count; i++) append(&log, payload, size);
        tell(&log, count);
    } else if (!strcmp(word, "run") && argc == 5) {
        Log log = open_log(argv[2]);
        run(&log, payload_of(size), size, count);
        tell(&log, count);
    } else {
        fputs("usage: log append|run FOLDER COUNT SIZE, log open FOLDER, log digest COUNT SIZE\n", stderr);
        return 1;
    }
    return fflush(stdout) ? 1 : 0;
}
