/* Prints the names of N outputs of a job ROUNDS times, as jobtext_bench does: each name is held without its login, and is put behind it,
 * in pieces of 65,536 bytes.
 * usage: jobtext names|job|counted N ROUNDS
 * names: the names alone are held, each a text that ends with a byte 0.
 * job: what a job holds is held, each value in memory of its own: tasks in one list, each with a list of its outputs, each with its name,
 *     the name that the next phase begins names with, and its body's place, length and digest. A name has a byte 0 in front of each part.
 * counted: the same, and the bytes are counted before they are printed, as an answer has to say them in front of the text. */
#define _GNU_SOURCE
#include <stdint.h>
#include <stdio.h>
#include <stdlib.h>
#include <string.h>
#include <unistd.h>

struct bytes {
    size_t len, room;
    char *at;
};

struct item {
    struct bytes name, root;
    uint64_t first, len;
    uint8_t md5[16];
    uint32_t reducer[2];
    uint8_t area;
};

struct items {
    size_t len, room;
    struct item *at;
};

struct task {
    uint64_t place, position;
    uint32_t phase, is_good;
    struct items outputs;
};

static const char *const areas[] = {"stor", "public", "jobs"};
static char piece[65536];
static size_t filled;

static int flush(void) {
    int ok = write(1, piece, filled) == (ssize_t)filled;
    filled = 0;
    return ok;
}

static int put(const char *text, size_t len) {
    while (len) {
        size_t n = sizeof piece - filled < len ? sizeof piece - filled : len;
        memcpy(piece + filled, text, n);
        text += n, len -= n;
        if ((filled += n) == sizeof piece && !flush()) return 0;
    }
    return 1;
}

/* Puts a name with a slash for each byte 0. */
static int put_shown(const char *name, size_t len) {
    while (len) {
        size_t n = sizeof piece - filled < len ? sizeof piece - filled : len;
        for (size_t k = 0; k < n; k++) piece[filled + k] = name[k] ? name[k] : '/';
        name += n, len -= n;
        if ((filled += n) == sizeof piece && !flush()) return 0;
    }
    return 1;
}

static int make_name(char **name, uint32_t k) {
    uint64_t id = (uint64_t)k * 4096;
    return asprintf(name, "/00000002-0000-8000-8000-000000001000/stor/a.0.00000003-0000-8000-%04x-%012lx",
                    (unsigned)(0x8000 | id >> 48), id & 0xffffffffffff);
}

static struct bytes copied(const char *from, size_t len) {
    struct bytes b = {len, len, malloc(len)};
    if (!b.at) exit(8);
    memcpy(b.at, from, len);
    return b;
}

/* A task that made one output. */
static struct task make_task(uint32_t k) {
    struct task t = {.place = k, .position = k, .is_good = 1, .outputs = {1, 1, NULL}};
    char *name;
    int len = make_name(&name, k);
    if (len < 0) exit(8);
    for (int b = 0; b < len; b++)
        if (name[b] == '/') name[b] = 0;
    struct item made = {.name = copied(name, len), .root = copied("a", 1), .area = 2};
    free(name);
    if (!(t.outputs.at = malloc(sizeof made))) exit(8);
    t.outputs.at[0] = made;
    return t;
}

static int print_job(const struct task *tasks, uint32_t n) {
    for (uint32_t k = 0; k < n; k++) {
        const struct items *o = &tasks[k].outputs;
        if (!tasks[k].is_good || tasks[k].phase != 0) continue;
        for (size_t i = 0; i < o->len; i++) {
            const struct item *made = &o->at[i];
            const char *area = areas[made->area];
            if (!put("/me/", 4) || !put(area, strlen(area)) || !put_shown(made->name.at, made->name.len) || !put("\n", 1)) return 0;
        }
    }
    return 1;
}

static uint64_t count_job(const struct task *tasks, uint32_t n) {
    uint64_t len = 0;
    for (uint32_t k = 0; k < n; k++) {
        const struct items *o = &tasks[k].outputs;
        if (!tasks[k].is_good || tasks[k].phase != 0) continue;
        for (size_t i = 0; i < o->len; i++) len += 5 + strlen(areas[o->at[i].area]) + o->at[i].name.len;
    }
    return len;
}

static int run_job(uint32_t n, uint32_t rounds, int counted) {
    struct task *tasks = malloc((n + 1) * sizeof *tasks);
    if (!tasks) return 8;
    for (uint32_t k = 0; k < n; k++) tasks[k] = make_task(k);
    for (uint32_t r = 0; r < rounds; r++) {
        uint64_t len = counted ? count_job(tasks, n) : 1;
        if (!len && n) return 4;
        if (!print_job(tasks, n)) return 4;
    }
    return flush() ? 0 : 4;
}

static int run_names(uint32_t n, uint32_t rounds) {
    char **names = malloc((n + 1) * sizeof *names);
    if (!names) return 8;
    for (uint32_t k = 0; k < n; k++) {
        char *name;
        if (make_name(&name, k) < 0 || asprintf(&names[k], "/jobs%s", name) < 0) return 8;
        free(name);
    }
    for (uint32_t r = 0; r < rounds; r++)
        for (uint32_t k = 0; k < n; k++)
            if (!put("/me", 3) || !put(names[k], strlen(names[k])) || !put("\n", 1)) return 4;
    return flush() ? 0 : 4;
}

int main(int argc, char **argv) {
    if (argc != 4) return 1;
    uint32_t n = strtoul(argv[2], NULL, 10), rounds = strtoul(argv[3], NULL, 10);
    if (!strcmp(argv[1], "names")) return run_names(n, rounds);
    if (!strcmp(argv[1], "job")) return run_job(n, rounds, 0);
    if (!strcmp(argv[1], "counted")) return run_job(n, rounds, 1);
    return 1;
}
