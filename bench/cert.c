/* Certificates: `cert make TASKS REDUCERS` prints one of a map phase and, where REDUCERS is not 0, of a reduce phase over what it gave;
   `cert check LOGIN` checks the one on standard input with the checks of marlin_check, but for escapes in strings, which it takes for none. */
#include <stdint.h>
#include <stdio.h>
#include <stdlib.h>
#include <string.h>

#define ID "00000002-0000-8000-8000-000000001000"
#define LONGEST 16777216

static void make_item(const char *name, uint64_t reducer, uint64_t reducers)
{
    printf("{\"md5\":\"XUFAKrxLKna5cZ2REBfFkg==\",\"name\":\"%s\",\"reducer\":", name);
    if (reducers)
        printf("%llu", (unsigned long long)reducer);
    else
        printf("null");
    printf(",\"root\":\"file\",\"size\":5}");
}

static void name_of(char *out, const char *root, uint64_t position)
{
    sprintf(out, "/l/jobs/" ID "/stor/%s.0.00000003-0000-8000-8000-%012llx", root, (unsigned long long)position << 12);
}

static int make(uint64_t tasks, uint64_t reducers)
{
    char name[200];
    printf("{\"certificate\":1,\"id\":\"" ID "\",\"phases\":[{\"assets\":[],\"exec\":\"cat\",\"type\":\"map\"}");
    if (reducers)
        printf(",{\"assets\":[],\"count\":%llu,\"exec\":\"wc\",\"type\":\"reduce\"}", (unsigned long long)reducers);
    printf("]}\n");
    for (uint64_t k = 0; k < tasks; k++) {
        sprintf(name, "/l/stor/%07llu/file", (unsigned long long)k);
        printf("{\"input\":");
        make_item(name, 0, 0);
        printf("}\n");
    }
    for (uint64_t k = 0; k < tasks; k++) {
        name_of(name, "file", k + 3);
        printf("{\"items\":[");
        make_item(name, k % (reducers ? reducers : 1), reducers);
        printf("],\"phase\":0,\"place\":%llu,\"position\":%llu,\"reads\":[%llu],\"state\":\"ok\"}\n", (unsigned long long)k, (unsigned long long)k + 3, (unsigned long long)k);
    }
    for (uint64_t r = 0; r < reducers; r++) {
        name_of(name, "reduce", tasks + 3 + r);
        printf("{\"items\":[");
        make_item(name, 0, 0);
        printf("],\"phase\":1,\"place\":%llu,\"position\":%llu,\"reads\":[", (unsigned long long)r, (unsigned long long)(tasks + 3 + r));
        for (uint64_t k = r; k < tasks; k += reducers)
            printf(k == r ? "%llu" : ",%llu", (unsigned long long)k);
        printf("],\"state\":\"ok\"}\n");
    }
    for (uint64_t k = 0; k < (reducers ? reducers : tasks); k++) {
        name_of(name, reducers ? "reduce" : "file", reducers ? tasks + 3 + k : k + 3);
        printf("{\"output\":\"%s\"}\n", name);
    }
    printf("{\"end\":true}\n");
    return 0;
}

/* ---- lists */

typedef struct { void *at; uint64_t count, room; } List;

static void *more(List *l, size_t width, uint64_t by)
{
    if (l->count + by > l->room) {
        l->room = l->room ? 2 * l->room + by : 16 + by;
        if (!(l->at = realloc(l->at, l->room * width)))
            exit(8);
    }
    l->count += by;
    return (char *)l->at + (l->count - by) * width;
}

/* ---- JSON */

static const char *at, *end, *login;
static size_t login_len;

static void blanks(void) { while (at < end && (*at == ' ' || *at == '\t' || *at == '\r')) at++; }
static int take(char c) { blanks(); return at < end && *at == c ? (at++, 1) : 0; }

static int text(const char **from, size_t *len)
{
    if (!take('"'))
        return 0;
    *from = at;
    while (at < end && *at != '"' && *at != '\\' && (unsigned char)*at >= 32)
        at++;
    *len = at - *from;
    return at < end && *at == '"' ? (at++, 1) : 0;
}

static int number(uint64_t *n)
{
    const char *from;
    blanks();
    *n = 0;
    for (from = at; at < end && *at >= '0' && *at <= '9'; at++)
        if (__builtin_mul_overflow(*n, 10, n) || __builtin_add_overflow(*n, *at - '0', n))
            return 0;
    return at > from && (at == from + 1 || *from != '0');
}

static int word(const char *w)
{
    size_t len = strlen(w);
    blanks();
    return (size_t)(end - at) >= len && !memcmp(at, w, len) ? (at += len, 1) : 0;
}

static int is_component(const char *c, size_t len)
{
    if (len == 0 || len > 255 || (len == 1 && c[0] == '.') || (len == 2 && c[0] == '.' && c[1] == '.'))
        return 0;
    for (size_t k = 0; k < len; k++)
        if ((unsigned char)c[k] < 32 || c[k] == 127 || c[k] == '/')
            return 0;
    return 1;
}

static int path(const char **from, size_t *len)
{
    const char *c;
    if (!text(from, len) || *len < login_len + 2 || **from != '/' || memcmp(*from + 1, login, login_len) || (*from)[login_len + 1] != '/' || *len > 1024 + login_len + 1)
        return 0;
    c = *from + login_len + 2;
    for (int first = 1;; first = 0) {
        const char *stop = memchr(c, '/', *from + *len - c);
        size_t n = (stop ? stop : *from + *len) - c;
        if (!is_component(c, n) || (first && !(n == 4 && (!memcmp(c, "stor", 4) || !memcmp(c, "jobs", 4))) && !(n == 6 && !memcmp(c, "public", 6))))
            return 0;
        if (!stop)
            return 1;
        c = stop + 1;
    }
}

static int digest(void)
{
    const char *d;
    size_t len;
    if (!text(&d, &len) || len != 24 || d[22] != '=' || d[23] != '=' || !strchr("AQgw", d[21]))
        return 0;
    for (int k = 0; k < 22; k++)
        if (!((d[k] >= 'A' && d[k] <= 'Z') || (d[k] >= 'a' && d[k] <= 'z') || (d[k] >= '0' && d[k] <= '9') || d[k] == '+' || d[k] == '/'))
            return 0;
    return 1;
}

typedef struct { const char *name; size_t len; uint64_t reducer; int has_reducer; } Item;

static int item(Item *i)
{
    unsigned seen = 0;
    uint64_t size;
    if (!take('{'))
        return 0;
    do {
        const char *key, *root;
        size_t len, n;
        if (!text(&key, &len) || !take(':'))
            return 0;
        if (len == 3 && !memcmp(key, "md5", 3)) {
            if (!digest()) return 0;
            seen |= 1;
        } else if (len == 4 && !memcmp(key, "name", 4)) {
            if (!path(&i->name, &i->len)) return 0;
            seen |= 2;
        } else if (len == 7 && !memcmp(key, "reducer", 7)) {
            i->has_reducer = !word("null");
            if (i->has_reducer && (!number(&i->reducer) || i->reducer >> 32)) return 0;
            seen |= 4;
        } else if (len == 4 && !memcmp(key, "root", 4)) {
            if (!text(&root, &n) || n > 200 || !is_component(root, n)) return 0;
            seen |= 8;
        } else if (len == 4 && !memcmp(key, "size", 4)) {
            if (!number(&size)) return 0;
            seen |= 16;
        } else
            return 0;
    } while (take(','));
    return take('}') && seen == 31;
}

/* ---- the check */

typedef struct { int kind; uint64_t reducers, count; List *shares; List names, ends; } Feed;   /* kind: 0 map, 1 reduce, 2 past the last */

static struct { int kind; uint64_t reducers; } phases[16];
static int phase_count, stage;                                                                /* 0 begin, 1 inputs, 2 tasks, 3 outputs, 4 over */
static uint64_t phase, left, last, next_name;
static int has_last;
static char *listed;
static uint64_t places;
static Feed reading, following;

static Feed feed_of(int n)
{
    Feed f = {0};
    f.kind = n < phase_count ? phases[n].kind : 2;
    f.reducers = f.kind == 1 ? phases[n].reducers : 0;
    f.shares = f.kind == 1 ? calloc(f.reducers, sizeof(List)) : NULL;
    return f;
}

static void drop(Feed *f)
{
    for (uint64_t r = 0; r < f->reducers; r++)
        free(f->shares[r].at);
    free(f->shares);
}

static void feed(Feed *f, const Item *i)
{
    if (f->kind == 1)
        *(uint64_t *)more(&f->shares[(i->has_reducer ? i->reducer : f->count) % f->reducers], 8, 1) = f->count;
    if (f->kind == 2) {
        memcpy(more(&f->names, 1, i->len), i->name, i->len);
        *(uint64_t *)more(&f->ends, 8, 1) = f->names.count;
    }
    f->count++;
}

static void open_phase(void)
{
    for (; phase < (uint64_t)phase_count; phase++) {
        places = phases[phase].kind ? phases[phase].reducers : reading.count;
        following = feed_of(phase + 1);
        if (places) {
            free(listed);
            listed = calloc(places, 1);
            left = places;
            has_last = 0;
            stage = 2;
            return;
        }
        drop(&reading);
        reading = following;
    }
    stage = 3;
}

static int begin(void)
{
    const char *t;
    size_t n;
    uint64_t one;
    if (!take('{') || !word("\"certificate\"") || !take(':') || !number(&one) || one != 1 || !take(',') || !word("\"id\"") || !take(':') || !text(&t, &n) || n != 36
        || !take(',') || !word("\"phases\"") || !take(':') || !take('['))
        return 0;
    do {
        int p = phase_count++;
        if (p == 16 || !take('{') || !word("\"assets\"") || !take(':') || !take('[') || !take(']') || !take(','))
            return 0;
        if (word("\"count\"") && (!take(':') || !number(&phases[p].reducers) || !phases[p].reducers || phases[p].reducers > 1024 || !take(',')))
            return 0;
        if (!word("\"exec\"") || !take(':') || !text(&t, &n) || !n || !take(',') || !word("\"type\"") || !take(':') || !text(&t, &n) || !take('}'))
            return 0;
        phases[p].kind = n == 6 && !memcmp(t, "reduce", 6);
    } while (take(','));
    reading = feed_of(0);
    stage = 1;
    return take(']') && take('}');
}

static List items, reads;

static int task(void)
{
    unsigned seen = 0;
    uint64_t of = 0, place = 0, position = 0;
    const char *state = "";
    size_t n = 0;
    items.count = reads.count = 0;
    do {
        const char *key;
        size_t len;
        if (!text(&key, &len) || !take(':'))
            return 0;
        if (len == 5 && !memcmp(key, "items", 5)) {
            if (!take('[')) return 0;
            if (!take(']')) {
                do
                    if (!item(more(&items, sizeof(Item), 1))) return 0;
                while (take(','));
                if (!take(']')) return 0;
            }
            seen |= 1;
        } else if (len == 5 && !memcmp(key, "reads", 5)) {
            if (!take('[')) return 0;
            if (!take(']')) {
                do
                    if (!number(more(&reads, 8, 1))) return 0;
                while (take(','));
                if (!take(']')) return 0;
            }
            seen |= 2;
        } else if (len == 5 && !memcmp(key, "phase", 5)) {
            if (!number(&of)) return 0;
            seen |= 4;
        } else if (len == 5 && !memcmp(key, "place", 5)) {
            if (!number(&place)) return 0;
            seen |= 8;
        } else if (len == 8 && !memcmp(key, "position", 8)) {
            if (!number(&position)) return 0;
            seen |= 16;
        } else if (len == 5 && !memcmp(key, "state", 5)) {
            if (!text(&state, &n)) return 0;
            seen |= 32;
        } else
            return 0;
    } while (take(','));
    if (!take('}') || seen != 63 || !((n == 2 && !memcmp(state, "ok", 2)) || (n == 6 && !memcmp(state, "failed", 6) && !items.count)))
        return 0;
    if (stage == 1)
        open_phase();
    if (stage != 2 || of != phase || place >= places || listed[place] || (has_last && position <= last))
        return 0;
    if (reading.kind == 0 ? reads.count != 1 || *(uint64_t *)reads.at != place
                          : reads.count != reading.shares[place].count || (reads.count && memcmp(reads.at, reading.shares[place].at, 8 * reads.count)))
        return 0;
    listed[place] = 1;
    last = position;
    has_last = 1;
    for (uint64_t k = 0; k < items.count; k++)
        feed(&following, (Item *)items.at + k);
    if (--left == 0) {
        drop(&reading);
        reading = following;
        phase++;
        open_phase();
    }
    return 1;
}

static int line(void)
{
    Item i;
    if (stage == 0)
        return begin();
    if (!take('{'))
        return 0;
    if (word("\"input\""))
        return stage == 1 && take(':') && item(&i) && take('}') ? (feed(&reading, &i), 1) : 0;
    if (word("\"output\"")) {
        const char *name;
        size_t len;
        uint64_t from;
        if (!take(':') || !path(&name, &len) || !take('}'))
            return 0;
        if (stage == 1)
            open_phase();
        if (stage != 3 || next_name >= reading.ends.count)
            return 0;
        from = next_name ? ((uint64_t *)reading.ends.at)[next_name - 1] : 0;
        if (((uint64_t *)reading.ends.at)[next_name] - from != len || memcmp((char *)reading.names.at + from, name, len))
            return 0;
        next_name++;
        return 1;
    }
    if (word("\"end\"")) {
        if (!take(':') || !word("true") || !take('}'))
            return 0;
        if (stage == 1)
            open_phase();
        if (stage != 3 || next_name != reading.ends.count)
            return 0;
        stage = 4;
        return 1;
    }
    return stage < 3 ? task() : 0;
}

static int check(void)
{
    char *buffer = NULL;
    size_t room = 0;
    ssize_t len;
    uint64_t k = 1;
    for (; (len = getline(&buffer, &room, stdin)) > 0; k++) {
        at = buffer;
        end = buffer + len - 1;
        if (len > LONGEST || k > LONGEST || buffer[len - 1] != '\n' || stage == 4 || !line() || (blanks(), at != end)) {
            printf("refused at %llu\n", (unsigned long long)k);
            return 15;
        }
    }
    if (stage == 4) {
        printf("accepted\n");
        return 0;
    }
    printf("refused at %llu\n", (unsigned long long)k);
    return 15;
}

int main(int count, char **words)
{
    if (count == 4 && !strcmp(words[1], "make"))
        return make(strtoull(words[2], NULL, 10), strtoull(words[3], NULL, 10));
    if (count != 3 || strcmp(words[1], "check"))
        return 1;
    login = words[2];
    login_len = strlen(login);
    return check();
}
