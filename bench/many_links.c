// Connections that each ask again as soon as they are answered. usage: many_links PORT CONNECTIONS SECONDS PATH
// Prints: replies a second, the least and the most of one connection, the middle and the 99th of a hundred of the times in ms, the longest.
#define _GNU_SOURCE
#include <arpa/inet.h>
#include <netinet/tcp.h>
#include <stdio.h>
#include <stdlib.h>
#include <string.h>
#include <sys/epoll.h>
#include <sys/socket.h>
#include <time.h>
#include <unistd.h>

struct link { int socket; long replies; double asked; size_t have; char head[4096]; };

static char ask[1024];
static size_t asks;
static double *times;
static size_t many, room;

static void fail(const char *what) {
    perror(what);
    exit(1);
}

static double now(void) {
    struct timespec t;
    clock_gettime(CLOCK_MONOTONIC, &t);
    return t.tv_sec * 1e3 + t.tv_nsec / 1e6;
}

static void send_ask(struct link *one) {
    one->asked = now();
    one->have = 0;
    if (send(one->socket, ask, asks, 0) != (ssize_t)asks) fail("send");
}

static void keep(double time) {
    if (many == room) {
        room = room ? 2 * room : 1 << 16;
        times = realloc(times, room * sizeof *times);
        if (!times) fail("realloc");
    }
    times[many++] = time;
}

// Reads what has come, of a reply whose head and body fit into the buffer.
static int is_answered(struct link *one) {
    ssize_t count = recv(one->socket, one->head + one->have, sizeof one->head - 1 - one->have, 0);
    if (count <= 0) fail("recv");
    one->have += count;
    one->head[one->have] = 0;
    char *end = strstr(one->head, "\r\n\r\n"), *length = strstr(one->head, "content-length: ");
    if (!end || !length) return 0;
    if (memcmp(one->head, "HTTP/1.1 200", 12)) fail("status");
    return one->have >= (size_t)(end + 4 - one->head) + strtoul(length + 16, NULL, 10);
}

static int by_size(const void *a, const void *b) {
    double x = *(const double *)a, y = *(const double *)b;
    return (x > y) - (x < y);
}

int main(int argc, char **argv) {
    if (argc != 5) return 2;
    int connections = atoi(argv[2]);
    double seconds = atof(argv[3]);
    asks = snprintf(ask, sizeof ask, "GET %s HTTP/1.1\r\n\r\n", argv[4]);
    struct sockaddr_in to = {.sin_family = AF_INET, .sin_port = htons(atoi(argv[1])), .sin_addr = {htonl(INADDR_LOOPBACK)}};
    struct link *links = calloc(connections, sizeof *links);
    int set = epoll_create1(0), yes = 1;
    for (int k = 0; k < connections; k++) {
        links[k].socket = socket(AF_INET, SOCK_STREAM, 0);
        if (connect(links[k].socket, (struct sockaddr *)&to, sizeof to)) fail("connect");
        setsockopt(links[k].socket, IPPROTO_TCP, TCP_NODELAY, &yes, sizeof yes);
        struct epoll_event event = {.events = EPOLLIN, .data = {.u32 = k}};
        if (epoll_ctl(set, EPOLL_CTL_ADD, links[k].socket, &event)) fail("epoll_ctl");
    }
    double begun = now(), end = begun + seconds * 1e3;
    for (int k = 0; k < connections; k++) send_ask(&links[k]);
    while (now() < end) {
        struct epoll_event events[256];
        int count = epoll_wait(set, events, 256, 100);
        for (int k = 0; k < count; k++) {
            struct link *one = &links[events[k].data.u32];
            if (!is_answered(one)) continue;
            one->replies++;
            keep(now() - one->asked);
            send_ask(one);
        }
    }
    long least = links[0].replies, most = 0;
    for (int k = 0; k < connections; k++) {
        if (links[k].replies < least) least = links[k].replies;
        if (links[k].replies > most) most = links[k].replies;
        if (now() - links[k].asked > 1000) keep(now() - links[k].asked);
    }
    qsort(times, many, sizeof *times, by_size);
    printf("%.0f %ld %ld %.3f %.3f %.3f\n", many / seconds, least, most, many ? times[many / 2] : 0, many ? times[many * 99 / 100] : 0, many ? times[many - 1] : 0);
    return 0;
}
