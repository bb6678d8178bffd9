/* Sends one request again and again over so many connections for so many seconds, each connection waiting for its answer
   before it asks again, and prints what came of it as one line of JSON.

   load PORT PATH BODY CONNECTIONS SECONDS [MOST]

   It asks 127.0.0.1 by POST. With MOST it ends after so many answers, if the seconds haven't passed before. An answer whose
   status isn't 200 or whose body names an error counts as failed, and isn't timed. */
#include <arpa/inet.h>
#include <netinet/in.h>
#include <netinet/tcp.h>
#include <pthread.h>
#include <stdatomic.h>
#include <stdint.h>
#include <stdio.h>
#include <stdlib.h>
#include <string.h>
#include <sys/socket.h>
#include <time.h>
#include <unistd.h>

enum { REPLY = 1 << 16 };

struct connection {
    pthread_t thread;
    uint32_t *took; /* microseconds of each answer */
    size_t count, room, failed;
    int broken;
};

static int port;
static char *request;
static size_t request_length;
static uint64_t ends_at;
static atomic_long left;

static uint64_t now(void) {
    struct timespec t;
    clock_gettime(CLOCK_MONOTONIC, &t);
    return (uint64_t)t.tv_sec * 1000000u + (uint64_t)t.tv_nsec / 1000u;
}

static int connected(void) {
    struct sockaddr_in at = {.sin_family = AF_INET, .sin_port = htons((uint16_t)port)};
    int on = 1, s = socket(AF_INET, SOCK_STREAM, 0);
    at.sin_addr.s_addr = htonl(INADDR_LOOPBACK);
    if (s < 0 || connect(s, (struct sockaddr *)&at, sizeof at) != 0)
        return -1;
    setsockopt(s, IPPROTO_TCP, TCP_NODELAY, &on, sizeof on);
    return s;
}

/* Reads one answer, and whether it is the last one of its connection. 1 where it is good, 0 where it isn't, -1 where the connection
   broke. */
static int answer(int s, char *reply, int *last) {
    size_t have = 0;
    for (;;) {
        ssize_t n = read(s, reply + have, REPLY - 1 - have);
        char *end, *field;
        if (n <= 0)
            return -1;
        have += (size_t)n;
        reply[have] = 0;
        end = strstr(reply, "\r\n\r\n");
        field = strstr(reply, "Content-Length: ");
        if (!end || !field) {
            if (have == REPLY - 1)
                return -1;
            continue;
        }
        if (have - (size_t)(end + 4 - reply) >= (size_t)strtoul(field + 16, NULL, 10)) {
            char *closes = strstr(reply, "Connection: close");
            *last = closes && closes < end;
            return strncmp(reply, "HTTP/1.1 200", 12) == 0 && !strstr(end, "\"error\"");
        }
        if (have == REPLY - 1)
            return -1;
    }
}

static void *run(void *of) {
    struct connection *c = of;
    char *reply = malloc(REPLY);
    int s = connected();
    if (s < 0 || !reply) {
        c->broken = 1;
        return NULL;
    }
    while (now() < ends_at && atomic_fetch_sub(&left, 1) > 0) {
        uint64_t began = now();
        int good, last;
        if (write(s, request, request_length) != (ssize_t)request_length || (good = answer(s, reply, &last)) < 0) {
            c->broken = 1;
            break;
        }
        if (last) {
            close(s);
            if ((s = connected()) < 0) {
                c->broken = 1;
                break;
            }
        }
        if (!good) {
            c->failed++;
            continue;
        }
        if (c->count == c->room) {
            c->room = c->room ? 2 * c->room : 4096;
            c->took = realloc(c->took, c->room * sizeof *c->took);
            if (!c->took)
                exit(1);
        }
        c->took[c->count++] = (uint32_t)(now() - began);
    }
    close(s);
    free(reply);
    return NULL;
}

static int order(const void *a, const void *b) {
    uint32_t x = *(const uint32_t *)a, y = *(const uint32_t *)b;
    return x < y ? -1 : x > y;
}

int main(int count, char **words) {
    size_t all = 0, failed = 0, place = 0, n, k;
    int broken = 0;
    double seconds;
    uint64_t began;
    uint32_t *took;
    struct connection *connections;
    if (count < 6 || count > 7) {
        fprintf(stderr, "usage: load PORT PATH BODY CONNECTIONS SECONDS [MOST]\n");
        return 2;
    }
    port = atoi(words[1]);
    n = (size_t)atoi(words[4]);
    atomic_store(&left, count == 7 ? atol(words[6]) : 1L << 40);
    request = malloc(strlen(words[2]) + strlen(words[3]) + 256);
    connections = calloc(n, sizeof *connections);
    if (!request || !connections)
        return 1;
    request_length = (size_t)sprintf(request, "POST %s HTTP/1.1\r\nHost: n1\r\nContent-Length: %zu\r\n\r\n%s", words[2], strlen(words[3]), words[3]);
    began = now();
    ends_at = began + (uint64_t)(atof(words[5]) * 1000000);
    for (k = 0; k < n; k++)
        if (pthread_create(&connections[k].thread, NULL, run, &connections[k]) != 0)
            return 1;
    for (k = 0; k < n; k++) {
        pthread_join(connections[k].thread, NULL);
        all += connections[k].count;
        failed += connections[k].failed;
        broken += connections[k].broken;
    }
    seconds = (double)(now() - began) / 1000000;
    took = malloc((all + 1) * sizeof *took);
    if (!took)
        return 1;
    for (k = 0; k < n; k++) {
        memcpy(took + place, connections[k].took, connections[k].count * sizeof *took);
        place += connections[k].count;
    }
    qsort(took, all, sizeof *took, order);
    printf("{\"answers\": %zu, \"failed\": %zu, \"broken\": %d, \"seconds\": %.3f, \"rate\": %.0f, \"p50\": %u, \"p99\": %u}\n", all, failed, broken,
           seconds, (double)all / seconds, all ? took[all / 2] : 0, all ? took[all * 99 / 100] : 0);
    return 0;
}
