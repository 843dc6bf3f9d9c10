/* A server that costs as little as it can: `bench/balance` and `bench/pins` load balancers in front of it, on a processor of its
 * own where there are enough, so that what is measured is the balancers' pace and not that of servers.
 *
 *     origin THREADS PORT..
 *     origin -w MILLIS THREADS PORT..
 *     origin -c THREADS PORT..
 *
 * It listens at each port of 127.0.0.1, in so many threads. The system hands on a connection when its request is there
 * (TCP_DEFER_ACCEPT), and it is answered and closed at once: four calls a request. With -w it is answered so many milliseconds later, and
 * others are taken meanwhile. With -c each answer sets the cookie sid, to a value of its own. It reads one piece, so requests have no body.
 */
#define _GNU_SOURCE
#include <arpa/inet.h>
#include <errno.h>
#include <netinet/in.h>
#include <netinet/tcp.h>
#include <pthread.h>
#include <signal.h>
#include <stdio.h>
#include <stdlib.h>
#include <string.h>
#include <sys/epoll.h>
#include <sys/socket.h>
#include <time.h>
#include <unistd.h>

static const char ANSWER[] = "HTTP/1.1 200 OK\r\nContent-Length: 10\r\nConnection: close\r\n\r\nthis is a\n";

static void fail(const char *what) {
    perror(what);
    exit(1);
}

/* A listener of one thread alone: the system shares connections out among all that listen at the port. */
static int listener(int port) {
    int listening = socket(AF_INET, SOCK_STREAM | SOCK_NONBLOCK, 0), on = 1;
    struct sockaddr_in at = {.sin_family = AF_INET, .sin_port = htons(port), .sin_addr.s_addr = htonl(INADDR_LOOPBACK)};
    if (listening < 0) fail("socket");
    setsockopt(listening, SOL_SOCKET, SO_REUSEADDR, &on, sizeof on);
    setsockopt(listening, SOL_SOCKET, SO_REUSEPORT, &on, sizeof on);
    setsockopt(listening, IPPROTO_TCP, TCP_DEFER_ACCEPT, &on, sizeof on);
    setsockopt(listening, IPPROTO_TCP, TCP_NODELAY, &on, sizeof on);
    if (bind(listening, (struct sockaddr *)&at, sizeof at) || listen(listening, 4096)) fail("bind");
    return listening;
}

/* Answers set a cookie. */
static int cookies;

static void answer(int connection) {
    static __thread unsigned number;
    char request[16384], text[256];
    const char *given = ANSWER;
    int size = sizeof ANSWER - 1;
    if (cookies) {
        size = snprintf(text, sizeof text, "HTTP/1.1 200 OK\r\nContent-Length: 10\r\nSet-Cookie: sid=k%08x; Path=/\r\nConnection: close\r\n\r\nthis is a\n", number++ % 50000);
        given = text;
    }
    if (read(connection, request, sizeof request) > 0 && write(connection, given, size) < 0) perror("write");
    close(connection);
}

/* How long a request waits for its answer, in milliseconds. */
static long late;

static long now(void) {
    struct timespec at;
    clock_gettime(CLOCK_MONOTONIC, &at);
    return at.tv_sec * 1000 + at.tv_nsec / 1000000;
}

/* Connections that wait for their answers, in the order in which these are due: all wait for as long. */
enum { ROOM = 65536 };
struct queue {
    struct { int connection; long due; } places[ROOM];
    unsigned first, next;
};

static void put(struct queue *waiting, int connection) {
    if (waiting->next - waiting->first == ROOM) fail("too many wait");
    waiting->places[waiting->next % ROOM].connection = connection;
    waiting->places[waiting->next++ % ROOM].due = now() + late;
}

/* Answers those whose answers are due, and says how long it is to the next one, or -1. */
static int answer_due(struct queue *waiting) {
    while (waiting->first != waiting->next) {
        long left = waiting->places[waiting->first % ROOM].due - now();
        if (left > 0) return left;
        answer(waiting->places[waiting->first++ % ROOM].connection);
    }
    return -1;
}

/* Serves the ports of a list that ends with 0. */
static void *serve(void *ports) {
    struct epoll_event ready[16];
    struct queue *waiting = calloc(1, sizeof *waiting);
    int watch = epoll_create1(0);
    for (int *port = ports; *port; port++) {
        int listening = listener(*port);
        struct epoll_event wanted = {.events = EPOLLIN, .data.fd = listening};
        if (epoll_ctl(watch, EPOLL_CTL_ADD, listening, &wanted)) fail("epoll_ctl");
    }
    for (int count; (count = epoll_wait(watch, ready, 16, answer_due(waiting))) >= 0 || errno == EINTR;) {
        for (int at = 0; at < count; at++) {
            int connection;
            while ((connection = accept4(ready[at].data.fd, NULL, NULL, 0)) >= 0) {
                if (late) put(waiting, connection);
                else answer(connection);
            }
        }
    }
    fail("epoll_wait");
    return NULL;
}

int main(int count, char **words) {
    if (count > 2 && !strcmp(words[1], "-w")) {
        late = atol(words[2]);
        words += 2, count -= 2;
    }
    if (count > 1 && !strcmp(words[1], "-c")) {
        cookies = 1;
        words += 1, count -= 1;
    }
    if (count < 3) {
        fputs("origin [-w MILLIS] [-c] THREADS PORT..\n", stderr);
        return 2;
    }
    int *ports = calloc(count - 1, sizeof *ports);
    for (int at = 2; at < count; at++) ports[at - 2] = atoi(words[at]);
    signal(SIGPIPE, SIG_IGN);
    for (int more = atoi(words[1]); more > 1; more--) {
        pthread_t thread;
        if (pthread_create(&thread, NULL, serve, ports)) fail("pthread_create");
    }
    serve(ports);
}
