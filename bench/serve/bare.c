/* A proxy that decides nothing, as a yardstick for `bench/serve/run`: it takes `serve FILE --workers N`, reads the ports of FILE
 * alone, and makes for a connection just the calls of the system that `l4proxy` makes. In the place of all decisions and of the
 * record it spends SPENT of processor time at each connection. It does not wait until it can write.
 *
 *     clang -O2 -pthread -o bare bench/serve/bare.c && bench/serve/run ./bare --only rate rate512 ping
 */
#define _GNU_SOURCE
#include <errno.h>
#include <netinet/in.h>
#include <netinet/tcp.h>
#include <pthread.h>
#include <stdio.h>
#include <stdlib.h>
#include <string.h>
#include <sys/epoll.h>
#include <sys/ioctl.h>
#include <sys/resource.h>
#include <sys/socket.h>
#include <time.h>
#include <unistd.h>

enum { FRONTENDS = 16, NAME = 64, EVENTS = 256, TAKEN = 4, READ = 16384, SPENT = 12000 /* ns */ };

struct frontend {
    char backend[NAME];
    int listener, server;
};

/* One side of a connection. */
struct side {
    struct conn *conn;
    int socket;
    char reads, is_closed, is_over, sends;
};

struct conn {
    struct side client, server;
    char is_connected;
    struct conn *next_ended;
};

struct worker {
    int poll;
    struct conn *ended; /* freed at the end of the turn, since events may name them */
    char buffer[READ];
};

static struct frontend frontends[FRONTENDS];
static int frontend_count;

static void spend(void) {
    struct timespec begun, now;
    clock_gettime(CLOCK_MONOTONIC, &begun);
    do
        clock_gettime(CLOCK_MONOTONIC, &now);
    while ((now.tv_sec - begun.tv_sec) * 1000000000L + now.tv_nsec - begun.tv_nsec < SPENT);
}

static void set_nodelay(int socket) {
    int on = 1;
    setsockopt(socket, IPPROTO_TCP, TCP_NODELAY, &on, sizeof on);
}

static void watch(int poll, int socket, void *what, unsigned events) {
    struct epoll_event event = {.events = events, .data.ptr = what};
    epoll_ctl(poll, EPOLL_CTL_ADD, socket, &event);
}

static struct sockaddr_in address(int port) {
    return (struct sockaddr_in){.sin_family = AF_INET, .sin_port = htons(port), .sin_addr.s_addr = htonl(INADDR_LOOPBACK)};
}

static void end(struct worker *worker, struct conn *conn) {
    if (conn->client.socket < 0)
        return;
    close(conn->server.socket);
    close(conn->client.socket);
    conn->client.socket = -1;
    conn->next_ended = worker->ended;
    worker->ended = conn;
}

/* Passes on what the one side has; whether that went well. */
static int pump(struct worker *worker, struct side *from, struct side *to) {
    while (from->reads && !from->is_over) {
        ssize_t count = recv(from->socket, worker->buffer, READ, 0);
        if (count < 0) {
            from->reads = 0;
            return errno == EAGAIN;
        }
        if (count == 0) {
            from->is_over = 1;
            return to->is_over || shutdown(to->socket, SHUT_WR) == 0;
        }
        if (to->sends < 2 && ++to->sends == 2)
            set_nodelay(to->socket);
        if (send(to->socket, worker->buffer, count, MSG_NOSIGNAL) != count)
            return 0;
        from->reads = count == READ || from->is_closed;
    }
    return 1;
}

static void serve(struct worker *worker, struct conn *conn) {
    struct sockaddr_in peer;
    socklen_t size = sizeof peer;
    if (conn->client.socket < 0)
        return;
    if (!conn->is_connected)
        conn->is_connected = getpeername(conn->server.socket, (struct sockaddr *)&peer, &size) == 0;
    if (!conn->is_connected)
        return;
    int is_well = pump(worker, &conn->client, &conn->server) && pump(worker, &conn->server, &conn->client);
    if (!is_well || (conn->client.is_over && conn->server.is_over))
        end(worker, conn);
}

static void begin(struct worker *worker, int client, int port) {
    struct conn *conn = calloc(1, sizeof *conn);
    struct sockaddr_in to = address(port);
    int on = 1, server = socket(AF_INET, SOCK_STREAM | SOCK_CLOEXEC, 0);
    unsigned events = EPOLLIN | EPOLLOUT | EPOLLRDHUP | EPOLLET;
    spend();
    ioctl(server, FIONBIO, &on);
    conn->client = (struct side){.conn = conn, .socket = client, .reads = 1};
    conn->server = (struct side){.conn = conn, .socket = server};
    watch(worker->poll, client, &conn->client, events);
    if (connect(server, (struct sockaddr *)&to, sizeof to) < 0 && errno != EINPROGRESS)
        return end(worker, conn);
    watch(worker->poll, server, &conn->server, events);
    serve(worker, conn);
}

static void take(struct worker *worker, const struct frontend *frontend) {
    struct sockaddr_in peer;
    for (int taken = 0; taken < TAKEN; taken++) {
        socklen_t size = sizeof peer;
        int client = accept4(frontend->listener, (struct sockaddr *)&peer, &size, SOCK_NONBLOCK | SOCK_CLOEXEC);
        if (client < 0)
            return;
        begin(worker, client, frontend->server);
    }
}

static int is_frontend(const void *what) {
    return what >= (void *)frontends && what < (void *)(frontends + FRONTENDS);
}

static void *work(void *given) {
    struct worker *worker = given;
    struct epoll_event events[EVENTS];
    for (;;) {
        int count = epoll_wait(worker->poll, events, EVENTS, -1);
        for (int at = 0; at < count; at++) {
            struct side *side = events[at].data.ptr;
            if (is_frontend(side)) {
                take(worker, events[at].data.ptr);
                continue;
            }
            side->reads |= (events[at].events & ~EPOLLOUT) != 0;
            side->is_closed |= (events[at].events & (EPOLLRDHUP | EPOLLHUP | EPOLLERR)) != 0;
            serve(worker, side->conn);
        }
        for (struct conn *next; worker->ended; worker->ended = next) {
            next = worker->ended->next_ended;
            free(worker->ended);
        }
    }
    return NULL;
}

static int listen_at(int port) {
    struct sockaddr_in at = address(port);
    int on = 1, listener = socket(AF_INET, SOCK_STREAM | SOCK_NONBLOCK | SOCK_CLOEXEC, 0);
    setsockopt(listener, SOL_SOCKET, SO_REUSEADDR, &on, sizeof on);
    if (bind(listener, (struct sockaddr *)&at, sizeof at) < 0 || listen(listener, 4096) < 0) {
        perror("bare");
        exit(3);
    }
    return listener;
}

static void read_ports(FILE *file) {
    char line[4096], name[NAME] = "";
    int port;
    while (fgets(line, sizeof line, file)) {
        struct frontend *last = &frontends[frontend_count - 1];
        if (sscanf(line, "bind 127.0.0.1:%d", &port) == 1)
            frontends[frontend_count++].listener = listen_at(port);
        else if (sscanf(line, "default_backend %63s", name) == 1)
            strcpy(last->backend, name);
        else if (sscanf(line, "backend %63s", name) != 1 && sscanf(line, "server s 127.0.0.1:%d", &port) == 1)
            for (int at = 0; at < frontend_count; at++)
                if (strcmp(frontends[at].backend, name) == 0)
                    frontends[at].server = port;
    }
}

int main(int count, char **words) {
    struct rlimit files;
    char ignored[256];
    FILE *file = count == 5 ? fopen(words[2], "r") : NULL;
    if (!file)
        return 2;
    getrlimit(RLIMIT_NOFILE, &files);
    files.rlim_cur = files.rlim_max;
    setrlimit(RLIMIT_NOFILE, &files);
    read_ports(file);
    for (int number = atoi(words[4]); number > 0; number--) {
        struct worker *worker = calloc(1, sizeof *worker);
        pthread_t thread;
        worker->poll = epoll_create1(EPOLL_CLOEXEC);
        for (int at = 0; at < frontend_count; at++)
            watch(worker->poll, frontends[at].listener, &frontends[at], EPOLLIN | EPOLLEXCLUSIVE);
        pthread_create(&thread, NULL, work, worker);
    }
    fputs("l4proxy: ready\n", stderr);
    while (read(0, ignored, sizeof ignored) > 0)
        ;
    return 0;
}
