/* Stops a program in the middle of its work, for LD_PRELOAD, as SIGSTOP does:
 *
 *     STOP_AT_READ=FILE     before it next reads from a socket, once FILE is there
 *     STOP_AT_CONNECT=FILE  before it next connects
 *
 * FILE is removed first, so that the program is stopped once. It goes on when it gets SIGCONT. One thread alone is held:
 *
 *     HOLD_AT_READ=FILE     that which next reads from a socket, once FILE is there, till FILE.done is there
 */
#define _GNU_SOURCE
#include <dlfcn.h>
#include <signal.h>
#include <stdio.h>
#include <stdlib.h>
#include <sys/socket.h>
#include <unistd.h>

typedef int connect_function(int, const struct sockaddr *, socklen_t);
typedef ssize_t read_function(int, void *, size_t);
typedef ssize_t recv_function(int, void *, size_t, int);

static void stop_at(const char *name) {
    const char *file = getenv(name);
    if (file && unlink(file) == 0)
        raise(SIGSTOP);
}

static void hold_at(const char *name) {
    const char *file = getenv(name);
    char done[4096];
    if (!file || unlink(file) != 0)
        return;
    snprintf(done, sizeof done, "%s.done", file);
    while (access(done, F_OK) != 0)
        usleep(10000);
}

static void stop_at_read(int link) {
    int kind;
    socklen_t size = sizeof kind;
    if (getsockopt(link, SOL_SOCKET, SO_TYPE, &kind, &size) == 0) {
        stop_at("STOP_AT_READ");
        hold_at("HOLD_AT_READ");
    }
}

int connect(int link, const struct sockaddr *to, socklen_t size) {
    stop_at("STOP_AT_CONNECT");
    return ((connect_function *) dlsym(RTLD_NEXT, "connect"))(link, to, size);
}

ssize_t read(int link, void *bytes, size_t most) {
    stop_at_read(link);
    return ((read_function *) dlsym(RTLD_NEXT, "read"))(link, bytes, most);
}

ssize_t recv(int link, void *bytes, size_t most, int flags) {
    stop_at_read(link);
    return ((recv_function *) dlsym(RTLD_NEXT, "recv"))(link, bytes, most, flags);
}
