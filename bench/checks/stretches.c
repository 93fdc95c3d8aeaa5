/* Measures how long a thread that accepts connections goes on without a look at whether clients wait, for LD_PRELOAD: the time
 * of a processor that it uses from one return of accept4 or epoll_wait to the next call of either. The file STRETCHES has the
 * longest so far, in ns, how many took more than a millisecond, and how many there were, to the last 1,024.
 */
#define _GNU_SOURCE
#include <dlfcn.h>
#include <fcntl.h>
#include <stdio.h>
#include <stdlib.h>
#include <sys/epoll.h>
#include <sys/socket.h>
#include <time.h>
#include <unistd.h>

typedef int accept_function(int, struct sockaddr *restrict, socklen_t *restrict, int);
typedef int wait_function(int, struct epoll_event *, int, int);

static accept_function *next_accept;
static wait_function *next_wait;
static int file = -1;
static _Atomic long long longest, late, count;
static __thread long long since;
static __thread int accepts;

static long long used(void) {
    struct timespec time;
    clock_gettime(CLOCK_THREAD_CPUTIME_ID, &time);
    return time.tv_sec * 1000000000LL + time.tv_nsec;
}

static void store(void) {
    char line[80];
    int length = snprintf(line, sizeof line, "%20lld %20lld %20lld\n", longest, late, count);
    if (pwrite(file, line, length, 0) != length)
        abort();
}

static void note(void) {
    if (!accepts || file < 0)
        return;
    long long took = used() - since;
    int is_longest = took > longest;
    longest = is_longest ? took : longest;
    late += took > 1000000;
    count++;
    if (is_longest || count % 1024 == 0)
        store();
}

int accept4(int socket, struct sockaddr *restrict peer, socklen_t *restrict length, int flags) {
    note();
    int result = next_accept(socket, peer, length, flags);
    accepts = 1;
    since = used();
    return result;
}

int epoll_wait(int poll, struct epoll_event *events, int most, int limit) {
    note();
    int result = next_wait(poll, events, most, limit);
    since = used();
    return result;
}

__attribute__((constructor)) static void begin(void) {
    const char *name = getenv("STRETCHES");
    next_accept = (accept_function *) dlsym(RTLD_NEXT, "accept4");
    next_wait = (wait_function *) dlsym(RTLD_NEXT, "epoll_wait");
    if (name)
        file = open(name, O_WRONLY | O_CREAT | O_TRUNC | O_CLOEXEC, 0600);
}
