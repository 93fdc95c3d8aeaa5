/* Refuses a thread to a program, for LD_PRELOAD.
 *
 *     REFUSED_THREAD=N    the Nth thread that it starts is refused
 *     REFUSED_NOTE=FILE   where it was refused, FILE is made
 */
#define _GNU_SOURCE
#include <dlfcn.h>
#include <errno.h>
#include <fcntl.h>
#include <pthread.h>
#include <stdlib.h>
#include <unistd.h>

typedef void *run_function(void *);
typedef int create_function(pthread_t *, const pthread_attr_t *, run_function *, void *);

static int is_refused(void) {
    static long started;
    const char *refused = getenv("REFUSED_THREAD"), *note = getenv("REFUSED_NOTE");
    if (!refused || __atomic_add_fetch(&started, 1, __ATOMIC_SEQ_CST) != atol(refused))
        return 0;
    int file = note ? open(note, O_WRONLY | O_CREAT, 0644) : -1;
    if (file >= 0)
        close(file);
    return 1;
}

int pthread_create(pthread_t *thread, const pthread_attr_t *settings, run_function *run, void *given) {
    create_function *next = (create_function *) dlsym(RTLD_NEXT, "pthread_create");
    return is_refused() ? EAGAIN : next(thread, settings, run, given);
}
