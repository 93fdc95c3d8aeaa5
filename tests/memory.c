/* Refuses memory to a program, for LD_PRELOAD. Counted are the calls of malloc and of its like from the first line of the
 * program's `main` on: what the loader and the C library take before that is not the program's.
 *
 *     REFUSED=N           the Nth call is refused
 *     REFUSED_EVERY=K     and each Kth call after it: with 1 all of them
 *     REFUSED_NOTE=FILE   where it was refused, FILE is made, and has the name of that call and its size
 *     REFUSED_WHILE=FILE  in place of these: each call is refused while FILE is there
 *     REFUSED_FROM=TEXT   and FILE is made when the program first reads bytes that begin with TEXT
 */
#define _GNU_SOURCE
#include <dlfcn.h>
#include <errno.h>
#include <fcntl.h>
#include <stdio.h>
#include <stdlib.h>
#include <string.h>
#include <sys/socket.h>
#include <unistd.h>

typedef ssize_t read_function(int, void *, size_t);
typedef ssize_t recv_function(int, void *, size_t, int);
typedef int main_function(int, char **, char **);
typedef int start_function(main_function *, int, char **, void (*)(void), void (*)(void), void (*)(void), void *);

extern void *__libc_malloc(size_t), *__libc_calloc(size_t, size_t), *__libc_realloc(void *, size_t);
extern void *__libc_memalign(size_t, size_t);

static main_function *program;
static const char *note, *wall, *from;
static long first, every, calls;
static int has_begun, has_come;

static long number(const char *name) {
    const char *text = getenv(name);
    return text ? atol(text) : 0;
}

static int begin(int count, char **words, char **variables) {
    first = number("REFUSED");
    every = number("REFUSED_EVERY");
    note = getenv("REFUSED_NOTE");
    wall = getenv("REFUSED_WHILE");
    from = getenv("REFUSED_FROM");
    has_begun = 1;
    return program(count, words, variables);
}

int __libc_start_main(main_function *main, int count, char **words, void (*init)(void), void (*end)(void),
                      void (*loader_end)(void), void *stack) {
    start_function *next = (start_function *) dlsym(RTLD_NEXT, "__libc_start_main");
    program = main;
    return next(begin, count, words, init, end, loader_end, stack);
}

static void write_note(const char *name, size_t size) {
    char text[64];
    int file = open(note, O_WRONLY | O_CREAT, 0644);
    if (file < 0)
        return;
    ssize_t written = write(file, text, (size_t) snprintf(text, sizeof text, "%s %zu\n", name, size));
    (void) written;
    close(file);
}

static int is_refused(const char *name, size_t size) {
    int before = errno, refused;
    if (!has_begun)
        return 0;
    if (wall) {
        refused = access(wall, F_OK) == 0;
    } else {
        long call = __atomic_add_fetch(&calls, 1, __ATOMIC_SEQ_CST);
        refused = first && (call == first || (every && call > first && (call - first) % every == 0));
        if (note && call == first)
            write_note(name, size);
    }
    errno = refused ? ENOMEM : before;
    return refused;
}

void *malloc(size_t size) {
    return is_refused("malloc", size) ? NULL : __libc_malloc(size);
}

void *calloc(size_t count, size_t size) {
    return is_refused("calloc", count * size) ? NULL : __libc_calloc(count, size);
}

void *realloc(void *old, size_t size) {
    return is_refused("realloc", size) ? NULL : __libc_realloc(old, size);
}

void *memalign(size_t alignment, size_t size) {
    return is_refused("memalign", size) ? NULL : __libc_memalign(alignment, size);
}

void *aligned_alloc(size_t alignment, size_t size) {
    return is_refused("aligned_alloc", size) ? NULL : __libc_memalign(alignment, size);
}

int posix_memalign(void **to, size_t alignment, size_t size) {
    if (is_refused("posix_memalign", size))
        return ENOMEM;
    *to = __libc_memalign(alignment, size);
    return *to ? 0 : ENOMEM;
}

static void note_read(const void *bytes, ssize_t count) {
    int before = errno;
    size_t size = from ? strlen(from) : 0;
    if (wall && from && count >= (ssize_t) size && memcmp(bytes, from, size) == 0
        && !__atomic_exchange_n(&has_come, 1, __ATOMIC_SEQ_CST))
        close(open(wall, O_WRONLY | O_CREAT, 0644));
    errno = before;
}

ssize_t read(int link, void *bytes, size_t most) {
    static read_function *next;
    if (!next)
        next = (read_function *) dlsym(RTLD_NEXT, "read");
    ssize_t count = next(link, bytes, most);
    note_read(bytes, count);
    return count;
}

ssize_t recv(int link, void *bytes, size_t most, int flags) {
    static recv_function *next;
    if (!next)
        next = (recv_function *) dlsym(RTLD_NEXT, "recv");
    ssize_t count = next(link, bytes, most, flags);
    note_read(bytes, count);
    return count;
}
