/* Stands between the program and the C library and lets one call fail that wouldn't have: the Nth allocation, read, write
   or start of a thread. tools/lib/refusing.py compiles it, and loads it by LD_PRELOAD. It goes by the environment:

     REFUSE        which kind of call: allocation, read, write or thread
     REFUSE_AT     the number of the call that fails, from 1; without it none does
     REFUSE_PIECE  the most bytes that one read or write moves
     REFUSE_TOLD   the file that gets the number of calls of each kind when the program ends by itself

   A failing call sets errno as the system's would: no memory, an input or output error, no more threads. */
#define _GNU_SOURCE
#include <dlfcn.h>
#include <errno.h>
#include <fcntl.h>
#include <pthread.h>
#include <stdatomic.h>
#include <stdio.h>
#include <stdlib.h>
#include <string.h>
#include <unistd.h>

enum { ALLOCATION, READ, WRITE, THREAD, KINDS };
static const char *const names[KINDS] = {"allocation", "read", "write", "thread"};

static atomic_long made[KINDS];
static int refused = KINDS;
static long at, piece;

/* Runs before the program's main, while there is one thread. */
__attribute__((constructor)) static void ask(void) {
    const char *kind = getenv("REFUSE"), *number = getenv("REFUSE_AT"), *most = getenv("REFUSE_PIECE");
    for (int k = 0; kind && k < KINDS; k++)
        if (!strcmp(kind, names[k])) refused = k;
    at = number ? atol(number) : 0;
    piece = most ? atol(most) : 0;
    for (int k = 0; k < KINDS; k++) atomic_store(&made[k], 0);
}

static int fails(int kind) {
    return atomic_fetch_add(&made[kind], 1) + 1 == at && kind == refused;
}

static size_t short_of(size_t size) {
    return piece && size > (size_t)piece ? (size_t)piece : size;
}

#define REAL(name, type) \
    static __typeof__(type) *real; \
    if (!real) real = (__typeof__(type) *)dlsym(RTLD_NEXT, name)

void *malloc(size_t size) {
    REAL("malloc", void *(size_t));
    if (fails(ALLOCATION)) return errno = ENOMEM, (void *)0;
    return real(size);
}

void *realloc(void *old, size_t size) {
    REAL("realloc", void *(void *, size_t));
    if (fails(ALLOCATION)) return errno = ENOMEM, (void *)0;
    return real(old, size);
}

void *aligned_alloc(size_t align, size_t size) {
    REAL("aligned_alloc", void *(size_t, size_t));
    if (fails(ALLOCATION)) return errno = ENOMEM, (void *)0;
    return real(align, size);
}

int posix_memalign(void **out, size_t align, size_t size) {
    REAL("posix_memalign", int (void **, size_t, size_t));
    if (fails(ALLOCATION)) return ENOMEM;
    return real(out, align, size);
}

ssize_t read(int file, void *into, size_t size) {
    REAL("read", ssize_t (int, void *, size_t));
    if (fails(READ)) return errno = EIO, -1;
    return real(file, into, short_of(size));
}

ssize_t write(int file, const void *from, size_t size) {
    REAL("write", ssize_t (int, const void *, size_t));
    if (fails(WRITE)) return errno = EIO, -1;
    return real(file, from, short_of(size));
}

int pthread_create(pthread_t *thread, const pthread_attr_t *how, void *(*start)(void *), void *with) {
    REAL("pthread_create", int (pthread_t *, const pthread_attr_t *, void *(*)(void *), void *));
    if (fails(THREAD)) return EAGAIN;
    return real(thread, how, start, with);
}

/* The program ends by this call: here the counts are told. */
void _exit(int status) {
    REAL("_exit", void (int));
    const char *path = getenv("REFUSE_TOLD");
    char text[128];
    int length = snprintf(text, sizeof text, "%ld %ld %ld %ld\n", made[0], made[1], made[2], made[3]);
    int file = path ? open(path, O_WRONLY | O_CREAT | O_TRUNC, 0600) : -1;
    if (file >= 0) {
        at = piece = 0;
        if (write(file, text, (size_t)length) != length) status = 99;
        close(file);
    }
    real(status);
    __builtin_unreachable();
}
