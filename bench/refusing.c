/* Refuses memory to the program that it is loaded into before all else (LD_PRELOAD): the request of the number
   REFUSE_FROM, and where REFUSE_ALL is 1 each one after it, too. A request is a call of malloc, calloc or realloc, or
   of pthread_create, which needs memory for a thread's stack. The requests of all threads are counted together, from
   1, and from the moment when the program's own code begins. For each that is refused one byte is written to the open
   file of the number REFUSE_TELL. */
#define _GNU_SOURCE
#include <dlfcn.h>
#include <errno.h>
#include <pthread.h>
#include <stdatomic.h>
#include <stdlib.h>
#include <unistd.h>

typedef int creates(pthread_t *, const pthread_attr_t *, void *(*)(void *), void *);

extern void *__libc_malloc(size_t);
extern void *__libc_calloc(size_t, size_t);
extern void *__libc_realloc(void *, size_t);

static creates *create;
static atomic_long asked;
static long from, all, tell;

static long number(const char *name) {
    const char *text = getenv(name);
    return text ? atol(text) : 0;
}

__attribute__((constructor)) static void begin(void) {
    create = (creates *)dlsym(RTLD_NEXT, "pthread_create");
    all = number("REFUSE_ALL");
    tell = number("REFUSE_TELL");
    from = number("REFUSE_FROM");
}

static int refused(void) {
    if (from == 0)
        return 0;
    long now = ++asked;
    if (now != from && !(all && now > from))
        return 0;
    if (write((int)tell, "x", 1) != 1)
        abort();
    errno = ENOMEM;
    return 1;
}

void *malloc(size_t size) { return refused() ? NULL : __libc_malloc(size); }

void *calloc(size_t count, size_t size) { return refused() ? NULL : __libc_calloc(count, size); }

void *realloc(void *old, size_t size) { return refused() ? NULL : __libc_realloc(old, size); }

int pthread_create(pthread_t *made, const pthread_attr_t *how, void *(*body)(void *), void *with) {
    return refused() ? EAGAIN : create(made, how, body, with);
}
