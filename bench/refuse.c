/* Refuses one request for memory: that with the number REFUSE_AT, counted from 1; with REFUSE_ON=1 also all behind it. And of the
   threads that are asked for that with the number REFUSE_THREAD. To REFUSE_TELL goes how many requests there were, and how many
   threads. For bench/refused, which builds it and loads it before the C library. */
#define _GNU_SOURCE
#include <dlfcn.h>
#include <errno.h>
#include <pthread.h>
#include <stdio.h>
#include <stdlib.h>
#include <sys/syscall.h>
#include <unistd.h>

static long count, threads, at = -1, thread_at = -1;
static int goes_on;

static long number_in(const char *name) {
    const char *told = getenv(name);
    return told ? atol(told) : -1;
}

__attribute__((constructor)) static void begin(void) {
    at = number_in("REFUSE_AT");
    thread_at = number_in("REFUSE_THREAD");
    goes_on = number_in("REFUSE_ON") == 1;
    count = 0;
}

static int refuses(void) {
    long number = __atomic_add_fetch(&count, 1, __ATOMIC_SEQ_CST);
    if (number != at && !(goes_on && at > 0 && number > at))
        return 0;
    errno = ENOMEM;
    return 1;
}

void *malloc(size_t size) {
    static void *(*real)(size_t);
    if (!real)
        real = dlsym(RTLD_NEXT, "malloc");
    return refuses() ? NULL : real(size);
}

/* dlsym may ask for memory by it. */
void *calloc(size_t number, size_t size) {
    extern void *__libc_calloc(size_t, size_t);
    return refuses() ? NULL : __libc_calloc(number, size);
}

void *realloc(void *old, size_t size) {
    static void *(*real)(void *, size_t);
    if (!real)
        real = dlsym(RTLD_NEXT, "realloc");
    return refuses() ? NULL : real(old, size);
}

void *aligned_alloc(size_t align, size_t size) {
    static void *(*real)(size_t, size_t);
    if (!real)
        real = dlsym(RTLD_NEXT, "aligned_alloc");
    return refuses() ? NULL : real(align, size);
}

int posix_memalign(void **place, size_t align, size_t size) {
    static int (*real)(void **, size_t, size_t);
    if (!real)
        real = dlsym(RTLD_NEXT, "posix_memalign");
    return refuses() ? ENOMEM : real(place, align, size);
}

int pthread_create(pthread_t *thread, const pthread_attr_t *attr, void *(*does)(void *), void *with) {
    static int (*real)(pthread_t *, const pthread_attr_t *, void *(*)(void *), void *);
    if (!real)
        real = dlsym(RTLD_NEXT, "pthread_create");
    return ++threads == thread_at ? EAGAIN : real(thread, attr, does, with);
}

__attribute__((destructor)) static void tell(void) {
    const char *path = getenv("REFUSE_TELL");
    long requests = count;
    at = thread_at = -1;
    FILE *out = path ? fopen(path, "w") : NULL;
    if (!out)
        return;
    fprintf(out, "%ld %ld\n", requests, threads);
    fclose(out);
}

/* The program ends so, past all destructors. */
void _exit(int status) {
    tell();
    syscall(SYS_exit_group, status);
    __builtin_unreachable();
}
