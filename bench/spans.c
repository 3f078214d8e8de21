/* A library to be loaded before a program (LD_PRELOAD): whenever a thread was joined, it adds a line to the file SPANS, with the
   nanoseconds since the program's first thread was started. */
#define _GNU_SOURCE
#include <dlfcn.h>
#include <pthread.h>
#include <stdatomic.h>
#include <stdio.h>
#include <stdlib.h>
#include <time.h>

static atomic_llong began, ended;

static long long now(void) {
    struct timespec at;
    clock_gettime(CLOCK_MONOTONIC, &at);
    return at.tv_sec * 1000000000ll + at.tv_nsec;
}

int pthread_create(pthread_t *thread, const pthread_attr_t *attributes, void *(*run)(void *), void *given) {
    static int (*real)(pthread_t *, const pthread_attr_t *, void *(*)(void *), void *);
    if (!real) real = dlsym(RTLD_NEXT, "pthread_create");
    if (!began) began = now();
    return real(thread, attributes, run, given);
}

/* The last line counts: the program ends without a call that could be caught. */
static void note(void) {
    const char *path = getenv("SPANS");
    FILE *file = path ? fopen(path, "a") : NULL;
    if (file) {
        fprintf(file, "%lld\n", ended - began);
        fclose(file);
    }
}

int pthread_join(pthread_t thread, void **result) {
    static int (*real)(pthread_t, void **);
    if (!real) real = dlsym(RTLD_NEXT, "pthread_join");
    int status = real(thread, result);
    ended = now();
    note();
    return status;
}
