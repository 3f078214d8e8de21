/* Threads that call work(), for the programs of examples/native with malloc or with Boehm's collector.

       PROGRAM THREADS ROUNDS LENGTH

   Thread i has the seed i + 1. It prints what each returned, and on standard error times; of Boehm's collector how often and for how
   long it stopped all threads. */
#define _GNU_SOURCE
#include <pthread.h>
#include <stdint.h>
#include <stdio.h>
#include <stdlib.h>
#include <time.h>
#ifdef BOEHM
#define GC_THREADS
#include <gc.h>
#endif

unsigned long work(unsigned long rounds, unsigned long length, unsigned long seed);
static unsigned long rounds, length, results[64], times[64];

static unsigned long now(clockid_t clock) {
    struct timespec time;
    clock_gettime(clock, &time);
    return (unsigned long)time.tv_sec * 1000000000u + (unsigned long)time.tv_nsec;
}

static void *serve(void *number) {
    unsigned long i = (unsigned long)number;
    results[i] = work(rounds, length, i + 1);
    times[i] = now(CLOCK_THREAD_CPUTIME_ID);
    return 0;
}

static unsigned long stops, longest_stop;
#ifdef BOEHM
static unsigned long stopped_at;
static void event(GC_EventType type) {
    if (type == GC_EVENT_PRE_STOP_WORLD) stopped_at = now(CLOCK_MONOTONIC);
    if (type != GC_EVENT_POST_START_WORLD) return;
    unsigned long took = now(CLOCK_MONOTONIC) - stopped_at;
    stops++;
    if (took > longest_stop) longest_stop = took;
}
#endif

int main(int count, char **words) {
    pthread_t threads[64];
    unsigned long all = 0, thread_count = count > 3 ? strtoul(words[1], 0, 10) : 65;
    if (thread_count > 64) return 2;
    rounds = strtoul(words[2], 0, 10);
    length = strtoul(words[3], 0, 10);
#ifdef BOEHM
    GC_INIT();
    GC_allow_register_threads();
    GC_set_on_collection_event(event);
#endif
    unsigned long begun = now(CLOCK_MONOTONIC);
    for (unsigned long i = 0; i < thread_count; i++) if (pthread_create(&threads[i], 0, serve, (void *)i)) return 4;
    for (unsigned long i = 0; i < thread_count; i++) pthread_join(threads[i], 0);
    begun = now(CLOCK_MONOTONIC) - begun;
    for (unsigned long i = 0; i < thread_count; i++) {
        printf("t %lu returned %lu\n", i, results[i]);
        all += times[i];
    }
    fprintf(stderr, "wall_ns %lu threads_ns %lu process_ns %lu stops %lu longest_stop_ns %lu\n", begun, all, now(CLOCK_PROCESS_CPUTIME_ID), stops, longest_stop);
    return 0;
}
