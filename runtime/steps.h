/* steps.h: how dgrt.c makes a step on a shared word: with its entry in a record, a test of the colour, a stall, or nothing of these. */

#if defined RECORD || defined CHECK
#define LOOKS_CLOSER
#endif
#ifdef RECORD
#define DG_RECORD
#define DG_RECORD_HERE
#include "dgrecord.h"
#else
#define DG_BEGIN() ((void)0)
#define DG_END() ((void)0)
#define DG_ENTRY(actor, kind, cell, word, value) ((void)0)
#define DG_DONE UINT64_MAX
#endif
#ifdef __SANITIZE_ADDRESS__
#define POISONS
#elif defined __has_feature
#if __has_feature(address_sanitizer)
#define POISONS
#endif
#endif
#ifdef POISONS
#include <sanitizer/asan_interface.h>
#else
#define ASAN_POISON_MEMORY_REGION(place, size) ((void)0)
#define ASAN_UNPOISON_MEMORY_REGION(place, size) ((void)0)
#endif

#ifdef LOOKS_CLOSER
static unsigned stall_one_of;
static _Thread_local uint64_t lot;
static void stall(void) {
    if (!stall_one_of) return;
    if (!lot) lot = (uint64_t)&lot;
    lot = lot * 6364136223846793005u + 1442695040888963407u;
    if ((lot >> 33) % stall_one_of == 0) { if ((lot >> 45) & 7) sched_yield(); else usleep((useconds_t)(lot >> 40) % 300); }
}
#else
#define stall() ((void)0)
#endif

#ifdef CHECK
static void touch(const void *place, const char *what) {
    struct pool *pool = pool_of(place);
    if (!pool) return;
    char *cell = pool->base + (uint64_t)((char *)place - pool->base) / pool->stride * pool->stride;
    if (atomic_load((word *)cell)) return;
    fprintf(stderr, "dgrt: %s of free cell %u\n", what, dg_number(place));
    abort();
}
#else
#define touch(place, what) ((void)0)
#endif

#ifdef RECORD
/* The word of a place in a cell or among the globals, and a value as a record has it: a reference is the number of its cell. */
static uint32_t word_at(const void *place) {
    struct pool *pool = pool_of(place);
    if (pool) return (uint32_t)((uint64_t)((char *)place - pool->base) % pool->stride / 8 - 1);
    for (uint32_t i = 0; i < dg_global_count; i++) if (dg_globals[i].place == place) return i;
    return UINT16_MAX;
}
static uint64_t told(const void *place, uint64_t value) {
    struct pool *pool = pool_of(place);
    uint32_t at = word_at(place);
    bool is_reference = pool ? pool->references >> at & 1 : at < dg_global_count && dg_globals[at].is_reference;
    return is_reference ? dg_number((void *)value) : value;
}
#endif

#ifdef SAME_ORDER
/* The trace: who makes how many steps. An actor's steps in a row are one line. */
static FILE *trace;
static int last_actor;
static uint64_t in_a_row;
static void write_row(void) {
    if (!in_a_row) return;
    if (last_actor == DG_COLLECTOR) fprintf(trace, "c %lu\n", in_a_row); else fprintf(trace, "t %d %lu\n", last_actor, in_a_row);
    in_a_row = 0;
}
static void count_steps(int actor, uint64_t steps) {
    if (!trace || !steps) return;
    if (actor != last_actor) write_row();
    last_actor = actor;
    in_a_row += steps;
}
/* A step on a shared word, with the instructions before it that touch none. A thread's last instruction is its last step. */
#define COUNT(actor, own) (count_steps((int)(actor), (actor) == DG_COLLECTOR ? 1 : me.local + (own)), me.local = (actor) == DG_COLLECTOR ? me.local : 0)
#else
#define COUNT(actor, own) ((void)0)
#endif

#ifdef RECORD
/* After DG_LIMIT steps of a run nobody makes another one, and the program ends. So runs that have no end are recorded too. */
static uint64_t steps_left;
static bool is_over;
static void close_files(void);
static void begin_step(void) {
    for (DG_BEGIN(); is_over; DG_BEGIN()) { DG_END(); pause(); }
}
static void end_step(void) {
    bool is_last = steps_left && --steps_left == 0;
    is_over |= is_last;
    DG_END();
    if (!is_last) return;
    close_files();
    _exit(0);
}
#else
#define begin_step() ((void)0)
#define end_step() ((void)0)
#endif

#define STEP_OF(own, statement, actor, kind, cell, word, value)                                                              \
    do {                                                                                                                     \
        stall();                                                                                                             \
        begin_step();                                                                                                        \
        statement;                                                                                                           \
        DG_ENTRY(actor, kind, cell, word, value);                                                                            \
        COUNT(actor, own);                                                                                                   \
        end_step();                                                                                                          \
    } while (0)
#define STEP(...) STEP_OF(1, __VA_ARGS__)

static void open_files(const struct dg_setup *setup) {
#ifdef LOOKS_CLOSER
    stall_one_of = getenv("DG_STALL") ? (unsigned)atoi(getenv("DG_STALL")) : 0;
#endif
#ifdef RECORD
    if (setup->record) dg_record_open(setup->record);
    is_over = false;
    steps_left = getenv("DG_LIMIT") ? strtoull(getenv("DG_LIMIT"), 0, 10) : 0;
#endif
#ifdef SAME_ORDER
    trace = setup->trace ? fopen(setup->trace, "a") : 0;
    if (setup->trace && !trace) { perror(setup->trace); exit(4); }
#endif
    (void)setup;
}

static void close_files(void) {
#ifdef RECORD
    dg_record_close();
#endif
#ifdef SAME_ORDER
    if (!trace) return;
    write_row();
    if (fprintf(trace, "end\n") < 0 || fclose(trace)) { perror("the trace"); exit(4); }
    trace = 0;
#endif
}
