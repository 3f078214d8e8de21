/* dgrt.c: the runtime of dgrt.h. It makes the steps of docs/COLLECTOR.md, and is not proved: its records conform.

       cc -std=c11 -O2 -c dgrt.c                                       for use
       cc -std=c11 -O2 -I../examples/records -DRECORD -c dgrt.c        a record of each run (docs/RECORDS.md)
       .. -DRECORD -DSAME_ORDER                                        in the order of `dgc run`, with a trace for `dgc replay`
       cc -std=c11 -O2 -DCHECK -c dgrt.c                               a touch of a free cell is told, and ends the program

   With RECORD and CHECK the module is lowered with --record, and DG_STALL=N lets one step of N wait, so that rare schedules come. DG_LIMIT=N
   ends a recorded run after N steps. */
#define _GNU_SOURCE
#include "dgrt.h"
#include <errno.h>
#include <pthread.h>
#include <sched.h>
#include <semaphore.h>
#include <stdatomic.h>
#include <stdbool.h>
#include <stdio.h>
#include <stdlib.h>
#include <string.h>
#include <time.h>
#include <unistd.h>

typedef _Atomic uint64_t word;
const uint32_t dg_interface_1 = DG_INTERFACE;
char dg_ended[1];

/* ---- the shared words, and what only helps to find free cells ---- */

/* The cells of one layout. A reference is the address of its cell's first word; the colour word lies before it. */
struct pool {
    char *base, *end;
    uint64_t stride, references;
    uint32_t count, words, first;
    /* Hints: bit b of hints[i] says that cell (i << shift) + b may be free; bit i of filled[j] that hints[64 j + i] is not 0. They are
       no words of the heap. A wrong one costs a lost try, and none is asked before a request that fails. */
    uint32_t shift, filled_count;
    word *hints, *filled;
    _Atomic int64_t left;    /* how many hints there are */
    _Atomic int64_t reserve; /* a cycle begins when fewer are left */
    _Atomic int64_t low;     /* threads hold back when fewer are left */
    int64_t at_start;        /* how many there were when the cycle began */
};
static struct { struct pool *pools; uint32_t cells, threads; pthread_t collector; } heap;
static _Alignas(64) word posted;
static struct { _Alignas(64) word stage; atomic_bool taken; } seats[DG_THREADS];
static _Alignas(64) word globals_colour;

static _Atomic uint64_t early;
static atomic_bool closing, wanted;
static sem_t due; /* the collector waits for it between two cycles */
static pthread_mutex_t counting = PTHREAD_MUTEX_INITIALIZER;
static struct dg_counts counts;

/* A thread's share of a pool's hints: cells from base on. */
struct share { char *base; uint64_t bits; uint32_t at, hint; };
static _Thread_local struct {
    uint64_t stage, grey, claim;
    uint32_t number, local;
    struct share *shares;
    struct dg_counts counts;
} me;

/* LLVM's chain of root slots ('Garbage Collection with LLVM'), the newest frame first. */
struct frame_map { int32_t roots, metas; };
struct frame { struct frame *next; const struct frame_map *map; void *slots[]; };
_Thread_local struct frame *llvm_gc_root_chain;

static uint64_t cycle_of(uint64_t stage) { return (stage + 2) / 3; }
static bool is_async(uint64_t stage) { return stage % 3 == 0; }
static word *colour_of(const void *reference) { return (word *)reference - 1; }

static uint64_t now(clockid_t clock) {
    struct timespec time;
    clock_gettime(clock, &time);
    return (uint64_t)time.tv_sec * 1000000000u + (uint64_t)time.tv_nsec;
}

static struct pool *pool_of(const void *place) {
    for (uint64_t i = 0; i < dg_layout_count; i++)
        if ((char *)place >= heap.pools[i].base && (char *)place < heap.pools[i].end) return &heap.pools[i];
    return 0;
}

uint32_t dg_number(const void *reference) {
    struct pool *pool = reference ? pool_of(reference) : 0;
    return pool ? pool->first + (uint32_t)((uint64_t)((char *)reference - pool->base) / pool->stride) : 0;
}

#include "steps.h"

/* ---- the calls of threads ---- */

/* A fetch_max. Where the word is as high already, the load is the whole step. */
static uint64_t raise_to(word *colour, uint64_t to) {
    uint64_t old = atomic_load(colour);
    while (old < to && !atomic_compare_exchange_weak(colour, &old, to)) { }
    return old;
}

static void take_stage(uint64_t stage) {
    uint64_t k = cycle_of(stage);
    me.stage = stage;
    me.grey = 2 * k;
    me.claim = is_async(stage) ? 2 * k + 1 : 2 * k - 1;
}

/* Mark. */
static void mark(void *reference) {
    touch(reference, "mark");
    STEP(raise_to(colour_of(reference), me.grey), me.number, DG_MARK, dg_number(reference), 0, 0);
}

/* ReadOldValue, Mark of it, at sync stages Mark of the new value, StoreAfterBarrier. */
void dg_write(void *value, void *place) {
    uint64_t old;
    touch(place, "write");
    STEP(old = atomic_load((word *)place), me.number, DG_READ_OLD, dg_number(place), word_at(place), told(place, old));
    if (old) mark((void *)old);
    if (!is_async(me.stage) && value) mark(value);
    STEP(atomic_store((word *)place, (uint64_t)value), me.number, DG_STORE, dg_number(place), word_at(place), told(place, (uint64_t)value));
}

/* ReadWord, and StorePlain. Without a recorder the module makes them itself. */
uint64_t dg_read(void *place) {
    uint64_t value;
    touch(place, "read");
    STEP(value = atomic_load((word *)place), me.number, DG_READ_WORD, dg_number(place), word_at(place), told(place, value));
    return value;
}
void dg_store(void *place, uint64_t value) {
    touch(place, "store");
    STEP(atomic_store((word *)place, value), me.number, DG_STORE_PLAIN, dg_number(place), word_at(place), told(place, value));
}
void dg_local(uint32_t instructions) { me.local += instructions; }

/* Claim: a compare-exchange. Where the colour is not 0 the load is the whole step. */
static bool claim(struct pool *pool, char *cell) {
    uint64_t blue = 0;
    bool won;
    STEP(won = atomic_load((word *)cell) == 0 && atomic_compare_exchange_strong((word *)cell, &blue, me.claim),
         me.number, won ? DG_CLAIM : DG_CLAIM_LOST, dg_number(cell), 0, 0);
    me.counts.tries++;
    me.counts.claims += won;
    if (won) ASAN_UNPOISON_MEMORY_REGION(cell + 8, 8 * pool->words);
    (void)pool;
    return won;
}

#include "claims.h"

/* Turns the chain round. */
static struct frame *turned(struct frame *frame) {
    struct frame *before = 0;
    while (frame) {
        struct frame *next = frame->next;
        frame->next = before;
        before = frame;
        frame = next;
    }
    return before;
}

/* The roots that are not null, the oldest frame's first. */
static void each_root(void (*visit)(void *)) {
    struct frame *oldest = turned(llvm_gc_root_chain);
    for (struct frame *frame = oldest; frame; frame = frame->next)
        for (int i = 0; i < frame->map->roots; i++) if (frame->slots[i]) visit(frame->slots[i]);
    turned(oldest);
}

#ifdef RECORD
static void name_root(void *reference) { DG_ENTRY(me.number, DG_ROOT, dg_number(reference), 0, 0); }
#define NAME_ROOTS() each_root(name_root)
#else
#define NAME_ROOTS() ((void)0)
#endif

/* Mark of each root at an Async stage, and then StoreStage. */
static __attribute__((noinline)) void answer(uint64_t stage) {
    uint64_t begun = now(CLOCK_MONOTONIC);
    if (is_async(stage)) each_root(mark);
    STEP(NAME_ROOTS(); atomic_store(&seats[me.number].stage, stage), me.number, DG_STORE_STAGE, 0, 0, stage);
    take_stage(stage);
    uint64_t took = now(CLOCK_MONOTONIC) - begun;
    me.counts.answers++;
    if (took > me.counts.longest_answer) me.counts.longest_answer = took;
}

/* ReadPosted. */
void dg_safepoint(void) {
    uint64_t stage;
    STEP(stage = atomic_load(&posted), me.number, DG_READ_POSTED, 0, 0, stage);
    if (__builtin_expect(stage != me.stage, 0)) answer(stage);
}

/* ---- the collector ---- */

/* PostStage, and ReadStage of each thread until it has answered. Gives false where the program ends meanwhile. */
static bool post(uint64_t stage) {
    STEP(atomic_store(&posted, stage), DG_COLLECTOR, DG_POST, 0, 0, stage);
    for (uint32_t t = 0; t < heap.threads; t++)
        for (uint32_t n = 0;; n++) {
            uint64_t found;
            STEP(found = atomic_load(&seats[t].stage), DG_COLLECTOR, DG_READ_STAGE, t, 0, found);
            if (found == stage || found == DG_DONE) break;
            if (atomic_load(&closing)) return false;
            if (n > 200) nanosleep(&(struct timespec){0, 20000}, 0); else if (n > 100) sched_yield();
        }
    return true;
}

/* The grey cells that are looked at out of turn. */
#ifdef SAME_ORDER
enum { SHADES = 64 };
#else
enum { SHADES = 4096 };
#endif
static void *shades[SHADES];
static uint32_t shade_count;

/* MarkFound. */
static void mark_found(uint64_t reference, uint64_t grey) {
    uint64_t before;
    if (!reference) return;
    touch((void *)reference, "mark by the collector");
    STEP(before = raise_to(colour_of((void *)reference), grey), DG_COLLECTOR, DG_MARK_FOUND, dg_number((void *)reference), 0, before);
    if (before < grey && shade_count < SHADES) shades[shade_count++] = (void *)reference;
}

/* ReadColour; of a grey cell ScanWord of each reference word, and Blacken. */
static bool look(char *cell, const struct pool *pool, uint64_t grey) {
    word *colour = (word *)cell;
    uint64_t found, value;
    STEP(found = atomic_load(colour), DG_COLLECTOR, DG_READ_COLOUR, dg_number(cell), 0, found);
    if (found != grey) return false;
    for (uint64_t left = pool->references; left; left &= left - 1) {
        uint32_t at = (uint32_t)__builtin_ctzll(left);
        STEP(value = atomic_load(colour + 1 + at), DG_COLLECTOR, DG_SCAN, dg_number(cell), at, dg_number((void *)value));
        mark_found(value, grey);
    }
    STEP(atomic_store(colour, grey + 1), DG_COLLECTOR, DG_BLACKEN, dg_number(cell), 0, 0);
    return true;
}

static bool look_at_globals(uint64_t grey) {
    uint64_t found, value;
    STEP(found = atomic_load(&globals_colour), DG_COLLECTOR, DG_READ_COLOUR, 0, 0, found);
    if (found != grey) return false;
    for (uint32_t i = 0; i < dg_global_count; i++) {
        if (!dg_globals[i].is_reference) continue;
        STEP(value = atomic_load((word *)dg_globals[i].place), DG_COLLECTOR, DG_SCAN, 0, i, dg_number((void *)value));
        mark_found(value, grey);
    }
    STEP(atomic_store(&globals_colour, grey + 1), DG_COLLECTOR, DG_BLACKEN, 0, 0, 0);
    return true;
}

static bool look_at_shades(uint64_t grey) {
    bool met = false;
    while (shade_count) {
        char *reference = shades[--shade_count];
        met |= look(reference - 8, pool_of(reference), grey);
    }
    return met;
}

/* A pass over all cells from 0. After each but the last one come the looks out of turn. */
static bool pass(uint64_t grey) {
    bool met = look_at_globals(grey);
    uint32_t left = heap.cells;
    if (left) met |= look_at_shades(grey);
    for (uint64_t i = 0; i < dg_layout_count; i++)
        for (char *cell = heap.pools[i].base; cell < heap.pools[i].end; cell += heap.pools[i].stride) {
            met |= look(cell, &heap.pools[i], grey);
            if (--left && shade_count) met |= look_at_shades(grey);
        }
    counts.passes++;
    return met;
}

/* ReadColour; of a white cell ClearWord of each word, and Free. Gives whether the cell was freed. No thread looks at a word of a white cell,
   and who claims the cell has seen Free: so the order of the clears among themselves is seen by nobody. */
static bool sweep_cell(char *cell, const struct pool *pool, uint64_t grey) {
    word *colour = (word *)cell;
    uint64_t found;
    STEP(found = atomic_load(colour), DG_COLLECTOR, DG_READ_COLOUR, dg_number(cell), 0, found);
    if (found == 0 || found >= grey) return false;
    for (uint32_t at = 0; at < pool->words; at++) STEP(atomic_store_explicit(colour + 1 + at, 0, memory_order_relaxed), DG_COLLECTOR, DG_CLEAR, dg_number(cell), at, 0);
    ASAN_POISON_MEMORY_REGION(cell + 8, 8 * pool->words);
    STEP(atomic_store(colour, 0), DG_COLLECTOR, DG_FREE, dg_number(cell), 0, 0);
    counts.frees++;
    return true;
}

/* A cycle begins when fewer hints are left than these, or than half of those that there are. */
static void set_reserve(struct pool *pool, int64_t hints) {
    int64_t left = atomic_load(&pool->left);
    atomic_store(&pool->reserve, hints > left / 2 ? hints : left / 2);
    atomic_store(&pool->low, left / 4);
}

/* Looks at each cell once. Then it sets how many hints have to be left: twice as many as threads took in this cycle before the sweep, and every one
   where they took all. */
static void sweep(struct pool *pool, uint64_t grey) {
    int64_t unused = atomic_load(&pool->left), taken = pool->at_start - unused;
    uint64_t bits = 0;
    for (uint32_t i = 0; i < pool->count; i++) {
        uint32_t last = (1u << pool->shift) - 1;
        bits |= (uint64_t)sweep_cell(pool->base + i * pool->stride, pool, grey) << (i & last);
        if ((i & last) != last && i + 1 < pool->count) continue;
        keep_hints(pool, i >> pool->shift, bits);
        bits = 0;
    }
    set_reserve(pool, unused > 0 ? 2 * taken : pool->count);
}

/* Waits until a pool has less than its reserve of hints, or a request finds none. A recorder goes on at once. */
static void wait_for_work(void) {
#ifndef RECORD
    while (sem_wait(&due)) { }
    atomic_store(&wanted, false);
#endif
}

static bool cycle(uint64_t k) {
    uint64_t before, begun = now(CLOCK_MONOTONIC);
    for (uint64_t i = 0; i < dg_layout_count; i++) heap.pools[i].at_start = atomic_load(&heap.pools[i].left);
    if (!post(3 * k - 2) || !post(3 * k - 1)) return false;
    STEP(before = raise_to(&globals_colour, 2 * k), DG_COLLECTOR, DG_MARK_FOUND, 0, 0, before);
    (void)before;
    if (!post(3 * k)) return false;
    while (pass(2 * k)) { }
    shade_count = 0;
    for (uint64_t i = 0; i < dg_layout_count; i++) sweep(&heap.pools[i], 2 * k);
    uint64_t took = now(CLOCK_MONOTONIC) - begun;
    if (took > counts.longest_cycle) counts.longest_cycle = took;
    counts.cycles++;
    return true;
}

static void *collect(void *unused) {
    for (uint64_t k = 1; !atomic_load(&closing); k++) {
        wait_for_work();
        if (atomic_load(&closing) || !cycle(k)) break;
    }
    counts.collector_time = now(CLOCK_THREAD_CPUTIME_ID);
    return unused;
}

/* ---- threads that come and go ---- */

/* ReadPostedFirst, EnterStage and ReadPostedAgain, until both reads find one stage. */
static void begin_late(void) {
    for (;;) {
        uint64_t first, again;
        STEP(first = atomic_load(&posted), me.number, DG_READ_FIRST, 0, 0, first);
        STEP(atomic_store(&seats[me.number].stage, first), me.number, DG_ENTER, 0, 0, first);
        STEP(again = atomic_load(&posted), me.number, DG_READ_AGAIN, 0, 0, again);
        if (first == again) { take_stage(first); return; }
        STEP(atomic_store(&seats[me.number].stage, DG_DONE), me.number, DG_STORE_STAGE, 0, 0, DG_DONE);
    }
}

int dg_attach(int number) {
    struct share *shares = calloc(dg_layout_count + 1, sizeof *shares);
    bool is_early = number >= 0 && number < DG_THREADS && atomic_fetch_and(&early, ~(1ull << number)) >> number & 1;
    uint32_t seat = number < 0 ? 0 : (uint32_t)number, last = number < 0 ? heap.threads : seat + 1;
    if (!is_early) while (seat < last && seat < heap.threads && atomic_exchange(&seats[seat].taken, true)) seat++;
    if (!shares || seat >= last || seat >= heap.threads) { free(shares); return -1; }
    memset(&me, 0, sizeof me);
    me.number = seat;
    me.shares = shares;
    /* Threads begin to take hints at different places. */
    for (uint64_t i = 0; i < dg_layout_count; i++) shares[i].at = (uint32_t)((uint64_t)heap.pools[i].filled_count * 64 * seat / heap.threads);
    if (is_early) take_stage(0); else begin_late();
    return (int)seat;
}

static void add_counts(void) {
    pthread_mutex_lock(&counting);
    counts.claims += me.counts.claims;
    counts.tries += me.counts.tries;
    counts.nulls += me.counts.nulls;
    counts.answers += me.counts.answers;
    if (me.counts.longest_answer > counts.longest_answer) counts.longest_answer = me.counts.longest_answer;
    if (me.counts.longest_request > counts.longest_request) counts.longest_request = me.counts.longest_request;
    pthread_mutex_unlock(&counting);
}

/* StoreStage of DONE. The number of a thread of a record is not given again. */
void dg_detach(void) {
    llvm_gc_root_chain = 0;
    STEP_OF(0, atomic_store(&seats[me.number].stage, DG_DONE), me.number, DG_STORE_STAGE, 0, 0, DG_DONE);
    for (uint64_t i = 0; i < dg_layout_count; i++) keep_hints(&heap.pools[i], me.shares[i].at, me.shares[i].bits);
    add_counts();
    free(me.shares);
#ifndef RECORD
    atomic_store(&seats[me.number].taken, false);
#endif
}

void dg_end(void) {
    dg_detach();
    pthread_exit(dg_ended);
}

/* ---- the heap ---- */

static bool make_pool(struct pool *pool, const struct dg_layout *layout, uint32_t count) {
    pool->count = count;
    pool->words = (uint32_t)layout->words;
    pool->references = layout->references;
    pool->stride = 8 * (layout->words + 1);
    pool->base = calloc((size_t)count + 1, pool->stride);
    /* A word of hints is about fewer cells where there are few, so that threads share them. */
    while (pool->shift < 6 && count >> pool->shift > 256) pool->shift++;
    uint32_t words = (uint32_t)(((uint64_t)count + (1u << pool->shift) - 1) >> pool->shift);
    pool->filled_count = words / 64 + 1;
    pool->hints = calloc(64 * pool->filled_count, sizeof(word));
    pool->filled = calloc(pool->filled_count, sizeof(word));
    if (!pool->base || !pool->hints || !pool->filled) return false;
    pool->end = pool->base + count * pool->stride;
    for (uint32_t i = 0; i < count; i++) {
        keep_hints(pool, i >> pool->shift, 1ull << (i & ((1u << pool->shift) - 1)));
        ASAN_POISON_MEMORY_REGION(pool->base + i * pool->stride + 8, 8 * pool->words);
    }
    set_reserve(pool, 0);
    return true;
}

static void free_pools(void) {
    for (uint64_t i = 0; heap.pools && i < dg_layout_count; i++) {
        struct pool *pool = &heap.pools[i];
        if (pool->base) ASAN_UNPOISON_MEMORY_REGION(pool->base, pool->count * pool->stride);
        free(pool->base);
        free(pool->hints);
        free(pool->filled);
    }
    free(heap.pools);
    heap.pools = 0;
}

static int make_pools(const uint32_t *cells) {
    uint64_t first = 1;
    heap.pools = calloc(dg_layout_count + 1, sizeof *heap.pools);
    if (!heap.pools) return ENOMEM;
    for (uint64_t i = 0; i < dg_layout_count; i++) {
        heap.pools[i].first = (uint32_t)first;
        first += cells[i];
#ifdef RECORD
        if (first > 1u << 20) return EINVAL;
#endif
        if (first > UINT32_MAX) return EINVAL;
        if (!make_pool(&heap.pools[i], &dg_layouts[i], cells[i])) return ENOMEM;
    }
    heap.cells = (uint32_t)(first - 1);
    return 0;
}

int dg_open(const struct dg_setup *setup) {
    if (setup->threads > DG_THREADS || heap.pools) return EINVAL;
    int error = make_pools(setup->cells);
    if (error) { free_pools(); return error; }
    heap.threads = setup->threads ? setup->threads : DG_THREADS;
    memset(&counts, 0, sizeof counts);
    atomic_store(&posted, 0);
    atomic_store(&globals_colour, 1);
    atomic_store(&early, setup->early);
    atomic_store(&closing, false);
    atomic_store(&wanted, false);
    sem_init(&due, 0, 0);
    for (uint32_t t = 0; t < DG_THREADS; t++) {
        atomic_store(&seats[t].stage, setup->early >> t & 1 ? 0 : DG_DONE);
        atomic_store(&seats[t].taken, setup->early >> t & 1);
    }
    open_files(setup);
    error = pthread_create(&heap.collector, 0, collect, 0);
    if (error) free_pools();
    return error;
}

void dg_close(struct dg_counts *found) {
    atomic_store(&closing, true);
    sem_post(&due);
    pthread_join(heap.collector, 0);
    close_files();
    if (found) *found = counts;
    sem_destroy(&due);
    free_pools();
}
