/* Makes the steps of bench/heap's Rattle program on the same shared words, in C11: for comparison with it.

       steps CALL THREADS CELLS TIMES

   CALL is read, store, write, claim or try. The words are the posted stage, a stage for each thread, and then each cell: its
   colour and its words. Prints how many calls the threads made, and the nanoseconds of processor time of the slowest thread.
   Every atomic operation is sequentially consistent. */
#include <pthread.h>
#include <stdatomic.h>
#include <stdbool.h>
#include <stdint.h>
#include <stdio.h>
#include <stdlib.h>
#include <string.h>
#include <time.h>

enum { NEXT, VALUE, WORDS };
enum { NODE, LAYOUTS };
enum call { READ, STORE, WRITE, CLAIM, TRY };
static const char *const names[] = {"read", "store", "write", "claim", "try"};

struct pool {
    uint32_t first, count;
};

struct heap {
    _Atomic uint64_t *words;
    size_t *starts;
    struct pool *pools; /* of each layout; there is one */
    uint32_t cells;     /* without the globals' cell */
};

struct mutator {
    uint64_t stage;
    uint32_t *hints; /* for each layout, the place in its pool after the cell won last */
};

struct job {
    pthread_t thread;
    struct mutator me;
    uint32_t number;
    uint64_t calls, took;
};

static struct heap heap;
static enum call call;
static uint32_t threads;
static uint64_t times;
static atomic_uint there;

static uint64_t cycle_of(uint64_t stage) { return (stage + 2) / 3; }
static bool is_async(uint64_t stage) { return stage % 3 == 0; }
static uint64_t mark_at(uint64_t stage) { return 2 * cycle_of(stage); }
static uint64_t claim_at(uint64_t stage) { return is_async(stage) ? 2 * cycle_of(stage) + 1 : 2 * cycle_of(stage) - 1; }

static _Atomic uint64_t *colour(uint32_t cell) { return &heap.words[heap.starts[cell]]; }
static _Atomic uint64_t *word(uint32_t cell, uint32_t at) { return &heap.words[heap.starts[cell] + 1 + at]; }

static void mark(const struct mutator *me, uint32_t cell) {
    uint64_t new = mark_at(me->stage), old = atomic_load(colour(cell));
    while (old < new && !atomic_compare_exchange_weak(colour(cell), &old, new)) { }
}

static void write_word(const struct mutator *me, uint32_t cell, uint32_t at, uint32_t new) {
    uint32_t old = (uint32_t)atomic_load(word(cell, at));
    if (old != 0) mark(me, old);
    if (!is_async(me->stage) && new != 0) mark(me, new);
    atomic_store(word(cell, at), new);
}

static bool claim_cell(const struct mutator *me, uint32_t cell) {
    uint64_t blue = 0;
    return atomic_compare_exchange_strong(colour(cell), &blue, claim_at(me->stage));
}

/* Takes the next free cell from the hint up, and then from the pool's first up to the hint. */
static uint32_t alloc(struct mutator *me, uint32_t layout) {
    struct pool pool = heap.pools[layout];
    uint32_t hint = me->hints[layout], hinted = pool.first + (hint < pool.count ? hint : pool.count);
    uint32_t cell = hinted, end = pool.first + pool.count;
    while (cell < end && !claim_cell(me, cell)) cell++;
    if (cell == end) {
        cell = pool.first;
        while (cell < hinted && !claim_cell(me, cell)) cell++;
        if (cell == hinted) return 0;
    }
    me->hints[layout] = cell + 1 - pool.first;
    return cell;
}

/* The nodes that the globals of a share lead to, in an order that jumps. Returns their number. */
static uint32_t gather(uint32_t *cells, uint32_t number, uint32_t size) {
    uint32_t count = 0, place = 0;
    for (uint32_t n = 0; n < heap.cells; n++) {
        place = (place * 1664525 + 1013904223) % heap.cells;
        uint32_t cell = (uint32_t)atomic_load(word(0, place));
        if (cell != 0 && place / size == number) cells[count++] = cell;
    }
    return count;
}

static uint32_t walk(uint32_t global) {
    uint32_t cell = (uint32_t)atomic_load(word(0, global));
    for (uint64_t n = 0; n < times; n++) cell = (uint32_t)atomic_load(word(cell, NEXT));
    return cell;
}

static void store_all(const uint32_t *cells, uint32_t count, uint64_t value) {
    for (uint32_t n = 0; n < count; n++) atomic_store(word(cells[n], VALUE), value);
}

static uint32_t write_all(const struct mutator *me, const uint32_t *cells, uint32_t count, uint32_t before) {
    for (uint32_t n = 0; n < count; n++) {
        write_word(me, cells[n], NEXT, before);
        before = cells[n];
    }
    return before;
}

static uint64_t write_often(const struct mutator *me, const uint32_t *cells, uint32_t count, uint64_t often) {
    uint32_t last = 0;
    for (uint64_t n = 0; n < often; n++) last = write_all(me, cells, count, last);
    return often * count;
}

static volatile uint32_t end; /* where a walk ends, so that it is made */

static uint64_t make(struct mutator *me, const uint32_t *cells, uint32_t count, uint32_t global) {
    switch (call) {
    case READ: end = walk(global); return times;
    case STORE:
        for (uint64_t value = 0; value < times; value++) store_all(cells, count, value);
        return times * count;
    case WRITE: return write_often(me, cells, count, times);
    case CLAIM:
        for (uint64_t taken = 0; taken < times; taken++)
            if (alloc(me, NODE) == 0) return taken;
        return times;
    case TRY:
        for (uint64_t n = 0; n < times; n++) alloc(me, NODE);
        return times;
    }
    return 0;
}

static uint64_t now(void) {
    struct timespec at;
    clock_gettime(CLOCK_THREAD_CPUTIME_ID, &at);
    return (uint64_t)at.tv_sec * 1000000000 + (uint64_t)at.tv_nsec;
}

static uint32_t *room(uint32_t count) {
    uint32_t *numbers = calloc(count, sizeof *numbers);
    if (numbers == NULL) exit(3);
    return numbers;
}

static void *work(void *given) {
    struct job *job = given;
    uint32_t size = heap.cells / threads, *cells = room(heap.cells), count = gather(cells, job->number, size);
    atomic_fetch_add(&there, 1);
    while (atomic_load(&there) < threads) { }
    uint64_t start = now();
    job->calls = make(&job->me, cells, count, job->number * size);
    job->took = now() - start;
    free(cells);
    return NULL;
}

static void set_up(void) {
    size_t next = threads + 2;
    heap.starts = calloc((size_t)heap.cells + 2, sizeof *heap.starts);
    heap.words = calloc(threads + 3 + (size_t)heap.cells * (2 + WORDS), sizeof *heap.words);
    heap.pools = calloc(LAYOUTS, sizeof *heap.pools);
    if (heap.starts == NULL || heap.words == NULL || heap.pools == NULL) exit(3);
    heap.pools[NODE] = (struct pool){1, heap.cells};
    for (uint32_t cell = 0; cell <= heap.cells; cell++) {
        heap.starts[cell] = next;
        next += 1 + (cell == 0 ? heap.cells : WORDS);
    }
    heap.starts[heap.cells + 1] = next;
    for (size_t at = 0; at < next; at++) atomic_store_explicit(&heap.words[at], 0, memory_order_relaxed);
    atomic_store(colour(0), 1);
}

/* Takes all nodes, unless it is timed how they are taken, and links them to a chain. */
static void prepare(void) {
    struct mutator me = {0, room(LAYOUTS)};
    uint32_t *cells = room(heap.cells);
    for (uint32_t at = 0; at < heap.cells; at++) write_word(&me, 0, at, alloc(&me, NODE));
    write_often(&me, cells, gather(cells, 0, heap.cells), 2);
    free(cells);
    free(me.hints);
}

int main(int argc, char **argv) {
    if (argc != 5) return 4;
    while (call <= TRY && strcmp(argv[1], names[call]) != 0) call++;
    threads = (uint32_t)strtoul(argv[2], NULL, 10);
    heap.cells = (uint32_t)strtoul(argv[3], NULL, 10);
    times = strtoull(argv[4], NULL, 10);
    if (call > TRY || threads == 0 || heap.cells < threads) return 4;
    set_up();
    if (call != CLAIM) prepare();
    struct job *jobs = calloc(threads, sizeof *jobs);
    if (jobs == NULL) return 3;
    for (uint32_t n = 0; n < threads; n++) {
        jobs[n].number = n;
        jobs[n].me.hints = room(LAYOUTS);
        if (pthread_create(&jobs[n].thread, NULL, work, &jobs[n]) != 0) return 3;
    }
    uint64_t calls = 0, took = 0;
    for (uint32_t n = 0; n < threads; n++) {
        pthread_join(jobs[n].thread, NULL);
        calls += jobs[n].calls;
        if (jobs[n].took > took) took = jobs[n].took;
    }
    printf("%llu %llu\n", (unsigned long long)calls, (unsigned long long)took);
    return 0;
}
