/* A small runtime whose collector keeps to docs/COLLECTOR.md, with threads that use it, and which records its run.

       cc -std=c11 -O2 -pthread -DDG_RECORD -o runtime runtime.c && ./runtime run.record [CELLS [THREADS [ROUNDS]]]
       dgc conform lists.ll lists.trace run.record --shapes lists.shapes

   A reference is the address of its cell's first word; the colour lies before it. lists.ll has the layout and the globals,
   lists.trace the cells and the threads: 60 and 3 where the call names none. DG_STALL=N: one step of N waits, so that rare
   schedules come. */
#define _GNU_SOURCE
#define DG_RECORD_HERE
#include "dgrecord.h"
#include <pthread.h>
#include <sched.h>
#include <stdatomic.h>
#include <stdbool.h>
#include <stdint.h>
#include <stdio.h>
#include <stdlib.h>
#include <unistd.h>

typedef _Atomic uint64_t word;

/* ---- the words ---- */

enum { VALUE, NEXT, WORDS }; /* the words of a node: an integer, and a reference */
struct cell { word colour, words[WORDS]; };
static struct cell *cells;   /* cells[0] is not used: cell 0 is that of the globals */
static uint32_t cell_count = 60, thread_count = 3, round_count = 200;
enum { TOP, ROUNDS, GLOBALS };
static word globals[GLOBALS], globals_colour = 1, posted, stages[64];

static uint32_t number_of(uint64_t ref) { return ref ? (uint32_t)((struct cell *)(ref - sizeof(word)) - cells) : 0; }
static word *colour_of(uint64_t ref) { return (word *)ref - 1; }
static uint64_t ref_of(struct cell *cell) { return (uint64_t)cell->words; }

/* The cell and the word of a place. */
static uint32_t cell_at(const word *place) { return place >= globals && place < globals + GLOBALS ? 0 : (uint32_t)(((char *)place - (char *)cells) / (long)sizeof(struct cell)); }
static uint32_t word_at(const word *place) { return (uint32_t)(cell_at(place) ? place - cells[cell_at(place)].words : place - globals); }
static bool holds_references(const word *place) { return cell_at(place) ? word_at(place) == NEXT : word_at(place) == TOP; }
static uint64_t told(const word *place, uint64_t value) { return holds_references(place) ? number_of(value) : value; }

static uint64_t cycle_of(uint64_t stage) { return (stage + 2) / 3; }
static bool is_async(uint64_t stage) { return stage % 3 == 0; }

static unsigned stall_one_of;
static _Thread_local uint64_t lot;
static void stall(void) {
    if (!stall_one_of) return;
    if (!lot) lot = (uint64_t)&lot;
    lot = lot * 6364136223846793005u + 1442695040888963407u;
    if ((lot >> 33) % stall_one_of == 0) { if ((lot >> 45) & 7) sched_yield(); else usleep((useconds_t)(lot >> 40) % 300); }
}
#define STEP(...) do { stall(); DG_STEP(__VA_ARGS__); } while (0)

static uint64_t raise_to(word *colour, uint64_t to) {
    uint64_t old = atomic_load(colour);
    while (old < to && !atomic_compare_exchange_weak(colour, &old, to)) { }
    return old;
}

/* ---- the calls of threads ---- */

struct frame { struct frame *next; int roots; uint64_t slot[2]; };
static _Thread_local struct { uint32_t number, hint; uint64_t stage, grey, claim; struct frame *frames; } me;

static void take_stage(uint64_t stage) {
    uint64_t k = cycle_of(stage);
    me.stage = stage;
    me.grey = 2 * k;
    me.claim = is_async(stage) ? 2 * k + 1 : 2 * k - 1;
}

static uint64_t dg_read(word *place) {
    uint64_t value;
    STEP(value = atomic_load(place), me.number, DG_READ_WORD, cell_at(place), word_at(place), told(place, value));
    return value;
}

static void dg_store(word *place, uint64_t value) {
    STEP(atomic_store(place, value), me.number, DG_STORE_PLAIN, cell_at(place), word_at(place), told(place, value));
}

static void mark(uint64_t ref) { STEP(raise_to(colour_of(ref), me.grey), me.number, DG_MARK, number_of(ref), 0, 0); }

static void dg_write(word *place, uint64_t new) {
    uint64_t old;
    STEP(old = atomic_load(place), me.number, DG_READ_OLD, cell_at(place), word_at(place), told(place, old));
    if (old) mark(old);
    if (!is_async(me.stage) && new) mark(new);
    STEP(atomic_store(place, new), me.number, DG_STORE, cell_at(place), word_at(place), told(place, new));
}

static bool claim(uint32_t cell) {
    uint64_t blue = 0; bool won;
    STEP(won = atomic_compare_exchange_strong(&cells[cell].colour, &blue, me.claim), me.number, won ? DG_CLAIM : DG_CLAIM_LOST, cell, 0, 0);
    return won;
}

static uint64_t dg_alloc(void) {
    uint32_t hint = me.hint;
    for (uint32_t c = hint + 1; c <= cell_count; c++) if (claim(c)) { me.hint = c; return ref_of(&cells[c]); }
    for (uint32_t c = 1; c <= hint; c++) if (claim(c)) { me.hint = c; return ref_of(&cells[c]); }
    return 0;
}

/* The oldest frame first. */
static void each_root(struct frame *frame, void (*visit)(uint64_t)) {
    if (!frame) return;
    each_root(frame->next, visit);
    for (int i = 0; i < frame->roots; i++) if (frame->slot[i]) visit(frame->slot[i]);
}
static void name_root(uint64_t ref) { (void)ref; DG_ENTRY(me.number, DG_ROOT, number_of(ref), 0, 0); }

static void dg_safepoint(void) {
    uint64_t stage;
    STEP(stage = atomic_load(&posted), me.number, DG_READ_POSTED, 0, 0, stage);
    if (stage == me.stage) return;
    if (is_async(stage)) each_root(me.frames, mark);
    stall();
    DG_BEGIN();
    each_root(me.frames, name_root);
    atomic_store(&stages[me.number], stage);
    DG_ENTRY(me.number, DG_STORE_STAGE, 0, 0, stage);
    DG_END();
    take_stage(stage);
}

/* ---- the collector ---- */

static atomic_uint ended;

static bool post(uint64_t stage) {
    STEP(atomic_store(&posted, stage), DG_COLLECTOR, DG_POST, 0, 0, stage);
    for (uint32_t t = 0; t < thread_count; t++)
        for (;;) {
            uint64_t found;
            STEP(found = atomic_load(&stages[t]), DG_COLLECTOR, DG_READ_STAGE, t, 0, found);
            if (found == stage || found == DG_DONE) break;
            if (atomic_load(&ended) == thread_count) return false;
            sched_yield();
        }
    return true;
}

enum { SHADES = 64 };
static uint32_t shades[SHADES], shade_count;

static void mark_found(uint64_t ref, uint64_t grey) {
    uint64_t before;
    if (!ref) return;
    STEP(before = raise_to(colour_of(ref), grey), DG_COLLECTOR, DG_MARK_FOUND, number_of(ref), 0, before);
    if (before < grey && shade_count < SHADES) shades[shade_count++] = number_of(ref);
}

static bool look(uint32_t cell, uint64_t grey) {
    word *colour = cell ? &cells[cell].colour : &globals_colour, *reference = cell ? &cells[cell].words[NEXT] : &globals[TOP];
    uint64_t found, value;
    STEP(found = atomic_load(colour), DG_COLLECTOR, DG_READ_COLOUR, cell, 0, found);
    if (found != grey) return false;
    STEP(value = atomic_load(reference), DG_COLLECTOR, DG_SCAN, cell, word_at(reference), number_of(value));
    mark_found(value, grey);
    STEP(atomic_store(colour, grey + 1), DG_COLLECTOR, DG_BLACKEN, cell, 0, 0);
    return true;
}

static bool look_at_shades(uint64_t grey) {
    bool met = false;
    while (shade_count) met |= look(shades[--shade_count], grey);
    return met;
}

static void trace(uint64_t grey) {
    for (bool met = true; met;) {
        met = look(0, grey);
        met |= look_at_shades(grey);
        for (uint32_t c = 1; c <= cell_count; c++) {
            met |= look(c, grey);
            if (c < cell_count) met |= look_at_shades(grey);
        }
    }
    shade_count = 0;
}

static void sweep(uint64_t grey) {
    for (uint32_t c = 1; c <= cell_count; c++) {
        uint64_t colour;
        STEP(colour = atomic_load(&cells[c].colour), DG_COLLECTOR, DG_READ_COLOUR, c, 0, colour);
        if (colour == 0 || colour >= grey) continue;
        for (uint32_t w = 0; w < WORDS; w++) STEP(atomic_store(&cells[c].words[w], 0), DG_COLLECTOR, DG_CLEAR, c, w, 0);
        STEP(atomic_store(&cells[c].colour, 0), DG_COLLECTOR, DG_FREE, c, 0, 0);
    }
}

static void *collect(void *unused) {
    uint64_t before;
    for (uint64_t k = 1; atomic_load(&ended) < thread_count; k++) {
        if (!post(3 * k - 2) || !post(3 * k - 1)) break;
        STEP(before = raise_to(&globals_colour, 2 * k), DG_COLLECTOR, DG_MARK_FOUND, 0, 0, before);
        if (!post(3 * k)) break;
        trace(2 * k);
        sweep(2 * k);
    }
    (void)before;
    return unused;
}

/* ---- threads that use it ---- */

#define WORD(ref, number) ((word *)(ref) + (number))

/* Puts a list in the place of the one at the top, and cuts that one in two. */
static void put(uint64_t list) {
    struct frame frame = {me.frames, 2, {list, 0}};
    me.frames = &frame;
    frame.slot[1] = dg_read(&globals[TOP]);
    dg_safepoint();
    dg_write(&globals[TOP], frame.slot[0]);
    dg_safepoint();
    for (int i = 0; i < 3 && frame.slot[1]; i++) frame.slot[1] = dg_read(WORD(frame.slot[1], NEXT));
    if (frame.slot[1]) {
        dg_store(WORD(frame.slot[1], VALUE), 7);
        dg_write(WORD(frame.slot[1], NEXT), frame.slot[0]);
        dg_safepoint();
        dg_write(WORD(frame.slot[1], NEXT), 0);
    }
    me.frames = frame.next;
}

static void work(void) {
    struct frame frame = {0, 1, {0, 0}};
    me.frames = &frame;
    for (uint32_t round = 0; round < round_count; round++) {
        frame.slot[0] = 0;
        for (uint32_t i = 0; i < 8; i++) {
            dg_safepoint();
            uint64_t new = dg_alloc();
            if (!new) continue;
            dg_store(WORD(new, VALUE), i);
            dg_store(WORD(new, NEXT), frame.slot[0]);
            frame.slot[0] = new;
        }
        put(frame.slot[0]);
        dg_store(&globals[ROUNDS], round);
    }
    me.frames = 0;
}

static void *serve(void *number) {
    me.number = (uint32_t)(uintptr_t)number;
    take_stage(0);
    work();
    STEP(atomic_store(&stages[me.number], DG_DONE), me.number, DG_STORE_STAGE, 0, 0, DG_DONE);
    atomic_fetch_add(&ended, 1);
    return 0;
}

int main(int count, char **words) {
    pthread_t collector, threads[64];
    if (count < 2) return 2;
    if (count > 2) cell_count = (uint32_t)atol(words[2]);
    if (count > 3) thread_count = (uint32_t)atol(words[3]);
    if (count > 4) round_count = (uint32_t)atol(words[4]);
    if (thread_count > 64 || !(cells = calloc(cell_count + 1, sizeof *cells))) return 4;
    if (getenv("DG_STALL")) stall_one_of = (unsigned)atoi(getenv("DG_STALL"));
    dg_record_open(words[1]);
    pthread_create(&collector, 0, collect, 0);
    for (uint32_t t = 0; t < thread_count; t++) pthread_create(&threads[t], 0, serve, (void *)(uintptr_t)t);
    for (uint32_t t = 0; t < thread_count; t++) pthread_join(threads[t], 0);
    pthread_join(collector, 0);
    dg_record_close();
    return 0;
}
