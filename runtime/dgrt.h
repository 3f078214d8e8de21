/* dgrt.h: a collector of the profile of docs/COLLECTOR.md, for threads of POSIX. docs/NATIVE.md tells how to use it, and what it leaves out.

       uint32_t cells[] = {100000};                 a number for each layout, in the order of the text
       dg_open(&(struct dg_setup){.cells = cells});
       dg_attach(DG_ANY);                           in each thread that calls functions of the module
       work(1, 2, 3);                               such a function
       dg_detach();
       dg_close(0);                                 once all threads are detached */
#ifndef DGRT_H
#define DGRT_H

#include <stdint.h>

/* The interface is everything in this file, and the tables that it declares. A program that was compiled with this file is linked only
   with a runtime of the same interface. */
#define DG_INTERFACE 1
extern const uint32_t dg_interface_1;
static const uint32_t *const dg_interface_wanted __attribute__((used)) = &dg_interface_1;

/* ---- what a lowered module gives (docs/LOWERING.md) ---- */

struct dg_layout { uint64_t words, references; };         /* how many words; bit k says that word k is a reference */
struct dg_global { void *place; uint64_t is_reference; };
enum dg_result { DG_NOTHING, DG_INTEGER, DG_REFERENCE };
/* A function with integer parameters alone. `run` takes them in an array, and gives its result as an integer. */
struct dg_start { const char *name; uint64_t (*run)(const uint64_t *arguments); uint64_t parameters, result; };
extern const struct dg_layout dg_layouts[];
extern const struct dg_global dg_globals[];
extern const struct dg_start dg_starts[];
extern const char *const dg_layout_names[];
extern const uint64_t dg_layout_count, dg_global_count, dg_start_count;

/* ---- what a lowered module calls ---- */

void *dg_alloc(int32_t layout);              /* the first word of a new cell, or null where each cell of the pool was tried in vain */
void dg_safepoint(void);
void dg_write(void *value, void *place);     /* a store with the barrier */
_Noreturn void dg_end(void);                 /* the thread ends: pthread_exit(dg_ended) */
uint64_t dg_read(void *place);               /* these three are called by text that was lowered with --record alone */
void dg_store(void *place, uint64_t value);
void dg_local(uint32_t instructions);        /* so many instructions before the next step touch no shared word */
extern char dg_ended[];

/* ---- what a program calls ---- */

#define DG_THREADS 64 /* at one time */
#define DG_ANY (-1)

struct dg_setup {
    const uint32_t *cells; /* how many cells there are of each layout */
    uint32_t threads;      /* the threads have numbers below this one; 0 means DG_THREADS */
    uint64_t early;        /* bit n: thread n is there from the start, and the collector waits for it; the others come late */
    const char *record, *trace; /* of a recorder: the files of the record, and of the trace that makes the same steps */
};
struct dg_counts {
    uint64_t claims, tries, nulls, answers, longest_answer, longest_request; /* of all threads that were detached; times in ns */
    uint64_t cycles, passes, frees, longest_cycle, collector_time;
};

/* Makes the heap, and starts the collector's thread. Gives 0, or an error number of errno.h: EINVAL for too many cells or threads.
   A process has one heap at a time. */
int dg_open(const struct dg_setup *setup);
/* The calling thread begins, as one of the early ones or late; DG_ANY takes a free number. Gives its number, or -1 where it is taken
   or none is free. A thread that is attached comes by a safepoint again and again, or it keeps the collector waiting. */
int dg_attach(int number);
/* It ends. It has no references afterwards, and may attach again. Around a wait outside of the module, between two calls of its
   functions, this pair keeps the collector going. */
void dg_detach(void);
/* Ends the collector, and gives the heap back. Every thread is detached. */
void dg_close(struct dg_counts *counts);
/* The number of the cell that a reference leads to (docs/COLLECTOR.md), and 0 for null. */
uint32_t dg_number(const void *reference);

#endif
