/* dgrecord.h: writes the record of a run for `dgc conform`. docs/RECORDS.md has the format.

   Each step of the run and its entry are made under one lock, so the entries come in the order of the steps. Without
   DG_RECORD defined the macros make the step and nothing else, so they may stay in the source.

       DG_STEP(value = atomic_load(place), thread, DG_READ_WORD, cell, word, value);

   The statement is made first, and may set what the entry then says. A thread's answer names its roots before its stage, in the
   order in which it marked them, under the same lock:

       DG_BEGIN();
       for (each root) DG_ENTRY(thread, DG_ROOT, cell, 0, 0);
       atomic_store(&stage_word, stage);
       DG_ENTRY(thread, DG_STORE_STAGE, 0, 0, stage);
       DG_END();

   One file of the program says #define DG_RECORD_HERE before it includes this one. */
#ifndef DGRECORD_H
#define DGRECORD_H

#include <stdint.h>

enum dg_kind {
    /* of a thread, numbered from 0 */
    DG_READ_WORD = 1,      /* cell, word, value found */
    DG_READ_OLD = 2,       /* cell, word, value found: the read of a store with the barrier */
    DG_MARK = 3,           /* cell */
    DG_STORE = 4,          /* cell, word, value: the store after the barrier */
    DG_STORE_PLAIN = 5,    /* cell, word, value */
    DG_CLAIM = 6,          /* cell, which is won */
    DG_CLAIM_LOST = 7,     /* cell, which was not free */
    DG_READ_POSTED = 8,    /* value: the stage found */
    DG_STORE_STAGE = 9,    /* value: the stage stored, or DG_DONE */
    DG_READ_FIRST = 10,    /* of a late thread: value: the stage found */
    DG_ENTER = 11,         /* of a late thread: value: the stage stored */
    DG_READ_AGAIN = 12,    /* of a late thread: value: the stage found */
    DG_ROOT = 13,          /* cell: no step; a root that the next DG_STORE_STAGE names */
    /* of the collector */
    DG_POST = 21,          /* value: the stage */
    DG_READ_STAGE = 22,    /* cell: the thread; value: the stage found */
    DG_MARK_FOUND = 23,    /* cell; value: the colour before */
    DG_READ_COLOUR = 24,   /* cell; value: the colour found */
    DG_SCAN = 25,          /* cell, word, value found */
    DG_BLACKEN = 26,       /* cell */
    DG_CLEAR = 27,         /* cell, word */
    DG_FREE = 28           /* cell */
};

#define DG_COLLECTOR 255
#define DG_DONE UINT64_MAX

#ifdef DG_RECORD
/* Opens the file to which the record is written, and closes it. Steps before the first and after the last are lost. */
void dg_record_open(const char *path);
void dg_record_close(void);
void dg_record_lock(void);
void dg_record_unlock(void);
void dg_record_entry(unsigned actor, enum dg_kind kind, uint32_t cell, uint32_t word, uint64_t value);
#define DG_BEGIN() dg_record_lock()
#define DG_END() dg_record_unlock()
#define DG_ENTRY(actor, kind, cell, word, value) dg_record_entry((actor), (kind), (cell), (word), (value))
#else
#define dg_record_open(path) ((void)0)
#define dg_record_close() ((void)0)
#define DG_BEGIN() ((void)0)
#define DG_END() ((void)0)
#define DG_ENTRY(actor, kind, cell, word, value) ((void)0)
#endif

#define DG_STEP(statement, actor, kind, cell, word, value)                                                                   \
    do {                                                                                                                     \
        DG_BEGIN();                                                                                                          \
        statement;                                                                                                           \
        DG_ENTRY(actor, kind, cell, word, value);                                                                            \
        DG_END();                                                                                                            \
    } while (0)

#if defined DG_RECORD && defined DG_RECORD_HERE
#include <pthread.h>
#include <stdio.h>
#include <stdlib.h>

static pthread_mutex_t dg_record_mutex = PTHREAD_MUTEX_INITIALIZER;
static FILE *dg_record_file;

void dg_record_lock(void) { pthread_mutex_lock(&dg_record_mutex); }
void dg_record_unlock(void) { pthread_mutex_unlock(&dg_record_mutex); }

void dg_record_open(const char *path) {
    dg_record_file = fopen(path, "wb");
    if (!dg_record_file) { perror(path); exit(4); }
    /* Where DG_RECORD_EACH is set each entry is written at once, for a program that crashes. */
    setvbuf(dg_record_file, 0, getenv("DG_RECORD_EACH") ? _IONBF : _IOFBF, 1 << 20);
}

void dg_record_close(void) {
    pthread_mutex_lock(&dg_record_mutex);
    if (dg_record_file && fclose(dg_record_file)) { perror("the record"); exit(4); }
    dg_record_file = 0;
    pthread_mutex_unlock(&dg_record_mutex);
}

/* The lowest byte first, whatever the machine. */
void dg_record_entry(unsigned actor, enum dg_kind kind, uint32_t cell, uint32_t word, uint64_t value) {
    unsigned char entry[16] = {(unsigned char)actor, (unsigned char)kind, (unsigned char)word, (unsigned char)(word >> 8)};
    for (int i = 0; i < 4; i++) entry[4 + i] = (unsigned char)(cell >> 8 * i);
    for (int i = 0; i < 8; i++) entry[8 + i] = (unsigned char)(value >> 8 * i);
    if (dg_record_file && fwrite(entry, 16, 1, dg_record_file) != 1) { perror("the record"); exit(4); }
}
#endif
#endif
