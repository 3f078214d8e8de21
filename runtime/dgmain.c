/* dgmain.c: runs the threads of a trace (docs/TRACES.md) natively, as `dgc run` does; the trace's steps are left out.

       PROGRAM TRACE [RECORD [STEPS]]

   It prints how each thread ended and what the collector did, and on standard error times. Of a recorder RECORD is the file of the
   record, and STEPS that of a trace that makes the same steps. Names are compared without their quotes. */
#define _GNU_SOURCE
#include "dgrt.h"
#include <inttypes.h>
#include <pthread.h>
#include <stdbool.h>
#include <stdio.h>
#include <stdlib.h>
#include <string.h>
#include <time.h>

struct job { pthread_t thread; const struct dg_start *start; uint64_t arguments[64], count, result, time; bool is_late, has_ended; };
static struct job jobs[DG_THREADS];
static uint32_t job_count, *cells;

static void fail(const char *what, const char *of) {
    fprintf(stderr, "%s: %s\n", what, of);
    exit(2);
}

static uint64_t now(clockid_t clock) {
    struct timespec time;
    clock_gettime(clock, &time);
    return (uint64_t)time.tv_sec * 1000000000u + (uint64_t)time.tv_nsec;
}

/* The next word of a line, without its quotes; null at the line's end. Between quotes, spaces and `;` belong to it. */
static char *next_word(char **rest) {
    bool is_quoted = false;
    char *from = *rest + strspn(*rest, " \r\n"), *to = from, *at = from;
    if (!*from || *from == ';') return 0;
    for (; *at && (is_quoted || !strchr(" ;\r\n", *at)); at++)
        if (*at == '"') is_quoted = !is_quoted; else *to++ = *at;
    *rest = *at && *at != ';' ? at + 1 : "";
    *to = 0;
    return from;
}

/* Whether a name of the module's text is this word. */
static bool is_name(const char *name, const char *word) {
    for (; *name; name++) if (*name != '"' && *name != *word++) return false;
    return !*word;
}

static void read_pool(char **rest) {
    char *name = next_word(rest), *count = next_word(rest);
    if (!count) fail("a pool without a number", name ? name : "");
    for (uint64_t i = 0; i < dg_layout_count; i++)
        if (is_name(dg_layout_names[i], name)) { cells[i] = (uint32_t)strtoul(count, 0, 10); return; }
    fail("no such layout", name);
}

static void read_start(char **rest, bool is_late) {
    char *name = next_word(rest);
    if (!name || job_count == DG_THREADS) fail("too many threads, or one without a function", name ? name : "");
    struct job *job = &jobs[job_count++];
    job->is_late = is_late;
    for (uint64_t i = 0; i < dg_start_count; i++) if (*name == '@' && is_name(dg_starts[i].name, name + 1)) job->start = &dg_starts[i];
    if (!job->start) fail("no such function with integer parameters alone", name);
    for (char *word; (word = next_word(rest)) != 0 && job->count < 64;) job->arguments[job->count++] = strtoull(word, 0, 10);
    if (job->count != job->start->parameters) fail("it takes another number of arguments", name);
}

/* Reads the lines before the steps. Where there is a file of steps they are copied into it. */
static void read_trace(const char *path, FILE *steps) {
    FILE *file = fopen(path, "r");
    char *line = 0, *rest, *word;
    size_t room = 0;
    if (!file) { perror(path); exit(4); }
    while (getline(&line, &room, file) > 0) {
        if (steps) fputs(line, steps);
        rest = line;
        if (!(word = next_word(&rest))) continue;
        if (!strcmp(word, "steps")) break;
        if (!strcmp(word, "pool")) read_pool(&rest);
        else if (!strcmp(word, "start") || !strcmp(word, "late")) read_start(&rest, *word == 'l');
        else if (strcmp(word, "trace")) fail("no line of a trace", word);
    }
    free(line);
    fclose(file);
}

static void *serve(void *of) {
    struct job *job = of;
    dg_attach((int)(job - jobs));
    job->result = job->start->run(job->arguments);
    if (job->start->result == DG_REFERENCE) job->result = dg_number((void *)job->result);
    dg_detach();
    job->time = now(CLOCK_THREAD_CPUTIME_ID);
    return 0;
}

static void print_jobs(void) {
    for (uint32_t t = 0; t < job_count; t++) {
        const struct job *job = &jobs[t];
        if (job->has_ended) printf("t %" PRIu32 " ended\n", t);
        else if (job->start->result == DG_NOTHING) printf("t %" PRIu32 " returned\n", t);
        else if (job->start->result == DG_INTEGER) printf("t %" PRIu32 " returned %" PRIu64 "\n", t, job->result);
        else if (job->result) printf("t %" PRIu32 " returned ref %" PRIu64 "\n", t, job->result);
        else printf("t %" PRIu32 " returned null\n", t);
    }
}

static void print_counts(const struct dg_counts *counts, uint64_t wall) {
    uint64_t time = 0;
    for (uint32_t t = 0; t < job_count; t++) time += jobs[t].time;
    printf("claims %" PRIu64 " frees %" PRIu64 " cycles %" PRIu64 "\n", counts->claims, counts->frees, counts->cycles);
    const struct { const char *name; uint64_t value; } numbers[] = {
        {"wall_ns", wall}, {"threads_ns", time}, {"collector_ns", counts->collector_time}, {"longest_answer_ns", counts->longest_answer},
        {"longest_request_ns", counts->longest_request}, {"longest_cycle_ns", counts->longest_cycle}, {"answers", counts->answers},
        {"nulls", counts->nulls}, {"tries", counts->tries}, {"passes", counts->passes},
    };
    for (size_t i = 0; i < sizeof numbers / sizeof *numbers; i++) fprintf(stderr, "%s %" PRIu64 "%c", numbers[i].name, numbers[i].value, i + 1 < sizeof numbers / sizeof *numbers ? ' ' : '\n');
}

int main(int count, char **words) {
    struct dg_counts counts;
    struct dg_setup setup = {.record = count > 2 ? words[2] : 0, .trace = count > 3 ? words[3] : 0};
    FILE *steps = count > 3 ? fopen(words[3], "w") : 0;
    if (count < 2) fail("PROGRAM TRACE [RECORD [STEPS]]", "the trace is missing");
    if (count > 3 && !steps) { perror(words[3]); return 4; }
    cells = calloc(dg_layout_count + 1, sizeof *cells);
    if (!cells) return 4;
    read_trace(words[1], steps);
    if (steps && fclose(steps)) { perror(words[3]); return 4; }
    for (uint32_t t = 0; t < job_count; t++) setup.early |= (uint64_t)!jobs[t].is_late << t;
    setup.cells = cells;
    setup.threads = job_count;
    int error = dg_open(&setup);
    if (error) fail("the heap cannot be made", strerror(error));
    uint64_t begun = now(CLOCK_MONOTONIC);
    for (uint32_t t = 0; t < job_count; t++)
        if ((error = pthread_create(&jobs[t].thread, 0, serve, &jobs[t])) != 0) fail("no thread", strerror(error));
    for (uint32_t t = 0; t < job_count; t++) {
        void *ended;
        pthread_join(jobs[t].thread, &ended);
        jobs[t].has_ended = ended == dg_ended;
    }
    uint64_t wall = now(CLOCK_MONOTONIC) - begun;
    dg_close(&counts);
    print_jobs();
    print_counts(&counts, wall);
    return 0;
}
