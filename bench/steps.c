/* Makes the atomic steps of a trace of one program, without any check: for comparison with `dgc replay`.

       steps TRACE

   The program is the one that replays.py writes: each thread claims a cell, keeps it in its root slot, stores it in the
   global with the barrier, comes to a safepoint, and does so again. The cells are of two words, an integer and a
   reference. Prints what `dgc replay` prints of the same trace. The collector and the barrier are those of
   docs/COLLECTOR.md, and so is the order in which a thread tries cells: from its hint on. */
#include <stdint.h>
#include <stdio.h>
#include <stdlib.h>
#include <string.h>

enum { THREADS = 64, WORDS = 2, REFERENCE = 1 };

/* Where a thread stands: the four instructions before its loop, and the steps of a round. */
enum place { ENTRY, CLAIM = 4, CAST, KEEP, READ_OLD, MARK_OLD, MARK_NEW, STORE, READ_POSTED, MARK_ROOT, ANSWER, BACK };

struct thread {
    enum place place;
    uint64_t stage, answer;
    uint32_t hint; /* the place in the pool after the cell won last */
    uint32_t tried, got, slot, old;
};

/* What the collector does next. */
enum turn { POST_FIRST, WAIT_FIRST, POST_SECOND, WAIT_SECOND, MARK_GLOBALS, POST_THIRD, WAIT_THIRD, LOOK, SCAN, MARK_FOUND, BLACKEN, SWEEP, CLEAR, FREE };

static uint64_t posted, *colour, global_word, (*words)[WORDS];
static uint32_t cells; /* with the cell of the globals */
static struct thread thread[THREADS];
static uint32_t threads;
static uint64_t steps, claims, frees;

static enum turn turn;
static uint64_t cycle = 1;
static uint32_t cell, word, in_hand, asked;
static int met_grey;

static uint64_t cycle_of(uint64_t stage) { return (stage + 2) / 3; }

static void mark(uint32_t marked, uint64_t k) {
    if (colour[marked] < 2 * k) colour[marked] = 2 * k;
}

static void claim(struct thread *t) {
    uint64_t k = cycle_of(t->stage);
    uint32_t count = cells - 1, place = t->hint + t->tried++;
    uint32_t next = place < count ? place + 1 : place - count + 1;
    if (colour[next] == 0) {
        colour[next] = t->stage % 3 == 0 ? 2 * k + 1 : 2 * k - 1;
        t->got = t->hint = next;
        claims++;
    } else if (t->tried < count) {
        return;
    } else {
        t->got = 0;
    }
    t->tried = 0;
    t->place = CAST;
}

static enum place after_old(const struct thread *t) { return t->stage % 3 != 0 && t->got != 0 ? MARK_NEW : STORE; }

static void step_of_thread(struct thread *t) {
    switch (t->place) {
    case CLAIM: claim(t); break;
    case KEEP: t->slot = t->got; t->place = READ_OLD; break;
    case READ_OLD: t->old = (uint32_t)global_word; t->place = t->old != 0 ? MARK_OLD : after_old(t); break;
    case MARK_OLD: mark(t->old, cycle_of(t->stage)); t->place = after_old(t); break;
    case MARK_NEW: mark(t->got, cycle_of(t->stage)); t->place = STORE; break;
    case STORE: global_word = t->got; t->place = READ_POSTED; break;
    case READ_POSTED:
        t->answer = posted;
        t->place = t->answer == t->stage ? BACK : t->answer % 3 == 0 && t->slot != 0 ? MARK_ROOT : ANSWER;
        break;
    case MARK_ROOT: mark(t->slot, cycle_of(t->stage)); t->place = ANSWER; break;
    case ANSWER: t->stage = t->answer; t->place = BACK; break;
    case BACK: t->place = CLAIM; break;
    default: t->place++; break;
    }
}

static void post(uint64_t stage, enum turn next) {
    posted = stage;
    asked = 0;
    turn = threads == 0 ? next + 1 : next;
}

/* Reads a thread's stage; after the last one that has answered comes the turn after waiting. */
static void wait_for_threads(void) {
    if (thread[asked].stage == posted && ++asked == threads) turn++;
}

static void next_cell(void) {
    cell++;
    turn = LOOK;
    if (cell < cells) return;
    cell = met_grey ? 0 : 1;
    turn = met_grey ? LOOK : SWEEP;
    met_grey = 0;
    if (turn == SWEEP && cell == cells) { cycle++; turn = POST_FIRST; }
}

static void look(void) {
    if (colour[cell] != 2 * cycle) { next_cell(); return; }
    met_grey = 1;
    turn = SCAN;
}

static void scan(void) {
    in_hand = (uint32_t)(cell == 0 ? global_word : words[cell][REFERENCE]);
    turn = in_hand != 0 ? MARK_FOUND : BLACKEN;
}

static void next_swept(void) {
    cell++;
    turn = SWEEP;
    if (cell == cells) { cycle++; turn = POST_FIRST; }
}

static void sweep(void) {
    if (colour[cell] == 0 || colour[cell] >= 2 * cycle) { next_swept(); return; }
    word = 0;
    turn = CLEAR;
}

static void step_of_collector(void) {
    switch (turn) {
    case POST_FIRST: post(3 * cycle - 2, WAIT_FIRST); break;
    case POST_SECOND: post(3 * cycle - 1, WAIT_SECOND); break;
    case MARK_GLOBALS: mark(0, cycle); turn = POST_THIRD; break;
    case POST_THIRD: post(3 * cycle, WAIT_THIRD); cell = 0; met_grey = 0; break;
    case WAIT_FIRST: case WAIT_SECOND: case WAIT_THIRD: wait_for_threads(); break;
    case LOOK: look(); break;
    case SCAN: scan(); break;
    case MARK_FOUND: mark(in_hand, cycle); turn = BLACKEN; break;
    case BLACKEN: colour[cell] = 2 * cycle + 1; next_cell(); break;
    case SWEEP: sweep(); break;
    case CLEAR: words[cell][word] = 0; if (++word == WORDS) turn = FREE; break;
    case FREE: colour[cell] = 0; frees++; next_swept(); break;
    }
}

static void read_line(const char *line, uint32_t *pool) {
    uint32_t who, count;
    if (sscanf(line, "pool Node %u", &count) == 1) {
        *pool = count;
    } else if (strncmp(line, "start", 5) == 0) {
        threads++;
    } else if (strcmp(line, "steps\n") == 0) {
        cells = *pool + 1;
        colour = calloc(cells, sizeof *colour);
        words = calloc(cells, sizeof *words);
        if (colour == NULL || words == NULL) exit(3);
        colour[0] = 1;
    } else if (sscanf(line, "t %u %u", &who, &count) == 2) {
        for (steps += count; count > 0; count--) step_of_thread(&thread[who]);
    } else if (sscanf(line, "c %u", &count) == 1) {
        for (steps += count; count > 0; count--) step_of_collector();
    }
}

int main(int argc, char **argv) {
    FILE *trace = argc == 2 ? fopen(argv[1], "r") : NULL;
    char line[256];
    uint32_t pool = 0;
    if (trace == NULL) return 4;
    while (fgets(line, sizeof line, trace) != NULL) read_line(line, &pool);
    printf("sound %llu\n", (unsigned long long)steps);
    for (uint32_t t = 0; t < threads; t++) printf("t %u running %llu\n", t, (unsigned long long)thread[t].stage);
    printf("claims %llu frees %llu posted %llu\n", (unsigned long long)claims, (unsigned long long)frees, (unsigned long long)posted);
    return 0;
}
