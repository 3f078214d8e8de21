/* The answers of the library to a list of rows.

       rows LIST              prints the answer to each row
       rows LIST refuse N     refuses each Nth request for memory of each row's calls, alone, and then with all after it

   A line of the list is NAME CALL WIDE MODULE OTHER EDITS: CALL is check, make or recheck, WIDE 0 or 1, and OTHER the certificate or the shapes.
   Where there is no file, - stands. An answer is printed as a line `== NAME CALL STATUS LETTER NUMBER FUNCTION BLOCK INSTRUCTION LINE COLUMN
   RECHECKED TEXT EXPLANATION`, the last two of which are lengths, and then the two texts. Of a row of recheck there are two answers, of dgc_open
   (CALL is open) and of dgc_apply (apply). The program is linked with --wrap=malloc,realloc,free. */
#include "dgc.h"
#include "texts.h"

typedef struct {
    char name[256], call[16];
    bool wide;
    text module, other, edits;
} row;

static uint8_t room[1 << 22], explained[1 << 22];

/* ---- requests for memory */

void *__real_malloc(size_t size);
void *__real_realloc(void *at, size_t size);
void __real_free(void *at);
void *__wrap_malloc(size_t size);
void *__wrap_realloc(void *at, size_t size);
void __wrap_free(void *at);

/* From `watch` on requests are counted. The one with the number `refused` is refused, and all after it where `all` is set. */
static long live, made, refused_at;
static bool all_after, watched;

static bool is_refused(void) {
    if (!watched)
        return false;
    made++;
    return refused_at && (made == refused_at || (all_after && made > refused_at));
}

void *__wrap_malloc(size_t size) {
    void *at = is_refused() ? NULL : __real_malloc(size);
    live += at != NULL;
    return at;
}

void *__wrap_realloc(void *old, size_t size) {
    void *at = is_refused() ? NULL : __real_realloc(old, size);
    live += at && !old;
    return at;
}

void __wrap_free(void *at) {
    live -= at != NULL;
    __real_free(at);
}

static void watch(long at, bool all) {
    made = 0;
    refused_at = at;
    all_after = all;
    watched = true;
}

/* ---- calls */

typedef struct {
    uint32_t status;
    dgc_answer answer;
    size_t explanation;
} told;

static told check(const row *r) {
    told t = {0};
    t.status = dgc_check(r->wide, r->module.bytes, r->module.length, r->other.bytes, r->other.length, room, sizeof room, &t.answer);
    t.explanation = dgc_explain(r->wide, r->module.bytes, r->module.length, r->other.bytes, r->other.length, explained, sizeof explained);
    return t;
}

static told make(const row *r) {
    told t = {0};
    t.status = dgc_make(r->wide, r->module.bytes, r->module.length, r->other.bytes, r->other.length, room, sizeof room, &t.answer);
    t.explanation = dgc_explain_make(r->wide, r->module.bytes, r->module.length, r->other.bytes, r->other.length, explained, sizeof explained);
    return t;
}

static told begin(const row *r, dgc_session *session) {
    told t = {0};
    t.status = dgc_open(r->wide, r->module.bytes, r->module.length, r->other.bytes, r->other.length, room, sizeof room, &t.answer, session);
    return t;
}

static told apply(const row *r, dgc_session *session) {
    told t = {0};
    t.status = dgc_apply(*session, r->edits.bytes, r->edits.length, room, sizeof room, &t.answer, session);
    return t;
}

static bool is_call(const row *r, const char *call) { return !strcmp(r->call, call); }

/* ---- answers */

static void print(const row *r, const char *call, const told *t) {
    const dgc_place *p = &t->answer.place;
    if (t->status != t->answer.status || t->answer.unused)
        stop("another status in the answer of", r->name);
    printf("== %s %s %u %u %u %zu %zu %zu %zu %zu %llu %zu %zu\n", r->name, call, t->status, p->letter, p->number, p->function, p->block, p->instruction,
           p->line, p->column, (unsigned long long)t->answer.rechecked, t->answer.length, t->explanation);
    fwrite(room, 1, t->answer.length, stdout);
    fwrite(explained, 1, t->explanation, stdout);
}

static void answer(const row *r) {
    dgc_session session = {NULL};
    told t;
    if (!is_call(r, "recheck")) {
        t = is_call(r, "make") ? make(r) : check(r);
        print(r, r->call, &t);
        return;
    }
    t = begin(r, &session);
    print(r, "open", &t);
    if ((session.at != NULL) != (t.status <= DGC_NO))
        stop("a session and no verdict, or the other way round:", r->name);
    if (!session.at)
        return;
    t = apply(r, &session);
    print(r, "apply", &t);
    dgc_close(session);
}

/* ---- refused memory */

typedef struct {
    told last;       /* of the last call */
    bool is_opened;  /* of a session */
    size_t length;   /* of the text */
    uint64_t sum;    /* of the text's bytes */
} outcome;

static const char NO_MEMORY[] = "error memory\n", UNEXPLAINED[] = "no memory to explain it\n";
static long tries, refusals, wrong;

static uint64_t sum_of(const uint8_t *bytes, size_t length) {
    uint64_t sum = 14695981039346656037u;
    for (size_t i = 0; i < length; i++)
        sum = (sum ^ bytes[i]) * 1099511628211u;
    return sum;
}

static outcome kept(told t, bool is_opened) {
    outcome o = {t, is_opened, t.answer.length, sum_of(room, t.answer.length)};
    return o;
}

static void complain(const row *r, const char *what, long at) {
    printf("WRONG %s: %s, where request %ld is refused%s\n", r->name, what, at, all_after ? " and all after it" : "");
    wrong++;
}

/* A session in which memory was refused for an edit is used again: it has a verdict. */
static void use_again(const row *r, dgc_session *session, long at) {
    dgc_answer a;
    watched = false;
    if (dgc_apply(*session, NULL, 0, NULL, 0, &a, session) > DGC_NO)
        complain(r, "the session has no verdict afterwards", at);
}

static outcome session_outcome(const row *r, long at) {
    dgc_session session = {NULL};
    outcome o = kept(begin(r, &session), false);
    if ((session.at != NULL) != (o.last.status <= DGC_NO))
        complain(r, "a session and no verdict, or the other way round", at);
    if (session.at) {
        o = kept(apply(r, &session), true);
        use_again(r, &session, at);
        dgc_close(session);
    }
    return o;
}

static outcome outcome_of(const row *r, long at, bool all) {
    watch(at, all);
    outcome o = is_call(r, "recheck") ? session_outcome(r, at) : kept(is_call(r, "make") ? make(r) : check(r), false);
    watched = false;
    tries++;
    return o;
}

static bool is_memory(const outcome *o) {
    return o->last.status == DGC_NO_MEMORY && o->length == sizeof NO_MEMORY - 1 && !memcmp(room, NO_MEMORY, o->length);
}

static bool is_same(const outcome *a, const outcome *b) {
    return a->last.status == b->last.status && a->length == b->length && a->sum == b->sum && a->is_opened == b->is_opened;
}

static bool is_explained(const outcome *a, const outcome *wanted) {
    return a->last.explanation == wanted->last.explanation || (a->last.explanation == sizeof UNEXPLAINED - 1 && !memcmp(explained, UNEXPLAINED, sizeof UNEXPLAINED - 1));
}

/* Refuses each Nth request, until a run makes no request with the number. */
static void refuse(const row *r, long every, bool all) {
    long before = live;
    outcome wanted = outcome_of(r, 0, false);
    long requests = made;
    for (long at = 1; at <= requests; at += every) {
        outcome o = outcome_of(r, at, all);
        if (is_memory(&o))
            refusals++;
        else if (!is_same(&o, &wanted))
            complain(r, "another answer", at);
        if (!is_explained(&o, &wanted))
            complain(r, "another explanation", at);
        if (live != before)
            complain(r, "memory is kept", at);
        live = before;
    }
}

int main(int count, char **words) {
    row r;
    char module[1024], other[1024], edits[1024];
    int wide;
    long rows = 0;
    FILE *list = count > 1 ? fopen(words[1], "r") : NULL;
    if (!list)
        stop("rows LIST [refuse N]", "");
    while (fscanf(list, "%255s %15s %d %1023s %1023s %1023s", r.name, r.call, &wide, module, other, edits) == 6) {
        r.wide = wide;
        r.module = text_at(module);
        r.other = text_at(other);
        r.edits = text_at(edits);
        rows++;
        if (count < 4) {
            answer(&r);
        } else {
            refuse(&r, atol(words[3]), false);
            refuse(&r, atol(words[3]), true);
        }
        free(r.module.bytes);
        free(r.other.bytes);
        free(r.edits.bytes);
    }
    fclose(list);
    if (count > 3)
        printf("%ld rows, %ld runs, %ld with error memory, %ld wrong\n", rows, tries, refusals, wrong);
    return wrong != 0;
}
