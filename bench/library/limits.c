/* What include/dgc.h says of the limits of the library, tried.

       limits MODULE REFUSED CERT        a module that is accepted with the certificate, and one that is refused
       limits time MODULE CERT CALLS     how long a call takes

   It prints a line for each thing, which begins with ok or WRONG, and ends with 1 where there is a WRONG. */
#define _GNU_SOURCE
#include "dgc.h"
#include "texts.h"
#include <pthread.h>
#include <sys/mman.h>
#include <time.h>

enum { TEXT_LIMIT = 1 << 24, DEEPEST = 64, STACK = 1 << 26, CALLS = 200 };

static text module, refused, certificate;
static int failed;

static void tell(const char *name, bool is_so) {
    printf("%s %s\n", is_so ? "ok   " : "WRONG", name);
    failed |= !is_so;
}

typedef struct {
    uint32_t status;
    size_t length;
    char line[128]; /* the front of the text */
} said;

static said check(text m, text c) {
    said s = {0};
    dgc_answer a;
    s.status = dgc_check(false, m.bytes, m.length, c.bytes, c.length, (uint8_t *)s.line, sizeof s.line - 1, &a);
    s.length = a.length;
    return s;
}

static bool is(said s, uint32_t status, const char *line) { return s.status == status && !strcmp(s.line, line); }

/* ---- lengths of 0 */

static const text NONE = {NULL, 0};

static void try_null(void) {
    dgc_answer a;
    dgc_session session = {NULL};
    said s = check(NONE, certificate);
    tell("NULL as an empty module is read as \"\"", is(s, DGC_UNREADABLE, check((text){(uint8_t *)"", 0}, certificate).line));
    s = check(module, NONE);
    tell("NULL as an empty certificate is read as \"\"", is(s, DGC_UNREADABLE, check(module, (text){(uint8_t *)"", 0}).line));
    tell("NULL as no room: the status, and the length of the text",
         dgc_check(false, module.bytes, module.length, certificate.bytes, certificate.length, NULL, 0, &a) == DGC_YES && a.length == strlen("yes 1\n"));
    tell("NULL in each place of dgc_check", dgc_check(false, NULL, 0, NULL, 0, NULL, 0, &a) == DGC_UNREADABLE);
    tell("NULL in each place of dgc_make", dgc_make(false, NULL, 0, NULL, 0, NULL, 0, &a) == DGC_YES);
    tell("NULL in each place of dgc_explain", dgc_explain(false, NULL, 0, NULL, 0, NULL, 0) > 0);
    tell("NULL in each place of dgc_explain_make", dgc_explain_make(false, NULL, 0, NULL, 0, NULL, 0) == 0);
    tell("NULL in each place of dgc_version", dgc_version(NULL, 0) > 0);
    tell("NULL in each place of dgc_open", dgc_open(false, NULL, 0, NULL, 0, NULL, 0, &a, &session) == DGC_UNREADABLE && !session.at);
    dgc_open(false, module.bytes, module.length, certificate.bytes, certificate.length, NULL, 0, &a, &session);
    tell("NULL as no edits and no room: the verdict stays", session.at && dgc_apply(session, NULL, 0, NULL, 0, &a, &session) == DGC_YES && a.length == 0);
    dgc_close(session);
    dgc_close((dgc_session){NULL});
}

/* ---- the room */

static void tell_version(void) {
    char version[64] = "";
    size_t length = dgc_version((uint8_t *)version, sizeof version - 1);
    printf("version: %s\n", version);
    tell("the interface is that of dgc.h, and the version says whether the archive is proved",
         dgc_interface() == DGC_INTERFACE && length < sizeof version && (strstr(version, ", proved") || strstr(version, ", not proved")));
}

static void try_room(void) {
    uint8_t room[8];
    dgc_answer a;
    memset(room, '.', sizeof room);
    dgc_check(false, refused.bytes, refused.length, certificate.bytes, certificate.length, room, 4, &a);
    tell("a short room has the front of the text, and nothing behind it is written", !memcmp(room, "no @....", sizeof room) && a.length > 4);
    memset(room, '.', sizeof room);
    dgc_check(false, module.bytes, module.length, certificate.bytes, certificate.length, room, sizeof room, &a);
    tell("a long room keeps what lies behind the text", !memcmp(room, "yes 1\n..", sizeof room));
}

/* ---- long texts */

static text of_length(text front, size_t length) {
    text all = {malloc(length), length};
    if (!all.bytes)
        stop("no memory", "");
    memset(all.bytes, ' ', length);
    memcpy(all.bytes, front.bytes, front.length);
    return all;
}

static void try_length(void) {
    text longest = of_length(module, TEXT_LIMIT), too_long = of_length(module, TEXT_LIMIT + 1), cert = of_length(certificate, TEXT_LIMIT);
    tell("a module of 16 MiB is read", is(check(longest, certificate), DGC_YES, "yes 1\n"));
    tell("one byte more is L8", !strncmp(check(too_long, certificate).line, "error L8", 8));
    tell("a certificate of 16 MiB is read", is(check(module, cert), DGC_YES, "yes 1\n"));
    free(longest.bytes);
    free(too_long.bytes);
    free(cert.bytes);
}

/* ---- deep types, and the stack */

/* The text with a struct whose type has so many levels: the struct, arrays within one another, and an integer. */
static text with_depth(text front, size_t depth) {
    size_t most = front.length + 64 + 16 * depth;
    text all = {malloc(most), 0};
    if (!all.bytes)
        stop("no memory", "");
    char *at = (char *)all.bytes;
    memcpy(at, front.bytes, front.length);
    at += front.length;
    at += sprintf(at, "%%deep = type { ");
    for (size_t i = 2; i < depth; i++)
        at += sprintf(at, "[1 x ");
    at += sprintf(at, "i64");
    for (size_t i = 2; i < depth; i++)
        *at++ = ']';
    at += sprintf(at, " }\n");
    all.length = (size_t)(at - (char *)all.bytes);
    return all;
}

typedef struct {
    text module, certificate;
    bool (*call)(text module, text certificate);
    bool is_right;
} task;

static void *run(void *given) {
    task *t = given;
    t->is_right = t->call(t->module, t->certificate);
    return NULL;
}

/* How many bytes of its stack a thread wrote. A part of it is the thread's own. */
static size_t stack_of(task *t) {
    uint8_t *stack = mmap(NULL, STACK, PROT_READ | PROT_WRITE, MAP_PRIVATE | MAP_ANONYMOUS | MAP_NORESERVE, -1, 0);
    pthread_attr_t attributes;
    pthread_t thread;
    if (stack == MAP_FAILED)
        stop("no memory", "");
    pthread_attr_init(&attributes);
    pthread_attr_setstack(&attributes, stack, STACK);
    if (pthread_create(&thread, &attributes, run, t))
        stop("no thread", "");
    pthread_join(thread, NULL);
    pthread_attr_destroy(&attributes);
    size_t untouched = 0;
    while (untouched < STACK && !stack[untouched])
        untouched++;
    munmap(stack, STACK);
    return STACK - untouched;
}

static bool nothing(text m, text c) { return m.length && c.length; }
static bool checks(text m, text c) { return check(m, c).status != DGC_NO_MEMORY; }

static bool explains(text m, text c) {
    static uint8_t told[1 << 16];
    dgc_explain(false, m.bytes, m.length, c.bytes, c.length, told, sizeof told);
    dgc_explain_make(false, m.bytes, m.length, NULL, 0, told, sizeof told);
    return true;
}

static bool makes(text m, text c) {
    dgc_answer a;
    (void)c;
    return dgc_make(false, m.bytes, m.length, NULL, 0, NULL, 0, &a) != DGC_NO_MEMORY;
}

static bool edits(text m, text c) {
    static const char EDIT[] = "edit code @swap\ndefine void @swap() {\nentry:\n  ret void\n}\n.\n";
    dgc_answer a;
    dgc_session session = {NULL};
    if (dgc_open(false, m.bytes, m.length, c.bytes, c.length, NULL, 0, &a, &session) > DGC_NO)
        return a.status != DGC_NO_MEMORY;
    uint32_t status = dgc_apply(session, (const uint8_t *)EDIT, sizeof EDIT - 1, NULL, 0, &a, &session);
    dgc_close(session);
    return status <= DGC_NO;
}

static void tell_stack(const char *what, text m, text c) {
    static const struct {
        const char *name;
        bool (*call)(text, text);
    } calls[] = {{"check", checks}, {"make", makes}, {"explain", explains}, {"open and apply", edits}};
    task idle = {m, c, nothing, false};
    size_t own = stack_of(&idle);
    printf("stack %s:", what);
    bool right = true;
    for (size_t i = 0; i < sizeof calls / sizeof *calls; i++) {
        task t = {m, c, calls[i].call, false};
        size_t bytes = stack_of(&t);
        right &= t.is_right;
        printf("%s %s %zu KiB", i ? "," : "", calls[i].name, bytes > own ? (bytes - own + 1023) / 1024 : 0);
    }
    printf("\n");
    tell(what, right);
}

static void try_depth(void) {
    text deepest = with_depth(module, DEEPEST), too_deep = with_depth(module, DEEPEST + 1), deep = with_depth(module, 1000000);
    tell("types of 64 levels are read", is(check(deepest, certificate), DGC_YES, "yes 1\n"));
    tell("level 65 is L8", !strncmp(check(too_deep, certificate).line, "error L8", 8));
    tell("level 1,000,000 is L8", !strncmp(check(deep, certificate).line, "error L8", 8));
    tell_stack("of the example", module, certificate);
    tell_stack("of a refused example", refused, certificate);
    tell_stack("of types of 64 levels", deepest, certificate);
    tell_stack("of types of 1,000,000 levels", deep, certificate);
    text longest = of_length(module, TEXT_LIMIT);
    tell_stack("of a text of 16 MiB", longest, certificate);
    free(longest.bytes);
    free(deepest.bytes);
    free(too_deep.bytes);
    free(deep.bytes);
}

/* ---- threads and sessions */

typedef struct {
    text module;
    uint32_t wanted;
    long wrong;
} share;

static void *work(void *given) {
    share *s = given;
    dgc_session session = {NULL};
    dgc_answer a;
    for (int i = 0; i < CALLS; i++) {
        s->wrong += check(s->module, certificate).status != s->wanted;
        s->wrong += dgc_open(false, s->module.bytes, s->module.length, certificate.bytes, certificate.length, NULL, 0, &a, &session) != s->wanted;
        s->wrong += dgc_apply(session, NULL, 0, NULL, 0, &a, &session) != s->wanted;
        dgc_close(session);
    }
    return NULL;
}

static void try_threads(void) {
    share shares[] = {{module, DGC_YES, 0}, {refused, DGC_NO, 0}};
    pthread_t threads[2];
    for (int i = 0; i < 2; i++)
        if (pthread_create(&threads[i], NULL, work, &shares[i]))
            stop("no thread", "");
    for (int i = 0; i < 2; i++)
        pthread_join(threads[i], NULL);
    tell("two threads at once, each with sessions of its own", !shares[0].wrong && !shares[1].wrong);
}

static void try_sessions(void) {
    dgc_session first = {NULL}, second = {NULL};
    dgc_answer a;
    uint32_t one = dgc_open(false, module.bytes, module.length, certificate.bytes, certificate.length, NULL, 0, &a, &first);
    uint32_t two = dgc_open(false, refused.bytes, refused.length, certificate.bytes, certificate.length, NULL, 0, &a, &second);
    uint32_t again = dgc_apply(first, NULL, 0, NULL, 0, &a, &first), other = dgc_apply(second, NULL, 0, NULL, 0, &a, &second);
    tell("two sessions of one thread do not touch one another", one == DGC_YES && two == DGC_NO && again == one && other == two);
    dgc_close(first);
    dgc_close(second);
    memset(&first, 0xff, sizeof first);
    dgc_session none = first;
    tell("where no session begins, none is written", dgc_open(false, NULL, 0, NULL, 0, NULL, 0, &a, &first) == DGC_UNREADABLE && first.at == none.at);
}

/* ---- time */

static double milliseconds(clockid_t clock) {
    struct timespec now;
    clock_gettime(clock, &now);
    return (double)now.tv_sec * 1e3 + (double)now.tv_nsec / 1e6;
}

static int time_calls(char **words) {
    text m = text_at(words[2]), c = text_at(words[3]);
    long calls = atol(words[4]);
    double least = 1e9, begun = milliseconds(CLOCK_PROCESS_CPUTIME_ID);
    for (long i = 0; i < calls; i++) {
        double at = milliseconds(CLOCK_PROCESS_CPUTIME_ID);
        if (check(m, c).status > DGC_NO)
            stop("no verdict on", words[2]);
        double took = milliseconds(CLOCK_PROCESS_CPUTIME_ID) - at;
        least = took < least ? took : least;
    }
    printf("%.4f %.4f\n", (milliseconds(CLOCK_PROCESS_CPUTIME_ID) - begun) / (double)calls, least);
    return 0;
}

int main(int count, char **words) {
    if (count == 5 && !strcmp(words[1], "time"))
        return time_calls(words);
    if (count != 4)
        stop("limits MODULE REFUSED CERT", "");
    module = text_at(words[1]);
    refused = text_at(words[2]);
    certificate = text_at(words[3]);
    tell_version();
    try_null();
    try_room();
    try_length();
    try_depth();
    try_threads();
    try_sessions();
    return failed;
}
