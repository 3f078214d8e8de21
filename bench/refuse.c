/* A library to be loaded before a program (LD_PRELOAD): it refuses requests for memory.
   REFUSE_AT=7 refuses the 7th request, REFUSE_FROM=7 the 7th and all after it, and so does a call of refuse_requests (cases.c).
   It makes the file MARK where it refuses one. */
#define _GNU_SOURCE
#include <dlfcn.h>
#include <errno.h>
#include <fcntl.h>
#include <stdatomic.h>
#include <stdlib.h>
#include <string.h>
#include <unistd.h>

static void *(*real_malloc)(size_t), *(*real_calloc)(size_t, size_t), *(*real_realloc)(void *, size_t);
static void *(*real_aligned_alloc)(size_t, size_t);
static int (*real_posix_memalign)(void **, size_t, size_t);
static void (*real_free)(void *);
static atomic_ulong made, refused;
static unsigned long at, from;

/* What is asked for before the real functions are found. */
static char early[1 << 16];
static atomic_ulong early_used;

static void *early_take(size_t size) {
    unsigned long place = atomic_fetch_add(&early_used, (size + 15) & ~15ul);
    return place + size <= sizeof early ? early + place : NULL;
}

static int is_early(void *memory) {
    return (char *)memory >= early && (char *)memory < early + sizeof early;
}

static unsigned long number_in(const char *name) {
    const char *text = getenv(name);
    return text ? strtoul(text, NULL, 10) : 0;
}

__attribute__((constructor)) static void begin(void) {
    real_calloc = dlsym(RTLD_NEXT, "calloc");
    real_realloc = dlsym(RTLD_NEXT, "realloc");
    real_aligned_alloc = dlsym(RTLD_NEXT, "aligned_alloc");
    real_posix_memalign = dlsym(RTLD_NEXT, "posix_memalign");
    real_free = dlsym(RTLD_NEXT, "free");
    real_malloc = dlsym(RTLD_NEXT, "malloc");
    at = number_in("REFUSE_AT");
    from = number_in("REFUSE_FROM");
    atomic_store(&made, 0);
}

/* From now on the request with the one number is refused, or all from the other number on; 0 is none. */
void refuse_requests(unsigned long one, unsigned long first) {
    at = one;
    from = first;
    atomic_store(&made, 0);
    atomic_store(&refused, 0);
}

/* How many were refused since then; no more are. */
unsigned long refused_requests(void) {
    at = from = 0;
    return atomic_load(&refused);
}

static int is_refused(void) {
    unsigned long number = atomic_fetch_add(&made, 1) + 1;
    if (!(at && number == at) && !(from && number >= from)) return 0;
    const char *mark = getenv("MARK");
    int file = mark && !atomic_load(&refused) ? open(mark, O_CREAT | O_WRONLY, 0600) : -1;
    if (file >= 0) close(file);
    atomic_fetch_add(&refused, 1);
    errno = ENOMEM;
    return 1;
}

void *malloc(size_t size) {
    if (!real_malloc) return early_take(size);
    return is_refused() ? NULL : real_malloc(size);
}

/* Early memory is zero. */
void *calloc(size_t count, size_t size) {
    if (!real_malloc) return early_take(count * size);
    return is_refused() ? NULL : real_calloc(count, size);
}

void *realloc(void *memory, size_t size) {
    if (is_early(memory)) {
        size_t left = early + sizeof early - (char *)memory;
        void *other = malloc(size);
        return other ? memcpy(other, memory, size < left ? size : left) : NULL;
    }
    return is_refused() ? NULL : real_realloc(memory, size);
}

void *aligned_alloc(size_t align, size_t size) {
    return is_refused() ? NULL : real_aligned_alloc(align, size);
}

int posix_memalign(void **out, size_t align, size_t size) {
    return is_refused() ? ENOMEM : real_posix_memalign(out, align, size);
}

void free(void *memory) {
    if (memory && !is_early(memory) && real_free) real_free(memory);
}
