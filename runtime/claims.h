/* claims.h: which cells of a pool dgrt.c tries for a request, and in which order. */

#ifdef SAME_ORDER
/* The cells from the hint to the pool's end, and then from the first one up to the hint. */
void *dg_alloc(int32_t layout) {
    struct pool *pool = &heap.pools[layout];
    uint32_t hint = me.shares[layout].hint;
    for (uint32_t n = 0; n < pool->count; n++) {
        uint32_t at = n < pool->count - hint ? hint + n : n - (pool->count - hint);
        if (!claim(pool, pool->base + at * pool->stride)) continue;
        me.shares[layout].hint = at + 1;
        return pool->base + at * pool->stride + 8;
    }
    if (!pool->count) me.local++;
    return 0;
}
static void keep_hints(struct pool *pool, uint32_t at, uint64_t bits) { (void)pool; (void)at; (void)bits; }
#else
/* The cells that were tried in vain in a request. No cell is tried twice in one. */
enum { TRIED = 8 };
struct tried { uint32_t count; char *cells[TRIED]; };

static void keep_hints(struct pool *pool, uint32_t at, uint64_t bits) {
    if (!bits) return;
    atomic_fetch_or(&pool->hints[at], bits);
    atomic_fetch_or(&pool->filled[at / 64], 1ull << at % 64);
    atomic_fetch_add(&pool->left, __builtin_popcountll(bits));
}

/* The collector goes on with its next cycle. */
static void want_cells(void) {
    if (!atomic_load_explicit(&wanted, memory_order_relaxed) && !atomic_exchange(&wanted, true)) sem_post(&due);
}

/* Takes a word of hints. The word's bit is cleared before the word is taken: the sweep sets them the other way round. */
static bool take_share(struct pool *pool, struct share *share) {
    for (uint32_t n = 0; n < pool->filled_count; n++) {
        uint32_t j = (share->at / 64 + n) % pool->filled_count;
        for (uint64_t filled; (filled = atomic_load(&pool->filled[j])) != 0;) {
            uint64_t ahead = n == 0 && share->at % 64 ? filled & ~0ull << share->at % 64 : filled;
            uint32_t i = (uint32_t)__builtin_ctzll(ahead ? ahead : filled);
            atomic_fetch_and(&pool->filled[j], ~(1ull << i));
            uint64_t bits = atomic_exchange(&pool->hints[64 * j + i], 0);
            if (!bits) continue;
            int64_t left = atomic_fetch_sub(&pool->left, __builtin_popcountll(bits));
            if (left < atomic_load_explicit(&pool->reserve, memory_order_relaxed)) want_cells();
            share->at = 64 * j + i;
            share->base = pool->base + ((uint64_t)share->at << pool->shift) * pool->stride;
            share->bits = bits;
            return true;
        }
    }
    return false;
}

/* The next cell of a share. That it is free is seen before it is tried: the look is no step, and chooses only what is tried next. */
static char *next_of(struct pool *pool, struct share *share) {
    while (share->bits) {
        char *cell = share->base + (uint64_t)__builtin_ctzll(share->bits) * pool->stride;
        share->bits &= share->bits - 1;
        if (!atomic_load_explicit((word *)cell, memory_order_relaxed)) return cell;
    }
    return 0;
}

static bool was_tried(const struct tried *tried, const char *cell) {
    for (uint32_t i = 0; i < tried->count; i++) if (tried->cells[i] == cell) return true;
    return false;
}

static void *by_hints(struct pool *pool, struct share *share, struct tried *tried) {
    while (tried->count < TRIED && (share->bits || take_share(pool, share))) {
        char *cell = next_of(pool, share);
        if (!cell || was_tried(tried, cell)) continue;
        if (claim(pool, cell)) return cell + 8;
        tried->cells[tried->count++] = cell;
    }
    return 0;
}

/* Waits a moment, but not where the collector waits for this thread. A recorder does not wait. Gives whether it waited. */
static bool wait_a_moment(void) {
#ifdef RECORD
    return false;
#else
    if (atomic_load_explicit(&posted, memory_order_relaxed) != me.stage) return false;
    nanosleep(&(struct timespec){0, 50000}, 0);
    return true;
#endif
}

/* A thread that takes hints where few are left lets the collector get ahead. */
static void hold_back(struct pool *pool) {
    if (atomic_load_explicit(&pool->left, memory_order_relaxed) < atomic_load_explicit(&pool->low, memory_order_relaxed)) wait_a_moment();
}

/* Waits for the sweep, about two milliseconds at most. */
static void rest(struct pool *pool) {
    want_cells();
    for (int n = 0; n < 20 && atomic_load_explicit(&pool->left, memory_order_relaxed) <= 0 && wait_a_moment(); n++) { }
}

static void *by_turns(struct pool *pool, const struct tried *tried) {
    for (char *cell = pool->base; cell < pool->end; cell += pool->stride)
        if (!was_tried(tried, cell) && claim(pool, cell)) return cell + 8;
    return 0;
}

/* A request that its share does not meet. Null is the answer only where each cell of the pool was tried. */
static __attribute__((noinline)) void *request(struct pool *pool, struct share *share, char *lost) {
    struct tried tried = {lost != 0, {lost}};
    uint64_t begun = now(CLOCK_MONOTONIC);
    hold_back(pool);
    void *cell = by_hints(pool, share, &tried);
    if (!cell) rest(pool);
    if (!cell) cell = by_hints(pool, share, &tried);
    if (!cell) cell = by_turns(pool, &tried);
    if (!cell) me.counts.nulls++;
    uint64_t took = now(CLOCK_MONOTONIC) - begun;
    if (took > me.counts.longest_request) me.counts.longest_request = took;
    return cell;
}

void *dg_alloc(int32_t layout) {
    struct pool *pool = &heap.pools[layout];
    struct share *share = &me.shares[layout];
    char *cell = next_of(pool, share);
    return cell && claim(pool, cell) ? cell + 8 : request(pool, share, cell);
}
#endif
