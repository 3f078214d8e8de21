/* Functions that only this file sees. */
static int twice(int a) { return a * 3; }
static __attribute__((noinline)) long kept(long a, long b) { return a * b + 1; }
static int unused_here(int a) __attribute__((unused));
static int unused_here(int a) { return a; }
long work(int a) { return kept(twice(a), 3); }
