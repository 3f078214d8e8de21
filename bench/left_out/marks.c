/* A bitmap of pages that several threads share: atomic words, counts of bits, and rotations. */
#include <stdatomic.h>
#include "cells.h"
struct page { unsigned long bits[8]; struct page *next; };
struct page *new_page(void);
static _Atomic unsigned long taken;
static struct page *pages;
static unsigned long mix(unsigned long x) { x ^= x << 13; x ^= x >> 7; return (x << 17) | (x >> 47); }
long take(struct page *p, unsigned long seed) {
  unsigned long n = mix(seed) & 511, old = p->bits[(n >> 6) & 7];
  if (old >> (n & 63) & 1) return 0;
  p->bits[(n >> 6) & 7] = old | 1UL << (n & 63);
  atomic_fetch_add(&taken, 1);
  return (long)__builtin_popcountl(old) + __builtin_ctzl(old | 1);
}
long work(unsigned long seed, long n) {
  long got = 0;
  for (long i = 0; i < n; i++) {
    struct page *p = new_page();
    if (!p) return got;
    p->next = pages;
    pages = p;
    got += take(p, seed + (unsigned long)i);
    if (atomic_load(&taken) > 100000) return got;
  }
  return got;
}
