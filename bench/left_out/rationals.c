/* Fractions as cells, with a greatest common divisor. */
#include "cells.h"
struct ratio { long up, down; };
struct ratio *new_ratio(void);
static long common(long a, long b) { while (b) { long t = a % b; a = b; b = t; } return a < 0 ? -a : a; }
struct ratio *make(long up, long down) {
  struct ratio *r;
  long c;
  if (!down) { puts("division by zero"); exit(2); }
  c = common(up, down);
  r = new_ratio();
  if (!r) return 0;
  if (!c) c = 1;
  r->up = up / c; r->down = down / c;
  return r;
}
struct ratio *sum(struct ratio *a, struct ratio *b) {
  if (!a || !b) return 0;
  return make(a->up * b->down + b->up * a->down, a->down * b->down);
}
struct ratio *harmonic(long n) {
  struct ratio *s = make(0, 1);
  for (long i = 1; i <= n; i++) {
    struct ratio *t = make(1, i);
    s = sum(s, t);
  }
  return s;
}
