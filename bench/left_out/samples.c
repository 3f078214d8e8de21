/* A running mean and variance over a ring of samples, with averages of wide sums. */
#include "cells.h"
struct ring { float values[32]; unsigned at; unsigned long seen; };
struct report { double mean, spread; long first; struct report *next; };
struct ring *new_ring(void);
struct report *new_report(void);
void add(struct ring *r, float v) { unsigned i = r->at % 32; r->values[i] = v; r->at = i + 1; r->seen++; }
struct report *tell(struct ring *r, struct report *rest) {
  double sum = 0, squares = 0;
  for (unsigned i = 0; i < 32; i++) { sum += r->values[i]; squares += (double)r->values[i] * r->values[i]; }
  struct report *p = new_report();
  if (!p) return rest;
  p->mean = sum / 32; p->spread = sqrt(squares / 32 - p->mean * p->mean);
  p->first = (long)floor(p->mean);
  p->next = rest;
  return p;
}
unsigned long scaled(unsigned long a, unsigned long b, unsigned long c) { return c ? (unsigned long)((unsigned __int128)a * b / c) : 0; }
