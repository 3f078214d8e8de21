/* A priority queue in an array, by halves of an index, and times as floats. */
#include "cells.h"
struct task { double at; long what; };
struct queue { struct task *heap[32]; unsigned long count; };
struct task *new_task(void);
struct queue *new_queue(void);
static int before(struct task *a, struct task *b) { return a && b && a->at < b->at; }
void put(struct queue *q, double at, long what) {
  struct task *t = new_task();
  unsigned long i = q->count;
  if (!t || i >= 32) return;
  t->at = at; t->what = what;
  q->heap[i] = t;
  q->count = i + 1;
  while (i > 0) {
    unsigned long up = (i - 1) / 2 % 32, at_i = i % 32;
    struct task *a = q->heap[at_i], *b = q->heap[up];
    if (!before(a, b)) break;
    q->heap[at_i] = b; q->heap[up] = a;
    i = up;
  }
}
