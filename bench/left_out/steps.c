/* A machine with a stack, run by a switch in place of functions as values; closures are tags. */
#include "cells.h"
enum { PUSH, ADD, MULTIPLY, DIVIDE, NEGATE };
struct code { long what, number; struct code *next; };
struct stack { long values[24]; unsigned long top; };
struct code *new_code(void);
struct stack *new_stack(void);
static void push(struct stack *s, long v) { unsigned long t = s->top; if (t < 24) { s->values[t] = v; s->top = t + 1; } }
static long pop(struct stack *s) { unsigned long t = s->top - 1; if (t < 24) { s->top = t; return s->values[t]; } return 0; }
static long apply(long what, long a, long b) {
  switch (what) {
  case ADD: return a + b;
  case MULTIPLY: return a * b;
  case DIVIDE: return b ? a / b : 0;
  default: return -a;
  }
}
long run(struct code *c) {
  struct stack *s = new_stack();
  if (!s) return -1;
  while (c) {
    if (c->what == PUSH) push(s, c->number);
    else { long b = pop(s), a = pop(s); push(s, apply(c->what, a, b)); }
    c = c->next;
  }
  return pop(s);
}
struct code *emit(long what, long number, struct code *rest) {
  struct code *c = new_code();
  if (!c) return rest;
  c->what = what; c->number = number; c->next = rest;
  return c;
}
