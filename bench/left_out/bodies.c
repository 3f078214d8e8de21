/* Planets as a list: floats in cells, a square root, and a loop of pairs. */
#include "cells.h"
struct body { double x, y, vx, vy, mass; struct body *next; };
struct body *new_body(void);
void pull(struct body *a, struct body *b, double dt) {
  double dx = b->x - a->x, dy = b->y - a->y;
  double d = sqrt(dx * dx + dy * dy + 0.01);
  double f = dt / (d * d * d);
  a->vx += dx * b->mass * f;
  a->vy += dy * b->mass * f;
}
void step(struct body *all, double dt) {
  for (struct body *a = all; a; a = a->next)
    for (struct body *b = all; b; b = b->next)
      if (a != b) pull(a, b, dt);
  for (struct body *a = all; a; a = a->next) { a->x += a->vx * dt; a->y += a->vy * dt; }
}
struct body *ring(long n) {
  struct body *all = 0;
  for (long i = 0; i < n; i++) {
    struct body *b = new_body();
    if (!b) return all;
    b->x = (double)i / 3.0; b->y = (double)(i % 5); b->mass = 1.5; b->next = all;
    all = b;
  }
  return all;
}
