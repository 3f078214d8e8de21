/* A hash table whose rows are cells, with a remainder by a prime and a report by a file of the C library. */
#include "cells.h"
typedef struct file FILE;
extern FILE *stderr;
int fprintf(FILE *, const char *, ...);
struct item { unsigned long key; double weight; struct item *next; };
struct table { struct item *rows[53]; unsigned long count; };
struct item *new_item(void);
struct table *new_table(void);
int put(struct table *t, unsigned long key, double weight) {
  struct item *i = new_item();
  unsigned long h = key * 0x9E3779B97F4A7C15UL % 53;
  if (!i) { fprintf(stderr, "no cell for %lu\n", key); return 0; }
  i->key = key; i->weight = weight; i->next = t->rows[h];
  t->rows[h] = i;
  t->count++;
  return 1;
}
double total(struct table *t) {
  double sum = 0;
  for (unsigned h = 0; h < 53; h++)
    for (struct item *i = t->rows[h]; i; i = i->next) sum += i->weight;
  return t->count ? sum / (double)t->count : 0;
}
