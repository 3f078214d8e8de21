#include "cells.h"

/* The first cell of the chain of a key. */
struct node *table_chain(struct table *table, unsigned long key) { return table->chains[key & 15]; }

/* Puts a value into its chain. */
void table_put(struct table *table, unsigned long key) {
  struct node *cell = new_node();
  if (!cell) return;
  cell->value = (long)key;
  cell->next = table->chains[key & 15];
  table->chains[key & 15] = cell;
  table->count++;
}

/* Whether a value is in its chain. */
int table_has(struct table *table, unsigned long key) {
  struct node *cell = table->chains[key & 15];
  while (cell) {
    if (cell->value == (long)key) return 1;
    cell = cell->next;
  }
  return 0;
}

/* Takes the first cell of a chain away. */
void table_drop(struct table *table, unsigned long key) {
  struct node *cell = table->chains[key & 15];
  if (cell) {
    table->chains[key & 15] = cell->next;
    table->count--;
  }
}

/* Empties each chain. */
void table_clear(struct table *table) {
  unsigned long i;
  for (i = 0; i < 16; i++) table->chains[i] = 0;
  table->count = 0;
}

/* How many chains are not empty. */
long table_used(struct table *table) {
  unsigned long i;
  long used = 0;
  for (i = 0; i < 16; i++)
    if (table->chains[i]) used++;
  return used;
}

/* The length of the longest chain. */
long table_longest(struct table *table) {
  unsigned long i;
  long longest = 0;
  for (i = 0; i < 16; i++) {
    struct node *cell = table->chains[i];
    long count = 0;
    while (cell) {
      count++;
      cell = cell->next;
    }
    if (longest < count) longest = count;
  }
  return longest;
}

/* A chain of a number that is tested. */
struct node *table_at(struct table *table, unsigned long i) {
  if (i < 16) return table->chains[i];
  return 0;
}

/* Exchanges two chains. */
void table_swap(struct table *table, unsigned long i, unsigned long j) {
  struct node *one;
  if (i >= 16) return;
  if (j >= 16) return;
  one = table->chains[i];
  table->chains[i] = table->chains[j];
  table->chains[j] = one;
}

/* Moves all of a chain into another table. */
void table_spill(struct table *from, struct table *to, unsigned long key) {
  struct node *cell = from->chains[key & 15];
  from->chains[key & 15] = 0;
  while (cell) {
    struct node *next = cell->next;
    unsigned long at = (unsigned long)cell->value & 15;
    cell->next = to->chains[at];
    to->chains[at] = cell;
    cell = next;
  }
}
