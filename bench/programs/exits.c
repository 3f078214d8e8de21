#include "cells.h"

/* The third cell of a list. */
struct node *third(struct node *list) {
  if (!list) return 0;
  list = list->next;
  if (!list) return 0;
  return list->next;
}

/* The value of the left part's right part. */
unsigned long inner_key(struct tree *tree) {
  struct tree *left, *right;
  if (!tree) return 1;
  left = tree->left;
  if (!left) return 2;
  right = left->right;
  if (!right) return 3;
  return right->key;
}

/* Looks for a value, but not past a number of cells. */
long find_within(struct node *list, long value, long limit) {
  long steps = 0;
  while (list) {
    if (list->value == value) return steps;
    if (steps == limit) return -1;
    steps++;
    list = list->next;
  }
  return -2;
}

/* Leaves two loops at once. */
long first_common(struct node *one, struct node *other) {
  while (one) {
    struct node *at = other;
    while (at) {
      if (at->value == one->value) return at->value;
      at = at->next;
    }
    one = one->next;
  }
  return 0;
}

/* Goes on with the next cell where a value is negative. */
long sum_of_positive(struct node *list) {
  long sum = 0;
  for (; list; list = list->next) {
    long value = list->value;
    if (value < 0) continue;
    if (value == 1000) break;
    sum += value;
  }
  return sum;
}

/* The first empty chain, or 16. */
unsigned long first_empty(struct table *table) {
  unsigned long i;
  for (i = 0; i < 16; i++)
    if (!table->chains[i]) return i;
  return 16;
}

/* The other one of a pair, whichever is there. */
struct node *either(struct pair *pair) {
  struct node *one = pair->one;
  if (one) return one;
  return pair->other;
}
