#include "cells.h"

static struct node *top;

/* Puts a value before a list. */
struct node *list_push(struct node *list, long value) {
  struct node *cell = new_node();
  if (!cell) return list;
  cell->value = value;
  cell->next = list;
  return cell;
}

/* How many cells a list has. */
long list_length(struct node *list) {
  long count = 0;
  while (list) {
    count++;
    list = list->next;
  }
  return count;
}

/* The sum of a list's values. */
long list_sum(struct node *list) {
  long sum = 0;
  for (; list; list = list->next) sum += list->value;
  return sum;
}

/* The first cell with a value. */
struct node *list_find(struct node *list, long value) {
  while (list && list->value != value) list = list->next;
  return list;
}

/* Turns a list round in place. */
struct node *list_reverse(struct node *list) {
  struct node *done = 0;
  while (list) {
    struct node *next = list->next;
    list->next = done;
    done = list;
    list = next;
  }
  return done;
}

/* Takes out each cell with a value. */
struct node *list_remove(struct node *list, long value) {
  struct node *before = 0, *at = list;
  while (at) {
    struct node *next = at->next;
    if (at->value == value) {
      if (before) before->next = next;
      else list = next;
    } else {
      before = at;
    }
    at = next;
  }
  return list;
}

/* Puts one list at the end of another. */
struct node *list_append(struct node *list, struct node *rest) {
  struct node *at = list;
  if (!at) return rest;
  for (;;) {
    struct node *next = at->next;
    if (!next) break;
    at = next;
  }
  at->next = rest;
  return list;
}

/* A copy of a list, in the other order. */
struct node *list_copied_back(struct node *list) {
  struct node *copy = 0;
  while (list) {
    copy = list_push(copy, list->value);
    list = list->next;
  }
  return copy;
}

/* Puts a value at its place in a list in rising order. */
struct node *list_insert_in_order(struct node *list, long value) {
  struct node *cell = new_node(), *before = 0, *at = list;
  if (!cell) return list;
  cell->value = value;
  while (at && at->value < value) {
    before = at;
    at = at->next;
  }
  cell->next = at;
  if (!before) return cell;
  before->next = cell;
  return list;
}

/* Publishes a cell. */
void list_publish(long value) {
  struct node *cell = new_node();
  if (cell) {
    cell->value = value;
    cell->next = top;
    top = cell;
  }
}

/* Takes the published cell away. */
long list_take(void) {
  struct node *cell = top;
  if (!cell) return 0;
  top = cell->next;
  return cell->value;
}

/* The value of the last cell. */
long list_last(struct node *list) {
  long value = 0;
  while (list) {
    value = list->value;
    list = list->next;
  }
  return value;
}

/* Whether two lists have the same values. */
int list_equal(struct node *one, struct node *other) {
  while (one && other) {
    if (one->value != other->value) return 0;
    one = one->next;
    other = other->next;
  }
  return !one && !other;
}

/* Takes every second cell into the other list. */
void list_split(struct pair *pair, struct node *list) {
  int turn = 0;
  while (list) {
    struct node *next = list->next;
    if (turn) {
      list->next = pair->one;
      pair->one = list;
    } else {
      list->next = pair->other;
      pair->other = list;
    }
    turn = !turn;
    list = next;
  }
}
