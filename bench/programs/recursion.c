#include "cells.h"

/* A list of the numbers below a number. */
struct node *numbers_below(long count) {
  struct node *rest, *cell;
  if (count <= 0) return 0;
  rest = numbers_below(count - 1);
  cell = new_node();
  if (!cell) return rest;
  cell->value = count - 1;
  cell->next = rest;
  return cell;
}

/* The sum of a list from its end. */
long sum_from_the_end(struct node *list) {
  if (!list) return 0;
  return sum_from_the_end(list->next) + list->value;
}

/* A tree of a depth. */
struct tree *full_tree(unsigned long depth) {
  struct tree *tree, *left, *right;
  if (depth == 0) return 0;
  left = full_tree(depth - 1);
  right = full_tree(depth - 1);
  tree = new_tree();
  if (!tree) return 0;
  tree->left = left;
  tree->right = right;
  return tree;
}

long is_odd(struct node *list);

/* Whether a list has an even number of cells. */
long is_even(struct node *list) {
  if (!list) return 1;
  return is_odd(list->next);
}

/* Whether a list has an odd number of cells. */
long is_odd(struct node *list) {
  if (!list) return 0;
  return is_even(list->next);
}

/* A list with each value doubled by addition. */
struct node *doubled(struct node *list) {
  struct node *rest, *cell;
  if (!list) return 0;
  rest = doubled(list->next);
  cell = new_node();
  if (!cell) return rest;
  cell->value = list->value + list->value;
  cell->next = rest;
  return cell;
}

/* The number of ways down a tree to a missing part. */
long ways_down(struct tree *tree) {
  if (!tree) return 1;
  return ways_down(tree->left) + ways_down(tree->right);
}

/* The same cells, where the value keeps a bound. */
struct node *kept_below(struct node *list, long bound) {
  struct node *rest;
  if (!list) return 0;
  rest = kept_below(list->next, bound);
  if (list->value >= bound) return rest;
  list->next = rest;
  return list;
}
