#include "cells.h"

/* A part of a tree by a number. */
struct tree *tree_part(struct tree *tree, int part) {
  switch (part) {
    case 0: return tree;
    case 1: return tree->left;
    case 2: return tree->right;
    default: return 0;
  }
}

/* Changes a cell by an order. */
void change(struct node *cell, struct node *other, long order) {
  switch (order) {
    case 1:
      cell->value += 1;
      break;
    case 2:
      cell->value = 0;
      break;
    case 3:
      cell->next = other;
      break;
    case 7:
      cell->next = 0;
      break;
    default:
      cell->value = order;
  }
}

/* Reads a text as letters of three kinds. */
long kinds(struct text *text) {
  long sum = 0;
  unsigned long i;
  for (i = 0; i < 32; i++) {
    switch (text->letters[i]) {
      case 32:
      case 10:
        break;
      case 45:
        sum -= 1;
        break;
      default:
        sum += 1;
    }
  }
  return sum;
}

/* Makes a cell of one of two kinds and publishes none. */
long made_by_kind(int kind) {
  if (kind == 1) {
    struct node *cell = new_node();
    if (!cell) return -1;
    cell->value = 5;
    return cell->value;
  }
  if (kind == 2) {
    struct tree *cell = new_tree();
    if (!cell) return -2;
    cell->key = 6;
    return (long)cell->key;
  }
  return 0;
}

/* A small machine over a list of orders. */
long machine(struct node *orders) {
  long value = 0;
  while (orders) {
    switch (orders->value) {
      case 0: return value;
      case 1: value += 1; break;
      case 2: value -= 1; break;
      case 3: value = value * 3; break;
      default: value = orders->value; break;
    }
    orders = orders->next;
  }
  return value;
}
