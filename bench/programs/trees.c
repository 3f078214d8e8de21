#include "cells.h"

static struct tree *root;

/* Whether a key is in a tree. */
int tree_has(struct tree *tree, unsigned long key) {
  while (tree) {
    if (tree->key == key) return 1;
    tree = key < tree->key ? tree->left : tree->right;
  }
  return 0;
}

/* Puts a key into a tree, and returns the tree. */
struct tree *tree_insert(struct tree *tree, unsigned long key) {
  if (!tree) {
    struct tree *cell = new_tree();
    if (cell) cell->key = key;
    return cell;
  }
  if (key < tree->key) {
    struct tree *left = tree_insert(tree->left, key);
    tree->left = left;
  } else if (tree->key < key) {
    struct tree *right = tree_insert(tree->right, key);
    tree->right = right;
  }
  return tree;
}

/* How many keys a tree has. */
long tree_count(struct tree *tree) {
  if (!tree) return 0;
  return tree_count(tree->left) + 1 + tree_count(tree->right);
}

/* How deep a tree is. */
long tree_depth(struct tree *tree) {
  long left, right;
  if (!tree) return 0;
  left = tree_depth(tree->left);
  right = tree_depth(tree->right);
  return (left < right ? right : left) + 1;
}

/* The least key, or 0. */
unsigned long tree_least(struct tree *tree) {
  struct tree *left;
  if (!tree) return 0;
  while ((left = tree->left)) tree = left;
  return tree->key;
}

/* Turns a tree to the right, if it has a left part. */
struct tree *tree_turned(struct tree *tree) {
  struct tree *left = tree->left;
  if (!left) return tree;
  tree->left = left->right;
  left->right = tree;
  return left;
}

/* Takes the least key out of a tree. */
struct tree *tree_without_least(struct tree *tree) {
  struct tree *left;
  if (!tree) return 0;
  left = tree->left;
  if (!left) return tree->right;
  tree->left = tree_without_least(left);
  return tree;
}

/* A tree of the same keys, with left and right exchanged. */
struct tree *tree_mirrored(struct tree *tree) {
  struct tree *cell;
  if (!tree) return 0;
  cell = new_tree();
  if (!cell) return 0;
  cell->key = tree->key;
  cell->left = tree_mirrored(tree->right);
  cell->right = tree_mirrored(tree->left);
  return cell;
}

/* The sum of the keys between two bounds. */
unsigned long tree_sum(struct tree *tree, unsigned long from, unsigned long to) {
  unsigned long sum = 0;
  if (!tree) return 0;
  if (from < tree->key) sum += tree_sum(tree->left, from, to);
  if (from <= tree->key && tree->key <= to) sum += tree->key;
  if (tree->key < to) sum += tree_sum(tree->right, from, to);
  return sum;
}

/* Puts a key into the published tree. */
void tree_publish(unsigned long key) {
  struct tree *grown = tree_insert(root, key);
  root = grown;
}

/* Whether each key on the left way down is larger than the next. */
int tree_left_falls(struct tree *tree) {
  if (!tree) return 1;
  for (;;) {
    struct tree *left = tree->left;
    if (!left) return 1;
    if (tree->key <= left->key) return 0;
    tree = left;
  }
}
