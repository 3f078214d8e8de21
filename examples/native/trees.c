/* Search trees of `keys` drawn keys, `rounds` times: built, counted, searched, published. It waits where no cell is free. */
#include "../../bench/programs/trees.c"

static struct tree *claim(void) {
  struct tree *cell;
  while (!(cell = new_tree())) {}
  return cell;
}

static void put(struct tree *at, unsigned long key) {
  struct tree *next, *cell;
  for (;;) {
    if (at->key == key) return;
    next = key < at->key ? at->left : at->right;
    if (!next) break;
    at = next;
  }
  cell = claim();
  cell->key = key;
  if (key < at->key) at->left = cell;
  else at->right = cell;
}

unsigned long work(unsigned long rounds, unsigned long keys, unsigned long seed) {
  unsigned long i, j, sum = 0;
  for (i = 0; i < rounds; i++) {
    struct tree *tree = claim();
    tree->key = seed;
    for (j = 1; j < keys; j++) {
      seed = seed * 6364136223846793005 + 1442695040888963407;
      put(tree, seed);
    }
    sum += (unsigned long)tree_count(tree) + (unsigned long)tree_depth(tree) + tree_least(tree);
    if (tree_has(tree, seed)) sum++;
    sum += tree_sum(tree, 0, seed);
    root = tree;
  }
  return sum;
}
