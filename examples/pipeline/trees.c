/* Threads build search trees of drawn keys, and publish each tree in a global. */
struct tree { unsigned long key; struct tree *left; struct tree *right; };

struct tree *new_tree(void); /* gcroot.py makes a claim of a cell of it */

struct tree *latest; /* the tree that was finished last, by whichever thread */

/* A new cell. Waits for the collector where none is free. */
struct tree *claim(void) {
  struct tree *cell;
  while (!(cell = new_tree())) {}
  return cell;
}

/* Puts a key into a tree, unless it is there. Returns how many cells it took. */
unsigned long put(struct tree *root, unsigned long key) {
  struct tree *at = root, *next, *cell;
  for (;;) {
    if (at->key == key) return 0;
    next = key < at->key ? at->left : at->right;
    if (!next) break;
    at = next;
  }
  cell = claim();
  cell->key = key;
  if (key < at->key) at->left = cell;
  else at->right = cell;
  return 1;
}

/* Builds trees of some keys each, one after another. Returns how many cells they took. */
unsigned long work(unsigned long trees, unsigned long keys, unsigned long seed) {
  unsigned long i, j, cells = 0;
  for (i = 0; i < trees; i++) {
    struct tree *root = claim();
    root->key = seed;
    cells++;
    for (j = 1; j < keys; j++) {
      seed = seed * 6364136223846793005 + 1442695040888963407;
      cells += put(root, seed);
    }
    latest = root;
  }
  return cells;
}
