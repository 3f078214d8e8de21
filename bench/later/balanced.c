/* A balanced tree of keys: after each step both sides of a node differ by one in height. */
#include <stdio.h>

struct node { long key; int height; struct node *left, *right; };
struct node *new_node(void);

static int height(const struct node *n) { return n ? n->height : 0; }
static int balance(const struct node *n) { return height(n->left) - height(n->right); }

static void measure(struct node *n) {
  int l = height(n->left), r = height(n->right);
  n->height = 1 + (l > r ? l : r);
}

static struct node *rotate_right(struct node *n) {
  struct node *l = n->left;
  n->left = l->right;
  l->right = n;
  measure(n);
  measure(l);
  return l;
}

static struct node *rotate_left(struct node *n) {
  struct node *r = n->right;
  n->right = r->left;
  r->left = n;
  measure(n);
  measure(r);
  return r;
}

static struct node *balanced(struct node *n) {
  measure(n);
  if (balance(n) > 1) {
    if (balance(n->left) < 0) n->left = rotate_left(n->left);
    return rotate_right(n);
  }
  if (balance(n) < -1) {
    if (balance(n->right) > 0) n->right = rotate_right(n->right);
    return rotate_left(n);
  }
  return n;
}

struct node *insert(struct node *n, long key) {
  if (!n) {
    n = new_node();
    if (n) {
      n->key = key;
      n->height = 1;
    }
    return n;
  }
  if (key < n->key) n->left = insert(n->left, key);
  else if (key > n->key) n->right = insert(n->right, key);
  return balanced(n);
}

static long print(const struct node *n, int depth) {
  if (!n) return 0;
  long count = print(n->left, depth + 1);
  printf("%*s%ld\n", 2 * depth, "", n->key);
  return count + 1 + print(n->right, depth + 1);
}

int main(void) {
  struct node *root = NULL;
  for (long i = 0; i < 20; i++) root = insert(root, i * 7 % 23);
  long count = print(root, 0);
  printf("%ld keys, height %d\n", count, height(root));
  return 0;
}
