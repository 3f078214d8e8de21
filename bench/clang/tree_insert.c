/* A tree that grows, and one that is turned. */
struct tree { long key; struct tree *left, *right; };
struct tree *insert(struct tree *t, struct tree *n) {
  if (!t) return n;
  if (n->key < t->key) t->left = insert(t->left, n);
  else t->right = insert(t->right, n);
  return t;
}
struct tree *turn(struct tree *t) {
  struct tree *up = t->left;
  t->left = up->right;
  up->right = t;
  return up;
}
