/* A tree that is searched. */
struct tree { int key; struct tree *left, *right; };
struct tree *find(struct tree *t, int key) {
  while (t && t->key != key) t = key < t->key ? t->left : t->right;
  return t;
}
int depth(struct tree *t) {
  if (!t) return 0;
  int left = depth(t->left), right = depth(t->right);
  return 1 + (left > right + 1 ? left : right);
}
