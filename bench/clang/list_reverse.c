/* A list that is turned around, and one that two lists make. */
struct node { int value; struct node *next; };
struct node *reverse(struct node *n) {
  struct node *done = 0;
  while (n) { struct node *rest = n->next; n->next = done; done = n; n = rest; }
  return done;
}
struct node *merge(struct node *a, struct node *b) {
  if (!a) return b;
  if (!b) return a;
  if (a->value <= b->value) { a->next = merge(a->next, b); return a; }
  b->next = merge(a, b->next);
  return b;
}
