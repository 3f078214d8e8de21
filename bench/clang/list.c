/* A linked list. */
struct node { long value; struct node *next; };
long total(struct node *n) {
  long sum = 0;
  while (n) { sum += n->value; n = n->next; }
  return sum;
}
struct node *last(struct node *n) {
  if (!n) return 0;
  while (n->next) n = n->next;
  return n;
}
struct node *push(struct node *front, struct node *n) { n->next = front; return n; }
