/* A list with links both ways. */
struct link { struct link *before; struct link *after; int key; };
void insert(struct link *at, struct link *n) {
  n->before = at; n->after = at->after;
  at->after->before = n; at->after = n;
}
void take_out(struct link *n) { n->before->after = n->after; n->after->before = n->before; }
int count(struct link *head) {
  int n = 0;
  for (struct link *l = head->after; l != head; l = l->after) n++;
  return n;
}
