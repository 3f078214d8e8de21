/* Calls of functions that are elsewhere, with arguments of each width. */
struct node { int value; struct node *next; };
extern struct node *make(int, long, _Bool, struct node *);
extern void *raw(void *);
extern signed char small(signed char, unsigned short);
struct node *build(int n) {
  struct node *list = 0;
  for (int i = 0; i < n; i++) list = make(i, small((signed char)i, (unsigned short)i), i == 3, list);
  return list;
}
void *pass(void *p) { return raw(raw(p)); }
