/* Puts new nodes into a global, by the write barrier, or with -DPLAIN without it. Each variable that holds a reference is a root, since at
   -O0 each stays in memory. With -DFORM there is a form that dgc does not read. */
struct Node {
  long value;
  struct Node *next;
};

struct Node *top;

void *dg_alloc(int layout);
void dg_safepoint(void);
void gcroot(void **slot, void *none) __asm__("llvm.gcroot");
void gcwrite(void *value, void *object, void **place) __asm__("llvm.gcwrite");

long swap(long rounds) {
  struct Node *made, *old;
  gcroot((void **)&made, 0);
  gcroot((void **)&old, 0);
  long seen = 0;
  for (long i = 0; i < rounds; i++) {
    dg_safepoint();
    made = dg_alloc(0);
    if (!made)
      continue;
    old = top;
#ifdef PLAIN
    top = made;
#else
    gcwrite(made, 0, (void **)&top);
#endif
    if (old) {
      old->value = i;
#ifdef FORM
      old->value = (long)(1.5 * (double)i);
#endif
      seen++;
    }
  }
  return seen;
}
