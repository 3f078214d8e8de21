/* The letters of a text get codes of bits by how often they come, from a tree that is built by joining the rarest. */
#include <stdio.h>

struct tree { int letter; long count; struct tree *left, *right, *next; };
struct tree *new_tree(void);

static long bits;

static struct tree *inserted(struct tree *list, struct tree *t) {
  if (!list || t->count <= list->count) {
    t->next = list;
    return t;
  }
  list->next = inserted(list->next, t);
  return list;
}

static struct tree *tree_of(int letter, long count, struct tree *left, struct tree *right) {
  struct tree *t = new_tree();
  if (!t) return NULL;
  t->letter = letter;
  t->count = count;
  t->left = left;
  t->right = right;
  return t;
}

static struct tree *leaves(const char *text) {
  struct tree *list = NULL;
  for (int letter = ' '; letter < 127; letter++) {
    long count = 0;
    for (const char *c = text; *c; c++) count += *c == letter;
    if (!count) continue;
    struct tree *t = tree_of(letter, count, NULL, NULL);
    if (t) list = inserted(list, t);
  }
  return list;
}

struct tree *build(const char *text) {
  struct tree *list = leaves(text);
  while (list && list->next) {
    struct tree *a = list, *b = list->next;
    struct tree *both = tree_of(0, a->count + b->count, a, b);
    list = b->next;
    if (both) list = inserted(list, both);
  }
  return list;
}

void print(struct tree *t, unsigned long code, int length) {
  if (!t) return;
  if (t->letter) {
    printf("'%c' %3ld ", t->letter, t->count);
    for (int i = length - 1; i >= 0; i--) putchar((code >> i & 1) ? '1' : '0');
    puts("");
    bits += t->count * length;
    return;
  }
  print(t->left, code << 1, length + 1);
  print(t->right, code << 1 | 1, length + 1);
}

int main(void) {
  const char *text = "a dark and stormy night";
  print(build(text), 0, 0);
  printf("%ld bits\n", bits);
  return 0;
}
