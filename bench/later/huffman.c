/* Codes of few bits for letters that come often, by a tree of their counts. */
#include <stdio.h>

struct node { unsigned long count; int letter; struct node *zero, *one; struct node *next; };
struct counts { unsigned long of[128]; };
struct node *new_node(void);
struct counts *new_counts(void);

static void insert(struct node **list, struct node *n) {
  while (*list && (*list)->count <= n->count) list = &(*list)->next;
  n->next = *list;
  *list = n;
}

static struct node *take(struct node **list) {
  struct node *n = *list;
  if (n) *list = n->next;
  return n;
}

static struct node *tree_of(const char *text) {
  unsigned long counts[128] = {0};
  struct node *list = NULL;
  for (; *text; text++) counts[*text & 127]++;
  for (int i = 0; i < 128; i++)
    if (counts[i]) {
      struct node *n = new_node();
      if (!n) return NULL;
      n->count = counts[i];
      n->letter = i;
      insert(&list, n);
    }
  while (list && list->next) {
    struct node *n = new_node();
    if (!n) return NULL;
    n->zero = take(&list);
    n->one = take(&list);
    n->count = n->zero->count + n->one->count;
    n->letter = -1;
    insert(&list, n);
  }
  return list;
}

static unsigned long print(const struct node *n, unsigned long code, int bits) {
  if (!n) return 0;
  if (n->letter >= 0) {
    printf("'%c' %4lu ", n->letter, n->count);
    for (int i = bits - 1; i >= 0; i--) putchar(code >> i & 1 ? '1' : '0');
    putchar('\n');
    return n->count * bits;
  }
  return print(n->zero, code << 1, bits + 1) + print(n->one, code << 1 | 1, bits + 1);
}

int main(void) {
  const char *text = "she sells sea shells by the sea shore";
  unsigned long bits = print(tree_of(text), 0, 0);
  printf("%lu bits, %.1f per letter\n", bits, (double)bits / 37);
  return 0;
}
