/* Children stand in a circle and count: each kth leaves it, until one is left. */
#include <stdio.h>
#include <stdlib.h>

struct child { int number; struct child *before, *next; };
struct child *new_child(void);

static struct child *circle_of(int count) {
  struct child *first = NULL;
  for (int i = 1; i <= count; i++) {
    struct child *c = new_child();
    if (!c) return first;
    c->number = i;
    if (!first) {
      first = c;
      c->before = c->next = c;
    } else {
      c->before = first->before;
      c->next = first;
      first->before->next = c;
      first->before = c;
    }
  }
  return first;
}

static int last_of(struct child *at, int k, int is_told) {
  if (!at) return 0;
  while (at->next != at) {
    for (int i = 1; i < k; i++) at = at->next;
    if (is_told) printf("%d ", at->number);
    at->before->next = at->next;
    at->next->before = at->before;
    at = at->next;
  }
  if (is_told) putchar('\n');
  return at->number;
}

/* The same by counting alone. */
static int last_by_numbers(int count, int k) {
  int last = 0;
  for (int i = 2; i <= count; i++) last = (last + k) % i;
  return last + 1;
}

int main(int argc, char **argv) {
  int count = argc > 1 ? atoi(argv[1]) : 41;
  int k = argc > 2 ? atoi(argv[2]) : 3;
  if (count < 1 || k < 1) {
    fprintf(stderr, "usage: %s [COUNT [K]]\n", argv[0]);
    return 2;
  }
  int last = last_of(circle_of(count), k, 1);
  printf("the last is %d\n", last);
  return last != last_by_numbers(count, k);
}
