/* A shop is simulated: customers come at random, wait and are served; the waiting time is told. */
#include <stdio.h>
#include <stdlib.h>

struct customer { int came; int needs; struct customer *next; };
struct line { struct customer *first, *last; int length; };
struct customer *new_customer(void);
struct line *new_line(void);

static unsigned seed = 12345;

static int drawn(int below) {
  seed = seed * 1103515245u + 12345u;
  return (int)(seed >> 16) % below;
}

static void join(struct line *l, int now) {
  struct customer *c = new_customer();
  if (c == NULL) {
    fprintf(stderr, "no room for a customer at %d\n", now);
    exit(EXIT_FAILURE);
  }
  c->came = now;
  c->needs = 1 + drawn(4);
  c->next = NULL;
  if (l->last) l->last->next = c;
  else l->first = c;
  l->last = c;
  l->length++;
}

static struct customer *leave(struct line *l) {
  struct customer *c = l->first;
  if (!c) return NULL;
  l->first = c->next;
  if (!l->first) l->last = NULL;
  l->length--;
  return c;
}

int main(void) {
  struct line *l = new_line();
  int busy = 0, served = 0, longest = 0;
  double waited = 0.0;
  if (!l) return 1;
  for (int now = 0; now < 480; now++) {
    if (drawn(3) == 0) join(l, now);
    if (l->length > longest) longest = l->length;
    if (busy > 0) {
      busy--;
      continue;
    }
    struct customer *c = leave(l);
    if (!c) continue;
    waited += now - c->came;
    busy = c->needs;
    served++;
  }
  printf("served %d, left %d, longest line %d\n", served, l->length, longest);
  printf("mean waiting time %.2f minutes\n", served ? waited / served : 0.0);
  return 0;
}
