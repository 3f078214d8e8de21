/* A lift serves calls: each goes into a list by its floor, and the lift goes up and down until none is left. */
#include <stdio.h>

#define FLOORS 12

struct call { int floor; int from_inside; long asked_at; struct call *next; };
struct lift { int floor; int direction; long travelled; long waited; struct call *calls; };
struct call *new_call(void);
struct lift *new_lift(void);

static long now;

static int press(struct lift *l, int floor, int from_inside) {
  struct call *c, *before = NULL, *at;
  if (floor < 0 || floor >= FLOORS) {
    fprintf(stderr, "there is no floor %d\n", floor);
    return 0;
  }
  c = new_call();
  if (!c) return 0;
  c->floor = floor;
  c->from_inside = from_inside;
  c->asked_at = now;
  for (at = l->calls; at && at->floor < floor; at = at->next) before = at;
  c->next = at;
  if (before) before->next = c;
  else l->calls = c;
  return 1;
}

static int open_doors(struct lift *l) {
  int served = 0;
  struct call *before = NULL;
  for (struct call *c = l->calls; c; c = c->next) {
    if (c->floor != l->floor) {
      before = c;
      continue;
    }
    l->waited += now - c->asked_at;
    served++;
    if (before) before->next = c->next;
    else l->calls = c->next;
  }
  if (served) printf("%3ld: floor %d, %d call%s\n", now, l->floor, served, served == 1 ? "" : "s");
  return served;
}

static int is_wanted_further(struct lift *l) {
  for (struct call *c = l->calls; c; c = c->next)
    if ((c->floor - l->floor) * l->direction > 0) return 1;
  return 0;
}

long run(struct lift *l) {
  long served = 0;
  while (l->calls) {
    served += open_doors(l);
    if (!l->calls) break;
    if (!is_wanted_further(l)) l->direction = -l->direction;
    l->floor += l->direction;
    l->travelled++;
    now++;
  }
  return served;
}

int main(void) {
  struct lift *l = new_lift();
  if (!l) return 1;
  l->direction = 1;
  for (int i = 0; i < 9; i++) press(l, (i * 5 + 3) % FLOORS, i % 2);
  press(l, 14, 1);
  long served = run(l);
  printf("%ld calls, %ld floors, %ld waited\n", served, l->travelled, l->waited);
  return 0;
}
