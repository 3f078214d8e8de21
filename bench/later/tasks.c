/* Tasks that depend on one another are put in an order in which each comes after those that it needs. */
#include <stdio.h>
#include <stdlib.h>

struct task { int number; int days; int state; long done_at; struct need *needs; struct task *next; };
struct need { struct task *task; struct need *next; };
struct task *new_task(void);
struct need *new_need(void);

enum { NEW, OPEN, DONE };

static struct task *tasks;

static struct task *task_of(int number) {
  struct task *t;
  for (t = tasks; t; t = t->next)
    if (t->number == number) return t;
  t = new_task();
  if (!t) {
    fputs("no memory\n", stderr);
    exit(2);
  }
  t->number = number;
  t->days = 1;
  t->next = tasks;
  tasks = t;
  return t;
}

static void needs(int number, int other) {
  struct task *t = task_of(number), *o = task_of(other);
  struct need *n = new_need();
  if (!n) exit(2);
  n->task = o;
  n->next = t->needs;
  t->needs = n;
}

static long finish(struct task *t) {
  long start = 0;
  if (t->state == DONE) return t->done_at;
  if (t->state == OPEN) {
    printf("task %d needs itself\n", t->number);
    exit(1);
  }
  t->state = OPEN;
  for (struct need *n = t->needs; n; n = n->next) {
    long end = finish(n->task);
    if (end > start) start = end;
  }
  t->state = DONE;
  t->done_at = start + t->days;
  printf("task %d: day %ld to %ld\n", t->number, start, t->done_at);
  return t->done_at;
}

int main(void) {
  long last = 0;
  needs(1, 2);
  needs(1, 3);
  needs(2, 4);
  needs(3, 4);
  needs(5, 1);
  task_of(4)->days = 3;
  task_of(3)->days = 5;
  for (struct task *t = tasks; t; t = t->next) {
    long end = finish(t);
    if (end > last) last = end;
  }
  printf("%ld days\n", last);
  return 0;
}
