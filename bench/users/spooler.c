/* Jobs of a printer wait in a ring, the urgent ones in a ring of their own. */
#include <stdio.h>

#define ROOM 16

struct job { long number; long pages; long owner; };
struct ring { unsigned long first, count; struct job *jobs[ROOM]; };
struct job *new_job(void);
struct ring *new_ring(void);

static struct ring *urgent, *others;
static long next_number = 1;

static int put(struct ring *r, struct job *j) {
  if (r->count == ROOM) return 0;
  r->jobs[(r->first + r->count) % ROOM] = j;
  r->count++;
  return 1;
}

static struct job *take(struct ring *r) {
  struct job *j;
  if (r->count == 0) return NULL;
  j = r->jobs[r->first];
  r->jobs[r->first] = NULL;
  r->first = (r->first + 1) % ROOM;
  r->count--;
  return j;
}

long submit(long pages, long owner, int is_urgent) {
  struct job *j = new_job();
  if (!j) return 0;
  j->number = next_number++;
  j->pages = pages;
  j->owner = owner;
  if (!put(is_urgent ? urgent : others, j)) {
    printf("job %ld: the queue is full\n", j->number);
    return 0;
  }
  return j->number;
}

long work(void) {
  long pages = 0;
  struct job *j;
  while ((j = take(urgent)) || (j = take(others))) {
    printf("job %3ld of user %ld: %ld page%s\n", j->number, j->owner, j->pages, j->pages == 1 ? "" : "s");
    pages += j->pages;
  }
  return pages;
}

int main(void) {
  urgent = new_ring();
  others = new_ring();
  if (!urgent || !others) return 1;
  for (long i = 0; i < 20; i++) submit(1 + i % 7, i % 3, i % 5 == 0);
  printf("%ld pages\n", work());
  return 0;
}
