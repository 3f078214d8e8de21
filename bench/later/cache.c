/* A cache that forgets what was used least lately: a table of chains, and a list by the last use. */
#include <stdio.h>

#define CHAINS 16
#define MOST 8

struct entry { long key, value; struct entry *chain; struct entry *newer, *older; };
struct cache { struct entry *chains[CHAINS]; struct entry *newest, *oldest; int count; long hits, misses; };
struct entry *new_entry(void);
struct cache *new_cache(void);

static void unlink_entry(struct cache *c, struct entry *e) {
  if (e->newer) e->newer->older = e->older;
  else c->newest = e->older;
  if (e->older) e->older->newer = e->newer;
  else c->oldest = e->newer;
  e->newer = e->older = NULL;
}

static void put_first(struct cache *c, struct entry *e) {
  e->older = c->newest;
  if (c->newest) c->newest->newer = e;
  else c->oldest = e;
  c->newest = e;
}

static void forget(struct cache *c, struct entry *e) {
  unsigned at = (unsigned long)e->key % CHAINS;
  struct entry *i = c->chains[at], *before = NULL;
  while (i && i != e) {
    before = i;
    i = i->chain;
  }
  if (before) before->chain = e->chain;
  else c->chains[at] = e->chain;
  unlink_entry(c, e);
  c->count--;
}

static long slow(long key) { return key * key + 1; }

long get(struct cache *c, long key) {
  unsigned at = (unsigned long)key % CHAINS;
  for (struct entry *e = c->chains[at]; e; e = e->chain)
    if (e->key == key) {
      c->hits++;
      unlink_entry(c, e);
      put_first(c, e);
      return e->value;
    }
  c->misses++;
  if (c->count == MOST) forget(c, c->oldest);
  struct entry *e = new_entry();
  if (!e) return slow(key);
  e->key = key;
  e->value = slow(key);
  e->chain = c->chains[at];
  c->chains[at] = e;
  put_first(c, e);
  c->count++;
  return e->value;
}

int main(void) {
  struct cache *c = new_cache();
  long sum = 0;
  if (!c) return 1;
  for (long i = 0; i < 1000; i++) sum += get(c, i * i % 23);
  printf("sum %ld, %ld hits, %ld misses\n", sum, c->hits, c->misses);
  for (struct entry *e = c->newest; e; e = e->older) printf("%ld ", e->key);
  printf("\n");
  return 0;
}
