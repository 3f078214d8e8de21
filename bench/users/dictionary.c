/* A dictionary as a search tree of texts: put, get, removed, printed in order with its depth. */
#include <stdio.h>
#include <string.h>

struct entry { const char *key; long value; struct entry *less, *more; };
struct entry *new_entry(void);

static struct entry *root;

void put(const char *key, long value) {
  struct entry **at = &root;
  while (*at) {
    int order = strcmp(key, (*at)->key);
    if (order == 0) {
      (*at)->value = value;
      return;
    }
    at = order < 0 ? &(*at)->less : &(*at)->more;
  }
  *at = new_entry();
  if (!*at) {
    perror("dictionary");
    return;
  }
  (*at)->key = key;
  (*at)->value = value;
}

long get(const char *key, long otherwise) {
  for (struct entry *e = root; e;) {
    int order = strcmp(key, e->key);
    if (order == 0) return e->value;
    e = order < 0 ? e->less : e->more;
  }
  return otherwise;
}

static struct entry *joined(struct entry *less, struct entry *more) {
  if (!less) return more;
  if (!more) return less;
  more->less = joined(less, more->less);
  return more;
}

static struct entry *without(struct entry *e, const char *key) {
  if (!e) return NULL;
  int order = strcmp(key, e->key);
  if (order == 0) return joined(e->less, e->more);
  if (order < 0) e->less = without(e->less, key);
  else e->more = without(e->more, key);
  return e;
}

static int depth(struct entry *e) {
  if (!e) return 0;
  int less = depth(e->less), more = depth(e->more);
  return 1 + (less > more ? less : more);
}

static void print(struct entry *e) {
  if (!e) return;
  print(e->less);
  printf("  %s: %ld\n", e->key, e->value);
  print(e->more);
}

int main(void) {
  put("red", 1);
  put("green", 2);
  put("blue", 3);
  put("green", 4);
  print(root);
  root = without(root, "red");
  printf("%ld %ld, depth %d\n", get("green", 0), get("red", -1), depth(root));
  return 0;
}
