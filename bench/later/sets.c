/* Sets of small numbers as bits. */
#include <stdio.h>

#define WORDS 4

struct set { unsigned long words[WORDS]; };
struct set *new_set(void);

static int add(struct set *s, unsigned n) {
  unsigned long bit = 1ul << (n & 63);
  if (n >= 64 * WORDS) return 0;
  if (s->words[n >> 6] & bit) return 0;
  s->words[n >> 6] |= bit;
  return 1;
}

static int has(const struct set *s, unsigned n) {
  return n < 64 * WORDS && (s->words[n >> 6] >> (n & 63) & 1);
}

static struct set *both(const struct set *a, const struct set *b) {
  struct set *s = new_set();
  if (s)
    for (int i = 0; i < WORDS; i++) s->words[i] = a->words[i] & b->words[i];
  return s;
}

static struct set *either(const struct set *a, const struct set *b) {
  struct set *s = new_set();
  if (s)
    for (int i = 0; i < WORDS; i++) s->words[i] = a->words[i] | b->words[i];
  return s;
}

static int size(const struct set *s) {
  int count = 0;
  for (int i = 0; i < WORDS; i++)
    for (unsigned long w = s->words[i]; w; w &= w - 1) count++;
  return count;
}

static void print(const char *name, const struct set *s) {
  const char *between = "";
  printf("%s = {", name);
  for (unsigned n = 0; n < 64 * WORDS; n++)
    if (has(s, n)) {
      printf("%s%u", between, n);
      between = ", ";
    }
  printf("} %d\n", size(s));
}

int main(void) {
  struct set *a = new_set(), *b = new_set(), *c, *d;
  if (!a || !b) return 1;
  for (unsigned n = 0; n < 100; n += 6) add(a, n);
  for (unsigned n = 0; n < 100; n += 10) add(b, n);
  c = both(a, b);
  d = either(a, b);
  if (!c || !d) return 1;
  print("a", a);
  print("b", b);
  print("both", c);
  print("either", d);
  return size(a) + size(b) != size(c) + size(d);
}
