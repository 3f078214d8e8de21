/* Settings from the environment, in a list: pointers of the C library, texts in locals, and numbers in cells. */
#include "cells.h"
struct setting { unsigned long key; long value; struct setting *next; };
struct setting *new_setting(void);
static struct setting *settings;
static unsigned long key_of(unsigned long n) {
  char name[16];
  snprintf(name, sizeof name, "OPT_%lu", n);
  const char *text = getenv(name);
  unsigned long h = 5381;
  if (!text) return 0;
  for (unsigned long i = 0; text[i]; i++) h = h * 33 ^ (unsigned char)text[i];
  return h;
}
void load(unsigned long n) {
  for (unsigned long i = 0; i < n; i++) {
    struct setting *s = new_setting();
    if (!s) return;
    s->key = key_of(i);
    s->value = (long)(s->key >> 3);
    s->next = settings;
    settings = s;
  }
}
long find(unsigned long key) {
  for (struct setting *s = settings; s; s = s->next) if (s->key == key) return s->value;
  return -1;
}
