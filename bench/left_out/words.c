/* Words that are kept by number in a tree; their texts are a table, and are compared and printed. */
#include "cells.h"
static const char *const texts[8] = {"and", "begin", "do", "end", "if", "or", "then", "while"};
struct word { unsigned long number; long count; struct word *less, *more; };
struct word *new_word(void);
static const char *text_of(unsigned long n) { return texts[n % 8]; }
static int order(unsigned long a, unsigned long b) { return strcmp(text_of(a), text_of(b)); }
struct word *put(struct word *root, unsigned long n) {
  struct word *at = root;
  while (at) {
    int c = order(n, at->number);
    if (c == 0) { at->count++; return root; }
    struct word *next = c < 0 ? at->less : at->more;
    if (!next) {
      struct word *w = new_word();
      if (!w) return root;
      w->number = n; w->count = 1;
      if (c < 0) at->less = w; else at->more = w;
      return root;
    }
    at = next;
  }
  struct word *w = new_word();
  if (w) { w->number = n; w->count = 1; }
  return w;
}
void print(struct word *at) {
  if (!at) return;
  print(at->less);
  printf("%s %ld\n", text_of(at->number), at->count);
  print(at->more);
}
