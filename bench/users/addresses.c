/* A telephone list: entries are put in by their names' order, found and printed. */
#include <stdio.h>

struct name { long length; char letters[24]; };
struct entry { struct name *name; long number; struct entry *next; };
struct name *new_name(void);
struct entry *new_entry(void);

static struct entry *entries;

struct name *name_of(const char *text) {
  struct name *n = new_name();
  if (!n) return 0;
  for (n->length = 0; text[n->length] && n->length < 24; n->length++)
    n->letters[n->length] = text[n->length];
  return n;
}

int compare(const struct name *a, const struct name *b) {
  for (long i = 0; i < a->length && i < b->length; i++)
    if (a->letters[i] != b->letters[i]) return a->letters[i] < b->letters[i] ? -1 : 1;
  return a->length == b->length ? 0 : a->length < b->length ? -1 : 1;
}

void add(const char *text, long number) {
  struct entry *e = new_entry(), **at = &entries;
  if (!e) return;
  e->name = name_of(text);
  e->number = number;
  while (*at && compare((*at)->name, e->name) < 0) at = &(*at)->next;
  e->next = *at;
  *at = e;
}

long number_of(const char *text) {
  struct name *n = name_of(text);
  for (struct entry *e = entries; e && n; e = e->next)
    if (compare(e->name, n) == 0) return e->number;
  return -1;
}

void print(void) {
  for (struct entry *e = entries; e; e = e->next) {
    for (long i = 0; i < e->name->length; i++) putchar(e->name->letters[i]);
    printf(" .. %ld\n", e->number);
  }
}

int main(void) {
  add("Maier", 5551234);
  add("Ansorge", 5550001);
  add("Zeller", 5559999);
  print();
  printf("%ld\n", number_of("Zeller"));
  return 0;
}
