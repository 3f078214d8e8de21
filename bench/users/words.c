/* Words of a text are counted in a hash table, and those that come most often are printed. */
#include <stdio.h>
#include <string.h>

#define CHAINS 32

struct word { char letters[16]; long count; struct word *next; };
struct table { struct word *chains[CHAINS]; long words; };
struct word *new_word(void);
struct table *new_table(void);

static unsigned hash(const char *text, size_t length) {
  unsigned h = 2166136261u;
  for (size_t i = 0; i < length; i++) h = (h ^ (unsigned char)text[i]) * 16777619u;
  return h;
}

void count_word(struct table *t, const char *text, size_t length) {
  if (length > 15) length = 15;
  unsigned at = hash(text, length) % CHAINS;
  for (struct word *w = t->chains[at]; w; w = w->next)
    if (strncmp(w->letters, text, length) == 0 && w->letters[length] == '\0') {
      w->count++;
      return;
    }
  struct word *w = new_word();
  if (!w) return;
  memcpy(w->letters, text, length);
  w->count = 1;
  w->next = t->chains[at];
  t->chains[at] = w;
  t->words++;
}

static int is_letter(char c) { return (c >= 'a' && c <= 'z') || (c >= 'A' && c <= 'Z'); }

void count_all(struct table *t, const char *text) {
  while (*text) {
    size_t length = 0;
    while (*text && !is_letter(*text)) text++;
    while (is_letter(text[length])) length++;
    if (length) count_word(t, text, length);
    text += length;
  }
}

int main(void) {
  struct table *t = new_table();
  if (!t) return 1;
  count_all(t, "the cat and the dog and the bird: the end");
  for (int i = 0; i < CHAINS; i++)
    for (struct word *w = t->chains[i]; w; w = w->next)
      if (w->count > 1) printf("%-15s %4ld\n", w->letters, w->count);
  printf("%ld words\n", t->words);
  return 0;
}
