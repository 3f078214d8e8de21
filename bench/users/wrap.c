/* A text is broken into lines of a width, and each line is set flush on both sides. */
#include <stdio.h>
#include <string.h>

#define WIDTH 32

struct word { const char *start; int length; struct word *next; };
struct word *new_word(void);

static struct word *words_of(const char *text) {
  struct word *first = NULL, *last = NULL;
  while (*text) {
    text += strspn(text, " \n");
    int length = (int)strcspn(text, " \n");
    if (!length) break;
    struct word *w = new_word();
    if (!w) break;
    w->start = text;
    w->length = length;
    w->next = NULL;
    if (last) last->next = w;
    else first = w;
    last = w;
    text += length;
  }
  return first;
}

static void print_line(struct word *first, int count, int letters) {
  int gaps = count - 1, space = WIDTH - letters;
  for (int i = 0; i < count; i++, first = first->next) {
    printf("%.*s", first->length, first->start);
    if (i < gaps) {
      int here = space / (gaps - i);
      printf("%*s", here, "");
      space -= here;
    }
  }
  putchar('\n');
}

void set(const char *text) {
  struct word *first = words_of(text), *w = first;
  int count = 0, letters = 0;
  for (; w; w = w->next) {
    if (count && letters + w->length + count > WIDTH) {
      print_line(first, count, letters);
      first = w;
      count = letters = 0;
    }
    count++;
    letters += w->length;
  }
  for (; first; first = first->next) printf("%.*s%s", first->length, first->start, first->next ? " " : "\n");
}

int main(void) {
  set("It is for authors of compilers that emit code with a collector, and for those who work on verified memory management.");
  return 0;
}
