/* A line of text that is changed by inserting and deleting, and each change can be taken back and made again. */
#include <stdio.h>
#include <string.h>

#define ROOM 64

enum kind { INSERT, DELETE };

struct line { int length; char letters[ROOM]; struct change *undo, *redo; };
struct change { enum kind kind; int at; char letter; struct change *next; };
struct line *new_line(void);
struct change *new_change(void);

static int insert_letter(struct line *l, int at, char letter) {
  if (l->length == ROOM || at < 0 || at > l->length) return 0;
  for (int i = l->length; i > at; i--) l->letters[i] = l->letters[i - 1];
  l->letters[at] = letter;
  l->length++;
  return 1;
}

static char delete_letter(struct line *l, int at) {
  char letter;
  if (at < 0 || at >= l->length) return 0;
  letter = l->letters[at];
  for (int i = at; i + 1 < l->length; i++) l->letters[i] = l->letters[i + 1];
  l->length--;
  return letter;
}

static void keep(struct line *l, enum kind kind, int at, char letter) {
  struct change *c = new_change();
  if (!c) return;
  c->kind = kind;
  c->at = at;
  c->letter = letter;
  c->next = l->undo;
  l->undo = c;
  l->redo = NULL;
}

void type(struct line *l, int at, const char *text) {
  for (; *text; text++, at++)
    if (insert_letter(l, at, *text)) keep(l, INSERT, at, *text);
}

void erase(struct line *l, int at, int count) {
  while (count-- > 0) {
    char letter = delete_letter(l, at);
    if (!letter) return;
    keep(l, DELETE, at, letter);
  }
}

static int turn(struct line *l, int is_undo) {
  struct change *c = is_undo ? l->undo : l->redo;
  if (!c) return 0;
  if ((c->kind == INSERT) == is_undo) delete_letter(l, c->at);
  else insert_letter(l, c->at, c->letter);
  if (is_undo) {
    l->undo = c->next;
    c->next = l->redo;
    l->redo = c;
  } else {
    l->redo = c->next;
    c->next = l->undo;
    l->undo = c;
  }
  return 1;
}

static void print(const struct line *l) { printf("%2d |%.*s|\n", l->length, l->length, l->letters); }

int main(void) {
  struct line *l = new_line();
  if (!l) return 1;
  type(l, 0, "hello world");
  type(l, 5, ", small");
  print(l);
  erase(l, 0, 7);
  print(l);
  for (int i = 0; i < 10; i++) turn(l, 1);
  print(l);
  while (turn(l, 0)) {}
  print(l);
  return 0;
}
