/* The names of a program in nested scopes: declared, looked up, and told where one is declared twice. */
#include <stdio.h>

#define SLOTS 16

struct symbol { long name; long type; long depth; struct symbol *next; };
struct scope { struct symbol *slots[SLOTS]; long depth; struct scope *outer; };
struct symbol *new_symbol(void);
struct scope *new_scope(void);

static struct scope *inner;
static int errors;

static void error(const char *what, long name, long line) {
  printf("line %ld: %s: name %ld\n", line, what, name);
  errors++;
}

void enter(void) {
  struct scope *s = new_scope();
  if (!s) return;
  s->depth = inner ? inner->depth + 1 : 0;
  s->outer = inner;
  inner = s;
}

void leave(void) {
  if (inner) inner = inner->outer;
}

static struct symbol *in(struct scope *s, long name) {
  struct symbol *x = s->slots[(unsigned long)name % SLOTS];
  while (x && x->name != name) x = x->next;
  return x;
}

void declare(long name, long type, long line) {
  if (!inner) return;
  if (in(inner, name)) {
    error("declared twice", name, line);
    return;
  }
  struct symbol *x = new_symbol();
  if (!x) return;
  struct symbol **slot = &inner->slots[(unsigned long)name % SLOTS];
  x->name = name;
  x->type = type;
  x->depth = inner->depth;
  x->next = *slot;
  *slot = x;
}

long type_of(long name, long line) {
  for (struct scope *s = inner; s; s = s->outer) {
    struct symbol *x = in(s, name);
    if (x) return x->type;
  }
  error("not declared", name, line);
  return 0;
}

int main(void) {
  enter();
  declare(7, 1, 1);
  declare(23, 2, 2);
  enter();
  declare(7, 3, 4);
  declare(7, 4, 5);
  printf("%ld %ld\n", type_of(7, 6), type_of(23, 6));
  leave();
  printf("%ld %ld\n", type_of(7, 8), type_of(8, 8));
  leave();
  return errors != 2;
}
