/* Terms in Polish notation are computed on a stack, with some registers. */
#include <ctype.h>
#include <stdio.h>
#include <stdlib.h>

struct item { double value; struct item *below; };
struct item *new_item(void);

static struct item *top;
static double registers[26];

static void push(double value) {
  struct item *i = new_item();
  if (!i) {
    fprintf(stderr, "no memory\n");
    exit(1);
  }
  i->value = value;
  i->below = top;
  top = i;
}

static double pop(void) {
  double value;
  if (!top) {
    fprintf(stderr, "the stack is empty\n");
    return 0;
  }
  value = top->value;
  top = top->below;
  return value;
}

static void binary(char sign) {
  double b = pop(), a = pop();
  switch (sign) {
  case '+': push(a + b); break;
  case '-': push(a - b); break;
  case '*': push(a * b); break;
  case '/':
    if (b == 0) fprintf(stderr, "division by zero\n");
    push(b == 0 ? 0 : a / b);
    break;
  }
}

static double compute(const char *term) {
  for (; *term; term++) {
    if (isspace((unsigned char)*term)) continue;
    if (isdigit((unsigned char)*term)) {
      char *end;
      push(strtod(term, &end));
      term = end - 1;
    } else if (islower((unsigned char)*term)) {
      push(registers[*term - 'a']);
    } else if (isupper((unsigned char)*term)) {
      registers[*term - 'A'] = top ? top->value : 0;
    } else {
      binary(*term);
    }
  }
  return pop();
}

int main(void) {
  printf("%g\n", compute("3 4 + 2 *"));
  printf("%g\n", compute("10 4 / X x *"));
  printf("%g\n", compute("x 1 0 / +"));
  return top != NULL;
}
