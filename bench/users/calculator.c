/* Sums, products and brackets are read into a tree by recursive descent, and computed. */
#include <ctype.h>
#include <stdio.h>
#include <stdlib.h>

struct node { char sign; long value; struct node *left, *right; };
struct node *new_node(void);

static const char *at;
static struct node *sum(void);

static struct node *node_of(char sign, long value, struct node *left, struct node *right) {
  struct node *n = new_node();
  if (!n) {
    puts("no memory");
    exit(1);
  }
  n->sign = sign;
  n->value = value;
  n->left = left;
  n->right = right;
  return n;
}

static void wrong(const char *wanted) {
  printf("%s expected before '%s'\n", wanted, at);
  exit(1);
}

static void spaces(void) {
  while (isspace((unsigned char)*at)) at++;
}

static struct node *factor(void) {
  spaces();
  if (*at == '(') {
    at++;
    struct node *n = sum();
    spaces();
    if (*at != ')') wrong("')'");
    at++;
    return n;
  }
  if (!isdigit((unsigned char)*at)) wrong("a number");
  long value = 0;
  while (isdigit((unsigned char)*at)) value = value * 10 + (*at++ - '0');
  return node_of('n', value, NULL, NULL);
}

static struct node *product(void) {
  struct node *n = factor();
  for (spaces(); *at == '*' || *at == '/'; spaces()) {
    char sign = *at++;
    n = node_of(sign, 0, n, factor());
  }
  return n;
}

static struct node *sum(void) {
  struct node *n = product();
  for (spaces(); *at == '+' || *at == '-'; spaces()) {
    char sign = *at++;
    n = node_of(sign, 0, n, product());
  }
  return n;
}

long computed(struct node *n) {
  if (n->sign == 'n') return n->value;
  long left = computed(n->left), right = computed(n->right);
  switch (n->sign) {
  case '+': return left + right;
  case '-': return left - right;
  case '*': return left * right;
  default: return right ? left / right : 0;
  }
}

int main(void) {
  at = "2 * (3 + 4) - 10 / 5";
  struct node *n = sum();
  if (*at) wrong("the end");
  printf("%ld\n", computed(n));
  return 0;
}
