/* Polynomials as lists of terms: sums, products, values, and how they are printed. */
#include <stdio.h>

struct term { long factor; long power; struct term *next; };
struct term *new_term(void);

static struct term *before(long factor, long power, struct term *rest) {
  struct term *t;
  if (factor == 0) return rest;
  t = new_term();
  if (!t) return rest;
  t->factor = factor;
  t->power = power;
  t->next = rest;
  return t;
}

struct term *add(struct term *p, struct term *q) {
  if (!p) return q;
  if (!q) return p;
  if (p->power > q->power) return before(p->factor, p->power, add(p->next, q));
  if (p->power < q->power) return before(q->factor, q->power, add(p, q->next));
  return before(p->factor + q->factor, p->power, add(p->next, q->next));
}

static struct term *scale(struct term *p, long factor, long power) {
  if (!p) return NULL;
  return before(p->factor * factor, p->power + power, scale(p->next, factor, power));
}

struct term *multiply(struct term *p, struct term *q) {
  struct term *product = NULL;
  for (; q; q = q->next) product = add(product, scale(p, q->factor, q->power));
  return product;
}

long value(struct term *p, long x) {
  long sum = 0;
  for (; p; p = p->next) {
    long power = 1;
    for (long i = 0; i < p->power; i++) power *= x;
    sum += p->factor * power;
  }
  return sum;
}

void print(struct term *p) {
  if (!p) printf("0");
  for (int first = 1; p; p = p->next, first = 0) {
    printf("%s", p->factor < 0 ? first ? "-" : " - " : first ? "" : " + ");
    printf("%ld", p->factor < 0 ? -p->factor : p->factor);
    if (p->power == 1) printf("x");
    if (p->power > 1) printf("x^%ld", p->power);
  }
  putchar('\n');
}

int main(void) {
  struct term *p = before(1, 1, before(-1, 0, NULL)), *q = p;
  for (int i = 0; i < 4; i++) {
    print(q);
    q = multiply(q, p);
  }
  return value(q, 3) != 32;
}
