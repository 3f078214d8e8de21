/* Factorials as lists of digits, the last ones first, four in each cell. */
#include <stdio.h>

#define BASE 10000

struct part { int digits; struct part *next; };
struct part *new_part(void);

static struct part *part_of(int digits) {
  struct part *p = new_part();
  if (p) p->digits = digits;
  return p;
}

static int multiply(struct part *p, int by) {
  long carry = 0;
  for (;;) {
    carry += (long)p->digits * by;
    p->digits = carry % BASE;
    carry /= BASE;
    if (!p->next) break;
    p = p->next;
  }
  while (carry) {
    p->next = part_of(carry % BASE);
    if (!p->next) return 0;
    p = p->next;
    carry /= BASE;
  }
  return 1;
}

static int print(const struct part *p) {
  if (!p->next) return printf("%d", p->digits);
  int count = print(p->next);
  return count + printf("%04d", p->digits);
}

static long digit_sum(const struct part *p) {
  long sum = 0;
  for (; p; p = p->next)
    for (int d = p->digits; d; d /= 10) sum += d % 10;
  return sum;
}

int main(void) {
  struct part *f = part_of(1);
  if (!f) return 1;
  for (int n = 2; n <= 60; n++) {
    if (!multiply(f, n)) {
      puts("no memory");
      return 1;
    }
    if (n % 20 == 0) {
      printf("%d! = ", n);
      int count = print(f);
      printf("\n%d digits, their sum is %ld\n", count, digit_sum(f));
    }
  }
  return 0;
}
