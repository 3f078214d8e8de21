/* What a shop has in stock: articles are bought and sold by their numbers, and those that run short are ordered. */
#include <stdio.h>
#include <stdlib.h>

struct article { unsigned number; int count; int least; long cents; struct article *next; };
struct article *new_article(void);

static struct article *stock;
static long till;

static struct article *find(unsigned number) {
  struct article *a = stock;
  while (a && a->number != number) a = a->next;
  return a;
}

static void add(unsigned number, int count, int least, long cents) {
  struct article *a = find(number);
  if (!a) {
    a = new_article();
    if (!a) {
      fprintf(stderr, "no memory for article %u\n", number);
      exit(1);
    }
    a->number = number;
    a->next = stock;
    stock = a;
  }
  a->count += count;
  a->least = least;
  a->cents = cents;
}

static int sell(unsigned number, int count) {
  struct article *a = find(number);
  if (!a) {
    printf("no article %u\n", number);
    return -1;
  }
  if (a->count < count) {
    printf("only %d of article %u\n", a->count, number);
    count = a->count;
  }
  a->count -= count;
  till += count * a->cents;
  return count;
}

static long worth(void) {
  long sum = 0;
  for (const struct article *a = stock; a; a = a->next) sum += a->count * a->cents;
  return sum;
}

static int order(void) {
  int ordered = 0;
  for (struct article *a = stock; a; a = a->next)
    if (a->count < a->least) {
      int wanted = 2 * a->least - a->count;
      printf("order %3d of article %u\n", wanted, a->number);
      till -= wanted * a->cents * 7 / 10;
      a->count += wanted;
      ordered++;
    }
  return ordered;
}

int main(void) {
  add(1001, 20, 5, 399);
  add(1002, 8, 10, 1250);
  add(2001, 100, 30, 15);
  sell(1001, 17);
  sell(1002, 9);
  sell(3000, 1);
  sell(2001, 80);
  printf("%d orders\n", order());
  printf("till %ld.%02ld, stock %ld.%02ld\n", till / 100, labs(till % 100), worth() / 100, worth() % 100);
  return 0;
}
