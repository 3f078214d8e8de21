/* Accounts with interest: money is paid in, transferred and drawn, and each booking is kept. */
#include <stdio.h>

struct booking { long cents; int day; struct booking *before; };
struct account { long number; long cents; double rate; struct booking *last; struct account *next; };
struct booking *new_booking(void);
struct account *new_account(void);

static struct account *accounts;
static int today = 1;

struct account *open_account(long number, double rate) {
  struct account *a = new_account();
  if (a) {
    a->number = number;
    a->rate = rate;
    a->next = accounts;
    accounts = a;
  }
  return a;
}

int book(struct account *a, long cents) {
  struct booking *b;
  if (a->cents + cents < 0) return 0;
  b = new_booking();
  if (!b) return 0;
  b->cents = cents;
  b->day = today;
  b->before = a->last;
  a->last = b;
  a->cents += cents;
  return 1;
}

int transfer(struct account *from, struct account *to, long cents) {
  if (cents <= 0 || from == to) return 0;
  if (!book(from, -cents)) return 0;
  if (book(to, cents)) return 1;
  book(from, cents);
  return 0;
}

static double interest(const struct account *a) {
  double sum = 0;
  long cents = a->cents;
  int until = today;
  for (const struct booking *b = a->last; b; b = b->before) {
    sum += cents * a->rate * (until - b->day) / 36000.0;
    cents -= b->cents;
    until = b->day;
  }
  return sum;
}

static void print(const struct account *a) {
  printf("account %ld: %ld.%02ld, interest %.2f\n", a->number, a->cents / 100, a->cents % 100, interest(a) / 100);
  for (const struct booking *b = a->last; b; b = b->before) printf("  day %3d %+10.2f\n", b->day, b->cents / 100.0);
}

int main(void) {
  struct account *giro = open_account(4711, 0.5), *savings = open_account(815, 2.75);
  if (!giro || !savings) return 1;
  book(giro, 150000);
  today = 30;
  transfer(giro, savings, 100000);
  today = 60;
  if (!transfer(giro, savings, 60000)) printf("not enough\n");
  today = 360;
  for (struct account *a = accounts; a; a = a->next) print(a);
  return 0;
}
