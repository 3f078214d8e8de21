/* An account book: bookings are checked before they are made, and a report is printed. */
#include <stdio.h>

enum result { DONE, NO_ACCOUNT, TOO_LITTLE, BAD_AMOUNT };

struct account { long number; long cents; long bookings; struct account *next; };
struct account *new_account(void);

static struct account *accounts;
static long refused;

static struct account *find(long number) {
  struct account *a = accounts;
  while (a && a->number != number) a = a->next;
  return a;
}

enum result book(long from, long to, long cents) {
  struct account *source, *target;
  if (cents <= 0) return BAD_AMOUNT;
  source = find(from);
  target = find(to);
  if (!source || !target) return NO_ACCOUNT;
  if (source->cents < cents) return TOO_LITTLE;
  source->cents -= cents;
  target->cents += cents;
  source->bookings++;
  target->bookings++;
  return DONE;
}

const char *message(enum result r) {
  switch (r) {
  case DONE: return "done";
  case NO_ACCOUNT: return "no such account";
  case TOO_LITTLE: return "not enough money";
  default: return "not an amount";
  }
}

void transfer(long from, long to, long cents) {
  enum result r = book(from, to, cents);
  if (r != DONE) refused++;
  printf("%ld -> %ld: %ld.%02ld: %s\n", from, to, cents / 100, cents % 100, message(r));
}

int open_account(long number, long cents) {
  struct account *a;
  if (find(number)) return 0;
  a = new_account();
  if (!a) return 0;
  a->number = number;
  a->cents = cents;
  a->next = accounts;
  accounts = a;
  return 1;
}

int main(void) {
  for (long i = 1; i <= 5; i++) open_account(i, i * 10000);
  transfer(1, 2, 2550);
  transfer(2, 9, 100);
  transfer(3, 1, 9999999);
  for (struct account *a = accounts; a; a = a->next)
    printf("%6ld %10ld.%02ld %4ld\n", a->number, a->cents / 100, a->cents % 100, a->bookings);
  printf("%ld refused\n", refused);
  return refused != 2;
}
