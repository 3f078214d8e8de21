/* The digits of 2 to the `power`, in a list of cells, `rounds` times: doubled digit by digit, which divides by 10, and printed by a
   function outside of the program. It waits where no cell is free. Returns the sum of the digits. */
#include "../../bench/programs/lists.c"

/* examples/native/show.c: takes the digits of a line, and 10 at its end. */
int show(int digit);

static struct node *claim(struct node *next) {
  struct node *cell;
  while (!(cell = new_node())) {}
  cell->next = next;
  return cell;
}

/* Doubles a number, whose last digit is first. A digit that is new comes to the end of the list. */
static void twice(struct node *number) {
  struct node *at, *last = 0;
  unsigned long carry = 0, digit;
  for (at = number; at; at = at->next) {
    digit = 2 * (unsigned long)at->value + carry;
    at->value = (long)(digit % 10);
    carry = digit / 10;
    last = at;
  }
  if (!carry || !last) return;
  at = claim(0);
  at->value = (long)carry;
  last->next = at;
}

static unsigned long print(struct node *number) {
  unsigned long sum = 0;
  for (; number; number = number->next) {
    show((int)number->value);
    sum += (unsigned long)number->value;
  }
  show(10);
  return sum;
}

unsigned long work(unsigned long rounds, unsigned long power) {
  unsigned long i, j, sum = 0;
  for (i = 0; i < rounds; i++) {
    struct node *number = claim(0);
    number->value = 1;
    for (j = 0; j < power; j++) twice(number);
    number = list_reverse(number);
    sum = print(number);
    top = number;
  }
  return sum;
}
