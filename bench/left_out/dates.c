/* Days and dates: divisions, a table of months, and a list of days. */
#include "cells.h"
static const int before[12] = {0, 31, 59, 90, 120, 151, 181, 212, 243, 273, 304, 334};
struct day { long year, month, date; struct day *next; };
struct day *new_day(void);
long leap(long y) { return y % 4 == 0 && (y % 100 != 0 || y % 400 == 0); }
long number(struct day *d) {
  if (!d) return -1;
  unsigned long m = (unsigned long)(d->month - 1) % 12;
  return d->year * 365 + d->year / 4 - d->year / 100 + d->year / 400 + before[m] + (m > 1 && leap(d->year)) + d->date;
}
long between(struct day *a, struct day *b) { return number(b) - number(a); }
struct day *today(struct day *rest) {
  struct day *d = new_day();
  long now = time(0) / 86400;
  if (!d) return rest;
  d->year = 1970 + now / 365; d->month = now % 365 / 31 + 1; d->date = now % 31 + 1;
  d->next = rest;
  return d;
}
