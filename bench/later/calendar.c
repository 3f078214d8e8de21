/* A calendar: dates are kept in order, with the day of the week of each. */
#include <stdio.h>

struct date { int year, month, day; };
struct event { struct date date; int kind; struct event *next; };
struct event *new_event(void);

static struct event *events;

static int is_leap(int year) { return (year % 4 == 0 && year % 100 != 0) || year % 400 == 0; }

static int days_of(int year, int month) {
  switch (month) {
  case 2: return is_leap(year) ? 29 : 28;
  case 4: case 6: case 9: case 11: return 30;
  default: return 31;
  }
}

static long day_number(const struct date *d) {
  long days = d->day;
  for (int y = 1970; y < d->year; y++) days += is_leap(y) ? 366 : 365;
  for (int m = 1; m < d->month; m++) days += days_of(d->year, m);
  return days - 1;
}

static const char *weekday(const struct date *d) {
  static const char *const names[] = {"Thu", "Fri", "Sat", "Sun", "Mon", "Tue", "Wed"};
  return names[day_number(d) % 7];
}

static int add(int year, int month, int day, int kind) {
  struct event *e, *before = NULL;
  if (month < 1 || month > 12 || day < 1 || day > days_of(year, month)) return 0;
  e = new_event();
  if (!e) return 0;
  e->date.year = year;
  e->date.month = month;
  e->date.day = day;
  e->kind = kind;
  for (struct event *at = events; at && day_number(&at->date) <= day_number(&e->date); at = at->next) before = at;
  if (before) {
    e->next = before->next;
    before->next = e;
  } else {
    e->next = events;
    events = e;
  }
  return 1;
}

int main(void) {
  add(2024, 2, 29, 1);
  add(1999, 12, 31, 2);
  add(2023, 6, 1, 1);
  if (!add(2023, 2, 29, 3)) puts("there is no such day");
  for (struct event *e = events; e; e = e->next) {
    printf("%s %02d.%02d.%d kind %d", weekday(&e->date), e->date.day, e->date.month, e->date.year, e->kind);
    if (e->next) printf(", %ld days to the next", day_number(&e->next->date) - day_number(&e->date));
    putchar('\n');
  }
  return 0;
}
