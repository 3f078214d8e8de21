/* Temperatures of some days: their mean, how far they are spread, and a line of stars for each. */
#include <math.h>
#include <stdio.h>

struct day { int number; float degrees; struct day *next; };
struct month { struct day *first, *last; int count; double sum, squares; };
struct day *new_day(void);
struct month *new_month(void);

static int add(struct month *m, int number, float degrees) {
  struct day *d;
  if (isnan(degrees)) return 0;
  d = new_day();
  if (!d) return 0;
  d->number = number;
  d->degrees = degrees;
  if (m->last) m->last->next = d;
  else m->first = d;
  m->last = d;
  m->count++;
  m->sum += degrees;
  m->squares += (double)degrees * degrees;
  return 1;
}

static double mean(const struct month *m) { return m->count ? m->sum / m->count : 0; }

static double spread(const struct month *m) {
  double middle = mean(m);
  return m->count ? sqrt(fmax(0, m->squares / m->count - middle * middle)) : 0;
}

static struct day *warmest(const struct month *m) {
  struct day *found = m->first;
  for (struct day *d = m->first; d; d = d->next)
    if (d->degrees > found->degrees) found = d;
  return found;
}

static void print(const struct month *m) {
  for (const struct day *d = m->first; d; d = d->next) {
    int stars = (int)lround(d->degrees);
    printf("%2d %5.1f ", d->number, d->degrees);
    for (int i = 0; i < stars && i < 40; i++) putchar('*');
    putchar('\n');
  }
}

int main(void) {
  struct month *m = new_month();
  if (!m) return 1;
  for (int i = 1; i <= 30; i++) add(m, i, (float)(14 + 9 * sin(i / 4.0) + i % 3));
  print(m);
  printf("mean %.2f, spread %.2f\n", mean(m), spread(m));
  struct day *d = warmest(m);
  if (d) printf("warmest: day %d with %.1f\n", d->number, d->degrees);
  return 0;
}
