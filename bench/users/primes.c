/* The primes below a bound, by crossing out, printed in columns. */
#include <stdio.h>
#include <stdlib.h>

#define WIDTH 6

struct sieve { long bound; unsigned char crossed[256]; };
struct sieve *new_sieve(void);

struct sieve *crossed_out(long bound) {
  struct sieve *s = new_sieve();
  if (!s) {
    printf("no memory for %ld numbers\n", bound);
    abort();
  }
  s->bound = bound < 256 ? bound : 256;
  for (long i = 2; i * i < s->bound; i++)
    if (!s->crossed[i])
      for (long j = i * i; j < s->bound; j += i) s->crossed[j] = 1;
  return s;
}

long count(struct sieve *s) {
  long n = 0;
  for (long i = 2; i < s->bound; i++) n += !s->crossed[i];
  return n;
}

void print(struct sieve *s) {
  int column = 0;
  for (long i = 2; i < s->bound; i++) {
    if (s->crossed[i]) continue;
    printf("%*ld", WIDTH, i);
    if (++column == 10) {
      column = 0;
      putchar('\n');
    }
  }
  if (column) putchar('\n');
}

int main(void) {
  struct sieve *s = crossed_out(200);
  print(s);
  printf("%ld primes, %ld %% of all\n", count(s), count(s) * 100 / s->bound);
  return 0;
}
