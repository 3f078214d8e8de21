/* The game of life on a torus, row by row. */
#include <stdio.h>

#define WIDTH 32
#define HEIGHT 16

struct row { unsigned char at[WIDTH]; };
struct field { struct row *rows[HEIGHT]; long generation; };
struct row *new_row(void);
struct field *new_field(void);

static struct field *empty(void) {
  struct field *f = new_field();
  if (!f) return NULL;
  for (int y = 0; y < HEIGHT; y++) {
    f->rows[y] = new_row();
    if (!f->rows[y]) return NULL;
  }
  return f;
}

static void set(struct field *f, unsigned x, unsigned y) {
  f->rows[y % HEIGHT]->at[x % WIDTH] = 1;
}

static int get(const struct field *f, unsigned x, unsigned y) {
  const struct row *r = f->rows[y % HEIGHT];
  return r ? r->at[x % WIDTH] : 0;
}

static int neighbours(const struct field *f, unsigned x, unsigned y) {
  int count = 0;
  for (unsigned dy = HEIGHT - 1; dy <= HEIGHT + 1; dy++)
    for (unsigned dx = WIDTH - 1; dx <= WIDTH + 1; dx++)
      if (dx != WIDTH || dy != HEIGHT) count += get(f, x + dx, y + dy);
  return count;
}

static struct field *next(const struct field *f) {
  struct field *to = empty();
  if (!to) return NULL;
  to->generation = f->generation + 1;
  for (unsigned y = 0; y < HEIGHT; y++)
    for (unsigned x = 0; x < WIDTH; x++) {
      int n = neighbours(f, x, y);
      if (n == 3 || (n == 2 && get(f, x, y))) set(to, x, y);
    }
  return to;
}

static void print(const struct field *f) {
  printf("generation %ld\n", f->generation);
  for (unsigned y = 0; y < HEIGHT; y++) {
    for (unsigned x = 0; x < WIDTH; x++) putchar(get(f, x, y) ? '#' : '.');
    putchar('\n');
  }
}

int main(void) {
  struct field *f = empty();
  if (!f) return 1;
  set(f, 1, 0);
  set(f, 2, 1);
  set(f, 0, 2);
  set(f, 1, 2);
  set(f, 2, 2);
  for (int i = 0; i < 12 && f; i++) f = next(f);
  if (f) print(f);
  return 0;
}
