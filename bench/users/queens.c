/* Queens are placed on a board so that none attacks another; the boards are kept and printed. */
#include <stdio.h>

#define SIZE 8

struct board { int column[SIZE]; struct board *before; };
struct board *new_board(void);

static struct board *found;
static long tried;

static int is_safe(struct board *b, int row, int column) {
  for (int r = 0; r < row; r++) {
    int c = b->column[r];
    if (c == column || c - column == row - r || column - c == row - r) return 0;
  }
  return 1;
}

static void keep(struct board *b) {
  struct board *copy = new_board();
  if (!copy) return;
  for (int r = 0; r < SIZE; r++) copy->column[r] = b->column[r];
  copy->before = found;
  found = copy;
}

static void place(struct board *b, int row) {
  if (row == SIZE) {
    keep(b);
    return;
  }
  for (int column = 0; column < SIZE; column++) {
    tried++;
    if (is_safe(b, row, column)) {
      b->column[row] = column;
      place(b, row + 1);
    }
  }
}

static void print(struct board *b) {
  for (int r = 0; r < SIZE; r++) {
    for (int c = 0; c < SIZE; c++) fputs(b->column[r] == c ? "Q " : ". ", stdout);
    putchar('\n');
  }
  putchar('\n');
}

int main(void) {
  int count = 0;
  struct board *b = new_board();
  if (!b) return 1;
  place(b, 0);
  for (b = found; b; b = b->before) count++;
  if (found) print(found);
  printf("%d boards, %ld places tried\n", count, tried);
  return 0;
}
