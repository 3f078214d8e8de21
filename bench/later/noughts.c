/* Noughts and crosses, played to the end by both sides. */
#include <stdio.h>

struct board { signed char at[9]; int moves; int value; int best; struct board *after[9]; };
struct board *new_board(void);

static const int lines[8][3] = {{0, 1, 2}, {3, 4, 5}, {6, 7, 8}, {0, 3, 6}, {1, 4, 7}, {2, 5, 8}, {0, 4, 8}, {2, 4, 6}};

static long boards;

static int winner(const struct board *b) {
  for (int i = 0; i < 8; i++) {
    int sum = b->at[lines[i][0]] + b->at[lines[i][1]] + b->at[lines[i][2]];
    if (sum == 3) return 1;
    if (sum == -3) return -1;
  }
  return 0;
}

static int solve(struct board *b, int player) {
  int won = winner(b);
  if (won || b->moves == 9) return b->value = won;
  b->value = -2 * player;
  for (int i = 0; i < 9; i++) {
    if (b->at[i]) continue;
    struct board *after = new_board();
    if (!after) return 0;
    boards++;
    for (int k = 0; k < 9; k++) after->at[k] = b->at[k];
    after->at[i] = (signed char)player;
    after->moves = b->moves + 1;
    int value = solve(after, -player);
    b->after[i] = after;
    if (value * player > b->value * player) {
      b->value = value;
      b->best = i;
    }
  }
  for (int i = 0; i < 9; i++)
    if (i != b->best) b->after[i] = NULL;
  return b->value;
}

static void print(const struct board *b) {
  for (int i = 0; i < 9; i++) {
    putchar("O.X"[b->at[i] + 1]);
    if (i % 3 == 2) putchar('\n');
  }
  putchar('\n');
}

int main(void) {
  struct board *b = new_board();
  if (!b) return 1;
  b->at[0] = 1;
  b->at[4] = -1;
  b->moves = 2;
  int value = solve(b, 1);
  for (; b && b->moves < 9; b = b->after[b->best]) print(b);
  printf("value %d, %ld boards\n", value, boards);
  return 0;
}
