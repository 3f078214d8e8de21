/* The shortest way through a maze, by a queue of places. */
#include <stdio.h>
#include <string.h>

#define W 17
#define H 7

static const char *maze[H] = {
  "#################",
  "#S..#.....#.....#",
  "###.#.###.#.###.#",
  "#...#...#...#...#",
  "#.#######.#######",
  "#.........#....E#",
  "#################",
};

struct place { int x, y; struct place *from; struct place *next; };
struct queue { struct place *first, *last; };
struct place *new_place(void);
struct queue *new_queue(void);

static char seen[H][W];

static void put(struct queue *q, int x, int y, struct place *from) {
  if (x < 0 || x >= W || y < 0 || y >= H || maze[y][x] == '#' || seen[y][x]) return;
  struct place *p = new_place();
  if (!p) return;
  seen[y][x] = 1;
  p->x = x;
  p->y = y;
  p->from = from;
  if (q->last) q->last->next = p;
  else q->first = p;
  q->last = p;
}

static struct place *take(struct queue *q) {
  struct place *p = q->first;
  if (p) {
    q->first = p->next;
    if (!q->first) q->last = NULL;
  }
  return p;
}

static struct place *search(int x, int y) {
  static const int dx[] = {1, 0, -1, 0}, dy[] = {0, 1, 0, -1};
  struct queue *q = new_queue();
  struct place *p;
  if (!q) return NULL;
  put(q, x, y, NULL);
  while ((p = take(q)))
    if (maze[p->y][p->x] == 'E') return p;
    else
      for (int i = 0; i < 4; i++) put(q, p->x + dx[i], p->y + dy[i], p);
  return NULL;
}

int main(void) {
  char shown[H][W + 1];
  int steps = 0;
  for (int y = 0; y < H; y++) strcpy(shown[y], maze[y]);
  struct place *p = search(1, 1);
  if (!p) {
    puts("there is no way");
    return 1;
  }
  for (; p; p = p->from, steps++) shown[p->y][p->x] = '*';
  for (int y = 0; y < H; y++) puts(shown[y]);
  printf("%d steps\n", steps);
  return 0;
}
