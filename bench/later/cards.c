/* Cards are shuffled and dealt; of each hand the points are counted. */
#include <stdio.h>

enum suit { CLUBS, DIAMONDS, HEARTS, SPADES };

struct card { enum suit suit; int rank; struct card *next; };
struct hand { struct card *cards; int count; struct hand *next; };
struct card *new_card(void);
struct hand *new_hand(void);

static unsigned long state = 88172645463325252ul;

static unsigned long draw(void) {
  state ^= state << 13;
  state ^= state >> 7;
  state ^= state << 17;
  return state;
}

static struct card *deck(void) {
  struct card *d = NULL;
  for (int i = 0; i < 52; i++) {
    struct card *c = new_card();
    if (!c) return NULL;
    c->suit = (enum suit)(i / 13);
    c->rank = i % 13 + 2;
    c->next = d;
    d = c;
  }
  return d;
}

static struct card *take(struct card **from, unsigned long at) {
  while (at-- && *from) from = &(*from)->next;
  struct card *c = *from;
  if (c) *from = c->next;
  return c;
}

static struct card *shuffled(struct card *d) {
  struct card *to = NULL;
  for (unsigned long left = 52; left; left--) {
    struct card *c = take(&d, draw() % left);
    if (!c) break;
    c->next = to;
    to = c;
  }
  return to;
}

static int points(const struct hand *h) {
  int sum = 0, counts[4] = {0, 0, 0, 0};
  for (const struct card *c = h->cards; c; c = c->next) {
    if (c->rank > 10) sum += c->rank - 10;
    counts[c->suit]++;
  }
  for (int i = 0; i < 4; i++)
    if (counts[i] < 3) sum += 3 - counts[i];
  return sum;
}

static void print(const struct hand *h) {
  for (const struct card *c = h->cards; c; c = c->next) printf("%c%c ", "23456789TJQKA"[c->rank - 2], "CDHS"[c->suit]);
  printf("= %d\n", points(h));
}

int main(void) {
  struct hand *hands = NULL;
  struct card *d = shuffled(deck());
  for (int i = 0; i < 4; i++) {
    struct hand *h = new_hand();
    if (!h) return 1;
    h->next = hands;
    hands = h;
  }
  for (struct hand *h = hands; d; h = h->next ? h->next : hands) {
    struct card *c = take(&d, 0);
    c->next = h->cards;
    h->cards = c;
    h->count++;
  }
  for (struct hand *h = hands; h; h = h->next) print(h);
  return 0;
}
