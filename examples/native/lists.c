/* Lists of `length` values, `rounds` times: built, turned, copied, cut, summed, published. It waits where no cell is free. */
#include "../../bench/programs/lists.c"

static struct node *push(struct node *list, long value) {
  struct node *cell;
  while (!(cell = new_node())) {}
  cell->value = value;
  cell->next = list;
  return cell;
}

unsigned long work(unsigned long rounds, unsigned long length, unsigned long seed) {
  unsigned long i, j, sum = 0;
  struct node *kept = 0;
  for (i = 0; i < rounds; i++) {
    struct node *list = 0, *copy = 0, *at;
    for (j = 0; j < length; j++) {
      seed = seed * 6364136223846793005 + 1442695040888963407;
      list = push(list, (long)(seed & 1023));
    }
    list = list_reverse(list);
    for (at = list; at; at = at->next) copy = push(copy, at->value);
    sum += (unsigned long)list_sum(list) + (unsigned long)list_length(copy);
    list = list_remove(list, 7);
    sum += (unsigned long)list_length(list);
    list = list_append(list, copy);
    sum += (unsigned long)list_last(list);
    if (list_equal(list, kept)) sum++;
    kept = list;
    top = list;
  }
  return sum;
}
