/* A queue through which `length` values go, `rounds` times. It waits where no cell is free. */
#include "../../bench/programs/queues.c"

static struct queue *fresh_queue(void) {
  struct queue *queue;
  while (!(queue = queue_new())) {}
  return queue;
}

static void add(struct queue *queue, long value) {
  unsigned long before = queue->count;
  for (;;) {
    queue_add(queue, value);
    if (queue->count != before) return;
  }
}

unsigned long work(unsigned long rounds, unsigned long length, unsigned long seed) {
  unsigned long i, j, sum = 0;
  for (i = 0; i < rounds; i++) {
    struct queue *queue = fresh_queue(), *other = fresh_queue();
    for (j = 0; j < length; j++) {
      seed = seed * 6364136223846793005 + 1442695040888963407;
      add(queue, (long)(seed & 1023));
    }
    for (j = 0; j < length; j++) add(other, queue_take(queue) + 1);
    queue_move(other, queue);
    if (queue_is_right(queue)) sum++;
    if (queue_is_empty(other)) sum++;
    while (!queue_is_empty(queue)) sum += (unsigned long)queue_take(queue);
    waiting = other;
  }
  return sum;
}
