#include "cells.h"

static struct queue *waiting;

/* An empty queue. */
struct queue *queue_new(void) { return new_queue(); }

/* Puts a value at the end of a queue. */
void queue_add(struct queue *queue, long value) {
  struct node *cell = new_node(), *last;
  if (!cell) return;
  cell->value = value;
  last = queue->last;
  if (last) last->next = cell;
  else queue->first = cell;
  queue->last = cell;
  queue->count++;
}

/* Takes the first value of a queue, or 0. */
long queue_take(struct queue *queue) {
  struct node *cell = queue->first, *next;
  if (!cell) return 0;
  next = cell->next;
  queue->first = next;
  if (!next) queue->last = 0;
  queue->count--;
  return cell->value;
}

/* Whether a queue is empty. */
int queue_is_empty(struct queue *queue) { return !queue->first; }

/* Moves all of one queue to another. */
void queue_move(struct queue *from, struct queue *to) {
  struct node *first = from->first, *last = to->last;
  if (!first) return;
  if (last) last->next = first;
  else to->first = first;
  to->last = from->last;
  to->count += from->count;
  from->first = 0;
  from->last = 0;
  from->count = 0;
}

/* Counts the cells of a queue and compares. */
int queue_is_right(struct queue *queue) {
  unsigned long count = 0;
  struct node *cell = queue->first;
  while (cell) {
    count++;
    cell = cell->next;
  }
  return count == queue->count;
}

/* Adds to the published queue, and makes it first. */
void queue_publish(long value) {
  struct queue *queue = waiting;
  if (!queue) {
    queue = new_queue();
    if (!queue) return;
    waiting = queue;
  }
  queue_add(queue, value);
}
