#include "cells.h"

/* The sum of a matrix. */
long matrix_sum(struct matrix *matrix) {
  unsigned long i, j;
  long sum = 0;
  for (i = 0; i < 4; i++)
    for (j = 0; j < 4; j++) sum += matrix->words[i][j];
  return sum;
}

/* Turns a matrix over its diagonal. */
void matrix_transpose(struct matrix *matrix) {
  unsigned long i, j;
  for (i = 0; i < 4; i++)
    for (j = 0; j < i && j < 4; j++) {
      long word = matrix->words[i][j];
      matrix->words[i][j] = matrix->words[j][i];
      matrix->words[j][i] = word;
    }
}

/* A word of a matrix by two numbers that are tested. */
long matrix_at(struct matrix *matrix, unsigned long i, unsigned long j) {
  if (i < 4)
    if (j < 4) return matrix->words[i][j];
  return 0;
}

/* A product of two matrices as a new one. */
struct matrix *matrix_product(struct matrix *one, struct matrix *other) {
  struct matrix *product = new_matrix();
  unsigned long i, j, k;
  if (!product) return 0;
  for (i = 0; i < 4; i++)
    for (j = 0; j < 4; j++) {
      long sum = 0;
      for (k = 0; k < 4; k++) sum += one->words[i][k] * other->words[k][j];
      product->words[i][j] = sum;
    }
  return product;
}

/* Adds the diagonal, downwards. */
long matrix_trace(struct matrix *matrix) {
  long sum = 0;
  unsigned long i = 4;
  while (i > 0) {
    i--;
    if (i < 4) sum += matrix->words[i][i];
  }
  return sum;
}

/* Sums of three arrays of numbers of other sizes. */
long counts_sum(struct counts *counts) {
  long sum = 0;
  unsigned int i;
  for (i = 0; i < 8; i++) sum += counts->small[i] + counts->middle[i] + counts->large[i];
  return sum;
}

/* Counts the items of a heap that are there. */
unsigned long heap_items(struct heap *heap) {
  unsigned long i, count = 0;
  for (i = 0; i < 32; i++) {
    struct node *item = heap->items[i];
    if (item) count++;
  }
  return count;
}

/* Makes an item for each place of a heap. */
void heap_fill(struct heap *heap) {
  unsigned long i;
  for (i = 0; i < 32; i++) {
    struct node *item = new_node();
    if (!item) return;
    item->value = (long)i;
    heap->items[i] = item;
  }
  heap->count = 32;
}

/* Moves each item one place on. */
void heap_shift(struct heap *heap) {
  unsigned long i = 31;
  while (i > 0) {
    unsigned long j = i - 1;
    if (i < 32)
      if (j < 32) heap->items[i] = heap->items[j];
    i = j;
  }
  heap->items[0] = 0;
}

/* Masks an index. */
long ring_at(struct text *ring, unsigned long i) { return ring->letters[i & 31]; }

/* Steps by three through a text. */
long every_third(struct text *text) {
  long sum = 0;
  unsigned long i;
  for (i = 0; i < 32; i += 3) sum += text->letters[i];
  return sum;
}
