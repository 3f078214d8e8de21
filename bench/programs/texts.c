#include "cells.h"

/* Fills a text with a letter. */
void text_fill(struct text *text, long letter) {
  unsigned long i;
  for (i = 0; i < 32; i++) text->letters[i] = letter;
  text->length = 32;
}

/* How often a text has a letter. */
long text_count(struct text *text, long letter) {
  unsigned long i;
  long count = 0;
  for (i = 0; i < 32 && i < text->length; i++)
    if (text->letters[i] == letter) count++;
  return count;
}

/* Adds a letter, if there is room. */
int text_add(struct text *text, long letter) {
  unsigned long at = text->length;
  if (at < 32) {
    text->letters[at] = letter;
    text->length = at + 1;
    return 1;
  }
  return 0;
}

/* The letter at a place, or 0. */
long text_at(struct text *text, unsigned long i) { return i < 32 ? text->letters[i] : 0; }

/* Copies a text. */
struct text *text_copy(struct text *text) {
  struct text *copy = new_text();
  unsigned long i;
  if (!copy) return 0;
  copy->length = text->length;
  for (i = 0; i < 32; i++) copy->letters[i] = text->letters[i];
  return copy;
}

/* Whether two texts are equal. */
int text_equal(struct text *one, struct text *other) {
  unsigned long i;
  if (one->length != other->length) return 0;
  for (i = 0; i < 32; i++) {
    if (i >= one->length) return 1;
    if (one->letters[i] != other->letters[i]) return 0;
  }
  return 1;
}

/* A sum over the letters. */
long text_sum(struct text *text) {
  long sum = 7;
  unsigned long i = 0;
  do {
    sum = sum * 31 + text->letters[i];
    i++;
  } while (i < 32);
  return sum;
}

/* Turns a text round. */
void text_reverse(struct text *text) {
  unsigned long i = 0, j = 31;
  while (i < 16 && j < 32) {
    long letter = text->letters[i];
    text->letters[i] = text->letters[j];
    text->letters[j] = letter;
    i++;
    j--;
  }
}

/* Each small number as a letter of a new text. */
struct text *text_of_counts(struct counts *counts) {
  struct text *text = new_text();
  unsigned long i;
  if (!text) return 0;
  for (i = 0; i < 8; i++) text->letters[i] = counts->small[i];
  text->length = 8;
  return text;
}
