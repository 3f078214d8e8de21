/* A program's options are read and checked, and each mistake is told. */
#include <stdio.h>
#include <stdlib.h>
#include <string.h>

struct option { long letter; long value; struct option *next; };
struct option *new_option(void);

static struct option *options;

static void fail(const char *what, int letter) {
  fprintf(stderr, "error: %s -%c\n", what, letter);
  exit(2);
}

static struct option *option_of(long letter) {
  for (struct option *o = options; o; o = o->next)
    if (o->letter == letter) return o;
  return NULL;
}

static long number_of(const char *text, int letter) {
  long n = 0;
  if (*text == '\0') fail("a number is missing after", letter);
  for (; *text; text++) {
    if (*text < '0' || *text > '9') fail("no number after", letter);
    n = n * 10 + (*text - '0');
  }
  return n;
}

void set(long letter, long value) {
  struct option *o = option_of(letter);
  if (o) fail("given twice:", (int)letter);
  o = new_option();
  if (!o) {
    fputs("no memory\n", stderr);
    exit(3);
  }
  o->letter = letter;
  o->value = value;
  o->next = options;
  options = o;
}

int main(int argc, char **argv) {
  for (int i = 1; i < argc; i++) {
    if (argv[i][0] != '-' || strlen(argv[i]) < 2) {
      fprintf(stderr, "usage: %s [-wN] [-hN] [-dN]\n", argv[0]);
      return 1;
    }
    set(argv[i][1], number_of(argv[i] + 2, argv[i][1]));
  }
  for (struct option *o = options; o; o = o->next)
    printf("-%c = %ld\n", (int)o->letter, o->value);
  return 0;
}
