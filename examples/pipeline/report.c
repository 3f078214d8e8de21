/* Threads build lists of numbers, print each one as it is put in, and report the sum. The strings are data, and printf is a
   function outside of the module: FORMS=wide run.sh report.c report.trace report.trace */
int printf(const char *format, ...);

struct node { unsigned long value; struct node *next; };

struct node *new_node(void); /* gcroot.py makes a claim of a cell of it */

struct node *latest; /* the list that was finished last, by whichever thread */

/* Puts a number before a list, and prints it. The list is as it was where no cell is free. */
struct node *push(struct node *list, unsigned long value) {
  struct node *cell = new_node();
  if (!cell) {
    printf("no cell for %lu\n", value);
    return list;
  }
  cell->value = value;
  cell->next = list;
  printf("put %lu\n", value);
  return cell;
}

/* Builds a list of the numbers below this one, publishes it, and prints their sum and how much printf wrote. */
unsigned long work(unsigned long count) {
  struct node *list = 0;
  unsigned long i, all = 0;
  for (i = 0; i < count; i++) list = push(list, i);
  latest = list;
  for (; list; list = list->next) all += list->value;
  if (printf("sum %lu\n", all) < 0) return 0;
  return all;
}
