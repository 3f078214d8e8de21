/* Threads build lists of numbers, publish each list in a global, and add its numbers. What clang makes of it at -O1 and -O2 is
   accepted too: LEVEL=-O2 run.sh list.c list.trace list.trace */
struct node { unsigned long value; struct node *next; };

struct node *new_node(void); /* gcroot.py makes a claim of a cell of it */

struct node *latest; /* the list that was finished last, by whichever thread */

/* Puts a number before a list. The list is as it was where no cell is free. */
struct node *push(struct node *list, unsigned long value) {
  struct node *cell = new_node();
  if (!cell) return list;
  cell->value = value;
  cell->next = list;
  return cell;
}

/* The sum of a list's numbers. */
unsigned long sum(struct node *list) {
  unsigned long all = 0;
  for (; list; list = list->next) all += list->value;
  return all;
}

/* Builds a list of the numbers below this one, and adds them. */
unsigned long work(unsigned long count) {
  struct node *list = 0;
  unsigned long i;
  for (i = 0; i < count; i++) list = push(list, i);
  latest = list;
  return sum(list);
}
