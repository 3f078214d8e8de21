/* Loops that count. */
extern int next(int);
int sum(int n) {
  int total = 0;
  for (int i = 0; i < n; i++) total += next(i);
  return total;
}
int countdown(int n) {
  int steps = 0;
  do { n = next(n); steps++; } while (n != 0);
  return steps;
}
