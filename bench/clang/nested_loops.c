/* A loop in a loop, with break and continue. */
extern int test(int, int);
int pairs(int n) {
  int found = 0;
  for (int i = 0; i < n; i++)
    for (int j = i; j < n; j++) {
      if (test(i, j) == 1) continue;
      if (test(j, i) == 2) break;
      found++;
    }
  return found;
}
