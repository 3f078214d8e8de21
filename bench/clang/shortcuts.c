/* Conditions that end early, and a goto. */
extern int ask(int);
int all(int a, int b) { return ask(a) && ask(b) && ask(a + b); }
int any(int a, int b) { return ask(a) || ask(b) || ask(a - b); }
int tries(int n) {
again:
  if (n <= 0) goto out;
  if (ask(n)) return n;
  n--;
  goto again;
out:
  return -1;
}
