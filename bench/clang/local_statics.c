/* A local that keeps its value. */
int counter(void) { static int n; return ++n; }
int other(int a) { static int n = 5; n ^= a; return n; }
