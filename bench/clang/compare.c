/* Comparisons, with sign and without. */
int is_less(int a, int b) { return a < b; }
int is_at_most(unsigned a, unsigned b) { return a <= b; }
_Bool is_same(long a, long b) { return a == b; }
int sign(long a) { return a < 0 ? -1 : a > 0; }
_Bool between(int low, int a, int high) { return low <= a && a < high; }
