/* Another name for a function. */
int base(int a) { return a + 1; }
int other(int a) __attribute__((alias("base")));
