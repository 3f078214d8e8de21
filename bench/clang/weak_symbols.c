/* A function that may be missing, and another name for one. */
extern int maybe(int) __attribute__((weak));
int base(int a) { return a + 1; }
int call(int a) { return maybe(a); }
