/* A function with any number of arguments: left out. */
extern int printf(const char *, ...);
int show(int a) { return printf("%d\n", a); }
