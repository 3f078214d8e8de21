/* A call of a function that is a value: left out. */
int apply(int (*f)(int), int a) { return f(a); }
