/* Locals that are arrays or structs: left out. */
extern void use(int *);
int sum(void) { int a[4]; use(a); return a[0] + a[3]; }
