/* A function that does not return, and code that is not reached. */
extern void stop(int) __attribute__((noreturn));
int checked(int a) { if (a < 0) stop(a); return a + 1; }
void always(void) { stop(3); }
