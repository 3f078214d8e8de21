/* Code for which clang uses intrinsics: left out. */
int local(void) { volatile int n = 0; n = n + 1; return n; }
int never(int a) { if (a) return 1; __builtin_unreachable(); }
__attribute__((used)) static int used(int a) { return a; }
