/* Functions with a section and an alignment. */
__attribute__((section("boot"))) int boot(int a) { return a; }
__attribute__((aligned(32))) int aligned(int a) { return a; }
__attribute__((section("late"), aligned(64), noinline)) static int both(int a) { return a + 1; }
int use(int a) { return both(a); }
