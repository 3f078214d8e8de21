/* Attributes of functions. */
__attribute__((cold, noinline)) int cold(int a) { return a; }
__attribute__((hot, flatten)) int hot(int a) { return cold(a) * 3; }
__attribute__((pure)) int pure(int a) { return a + 1; }
__attribute__((const, noinline)) int steady(int a) { return a + 2; }
__attribute__((weak)) int weak(int a) { return a; }
__attribute__((visibility("hidden"))) int hidden(int a) { return a; }
__attribute__((visibility("protected"))) int guarded(int a) { return a; }
__attribute__((optnone, noinline)) int plain(int a) { return a; }
__attribute__((preserve_most)) int preserves(int a) { return a; }
__attribute__((returns_nonnull, nonnull)) void *same(void *p) { return p; }
int use(int a) { return hot(a) ^ pure(a) ^ steady(a) ^ weak(a) ^ hidden(a) ^ guarded(a) ^ plain(a) ^ preserves(a); }
