/* A switch whose cases do different things. */
extern void one(void), two(int), other(long);
void act(int kind, int value) {
  switch (kind) {
    case 0: one(); break;
    case 1: two(value);
    case 2: two(value + 1); break;
    case -5: other(value); break;
    default: other(0);
  }
}
