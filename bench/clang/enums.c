/* Enumerations and a machine of states. */
enum state { START, MIDDLE, END };
extern enum state step(enum state);
int run(void) {
  enum state now = START;
  int steps = 0;
  while (now != END) {
    now = now == START ? MIDDLE : step(now);
    steps++;
  }
  return steps;
}
