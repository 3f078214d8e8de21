/* Division, remainder and shifts: left out. */
int divide(int a, int b) { return a / b; }
unsigned rest(unsigned a, unsigned b) { return a % b; }
int shift(int a, int b) { return a << b; }
