/* Floating point: left out. */
double half(double a) { return a * 0.5; }
