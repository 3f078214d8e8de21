/* Arithmetic that clang turns into shifts with -O1: left out. */
int twice(int a) { return a + a; }
short through(long a) { return (short)(signed char)a; }
