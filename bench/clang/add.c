/* Integers of several widths. */
int add(int a, int b) { return a + b; }
unsigned char add_bytes(unsigned char a, unsigned char b) { return a + b; }
short subtract(short a, short b) { return a - b; }
long long multiply(long long a, int b) { return a * b; }
unsigned mask(unsigned a, unsigned b) { return (a & b) | (a ^ 255u); }
