/* Many locals and many blocks. */
extern long f(long, long);
long mix(long a, long b, long c, long d) {
  long e = f(a, b), g = f(c, d), h = a * 3 - b, i = c ^ d;
  if (e > g) { h += e; if (h > i) i = f(h, i); else h = f(i, h); }
  else if (g > h) { e = f(g, e); }
  while (i > 100) { i = f(i, a); if (i == b) break; h -= 7; }
  return e + g + h + i;
}
