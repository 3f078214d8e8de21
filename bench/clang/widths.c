/* Numbers that change their width. */
long widen(int a) { return a; }
unsigned long widen_unsigned(unsigned a) { return a; }
char narrow(long a) { return (char)a; }
int from_bool(_Bool a) { return a; }
_Bool to_bool(int a) { return a; }
