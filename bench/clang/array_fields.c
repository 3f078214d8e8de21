/* Arrays in structs. */
struct table { int used; long rows[16]; };
long row(struct table *t, unsigned long at) { return at < 16 ? t->rows[at] : -1; }
long first_of(struct table *t) { return t->rows[0]; }
void fill(struct table *t, long value) {
  for (int i = 0; i < 16; i++) ((volatile struct table *)t)->rows[i] = value;
}
