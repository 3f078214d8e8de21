/* Structs and unions without names in a struct. */
struct outer { int kind; struct { int a; long b; } inner; union { int number; unsigned sign; }; };
long both(struct outer *o) { return o->inner.a + o->inner.b; }
int number(struct outer *o) { return o->kind ? o->number : -1; }
