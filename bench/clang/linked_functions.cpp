// flags: -fno-rtti
// Functions that each file may have: constructors of a class with a base, and methods of a template.
struct base { long kept; base *next; base(long k) : kept(k), next(nullptr) {} long get() const { return kept; } };
struct more : base { long other; more(long k) : base(k), other(k) {} };
extern more *make(long);
long use(long a) { more *m = make(a); *m = more(a); return m->get() ^ m->other; }
