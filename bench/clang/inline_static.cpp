// flags: -fno-threadsafe-statics
// A local static of an inline function, whose guard is in the same comdat.
extern int ask() noexcept;
inline int once() { static int n = ask(); return n; }
int use() { return once(); }
