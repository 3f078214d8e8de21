// Inline functions, an inline variable and a template: code that each file may have and that is linked once.
inline int shared = 3;
inline int up(int a) { return a + shared; }
template <typename T> struct box { T inside; T get() const { return inside; } };
int use(int a, box<int> *b) { return up(a) + b->get(); }
