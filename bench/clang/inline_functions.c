/* Inline functions of each kind that C has. */
inline int plain(int a) { return a + 1; }
extern inline int kept(int a) { return a + 2; }
static inline int own(int a) { return a + 3; }
__attribute__((always_inline)) static inline int always(int a) { return a * 7; }
__attribute__((gnu_inline)) extern inline int old(int a) { return a + 4; }
int use(int a) { return plain(a) ^ kept(a) ^ own(a) ^ always(a) ^ old(a); }
