/* Conditions that choose a value. */
int larger(int a, int b) { return a == b ? 0 : a > b ? 7 : 9; }
struct pair { int left; int right; };
struct pair *pick(int which, struct pair *one, struct pair *other) { return which ? one : other; }
