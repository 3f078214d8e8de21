/* Fields of a struct that is reached by a pointer. */
struct point { long x; long y; };
long width(struct point *a, struct point *b) { return b->x - a->x; }
void move(struct point *p, long x, long y) { p->x += x; p->y += y; }
int is_origin(struct point *p) { return p && p->x == 0 && p->y == 0; }
