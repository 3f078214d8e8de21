/* Structs in structs. */
struct point { int x; int y; };
struct box { struct point low; struct point high; short colour; };
int height(struct box *b) { return b->high.y - b->low.y; }
void grow(struct box *b, int by) { b->high.x += by; b->high.y += by; b->colour = (short)by; }
