/* Fields of some bits, which are packed: left out where they are shifted. */
struct bits { unsigned low : 3; unsigned middle : 9; unsigned high : 20; };
unsigned middle(struct bits *b) { return b->middle; }
