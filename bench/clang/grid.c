/* Arrays of arrays in a struct. */
struct grid { char cell[6][8]; };
char at(struct grid *g, unsigned long row, unsigned long column) { return g->cell[row][column]; }
void put(struct grid *g, unsigned long row, unsigned long column, char value) { g->cell[row][column] = value; }
