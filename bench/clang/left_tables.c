/* Globals that are arrays: left out. */
static const int table[4] = { 1, 2, 3, 5 };
int get(unsigned long at) { return table[at & 3]; }
