/* Parameters that point to numbers: left out. */
void swap(int *a, int *b) { int c = *a; *a = *b; *b = c; }
