/* flags: -fsymbol-partition=part1 -fvisibility=default */
/* Functions and globals in a partition. */
int kept = 3;
int use(int a) { return kept + a; }
