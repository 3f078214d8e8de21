/* flags: -ffunction-sections -fdata-sections -fPIC -fstack-protector-all -fno-semantic-interposition */
/* Each function and global in a section of its own, with position-independent code. */
int first = 1;
static int second = 2;
int sum(int a) { second += a; return first + second; }
