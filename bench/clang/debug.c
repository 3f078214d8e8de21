/* flags: -g */
/* With debug lines, and no local that a debug intrinsic would name. */
long count;
void up(void) { count = count + 1; }
long now(void) { return count; }
