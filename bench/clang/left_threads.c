/* A global of each thread: left out. */
_Thread_local int own;
int get(void) { return own; }
