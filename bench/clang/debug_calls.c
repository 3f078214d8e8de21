/* flags: -g */
/* With debug lines, and a call of a function that is elsewhere: its declaration has metadata too. */
extern void ping(void);
extern int pong(int);
int both(void) { ping(); return pong(3); }
