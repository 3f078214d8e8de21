/* Reads and writes that stay. */
volatile int device;
struct port { volatile int in; volatile int out; };
int wait(void) { while (!device) { } return device; }
void send(struct port *p, int value) { p->out = value; p->out = value; device = p->in; }
