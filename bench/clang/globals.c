/* Globals of numbers and references, of each linkage that C has. */
struct node { int value; struct node *next; };
int shared = 7;
static long own = -1;
const int fixed = 12;
struct node *top;
static struct node *hidden_top;
unsigned char flag;
int tentative;
long read_all(void) { return shared + own + fixed + flag + tentative; }
void set(struct node *n, long value) { top = n; hidden_top = n; own = value; flag = 1; }
struct node *get(void) { return hidden_top ? hidden_top : top; }
