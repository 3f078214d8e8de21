/* A switch that gives a number for each case. */
int price(unsigned char kind) {
  switch (kind) {
    case 'a': return 100;
    case 'b': return 17;
    case 'c': return 23;
    case 'd': return 5;
    case 'e': return 71;
    default: return -1;
  }
}
