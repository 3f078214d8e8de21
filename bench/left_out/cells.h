/* What the programs share. Cells are made by new_NAME; all else is the C library. */
#include <stddef.h>
#include <stdint.h>
int printf(const char *, ...);
int puts(const char *);
int snprintf(char *, size_t, const char *, ...);
int strcmp(const char *, const char *);
char *getenv(const char *);
size_t strlen(const char *);
void exit(int);
double sqrt(double);
double floor(double);
long time(long *);
