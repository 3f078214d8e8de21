/* A program of examples/native, PROGRAM, with cells by malloc, which are never freed, or by Boehm's collector. */
#include PROGRAM
#include <stdlib.h>
#ifdef BOEHM
#define GC_THREADS
#include <gc.h>
#define NEW(NAME) GC_MALLOC(sizeof(struct NAME))
#else
#define NEW(NAME) calloc(1, sizeof(struct NAME))
#endif
#define MAKE(NAME) struct NAME *new_##NAME(void) { return NEW(NAME); }
MAKE(node)
MAKE(tree)
MAKE(queue)
