/* Structs that are copied whole between cells and locals: memcpy, which dgc refuses. */
#include "cells.h"
struct point { long x, y, z, t; struct point *next; };
struct point *new_point(void);
struct point *clone(struct point *p) { struct point *q = new_point(); if (!q) return 0; *q = *p; return q; }
void exchange(struct point *p, struct point *q) { struct point t = *p; *p = *q; *q = t; }
