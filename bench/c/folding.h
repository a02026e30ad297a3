/* The cheaper expressions of which `compile --fast` makes code. */
#ifndef FOLDING_H
#define FOLDING_H

#include "source.h"

/* Replaces the expressions of a well-typed program: an operation on two numbers becomes the number that results, and a
 * product by a power of two a shift. A number on the left of a product is written on the right. An expression with a
 * variable in it never becomes a number. */
void fold(struct source *source);

#endif
