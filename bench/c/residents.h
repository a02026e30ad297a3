/* The layout of `compile --fast`, which keeps short arrays in the scratchpad (docs/PERFORMANCE.md, "Which arrays `--fast`
 * makes resident"). */
#ifndef RESIDENTS_H
#define RESIDENTS_H

#include "source.h"

/* Gives each variable its place and its slot, and each bank of the object its blocks. Each block of scalars has room for
 * its scalars. */
void place_residents(struct source *source, struct object *object);

#endif
