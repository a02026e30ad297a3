/* Arrays of several blocks with `compile --fast` (docs/PERFORMANCE.md, "Which arrays `--fast` makes resident"). */
#ifndef SPREADING_H
#define SPREADING_H

#include "source.h"

/*
 * Spreads secret arrays of two to five blocks over slots, each as long as there are enough free ones, where every variable
 * has its place and its slot: first those of oblivious banks, which move to the end of encrypted memory, then those of
 * encrypted memory. Oblivious banks after the last one that is still in use are dropped.
 */
void spread_arrays(struct source *source, struct object *object);

#endif
