/* Where the variables of a compiled program are stored (docs/PERFORMANCE.md, "Where variables are stored"). */
#ifndef LAYOUT_H
#define LAYOUT_H

#include "source.h"

/* The slots of the scratchpad: those of the scalars, the first of two for arrays of plain and of encrypted memory, that of
 * the oblivious banks, and one that only `--fast` uses. */
enum { PUBLIC_SLOT, SECRET_SLOT, PLAIN_SLOT, ENCRYPTED_SLOT = 4, OBLIVIOUS_SLOT = 6, SPARE_SLOT };

enum { FIRST_OBLIVIOUS = 2, OBLIVIOUS_BANKS = 8 };

/*
 * Gives each variable its place and its slot, as with `--fast` or without it, and an object of a block size its profile,
 * its banks and its symbols. Ends the program with the line and the status of the first lack of room, if there is one.
 */
void lay_out(struct source *source, uint8_t block_log, bool is_fast, struct object *object);

/* Whether a variable is stored in an oblivious bank. */
bool is_oblivious(const struct variable *variable);

/* Whether an index of an array is reduced by a mask: outside of oblivious banks, if the length is a power of two. */
bool is_masked(const struct variable *array);

/* The number by which an index of an array is reduced: 1 less than the length for a mask, otherwise the length. */
int64_t reducer_of(const struct variable *array);

/* The blocks that an array takes. */
uint32_t blocks_for(const struct symbol *array, const struct object *object);

/* Gives an array the next free blocks of a bank. */
void place_on_blocks(struct variable *array, unsigned bank, struct object *object);

/* Whether several slots hold an array for the whole run. */
bool is_spread(const struct variable *array);

/* The scalars of a label. */
uint32_t scalars_of(const struct source *source, bool is_secret);

#endif
