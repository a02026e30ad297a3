/* The steps that read or write a word of an array which several slots hold, the same for each word. */
#ifndef SELECTING_H
#define SELECTING_H

#include "source.h"

/* The most steps that read a word, and that write one. */
enum { MOST_READING = 2 + 8 * (MOST_SPREAD - 1), MOST_WRITING = 17 + 11 * (MOST_SPREAD - 2) };

/* A list of steps. */
struct steps {
    struct instruction items[MOST_WRITING];
    unsigned count;
};

/* Reads the word of a spread array whose number a register has, into that register. The next three are overwritten. */
struct steps steps_to_read(const struct variable *array, uint32_t size, unsigned to);

/* The word of a spread array whose number register 1 has becomes the value in a register; without effect it stays. Registers 2
 * to 5 are overwritten. A block has `size` words. */
struct steps steps_to_write(const struct variable *array, uint32_t size, unsigned value, bool has_effect);

#endif
