/* The words of a call: options with a number. */
#ifndef OPTIONS_H
#define OPTIONS_H

#include <stdint.h>

/* The number from `low` to `high` that a word of at most 20 digits writes, or the end of the program. */
uint64_t number_within(uint64_t low, uint64_t high, const char *word);

/* The value of an option at this word, which is the word behind it or stands behind a `=`; NULL where it is another. */
const char *option(const char *name, char **words, int count, int *at);

#endif
