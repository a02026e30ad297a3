/* How assembly texts spell words, numbers and instructions (docs/FORMATS.md, "Assembly text"). */
#ifndef SPELLING_H
#define SPELLING_H

#include "object.h"

enum { MOST_WORDS = 10 };

/* What is wrong with a line. Within one the first of these counts. */
enum fault { NONE, BAD_LINE, BAD_NUMBER, TWICE_NAMED, OVER_LIMIT };

struct word {
    const uint8_t *at;
    size_t count;
};

/* Finds the words of a line without its comment. Answers -1 where it has more than a form has, or a byte above 127. */
int words_of(const uint8_t *line, const uint8_t *end, struct word words[MOST_WORDS]);

/* Whether a word is this text. */
bool is_word(struct word word, const char *text);

/* Reads the number that a word writes, if it is from `low` to `high`. */
bool number(struct word word, uint64_t low, uint64_t high, uint64_t *value);

/* Reads a mask of eight digits of base 16 in lower case. */
bool mask(struct word word, uint32_t *value);

/*
 * Reads the instruction of a line, of one word or more, at a place, where there are so many banks; and the label that its
 * target still lacks, which may be an empty word.
 */
enum fault instruction(const struct word *words, int count, unsigned banks, uint32_t place, struct instruction *instr,
                       struct word *label);

#endif
