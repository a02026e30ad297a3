/*
 * Recursive Path ORAM (Stefanov et al., CCS 2013, section 4.7): the leaves of a tree's blocks are the words of a
 * smaller tree, four a block, until at most four are left, which are held plainly. An access leads through the trees
 * from the smallest down, and draws a word for each.
 */
#ifndef RECURSIVE_ORAM_H
#define RECURSIVE_ORAM_H

#include "path_oram.h"

enum { MOST_LEVELS = 6, LEAVES_A_BLOCK = 4 };

struct recursive_oram {
    struct chacha words;
    unsigned levels;
    struct path_tree trees[MOST_LEVELS];
    int64_t last[LEAVES_A_BLOCK];
};

/* A bank of these contents, which it keeps. It draws a word for each block of each tree, in order. */
void start_recursive_oram(struct recursive_oram *oram, int64_t *contents, uint32_t blocks, uint32_t block_words,
                          const uint8_t seed[32]);

void free_recursive_oram(struct recursive_oram *oram);

/* Reads a block, or writes it, lists the leaf of each tree, the smallest's first, and answers how many there are. */
unsigned read_recursive(struct recursive_oram *oram, uint32_t block, int64_t *into, uint32_t shown[MOST_LEVELS]);
unsigned write_recursive(struct recursive_oram *oram, uint32_t block, const int64_t *from, uint32_t shown[MOST_LEVELS]);

#endif
