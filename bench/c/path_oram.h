/*
 * Path ORAM (Stefanov et al., CCS 2013): the contents lie by block number and never move; a tree of buckets of four, a
 * stash and a leaf for each block hold numbers alone. An access draws a word, whose low bits are the block's new leaf,
 * pours the path of the leaf before into the stash, and settles the stash in one pass: each block goes to the deepest
 * bucket of the path that its leaf's path passes through and that has room, and else stays.
 */
#ifndef PATH_ORAM_H
#define PATH_ORAM_H

#include "chacha.h"

#include <stdint.h>

enum { BUCKET_BLOCKS = 4, IN_STASH = -1 };

struct bucket {
    uint32_t count;
    uint32_t blocks[BUCKET_BLOCKS];
};

/* A tree without random words: whoever accesses a block gives its next leaf. */
struct path_tree {
    int64_t *contents;
    uint32_t blocks, block_words;
    /* The tree has 2^height leaves; the bucket of a level that is number i from the left is number 2^level + i. */
    unsigned height;
    struct bucket *buckets;
    uint32_t *leaves;
    uint32_t *stash;
    uint32_t stash_count;
};

struct path_oram {
    struct chacha words;
    struct path_tree tree;
};

/* A tree of these contents, which it keeps, all blocks in the stash. It draws a word for each block, in order. */
void start_path_tree(struct path_tree *tree, int64_t *contents, uint32_t blocks, uint32_t block_words,
                     struct chacha *words);

void free_path_tree(struct path_tree *tree);

/* The leaf that a word makes. */
uint32_t leaf_of(const struct path_tree *tree, uint64_t word);

/* Moves a block to a new leaf, and answers the one before. */
uint32_t move_block(struct path_tree *tree, uint32_t block, uint32_t leaf);

/* Copies a block out of the tree, or into it. */
void copy_out(const struct path_tree *tree, uint32_t block, int64_t *into);
void copy_in(struct path_tree *tree, uint32_t block, const int64_t *from);

/* A bank of these contents, as a tree. */
void start_path_oram(struct path_oram *oram, int64_t *contents, uint32_t blocks, uint32_t block_words,
                     const uint8_t seed[32]);

void free_path_oram(struct path_oram *oram);

/* Reads a block, or writes it, and answers the leaf whose path is shown. */
uint32_t read_oblivious(struct path_oram *oram, uint32_t block, int64_t *into);
uint32_t write_oblivious(struct path_oram *oram, uint32_t block, const int64_t *from);

/* The level of the bucket where a block stands, or IN_STASH. */
int level_of(const struct path_tree *tree, uint32_t block);

#endif
