/* Recursive Path ORAM. See recursive_oram.h. */
#include "recursive_oram.h"

#include "files.h"

#include <string.h>

/* How many blocks keep the leaves of so many. */
static uint32_t blocks_above(uint32_t blocks)
{
    return (blocks + LEAVES_A_BLOCK - 1) / LEAVES_A_BLOCK;
}

void start_recursive_oram(struct recursive_oram *oram, int64_t *contents, uint32_t blocks, uint32_t block_words,
                          const uint8_t seed[32])
{
    memset(oram, 0, sizeof *oram);
    start_chacha(&oram->words, seed);
    start_path_tree(&oram->trees[0], contents, blocks, block_words, &oram->words);
    oram->levels = 1;
    while (blocks > LEAVES_A_BLOCK) {
        const struct path_tree *below = &oram->trees[oram->levels - 1];
        const uint32_t above = blocks_above(blocks);
        int64_t *leaves = zeros_for((size_t)above * LEAVES_A_BLOCK, sizeof leaves[0]);
        for (uint32_t block = 0; block < blocks; block++)
            leaves[block] = below->leaves[block];
        start_path_tree(&oram->trees[oram->levels++], leaves, above, LEAVES_A_BLOCK, &oram->words);
        blocks = above;
    }
    for (uint32_t block = 0; block < blocks; block++)
        oram->last[block] = oram->trees[oram->levels - 1].leaves[block];
}

void free_recursive_oram(struct recursive_oram *oram)
{
    for (unsigned level = 0; level < oram->levels; level++)
        free_path_tree(&oram->trees[level]);
}

/* Gives the block of each tree a new leaf, and lists those before. */
static unsigned move_in_each(struct recursive_oram *oram, uint32_t block, uint32_t shown[MOST_LEVELS])
{
    int64_t *kept = oram->last;
    for (unsigned level = oram->levels; level-- > 0;) {
        struct path_tree *tree = &oram->trees[level];
        const uint32_t at = block >> (2 * level);
        const uint32_t becomes = leaf_of(tree, next_word(&oram->words));
        kept[at % LEAVES_A_BLOCK] = becomes;
        shown[oram->levels - 1 - level] = move_block(tree, at, becomes);
        kept = tree->contents + (size_t)at * tree->block_words;
    }
    return oram->levels;
}

unsigned read_recursive(struct recursive_oram *oram, uint32_t block, int64_t *into, uint32_t shown[MOST_LEVELS])
{
    copy_out(&oram->trees[0], block, into);
    return move_in_each(oram, block, shown);
}

unsigned write_recursive(struct recursive_oram *oram, uint32_t block, const int64_t *from, uint32_t shown[MOST_LEVELS])
{
    copy_in(&oram->trees[0], block, from);
    return move_in_each(oram, block, shown);
}
