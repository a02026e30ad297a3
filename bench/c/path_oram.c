/* Path ORAM. See path_oram.h. */
#include "path_oram.h"

#include "files.h"

#include <stdbool.h>
#include <stdlib.h>
#include <string.h>

uint32_t leaf_of(const struct path_tree *tree, uint64_t word)
{
    return (uint32_t)(word & (((uint64_t)1 << tree->height) - 1));
}

/* The bucket of a leaf's path on a level. */
static struct bucket *bucket_on(const struct path_tree *tree, uint32_t leaf, unsigned level)
{
    return &tree->buckets[((uint32_t)1 << level) + (leaf >> (tree->height - level))];
}

void start_path_tree(struct path_tree *tree, int64_t *contents, uint32_t blocks, uint32_t block_words,
                     struct chacha *words)
{
    tree->contents = contents;
    tree->blocks = blocks;
    tree->block_words = block_words;
    tree->height = 0;
    while (((uint32_t)1 << tree->height) < blocks)
        tree->height++;
    tree->buckets = zeros_for((size_t)2 << tree->height, sizeof tree->buckets[0]);
    tree->leaves = room_for(blocks, sizeof tree->leaves[0]);
    tree->stash = room_for(blocks, sizeof tree->stash[0]);
    for (uint32_t block = 0; block < blocks; block++) {
        tree->leaves[block] = leaf_of(tree, next_word(words));
        tree->stash[block] = block;
    }
    tree->stash_count = blocks;
}

void free_path_tree(struct path_tree *tree)
{
    free(tree->contents);
    free(tree->buckets);
    free(tree->leaves);
    free(tree->stash);
}

static void pour_path(struct path_tree *tree, uint32_t leaf)
{
    for (unsigned level = 0; level <= tree->height; level++) {
        struct bucket *bucket = bucket_on(tree, leaf, level);
        for (uint32_t i = 0; i < bucket->count; i++)
            tree->stash[tree->stash_count++] = bucket->blocks[i];
        bucket->count = 0;
    }
}

/* The deepest level on which the paths of two leaves pass through one bucket. */
static unsigned last_common_level(const struct path_tree *tree, uint32_t one, uint32_t other)
{
    unsigned level = tree->height;
    for (uint32_t apart = one ^ other; apart != 0; apart >>= 1)
        level--;
    return level;
}

static bool settle(struct path_tree *tree, uint32_t leaf, uint32_t block)
{
    for (int level = (int)last_common_level(tree, leaf, tree->leaves[block]); level >= 0; level--) {
        struct bucket *bucket = bucket_on(tree, leaf, (unsigned)level);
        if (bucket->count < BUCKET_BLOCKS) {
            bucket->blocks[bucket->count++] = block;
            return true;
        }
    }
    return false;
}

uint32_t move_block(struct path_tree *tree, uint32_t block, uint32_t leaf)
{
    uint32_t shown = tree->leaves[block];
    tree->leaves[block] = leaf;
    pour_path(tree, shown);
    uint32_t kept = 0;
    while (kept < tree->stash_count) {
        if (settle(tree, shown, tree->stash[kept]))
            tree->stash[kept] = tree->stash[--tree->stash_count];
        else
            kept++;
    }
    return shown;
}

void copy_out(const struct path_tree *tree, uint32_t block, int64_t *into)
{
    memcpy(into, tree->contents + (size_t)block * tree->block_words, tree->block_words * sizeof into[0]);
}

void copy_in(struct path_tree *tree, uint32_t block, const int64_t *from)
{
    memcpy(tree->contents + (size_t)block * tree->block_words, from, tree->block_words * sizeof from[0]);
}

void start_path_oram(struct path_oram *oram, int64_t *contents, uint32_t blocks, uint32_t block_words,
                     const uint8_t seed[32])
{
    start_chacha(&oram->words, seed);
    start_path_tree(&oram->tree, contents, blocks, block_words, &oram->words);
}

void free_path_oram(struct path_oram *oram)
{
    free_path_tree(&oram->tree);
}

uint32_t read_oblivious(struct path_oram *oram, uint32_t block, int64_t *into)
{
    copy_out(&oram->tree, block, into);
    return move_block(&oram->tree, block, leaf_of(&oram->tree, next_word(&oram->words)));
}

uint32_t write_oblivious(struct path_oram *oram, uint32_t block, const int64_t *from)
{
    copy_in(&oram->tree, block, from);
    return move_block(&oram->tree, block, leaf_of(&oram->tree, next_word(&oram->words)));
}

int level_of(const struct path_tree *tree, uint32_t block)
{
    for (unsigned level = 0; level <= tree->height; level++) {
        const struct bucket *bucket = bucket_on(tree, tree->leaves[block], level);
        for (uint32_t i = 0; i < bucket->count; i++)
            if (bucket->blocks[i] == block)
                return (int)level;
    }
    return IN_STASH;
}
