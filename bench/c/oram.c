/*
 * oram: accesses a second of the Path ORAM of this folder alone and of the recursive one, without a machine around them, at
 * 8, 256 and 4,096 blocks of 8 and of 512 words: blocks that a linear sequence picks are read and written in turn, and each
 * read is compared with what was written last. bench/oram prints it beside what the program and run.c make of an object.
 */
#define _POSIX_C_SOURCE 199309L
#include "files.h"
#include "recursive_oram.h"

#include <stdbool.h>
#include <stdio.h>
#include <stdlib.h>
#include <time.h>

enum { ACCESSES = 1000000, MOST_BLOCK_WORDS = 512 };

static double now(void)
{
    struct timespec time;
    clock_gettime(CLOCK_PROCESS_CPUTIME_ID, &time);
    return (double)time.tv_sec + (double)time.tv_nsec / 1e9;
}

/* A bank of either kind. */
struct bank {
    bool is_recursive;
    struct path_oram oram;
    struct recursive_oram trees;
};

static void start(struct bank *bank, bool is_recursive, uint32_t blocks, uint32_t width)
{
    const uint8_t seed[32] = {0};
    int64_t *contents = zeros_for((size_t)blocks * width, sizeof contents[0]);
    bank->is_recursive = is_recursive;
    if (is_recursive)
        start_recursive_oram(&bank->trees, contents, blocks, width, seed);
    else
        start_path_oram(&bank->oram, contents, blocks, width, seed);
}

static void read_block(struct bank *bank, uint32_t block, int64_t *into)
{
    uint32_t shown[MOST_LEVELS];
    if (bank->is_recursive)
        read_recursive(&bank->trees, block, into, shown);
    else
        read_oblivious(&bank->oram, block, into);
}

static void write_block(struct bank *bank, uint32_t block, const int64_t *from)
{
    uint32_t shown[MOST_LEVELS];
    if (bank->is_recursive)
        write_recursive(&bank->trees, block, from, shown);
    else
        write_oblivious(&bank->oram, block, from);
}

static void end(struct bank *bank)
{
    if (bank->is_recursive)
        free_recursive_oram(&bank->trees);
    else
        free_path_oram(&bank->oram);
}

/* The seconds of so many accesses, half of them writes. Sets whether each read gave what was written. */
static double seconds_of(bool is_recursive, uint32_t blocks, uint32_t width, bool *is_right)
{
    struct bank bank;
    int64_t block[MOST_BLOCK_WORDS] = {0};
    int64_t *last = zeros_for(blocks, sizeof last[0]);
    start(&bank, is_recursive, blocks, width);
    uint32_t at = 1;
    double begin = now();
    for (int64_t i = 0; i < ACCESSES; i += 2) {
        at = at * 1664525 + 1013904223;
        uint32_t number = (at >> 16) % blocks;
        read_block(&bank, number, block);
        *is_right = *is_right && block[0] == last[number];
        at = at * 1664525 + 1013904223;
        number = (at >> 16) % blocks;
        block[0] = last[number] = i;
        write_block(&bank, number, block);
    }
    double seconds = now() - begin;
    end(&bank);
    free(last);
    return seconds;
}

int main(void)
{
    static const uint32_t blocks[] = {8, 256, 4096}, widths[] = {8, 512};
    bool is_right = true;
    for (int recursive = 0; recursive < 2; recursive++)
        for (size_t width = 0; width < sizeof widths / sizeof widths[0]; width++)
            for (size_t count = 0; count < sizeof blocks / sizeof blocks[0]; count++)
                printf("%s%u blocks of %u words: %.2f million accesses a second\n", recursive ? "recursive, " : "",
                       blocks[count], widths[width],
                       ACCESSES / seconds_of(recursive, blocks[count], widths[width], &is_right) / 1e6);
    return is_right ? EXIT_SUCCESS : EXIT_FAILURE;
}
