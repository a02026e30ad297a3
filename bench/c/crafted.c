/*
 * crafted COUNT BITS: prints so many words, as 8 bytes each, the lowest first, whose hashes end with so many zero bits, as
 * the program's table of values would hash their constants were its hash the usual one of its library, with the fixed
 * seed: in a table of 2^BITS groups or fewer they all begin at one group, and each must pass all before it. They are found
 * by trying numbers in turn.
 */
#include <stdint.h>
#include <stdio.h>
#include <stdlib.h>

/* The hasher multiplies to 128 bits, and joins the halves. */
static uint64_t folded(uint64_t left, uint64_t right)
{
    unsigned __int128 product = (unsigned __int128)left * right;
    return (uint64_t)product ^ (uint64_t)(product >> 64);
}

/* The hash of a constant: of its kind's number, 0, and of its word, each of 8 bytes; the table folds it to 32 bits. */
static uint32_t hash_of(uint64_t word)
{
    const uint64_t start = 0x243f6a8885a308d3, multiplier = 0x9e3779b97f4a7c15 ^ 16;
    uint64_t hash = folded(folded(start, multiplier) ^ word, multiplier);
    return (uint32_t)(hash ^ hash >> 32);
}

int main(int count, char **words)
{
    if (count != 3)
        return 2;
    const uint32_t mask = ((uint32_t)1 << atoi(words[2])) - 1;
    long left = atol(words[1]);
    for (uint64_t word = 0; left > 0; word++) {
        if ((hash_of(word) & mask) != 0)
            continue;
        for (int byte = 0; byte < 8; byte++)
            putchar((int)(word >> (8 * byte) & 0xff));
        left--;
    }
    return 0;
}
