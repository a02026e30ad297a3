/* ChaCha20 as a source of random words. See chacha.h. */
#include "chacha.h"

#include <string.h>

enum { DOUBLE_ROUNDS = 10 };

static inline uint32_t rotated(uint32_t word, unsigned bits)
{
    return word << bits | word >> (32 - bits);
}

static inline void quarter(uint32_t *a, uint32_t *b, uint32_t *c, uint32_t *d)
{
    *a += *b; *d = rotated(*d ^ *a, 16);
    *c += *d; *b = rotated(*b ^ *c, 12);
    *a += *b; *d = rotated(*d ^ *a, 8);
    *c += *d; *b = rotated(*b ^ *c, 7);
}

/* Makes the next block of words. */
static void refill(struct chacha *words)
{
    uint32_t x[CHACHA_WORDS];
    memcpy(x, words->input, sizeof x);
    for (int i = 0; i < DOUBLE_ROUNDS; i++) {
        quarter(&x[0], &x[4], &x[8], &x[12]);
        quarter(&x[1], &x[5], &x[9], &x[13]);
        quarter(&x[2], &x[6], &x[10], &x[14]);
        quarter(&x[3], &x[7], &x[11], &x[15]);
        quarter(&x[0], &x[5], &x[10], &x[15]);
        quarter(&x[1], &x[6], &x[11], &x[12]);
        quarter(&x[2], &x[7], &x[8], &x[13]);
        quarter(&x[3], &x[4], &x[9], &x[14]);
    }
    for (int i = 0; i < CHACHA_WORDS; i++)
        words->output[i] = x[i] + words->input[i];
    if (++words->input[12] == 0)
        words->input[13]++;
    words->next = 0;
}

void start_chacha(struct chacha *words, const uint8_t key[32])
{
    static const uint32_t constants[4] = {0x61707865, 0x3320646e, 0x79622d32, 0x6b206574};
    memset(words, 0, sizeof *words);
    memcpy(words->input, constants, sizeof constants);
    for (int i = 0; i < 8; i++)
        words->input[4 + i] = key[4 * i] | (uint32_t)key[4 * i + 1] << 8 | (uint32_t)key[4 * i + 2] << 16
                              | (uint32_t)key[4 * i + 3] << 24;
    words->next = CHACHA_WORDS;
}

uint64_t next_word(struct chacha *words)
{
    if (words->next == CHACHA_WORDS)
        refill(words);
    uint64_t word = words->output[words->next] | (uint64_t)words->output[words->next + 1] << 32;
    words->next += 2;
    return word;
}
