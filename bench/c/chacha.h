/*
 * The words of ChaCha20 with a 64-bit counter from 0 and the stream 0, two 32-bit words to one of 64 bits, the lower first:
 * the random words of oblivious banks (docs/FORMATS.md, "Traces").
 */
#ifndef CHACHA_H
#define CHACHA_H

#include <stdint.h>

enum { CHACHA_WORDS = 16 };

struct chacha {
    uint32_t input[CHACHA_WORDS], output[CHACHA_WORDS];
    unsigned next;
};

/* The words that 32 bytes make. */
void start_chacha(struct chacha *words, const uint8_t key[32]);

/* The next word. */
uint64_t next_word(struct chacha *words);

#endif
