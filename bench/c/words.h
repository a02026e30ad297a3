/* Operations on words of 64 bits that C leaves open or undefined somewhere (docs/MACHINE.md, "Instructions"). */
#ifndef WORDS_H
#define WORDS_H

#include "object.h"

#include <stdint.h>

static inline int64_t quotient(int64_t left, int64_t right)
{
    if (right == 0)
        return -1;
    return right == -1 ? (int64_t)(0 - (uint64_t)left) : left / right;
}

static inline int64_t remainder_of(int64_t left, int64_t right)
{
    if (right == 0)
        return left;
    return right == -1 ? 0 : left % right;
}

static inline int64_t unsigned_remainder(int64_t left, int64_t right)
{
    return right == 0 ? left : (int64_t)((uint64_t)left % (uint64_t)right);
}

static inline int64_t shifted_left(int64_t word, int64_t by)
{
    return (int64_t)((uint64_t)word << (by & 63));
}

/* A shift to the right that keeps the sign, as `>>` does in the compilers that are meant. */
static inline int64_t shifted_right(int64_t word, int64_t by)
{
    return word >> (by & 63);
}

/* The result of an operation, by its opcode. */
static inline int64_t result_of(uint8_t opcode, int64_t left, int64_t right)
{
    switch (opcode) {
    case ADD: return (int64_t)((uint64_t)left + (uint64_t)right);
    case SUB: return (int64_t)((uint64_t)left - (uint64_t)right);
    case MUL: return (int64_t)((uint64_t)left * (uint64_t)right);
    case DIV: return quotient(left, right);
    case REM: return remainder_of(left, right);
    case AND: return left & right;
    case OR: return left | right;
    case XOR: return left ^ right;
    case SHL: return shifted_left(left, right);
    default: return shifted_right(left, right); /* SHR */
    }
}

#endif
