/*
 * Operations by a number without slow instructions. See reducing.h.
 */
#include "reducing.h"

enum { MOST_BITS = 8, MOST_POWER = 62, SIGN = 63 };

/* Steps that are being made, and the register of the value. */
struct steps {
    struct instruction *items;
    int count;
    unsigned to;
};

static void load(struct steps *steps, unsigned target, int64_t constant)
{
    steps->items[steps->count++] =
        (struct instruction){.opcode = LI, .a = (uint8_t)(steps->to + target), .constant = constant};
}

static void compute(struct steps *steps, uint8_t opcode, unsigned target, unsigned left, unsigned right)
{
    steps->items[steps->count++] = (struct instruction){
        .opcode = opcode, .a = (uint8_t)(steps->to + target), .b = (uint8_t)(steps->to + left), .c = (uint8_t)(steps->to + right),
    };
}

/* The result is 0, but depends on the value, so that it stays secret for the check if the value is. */
static void put_zero(struct steps *steps)
{
    compute(steps, XOR, 0, 0, 0);
}

static unsigned bits_of(uint64_t number)
{
    unsigned bits = 0;
    for (; number != 0; number &= number - 1)
        bits++;
    return bits;
}

static unsigned lowest_bit(uint64_t number)
{
    unsigned bit = 0;
    while ((number >> bit & 1) == 0)
        bit++;
    return bit;
}

/* A product, as a sum of the value shifted by each bit of the number. The sum is in register 1, the last one in register 0. */
static void put_product(struct steps *steps, uint64_t number)
{
    if (number == 0) {
        put_zero(steps);
        return;
    }
    unsigned sum = 0;
    const unsigned first = lowest_bit(number);
    number &= number - 1;
    if (first > 0) {
        load(steps, 2, first);
        compute(steps, SHL, number == 0 ? 0 : 1, 0, 2);
        sum = 1;
    }
    while (number != 0) {
        load(steps, 2, lowest_bit(number));
        number &= number - 1;
        compute(steps, SHL, 2, 0, 2);
        compute(steps, ADD, number == 0 ? 0 : 1, sum, 2);
        sum = 1;
    }
}

/* Adds 2^k - 1 to a negative value, since a shift rounds towards below and a quotient towards 0. */
static void put_rounding(struct steps *steps, int64_t low_bits)
{
    load(steps, 1, SIGN);
    compute(steps, SHR, 1, 0, 1);
    load(steps, 2, low_bits);
    compute(steps, AND, 1, 1, 2);
    compute(steps, ADD, 0, 0, 1);
}

/* A quotient or a remainder by 2^k. */
static void put_divided(struct steps *steps, uint8_t opcode, unsigned k)
{
    const int64_t low_bits = (int64_t)(((uint64_t)1 << k) - 1);
    if (k == 0 && opcode != DIV) {
        put_zero(steps);
    } else if (opcode == REMU) {
        load(steps, 1, low_bits);
        compute(steps, AND, 0, 0, 1);
    } else if (k > 0) {
        put_rounding(steps, low_bits);
        if (opcode == DIV) {
            load(steps, 2, k);
            compute(steps, SHR, 0, 0, 2);
        } else {
            compute(steps, AND, 0, 0, 2);
            compute(steps, SUB, 0, 0, 1);
        }
    }
}

int steps_by_number(uint8_t opcode, int64_t number, unsigned to, struct instruction *steps)
{
    struct steps made = {steps, 0, to};
    const unsigned bits = bits_of((uint64_t)number);
    const bool is_divided = opcode == DIV || opcode == REM || opcode == REMU;
    if (opcode == MUL && bits <= MOST_BITS) {
        put_product(&made, (uint64_t)number);
        return made.count;
    }
    if (is_divided && bits == 1 && lowest_bit((uint64_t)number) <= MOST_POWER) {
        put_divided(&made, opcode, lowest_bit((uint64_t)number));
        return made.count;
    }
    return NO_STEPS;
}
