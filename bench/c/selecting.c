/*
 * Selecting a word among those of several slots. See selecting.h.
 *
 * Each slot's word is read, and masks choose among them. `ldw` and `stw` take the number of a word modulo a block's words, so
 * the number in the array serves for each slot.
 */
#include "selecting.h"

enum { NUMBER = 1, OLD, NEW, MASKS };

static void add(struct steps *steps, uint8_t opcode, unsigned a, unsigned b, unsigned c)
{
    steps->items[steps->count++] = (struct instruction){.opcode = opcode, .a = (uint8_t)a, .b = (uint8_t)b, .c = (uint8_t)c};
}

/* Register `mask` becomes all ones if a number is at least the first of a block, and 0 otherwise. The difference from the
 * limit less 1 is shifted by that limit less 1: its low six bits shift all but the sign out. */
static void add_mask(struct steps *steps, int64_t limit, unsigned number, unsigned own, unsigned mask)
{
    steps->items[steps->count++] = (struct instruction){.opcode = LI, .a = (uint8_t)own, .constant = limit - 1};
    add(steps, SUB, mask, own, number);
    add(steps, SHR, mask, mask, own);
}

struct steps steps_to_read(const struct variable *array, uint32_t size, unsigned to)
{
    struct steps steps = {.count = 0};
    const unsigned last = array->spread_count - 1u;
    add(&steps, LDW, to + 1, array->spread[0], to);
    for (unsigned i = 1; i <= last; i++) {
        add_mask(&steps, (int64_t)i * size, to, to + 2, to + 3);
        add(&steps, LDW, to + 2, array->spread[i], to);
        add(&steps, XOR, to + 2, to + 2, to + 1);
        add(&steps, AND, to + 2, to + 2, to + 3);
        add(&steps, XOR, i == last ? to : to + 1, to + 1, to + 2);
    }
    return steps;
}

/* The word of one block: as far as the mask has ones, the value takes the place of the old word; or the other way round. */
static void add_exchange(struct steps *steps, unsigned slot, unsigned value, unsigned mask, bool has_ones_elsewhere,
                         bool has_effect)
{
    add(steps, LDW, OLD, slot, NUMBER);
    add(steps, XOR, NEW, OLD, value);
    add(steps, AND, NEW, NEW, mask);
    add(steps, XOR, NEW, NEW, has_ones_elsewhere ? value : OLD);
    add(steps, STW, has_effect ? NEW : OLD, slot, NUMBER);
}

struct steps steps_to_write(const struct variable *array, uint32_t size, unsigned value, bool has_effect)
{
    struct steps steps = {.count = 0};
    const unsigned last = array->spread_count - 1u;
    add_mask(&steps, size, NUMBER, NEW, MASKS);
    add_exchange(&steps, array->spread[0], value, MASKS, true, has_effect);
    for (unsigned i = 1; i <= last; i++) {
        const unsigned mask = MASKS + (i - 1) % 2, next = MASKS + i % 2;
        if (i < last) {
            add_mask(&steps, (int64_t)(i + 1) * size, NUMBER, NEW, next);
            add(&steps, XOR, mask, mask, next);
        }
        add_exchange(&steps, array->spread[i], value, mask, false, has_effect);
    }
    return steps;
}
