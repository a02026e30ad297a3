/*
 * What registers hold for the whole run of code that is made with `--fast`: SECRET_ZERO holds 0, but is secret for the check,
 * so that a sum with it copies a value and makes it secret; PUBLIC_ZERO holds the number 0; the registers from FIRST_HELD on
 * hold scalars in order of declaration, then the numbers of accesses to arrays, then numbers of the program. Expressions use the registers below these.
 */
#ifndef HOLDING_H
#define HOLDING_H

#include "source.h"

enum { SECRET_ZERO = 19, PUBLIC_ZERO, FIRST_HELD };

/* The register of each variable, or 0 if it has none; and the number that each register holds, if it holds one. */
struct holding {
    uint8_t *variables;
    bool has_number[REGISTERS];
    int64_t numbers[REGISTERS];
};

/* No register holds anything. */
struct holding hold_nothing(const struct source *source);

/* What registers hold for a program. */
struct holding hold_for(const struct source *source);

/* The register that holds a number, or 0. */
unsigned register_of_number(const struct holding *holding, int64_t number);

/* The register that holds the value of an expression, or 0. */
unsigned register_of(const struct holding *holding, const struct expr *expr);

/* The registers that may hold a secret between statements. */
uint32_t secret_registers(const struct holding *holding, const struct source *source);

#endif
