/* The code of operations by a number without the machine's slow instructions (crates/strength_reduction). */
#ifndef REDUCING_H
#define REDUCING_H

#include "object.h"

enum { MOST_STEPS = 24, NO_STEPS = -1 };

/* Gives the steps that replace an operation on the value in a register by a number, and how many they are; or NO_STEPS.
 * They leave the result in that register, and also use the next two. */
int steps_by_number(uint8_t opcode, int64_t number, unsigned to, struct instruction *steps);

#endif
