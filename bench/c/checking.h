/*
 * The check of objects: whether what the bus shows of every run depends on public inputs alone. The rules, and the
 * reasons 1 to 13 for which an object is refused, are those of docs/MACHINE.md and docs/ERRORS.md.
 */
#ifndef CHECKING_H
#define CHECKING_H

#include "object.h"

enum reason {
    SECRET_ADDRESS = 1, SECRET_TO_RAM, UNBOUND_SLOT, JUMP_OUTSIDE, NO_NOTE, NOTE_TOO_LOW, SECRET_LOOP, HALT_IN_SECRET,
    RAM_STORE_IN_SECRET, UNEQUAL_ARMS, BAD_REGION, RUNS_OFF_END, SECRET_SYMBOL_IN_RAM
};

/* The first place that a rule refuses, and which. */
struct refusal {
    uint32_t place;
    enum reason reason;
};

/* What is known at a place of public code: which registers may hold a secret, and each slot's bank, 255 where it isn't. */
struct known {
    uint32_t secrets;
    uint8_t banks[SLOTS];
};

/* Whether an object is accepted; where not, the first refusal. */
bool is_accepted(const struct object *object, struct refusal *refusal);

/* Ends the program with the line and the status of a refusal, where the object isn't accepted. */
void check_or_end(const struct object *object);

/* A table of values for the regions of branches on secrets, with the room that it has taken. */
struct regions;
struct regions *new_regions(const struct object *object);
void free_regions(struct regions *regions);

/*
 * Crosses the region of a branch on a secret in public code, where this is known, which becomes what is known at the join.
 * Answers the join, or 0 where the region is refused.
 */
uint32_t cross(struct regions *regions, uint32_t branch, struct known *known, struct refusal *refusal);

#endif
