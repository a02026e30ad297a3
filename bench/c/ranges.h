/*
 * What is known of public scalars at a statement: from which number to which other one each is. An index that is known to be
 * within its array needs no remainder.
 */
#ifndef RANGES_H
#define RANGES_H

#include "source.h"

/* From a least to a most number, both of which are words, if it is known. */
struct range {
    bool is_known;
    uint64_t least, most;
};

/* A range for each variable of a program; those of secret ones and of arrays aren't known. */
struct ranges {
    const struct source *source;
    struct range *of;
};

/* Nothing is known, as before a program runs. */
struct ranges ranges_for(const struct source *source);

struct ranges copied_ranges(const struct ranges *known);

/* Whether the value of an expression is known to be a number below a length. */
bool is_below(const struct ranges *known, const struct expr *expr, uint32_t length);

/* What is known before a statement becomes what is known after it. */
void pass_statement(struct ranges *known, const struct statement *made);

/* What is known in the body of a loop, by what is known before the loop. */
struct ranges inside_loop(const struct ranges *known, const struct statement *loop);

#endif
