/*
 * Ranges of public scalars. See ranges.h.
 */
#include "ranges.h"

#include "files.h"

#include <stdlib.h>
#include <string.h>

static const struct range UNKNOWN = {false, 0, 0};
static const unsigned __int128 WORDS = (unsigned __int128)1 << 63;

struct ranges ranges_for(const struct source *source)
{
    return (struct ranges){source, zeros_for(source->count + 1, sizeof(struct range))};
}

struct ranges copied_ranges(const struct ranges *known)
{
    struct ranges made = ranges_for(known->source);
    memcpy(made.of, known->of, known->source->count * sizeof made.of[0]);
    return made;
}

static struct range range_from(unsigned __int128 least, unsigned __int128 most)
{
    return least <= most && most < WORDS ? (struct range){true, (uint64_t)least, (uint64_t)most} : UNKNOWN;
}

/* The range of an operation on two words in ranges. */
static struct range range_by(uint8_t opcode, struct range a, struct range b)
{
    const unsigned __int128 least = a.least, most = a.most;
    switch (opcode) {
    case ADD: return range_from(least + b.least, most + b.most);
    case SUB: return a.least < b.most ? UNKNOWN : range_from(a.least - b.most, a.most - b.least);
    case MUL: return range_from(least * b.least, most * b.most);
    case REM: return b.least > 0 ? range_from(0, b.most - 1) : UNKNOWN;
    case AND: return range_from(0, b.most);
    case SHL: return b.most < 63 ? range_from(least << b.least, most << b.most) : UNKNOWN;
    default: return UNKNOWN;
    }
}

static struct range range_of(const struct ranges *known, const struct expr *expr)
{
    struct range left, right;
    switch (expr->kind) {
    case CONSTANT: return expr->number >= 0 ? range_from((uint64_t)expr->number, (uint64_t)expr->number) : UNKNOWN;
    case SCALAR: return known->of[expr->variable];
    case ELEMENT: return UNKNOWN;
    default: break; /* an operation */
    }
    left = range_of(known, expr->left);
    right = range_of(known, expr->right);
    if (left.is_known && right.is_known)
        return range_by(expr->opcode, left, right);
    return expr->opcode == AND && right.is_known ? range_from(0, right.most) : UNKNOWN;
}

bool is_below(const struct ranges *known, const struct expr *expr, uint32_t length)
{
    const struct range range = range_of(known, expr);
    return range.is_known && range.most < length;
}

/* Nothing is known any more of what a block assigns. */
static void forget(struct ranges *known, const struct block *block)
{
    for (size_t i = 0; i < block->count; i++) {
        const struct statement *made = &block->items[i];
        if (made->kind == SET || made->kind == PUT) {
            known->of[made->variable] = UNKNOWN;
        } else {
            forget(known, &made->first);
            forget(known, &made->second);
        }
    }
}

void pass_statement(struct ranges *known, const struct statement *made)
{
    if (made->kind == SET && !known->source->variables[made->variable].symbol.is_secret)
        known->of[made->variable] = range_of(known, made->value);
    else
        forget(known, &(struct block){(struct statement *)made, 1});
}

/* The range of a scalar that isn't below the least of a range and passes a loop's comparison with a word in another one. */
static struct range counted(uint8_t opcode, struct range start, struct range bound)
{
    if (!start.is_known || !bound.is_known || (opcode != BR_LT && opcode != BR_LE))
        return UNKNOWN;
    return range_from(start.least, opcode == BR_LT && bound.most > 0 ? bound.most - 1 : bound.most);
}

struct ranges inside_loop(const struct ranges *known, const struct statement *loop)
{
    struct ranges inside = copied_ranges(known);
    forget(&inside, &loop->first);
    if (loop->guard.left->kind != SCALAR)
        return inside;
    const int32_t scalar = loop->guard.left->variable;
    const struct range start = known->of[scalar];
    const struct range guess = counted(loop->guard.opcode, start, range_of(&inside, loop->guard.right));
    if (!guess.is_known)
        return inside;
    const struct range forgotten = inside.of[scalar];
    inside.of[scalar] = guess;
    struct ranges after = copied_ranges(&inside);
    for (size_t i = 0; i < loop->first.count; i++)
        pass_statement(&after, &loop->first.items[i]);
    if (!after.of[scalar].is_known || after.of[scalar].least < start.least)
        inside.of[scalar] = forgotten;
    free(after.of);
    return inside;
}
