/*
 * Cheaper expressions for `compile --fast`. See folding.h.
 */
#include "folding.h"

#include "files.h"
#include "words.h"

static const struct expr *kept(struct expr made)
{
    struct expr *place = room_for(1, sizeof made);
    *place = made;
    return place;
}

static const struct expr *folded(const struct expr *expr);

static const struct expr *number(int64_t value)
{
    return kept((struct expr){.kind = CONSTANT, .height = 1, .weight = 1, .number = value});
}

/* Whether a number is 2^k for a k from 0 to 62. */
static bool is_power(int64_t value)
{
    return value > 0 && (value & (value - 1)) == 0;
}

static int64_t log_of(int64_t power)
{
    int64_t log = 0;
    while (power >> log != 1)
        log++;
    return log;
}

/* An operation on two expressions that are folded. */
static const struct expr *folded_operation(const struct expr *expr, const struct expr *left, const struct expr *right)
{
    struct expr made = *expr;
    made.left = left;
    made.right = right;
    if (left->kind == CONSTANT && right->kind == CONSTANT)
        return number(result_of(expr->opcode, left->number, right->number));
    if (expr->opcode == MUL && left->kind == CONSTANT) {
        made.left = right;
        made.right = left;
    }
    if (expr->opcode == MUL && made.right->kind == CONSTANT && is_power(made.right->number)) {
        made.opcode = SHL;
        made.right = number(log_of(made.right->number));
    }
    return made.left == expr->left && made.right == expr->right ? expr : kept(made);
}

static const struct expr *folded(const struct expr *expr)
{
    struct expr made = *expr;
    switch (expr->kind) {
    case ELEMENT:
        made.left = folded(expr->left);
        return made.left == expr->left ? expr : kept(made);
    case OPERATION: return folded_operation(expr, folded(expr->left), folded(expr->right));
    default: return expr;
    }
}

static void fold_block(struct block *block)
{
    for (size_t i = 0; i < block->count; i++) {
        struct statement *made = &block->items[i];
        if (made->kind == SET || made->kind == PUT) {
            made->value = folded(made->value);
            if (made->kind == PUT)
                made->index = folded(made->index);
            continue;
        }
        made->guard.left = folded(made->guard.left);
        made->guard.right = folded(made->guard.right);
        fold_block(&made->first);
        if (made->kind == CHOICE)
            fold_block(&made->second);
    }
}

void fold(struct source *source)
{
    fold_block(&source->body);
}
