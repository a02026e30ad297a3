/* Types and limits of programs. See source.h. */
#include "source.h"

#include "tokens.h"

#include <stdio.h>
#include <stdlib.h>

enum { MOST_VARIABLES = 256, MOST_HEIGHT = 16, MOST_WEIGHT = 8192 };

static _Noreturn void end_with(const char *fault, uint64_t number)
{
    printf("fault 8 source %s %llu\n", fault, (unsigned long long)number);
    exit(BAD_SOURCE);
}

static void names_or_end(enum name_fault fault, uint64_t number)
{
    if (fault == NOT_DECLARED)
        end_with("undeclared", number);
    if (fault == WRONG_SHAPE)
        end_with("shape", number);
}

static void assignment_or_end(const struct source *source, bool is_secret, uint64_t number, const struct statement *made)
{
    if (made->variable == UNDECLARED)
        end_with("undeclared", number);
    const struct symbol *target = &source->variables[made->variable].symbol;
    if (target->is_array != (made->kind == PUT))
        end_with("shape", number);
    bool leaks = made->value->leaks;
    if (made->kind == PUT) {
        names_or_end(made->index->fault, number);
        leaks = leaks || made->index->leaks || (made->index->is_secret && !target->is_secret);
    }
    names_or_end(made->value->fault, number);
    if (leaks)
        end_with("index", number);
    if ((is_secret || made->value->is_secret) && !target->is_secret)
        end_with("flow", number);
}

static void guard_or_end(const struct guard *guard, uint64_t number)
{
    names_or_end(guard->left->fault, number);
    names_or_end(guard->right->fault, number);
    if (guard->left->leaks || guard->right->leaks)
        end_with("index", number);
}

/* Ends the program where statements aren't well typed in code of a label, of which the first has a number. Answers the
 * number of the statement behind them. */
static uint64_t types_or_end(const struct source *source, bool is_secret, uint64_t number, const struct block *block)
{
    for (size_t i = 0; i < block->count; i++) {
        const struct statement *made = &block->items[i];
        bool is_inside = is_secret;
        if (made->kind == SET || made->kind == PUT) {
            assignment_or_end(source, is_secret, number++, made);
            continue;
        }
        guard_or_end(&made->guard, number);
        if (made->kind == CHOICE)
            is_inside = is_secret || is_secret_guard(&made->guard);
        else if (is_secret_guard(&made->guard))
            end_with("guard", number);
        else if (is_secret)
            end_with("loop", number);
        number = types_or_end(source, is_inside, number + 1, &made->first);
        number = types_or_end(source, is_inside, number, &made->second);
    }
    return number;
}

static bool is_high(const struct expr *expr)
{
    return expr != NULL && expr->height > MOST_HEIGHT;
}

/* The same for statements with expressions that are too high. */
static uint64_t heights_or_end(uint64_t number, const struct block *block)
{
    for (size_t i = 0; i < block->count; i++) {
        const struct statement *made = &block->items[i];
        if (is_high(made->index) || is_high(made->value) || is_high(made->guard.left) || is_high(made->guard.right))
            end_with("limit height", number);
        number = heights_or_end(number + 1, &made->first);
        number = heights_or_end(number, &made->second);
    }
    return number;
}

/* What statements weigh in code of a label. */
static uint64_t weight_of(bool is_secret, const struct block *block)
{
    uint64_t sum = 0;
    for (size_t i = 0; i < block->count; i++) {
        const struct statement *made = &block->items[i];
        if (made->kind == SET || made->kind == PUT) {
            sum += 1 + made->value->weight + (made->kind == PUT ? made->index->weight : 0);
            continue;
        }
        bool is_inside = is_secret || is_secret_guard(&made->guard);
        uint64_t parts = weight_of(is_inside, &made->first) + weight_of(is_inside, &made->second);
        if (made->kind == CHOICE && is_inside)
            parts *= 2;
        sum += 1 + made->guard.left->weight + made->guard.right->weight + parts;
    }
    return sum;
}

static void lengths_or_end(const struct source *source)
{
    for (size_t i = 0; i < source->count; i++)
        if (source->variables[i].words < 1 || source->variables[i].words > MOST_ARRAY_WORDS)
            end_with("limit length", i);
    uint64_t words = 0;
    for (size_t i = 0; i < source->count; i++) {
        words += source->variables[i].words;
        if (words > MOST_SYMBOL_WORDS)
            end_with("limit words", i);
    }
}

void type_or_end(const struct source *source)
{
    if (source->twice < source->count)
        end_with("twice", source->twice);
    types_or_end(source, false, 0, &source->body);
    if (source->count > MOST_VARIABLES)
        end_with("limit variables", source->count);
    lengths_or_end(source);
    heights_or_end(0, &source->body);
    uint64_t weight = weight_of(false, &source->body);
    if (weight > MOST_WEIGHT)
        end_with("limit weight", weight);
}
