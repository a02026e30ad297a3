/*
 * Choosing what registers hold for the whole run. See holding.h.
 */
#include "holding.h"

#include "files.h"
#include "layout.h"

struct holding hold_nothing(const struct source *source)
{
    return (struct holding){.variables = zeros_for(source->count + 1, 1)};
}

unsigned register_of_number(const struct holding *holding, int64_t number)
{
    for (unsigned reg = PUBLIC_ZERO; reg < REGISTERS; reg++)
        if (holding->has_number[reg] && holding->numbers[reg] == number)
            return reg;
    return 0;
}

unsigned register_of(const struct holding *holding, const struct expr *expr)
{
    switch (expr->kind) {
    case CONSTANT: return register_of_number(holding, expr->number);
    case SCALAR: return holding->variables[expr->variable];
    default: return 0;
    }
}

uint32_t secret_registers(const struct holding *holding, const struct source *source)
{
    uint32_t secrets = UINT32_MAX;
    for (unsigned reg = 0; reg < REGISTERS; reg++)
        if (holding->has_number[reg])
            secrets &= ~((uint32_t)1 << reg);
    for (size_t i = 0; i < source->count; i++)
        if (holding->variables[i] != 0 && !source->variables[i].symbol.is_secret)
            secrets &= ~((uint32_t)1 << holding->variables[i]);
    return secrets;
}

/* ---- numbers, each in the next register, as long as there is one */

static void hold_number(struct holding *holding, int64_t number, unsigned *next)
{
    if (register_of_number(holding, number) != 0 || *next == REGISTERS)
        return;
    holding->has_number[*next] = true;
    holding->numbers[*next] = number;
    (*next)++;
}

static void hold_numbers_of(struct holding *holding, const struct expr *expr, unsigned *next)
{
    switch (expr->kind) {
    case CONSTANT: hold_number(holding, expr->number, next); break;
    case SCALAR: break;
    case ELEMENT: hold_numbers_of(holding, expr->left, next); break;
    case OPERATION:
        hold_numbers_of(holding, expr->left, next);
        hold_numbers_of(holding, expr->right, next);
        break;
    }
}

static void hold_numbers_in(struct holding *holding, const struct block *block, unsigned *next)
{
    for (size_t i = 0; i < block->count; i++) {
        const struct statement *made = &block->items[i];
        if (made->kind == SET || made->kind == PUT) {
            hold_numbers_of(holding, made->value, next);
            if (made->kind == PUT)
                hold_numbers_of(holding, made->index, next);
            continue;
        }
        hold_numbers_of(holding, made->guard.left, next);
        hold_numbers_of(holding, made->guard.right, next);
        hold_numbers_in(holding, &made->first, next);
        if (made->kind == CHOICE)
            hold_numbers_in(holding, &made->second, next);
    }
}

/* The numbers of the accesses to an array: the one by which an index is reduced, and its first word in a block. */
static void hold_numbers_to(struct holding *holding, const struct variable *array, unsigned *next)
{
    if (array->symbol.length == 1)
        return;
    hold_number(holding, reducer_of(array), next);
    hold_number(holding, array->symbol.word, next);
}

struct holding hold_for(const struct source *source)
{
    struct holding holding = hold_nothing(source);
    unsigned next = FIRST_HELD;
    holding.has_number[PUBLIC_ZERO] = true;
    for (size_t i = 0; i < source->count && next < REGISTERS; i++)
        if (!source->variables[i].symbol.is_array)
            holding.variables[i] = (uint8_t)next++;
    for (size_t i = 0; i < source->count; i++)
        if (source->variables[i].symbol.is_array)
            hold_numbers_to(&holding, &source->variables[i], &next);
    hold_numbers_in(&holding, &source->body, &next);
    return holding;
}
