/*
 * eval SRC INPUT OUT [--turns N]: evaluates a program on inputs, and writes what its variables hold at the end.
 *
 * The lines, the statuses and the file are those of `ghostrider eval`, by the rules of docs/FORMATS.md, docs/LANGUAGE.md
 * and docs/ERRORS.md. The measure of bench/eval.
 */
#include "files.h"
#include "inputs.h"
#include "options.h"
#include "source.h"
#include "words.h"

#include <stdio.h>
#include <stdlib.h>
#include <string.h>

enum { SPENT = 10, USUAL_TURNS = 1000000000 };

/* What the words ask for. */
struct asked {
    const char *source, *input, *output;
    uint32_t turns;
};

/* An evaluation: the words of each variable, how many they are, and the turns that are left. */
struct store {
    int64_t **words;
    const struct variable *variables;
    uint64_t turns;
};

static int64_t value_of(const struct store *store, const struct expr *expr);

static int64_t *element_of(const struct store *store, int32_t array, const struct expr *index)
{
    return &store->words[array][(uint64_t)value_of(store, index) % store->variables[array].words];
}

static int64_t value_of(const struct store *store, const struct expr *expr)
{
    switch (expr->kind) {
    case CONSTANT: return expr->number;
    case SCALAR: return store->words[expr->variable][0];
    case ELEMENT: return *element_of(store, expr->variable, expr->left);
    default: return result_of(expr->opcode, value_of(store, expr->left), value_of(store, expr->right)); /* OPERATION */
    }
}

static bool holds(const struct store *store, const struct guard *guard)
{
    const int64_t left = value_of(store, guard->left), right = value_of(store, guard->right);
    switch (guard->opcode) {
    case BR_EQ: return left == right;
    case BR_NE: return left != right;
    case BR_LT: return left < right;
    case BR_LE: return left <= right;
    case BR_GT: return left > right;
    default: return left >= right; /* BR_GE */
    }
}

/* Does statements in their order. Answers whether there were turns enough. */
static bool perform(struct store *store, const struct block *block)
{
    const struct statement *end = block->items + block->count;
    for (const struct statement *now = block->items; now < end; now++)
        switch (now->kind) {
        case SET:
            store->words[now->variable][0] = value_of(store, now->value);
            break;
        case PUT:
            *element_of(store, now->variable, now->index) = value_of(store, now->value);
            break;
        case CHOICE:
            if (!perform(store, holds(store, &now->guard) ? &now->first : &now->second))
                return false;
            break;
        case LOOP:
            while (holds(store, &now->guard))
                if (store->turns-- == 0 || !perform(store, &now->first))
                    return false;
            break;
        }
    return true;
}

/* An object with the symbols of a program's variables, in their order, for the reader and the writer of JSON. */
static struct object symbols_of(const struct source *source)
{
    struct object object = {.symbols = room_for(source->count, sizeof object.symbols[0]), .symbol_count = (uint32_t)source->count};
    for (size_t i = 0; i < source->count; i++)
        object.symbols[i] = source->variables[i].symbol;
    return object;
}

static struct asked read_words(int count, char **words)
{
    struct asked asked = {.turns = USUAL_TURNS};
    const char **names[] = {&asked.source, &asked.input, &asked.output};
    const int files = 3;
    int given = 0;
    if (count < 2 || strcmp(words[1], "eval") != 0)
        end_with_usage();
    for (int i = 2; i < count; i++) {
        const char *value;
        if ((value = option("--turns", words, count, &i)) != NULL)
            asked.turns = (uint32_t)number_within(1, UINT32_MAX, value);
        else if (words[i][0] != '-' && given < files)
            *names[given++] = words[i];
        else
            end_with_usage();
    }
    if (given < files)
        end_with_usage();
    return asked;
}

int main(int count, char **words)
{
    struct asked asked = read_words(count, words);
    struct source source = read_source(asked.source);
    struct object object = symbols_of(&source);
    struct store store = {read_inputs(asked.input, &object), source.variables, asked.turns};
    if (!perform(&store, &source.body)) {
        printf("fault 10 spent %u\n", asked.turns);
        return SPENT;
    }
    size_t text_count;
    char *text = output_text(&object, store.words, &text_count);
    write_file(asked.output, text, text_count);
    puts("done");
    return DONE;
}
