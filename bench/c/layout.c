/* The layout of compiled programs. See layout.h. */
#include "layout.h"

#include "files.h"
#include "residents.h"
#include "tokens.h"

#include <stdio.h>
#include <stdlib.h>

enum { PLAIN_LATENCY = 634, ENCRYPTED_LATENCY = 662, OBLIVIOUS_LATENCY = 4262 };

uint32_t scalars_of(const struct source *source, bool is_secret)
{
    uint32_t count = 0;
    for (size_t i = 0; i < source->count; i++)
        count += !source->variables[i].symbol.is_array && source->variables[i].symbol.is_secret == is_secret;
    return count;
}

uint32_t blocks_for(const struct symbol *array, const struct object *object)
{
    return (array->length + block_words(object) - 1) >> object->profile.block_log;
}

void place_on_blocks(struct variable *array, unsigned bank, struct object *object)
{
    struct symbol *symbol = &array->symbol;
    symbol->bank = (uint8_t)bank;
    symbol->block = object->banks[bank].blocks;
    object->banks[bank].blocks += blocks_for(symbol, object);
}

/* The usual layout. */
static void place_all(struct source *source, struct object *object)
{
    uint32_t scalars[2] = {0}, arrays[2] = {0}, oblivious = 0;
    for (size_t i = 0; i < source->count; i++) {
        struct variable *variable = &source->variables[i];
        struct symbol *symbol = &variable->symbol;
        const unsigned bank = symbol->is_secret;
        if (!symbol->is_array) {
            symbol->bank = (uint8_t)bank;
            symbol->word = (uint16_t)scalars[bank]++;
            variable->slot = symbol->is_secret ? SECRET_SLOT : PUBLIC_SLOT;
        } else if (symbol->is_secret && variable->has_secret_index) {
            place_on_blocks(variable, FIRST_OBLIVIOUS + oblivious++ % OBLIVIOUS_BANKS, object);
            variable->slot = OBLIVIOUS_SLOT;
        } else {
            place_on_blocks(variable, bank, object);
            variable->slot = (uint8_t)((symbol->is_secret ? ENCRYPTED_SLOT : PLAIN_SLOT) + arrays[bank]++ % 2);
        }
    }
}

static void scalars_or_end(const struct source *source, const struct object *object)
{
    for (unsigned label = 0; label < 2; label++)
        if (scalars_of(source, label) > block_words(object)) {
            printf("fault 8 source scalars %s\n", label == 0 ? "public" : "secret");
            exit(BAD_SOURCE);
        }
}

static void banks_or_end(const struct object *object)
{
    for (unsigned bank = 0; bank < object->bank_count; bank++)
        if (object->banks[bank].blocks > most_blocks(bank)) {
            printf("fault 8 source bank %u\n", bank);
            exit(BAD_SOURCE);
        }
}

static int compare_places(const void *one, const void *other)
{
    const struct symbol *first = one, *second = other;
    if (first->bank != second->bank)
        return first->bank < second->bank ? -1 : 1;
    if (first->block != second->block)
        return first->block < second->block ? -1 : 1;
    return (int)first->word - (int)second->word;
}

void lay_out(struct source *source, uint8_t block_log, bool is_fast, struct object *object)
{
    *object = (struct object){
        .profile = {.block_log = block_log, .alu = 1, .mul = 70, .word = 2, .taken = 3, .period = 1, .closes = 1},
        .bank_count = FIRST_OBLIVIOUS,
        .banks = {{1, PLAIN_LATENCY}, {1, ENCRYPTED_LATENCY}},
        .symbols = room_for(source->count, sizeof object->symbols[0]),
        .symbol_count = (uint32_t)source->count,
    };
    for (unsigned bank = FIRST_OBLIVIOUS; bank < MOST_BANKS; bank++)
        object->banks[bank].latency = OBLIVIOUS_LATENCY;
    scalars_or_end(source, object);
    if (is_fast)
        place_residents(source, object);
    else
        place_all(source, object);
    while (object->bank_count < MOST_BANKS && object->banks[object->bank_count].blocks > 0)
        object->bank_count++;
    banks_or_end(object);
    for (size_t i = 0; i < source->count; i++)
        object->symbols[i] = source->variables[i].symbol;
    qsort(object->symbols, source->count, sizeof object->symbols[0], compare_places);
}

bool is_oblivious(const struct variable *variable)
{
    return variable->symbol.bank >= FIRST_OBLIVIOUS;
}

bool is_spread(const struct variable *array)
{
    return array->spread_count > 0;
}

bool is_masked(const struct variable *array)
{
    const uint32_t length = array->symbol.length;
    return !is_oblivious(array) && (length & (length - 1)) == 0;
}

int64_t reducer_of(const struct variable *array)
{
    return is_masked(array) ? array->symbol.length - 1 : array->symbol.length;
}
