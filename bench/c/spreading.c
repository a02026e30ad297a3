/*
 * Spreading arrays of several blocks over slots. See spreading.h.
 */
#include "spreading.h"

#include "layout.h"

static const uint8_t spread_slots[MOST_SPREAD] = {2, 3, 4, 5, SPARE_SLOT};

static bool is_among(const struct variable *array, unsigned slot)
{
    for (unsigned i = 0; i < array->spread_count; i++)
        if (array->spread[i] == slot)
            return true;
    return false;
}

/* Whether a slot may hold a block of an array: it serves no other variable, and holds no block for the whole run. */
static bool is_free(const struct source *source, const struct variable *array, unsigned slot)
{
    for (size_t i = 0; i < source->count; i++) {
        const struct variable *other = &source->variables[i];
        if (other != array && (other->slot == slot || is_among(other, slot)))
            return false;
    }
    return true;
}

static bool is_long(const struct variable *array, const struct object *object)
{
    return block_words(object) < array->symbol.length && array->symbol.length <= MOST_SPREAD * block_words(object);
}

/* Spreads an array if it is long, isn't resident, and has free slots and room in encrypted memory. */
static void spread(const struct source *source, struct variable *array, struct object *object)
{
    uint8_t slots[MOST_SPREAD], count = 0;
    const uint32_t blocks = blocks_for(&array->symbol, object);
    if (array->is_resident || !is_long(array, object))
        return;
    for (size_t i = 0; i < MOST_SPREAD; i++)
        if (is_free(source, array, spread_slots[i]))
            slots[count++] = spread_slots[i];
    if (blocks > count || object->banks[1].blocks + (uint64_t)blocks > most_blocks(1))
        return;
    if (is_oblivious(array))
        place_on_blocks(array, 1, object);
    for (uint32_t i = 0; i < blocks; i++)
        array->spread[i] = slots[i];
    array->spread_count = (uint8_t)blocks;
    array->slot = slots[0];
    array->is_resident = true;
}

static unsigned last_bank(const struct source *source)
{
    unsigned last = 1;
    for (size_t i = 0; i < source->count; i++)
        if (source->variables[i].symbol.bank > last)
            last = source->variables[i].symbol.bank;
    return last;
}

void spread_arrays(struct source *source, struct object *object)
{
    for (size_t i = 0; i < source->count; i++)
        if (is_oblivious(&source->variables[i]))
            spread(source, &source->variables[i], object);
    for (size_t i = 0; i < source->count; i++)
        if (source->variables[i].symbol.bank == 1)
            spread(source, &source->variables[i], object);
    for (unsigned bank = last_bank(source) + 1; bank < MOST_BANKS; bank++)
        object->banks[bank].blocks = 0;
}
