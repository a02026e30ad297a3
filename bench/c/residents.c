/*
 * The layout of `compile --fast`. See residents.h.
 *
 * The scalars of a label are the last words of their block, and its first words are for arrays of that label. Of the arrays
 * that find no room there some have a slot of their own; the others use slots alternately, as without `--fast`. At last
 * secret arrays of several blocks are spread over slots that are still free.
 */
#include "residents.h"

#include "layout.h"
#include "spreading.h"

enum kind { PLAIN, OBLIVIOUS, ENCRYPTED };

enum { MOST_ALONE = 2, MOST_SPARE = 3 };

/* The arrays of a kind that don't share the block of the scalars, and the most short ones that have a slot of their own. */
struct rest {
    struct variable *arrays[MOST_SYMBOLS];
    size_t count, most_own;
};

static enum kind kind_of(const struct variable *array)
{
    if (!array->symbol.is_secret)
        return PLAIN;
    return array->has_secret_index ? OBLIVIOUS : ENCRYPTED;
}

static void place_scalars(struct source *source, const struct object *object)
{
    uint32_t next[2];
    for (unsigned label = 0; label < 2; label++)
        next[label] = block_words(object) - scalars_of(source, label);
    for (size_t i = 0; i < source->count; i++) {
        struct variable *variable = &source->variables[i];
        if (variable->symbol.is_array)
            continue;
        variable->symbol.bank = variable->symbol.is_secret;
        variable->symbol.word = (uint16_t)next[variable->symbol.bank]++;
        variable->slot = variable->symbol.is_secret ? SECRET_SLOT : PUBLIC_SLOT;
        variable->is_resident = true;
    }
}

/* Places the arrays of a kind in a block of scalars from a word on, each if it has room before the scalars. Returns the
 * next free word. */
static uint32_t share(struct source *source, enum kind kind, uint32_t next, uint32_t end, struct rest *rest)
{
    for (size_t i = 0; i < source->count; i++) {
        struct variable *variable = &source->variables[i];
        if (!variable->symbol.is_array || kind_of(variable) != kind)
            continue;
        if (variable->symbol.length > end - next) {
            rest->arrays[rest->count++] = variable;
            continue;
        }
        variable->symbol.bank = variable->symbol.is_secret;
        variable->symbol.word = (uint16_t)next;
        variable->slot = variable->symbol.is_secret ? SECRET_SLOT : PUBLIC_SLOT;
        variable->is_resident = true;
        next += variable->symbol.length;
    }
    return next;
}

/* How many secret arrays with a secret index may have a slot of their own, by the slots and the blocks that are left. */
static size_t most_spare(const struct rest *encrypted, const struct object *object)
{
    uint64_t blocks = 1;
    for (size_t i = 0; i < encrypted->count; i++)
        blocks += blocks_for(&encrypted->arrays[i]->symbol, object);
    const size_t slots = MOST_SPARE - (encrypted->count < MOST_ALONE ? encrypted->count : MOST_ALONE);
    const uint64_t left = blocks < most_blocks(1) ? most_blocks(1) - blocks : 0;
    return slots < left ? slots : left;
}

/* Places what is left of public or of encrypted arrays. If there are two at most, a short one has its slot alone. */
static void place_alternately(struct rest *rest, unsigned bank, unsigned slot, struct object *object)
{
    for (size_t i = 0; i < rest->count; i++) {
        struct variable *array = rest->arrays[i];
        array->is_resident = rest->count <= MOST_ALONE && array->symbol.length <= block_words(object);
        array->slot = (uint8_t)(slot + i % 2);
        place_on_blocks(array, bank, object);
    }
}

/* Places what is left of secret arrays with a secret index: the first short ones have spare slots. */
static void place_spare(struct rest *rest, struct object *object)
{
    const uint8_t spare[MOST_SPARE] = {SPARE_SLOT, ENCRYPTED_SLOT + 1, ENCRYPTED_SLOT};
    size_t own = 0, oblivious = 0;
    for (size_t i = 0; i < rest->count; i++) {
        struct variable *array = rest->arrays[i];
        array->is_resident = own < rest->most_own && array->symbol.length <= block_words(object);
        array->slot = array->is_resident ? spare[own++] : OBLIVIOUS_SLOT;
        place_on_blocks(array, array->is_resident ? 1 : FIRST_OBLIVIOUS + oblivious++ % OBLIVIOUS_BANKS, object);
    }
}

void place_residents(struct source *source, struct object *object)
{
    struct rest plain = {.count = 0}, oblivious = {.count = 0}, encrypted = {.count = 0};
    place_scalars(source, object);
    share(source, PLAIN, 0, block_words(object) - scalars_of(source, false), &plain);
    const uint32_t end = block_words(object) - scalars_of(source, true);
    const uint32_t next = share(source, OBLIVIOUS, 0, end, &oblivious);
    share(source, ENCRYPTED, next, end, &encrypted);
    oblivious.most_own = most_spare(&encrypted, object);
    place_alternately(&plain, 0, PLAIN_SLOT, object);
    place_spare(&oblivious, object);
    place_alternately(&encrypted, 1, ENCRYPTED_SLOT, object);
    spread_arrays(source, object);
}
