/*
 * Regions of branches on secrets: both arms are walked from one state, the first arm first, and must show the same events
 * at the same cycles. Values are compared as they stand, without calculating: a table numbers them, so that equal ones
 * have equal numbers, and parts that are shared are numbered once. See checking.h.
 */
#include "checking.h"
#include "files.h"

#include <stdlib.h>
#include <string.h>

enum { MOST_DEPTH = 64, ENTRY_VALUES = REGISTERS + SLOTS, FIRST_ROOM = 256 };

/* The number of a value that isn't known. */
#define UNKNOWN UINT32_MAX

/* What a value is made of. Those of the entry, registers and then the blocks of slots, have the first numbers. */
enum { CONSTANT, SLOT_WORD, MEMORY_WORD, OPERATION };

/* A value of the table: its parts, the first either a constant or two numbers, and where the table has its number. */
struct value {
    uint64_t parts, kind;
    uint32_t place;
};

/* The values of one region. The table is open, with a power of two of places; 0 is an empty one. */
struct values {
    struct value *list;
    uint32_t count, room;
    uint32_t *table;
    uint32_t shift;
};

/* What a slot is bound to: any bank or none, or a block, in plain memory with the slot that its words come from. */
enum bound { UNBOUND, PLAIN, ENCRYPTED, OBLIVIOUS };
enum { LOADED = SLOTS };

struct slot {
    uint8_t bound, from;
    /* The number of the block's value; of an oblivious bank, the bank. */
    uint32_t value;
};

struct state {
    uint32_t registers[REGISTERS];
    struct slot slots[SLOTS];
};

/* An event that is shown, the cycles without one before it, and the number of its block's value, or its bank. */
enum event { RAM_READ, ENCRYPTED_READ, ENCRYPTED_WRITE, OBLIVIOUS_ACCESS };

struct shown {
    uint64_t gap;
    uint32_t event, value;
};

/* What was shown so far of the arms that are walked, one behind the other, and the cycles since the last event. */
struct regions {
    const struct object *object;
    uint32_t cost[BR_EQ];
    struct values values;
    struct shown *shown;
    size_t shown_count, shown_room;
    uint64_t gap;
    struct refusal *refusal;
};

struct regions *new_regions(const struct object *object)
{
    const struct profile *profile = &object->profile;
    struct regions *regions = zeros_for(1, sizeof *regions);
    regions->object = object;
    for (int opcode = 0; opcode < BR_EQ; opcode++)
        regions->cost[opcode] = opcode < ADD ? 1 : profile->alu;
    for (int opcode = MUL; opcode <= REMU; opcode++)
        regions->cost[opcode] = profile->mul;
    regions->cost[LDW] = regions->cost[STW] = profile->word;
    return regions;
}

void free_regions(struct regions *regions)
{
    free(regions->values.list);
    free(regions->values.table);
    free(regions->shown);
    free(regions);
}

static bool refuse(struct regions *regions, uint32_t place, enum reason reason)
{
    *regions->refusal = (struct refusal){place, reason};
    return false;
}

/* Leaves the values of the entry alone. */
static void clear_values(struct values *values)
{
    for (uint32_t i = ENTRY_VALUES; i < values->count; i++)
        values->table[values->list[i].place] = 0;
    values->count = ENTRY_VALUES;
}

static uint32_t hashed(const struct values *values, uint64_t parts, uint64_t kind)
{
    uint64_t hash = (parts ^ kind * 0xd6e8feb86659fd93) * 0x9e3779b97f4a7c15;
    hash = (hash ^ hash >> 32) * 0xd6e8feb86659fd93;
    return (uint32_t)(hash >> values->shift);
}

/* Doubles the room of the table, which is four times as many places as there may be values. */
static void widen(struct values *values)
{
    values->room = values->room == 0 ? FIRST_ROOM : 2 * values->room;
    values->shift = values->shift == 0 ? 64 - 10 : values->shift - 1;
    values->list = more_room(values->list, values->room, sizeof values->list[0]);
    free(values->table);
    uint32_t places = 4 * values->room;
    values->table = zeros_for(places, sizeof values->table[0]);
    for (uint32_t i = ENTRY_VALUES; i < values->count; i++) {
        struct value *value = &values->list[i];
        uint32_t at = hashed(values, value->parts, value->kind);
        while (values->table[at] != 0)
            at = (at + 1) & (places - 1);
        values->table[at] = i;
        value->place = at;
    }
}

/* The number of a value, which is a new one where the table lacks it. */
static uint32_t number_of(struct values *values, uint64_t parts, uint64_t kind)
{
    if (values->count >= values->room)
        widen(values);
    uint32_t at = hashed(values, parts, kind);
    for (uint32_t number; (number = values->table[at]) != 0; at = (at + 1) & (4 * values->room - 1))
        if (values->list[number].parts == parts && values->list[number].kind == kind)
            return number;
    values->table[at] = values->count;
    values->list[values->count] = (struct value){parts, kind, at};
    return values->count++;
}

static uint32_t constant(struct values *values, int64_t word)
{
    return number_of(values, (uint64_t)word, CONSTANT);
}

static uint32_t operation(struct values *values, unsigned opcode, uint32_t left, uint32_t right)
{
    return number_of(values, left | (uint64_t)right << 32, OPERATION | (uint64_t)opcode << 8);
}

/* The number that a value names among so many blocks or words. */
static uint32_t named(struct values *values, uint32_t value, uint32_t count)
{
    return operation(values, REMU, value, constant(values, count));
}

static void show(struct regions *regions, enum event event, uint32_t value)
{
    if (regions->shown_count == regions->shown_room) {
        regions->shown_room = regions->shown_room == 0 ? FIRST_ROOM : 2 * regions->shown_room;
        regions->shown = more_room(regions->shown, regions->shown_room, sizeof regions->shown[0]);
    }
    regions->shown[regions->shown_count++] = (struct shown){regions->gap, event, value};
    regions->gap = 0;
}

/* The number of the word that `place` names in a slot. */
static uint32_t word_in(struct regions *regions, const struct slot *slot, uint32_t place)
{
    if (slot->bound != PLAIN || place == UNKNOWN)
        return UNKNOWN;
    struct values *values = &regions->values;
    uint32_t word = named(values, place, block_words(regions->object));
    if (slot->from == LOADED)
        return number_of(values, slot->value | (uint64_t)word << 32, MEMORY_WORD);
    return number_of(values, slot->from | (uint64_t)word << 32, SLOT_WORD);
}

static bool load_block(struct regions *regions, struct state *state, uint32_t at)
{
    const struct instruction *instr = &regions->object->code[at];
    struct slot *slot = &state->slots[instr->a];
    if (instr->b >= 2) {
        *slot = (struct slot){OBLIVIOUS, 0, instr->b};
        show(regions, OBLIVIOUS_ACCESS, instr->b);
        return true;
    }
    uint32_t value = state->registers[instr->c];
    if (value == UNKNOWN)
        return refuse(regions, at, SECRET_ADDRESS);
    value = named(&regions->values, value, regions->object->banks[instr->b].blocks);
    *slot = instr->b == 0 ? (struct slot){PLAIN, LOADED, value} : (struct slot){ENCRYPTED, 0, value};
    show(regions, instr->b == 0 ? RAM_READ : ENCRYPTED_READ, value);
    return true;
}

static bool store_block(struct regions *regions, const struct slot *slot, uint32_t at)
{
    switch (slot->bound) {
    case UNBOUND: return refuse(regions, at, UNBOUND_SLOT);
    case PLAIN: return refuse(regions, at, RAM_STORE_IN_SECRET);
    case ENCRYPTED: show(regions, ENCRYPTED_WRITE, slot->value); return true;
    default: show(regions, OBLIVIOUS_ACCESS, slot->value); return true;
    }
}

/* Walks an instruction of an arm that isn't a branch. The state becomes that behind it. */
static bool walk_one(struct regions *regions, struct state *state, uint32_t at)
{
    const struct instruction *instr = &regions->object->code[at];
    uint32_t *registers = state->registers;
    const struct slot *slot;
    switch (instr->opcode) {
    case NOP:
        break;
    case HALT:
        return refuse(regions, at, HALT_IN_SECRET);
    case LI:
        registers[instr->a] = constant(&regions->values, instr->constant);
        break;
    case LDB:
        return load_block(regions, state, at);
    case STB:
        return store_block(regions, &state->slots[instr->a], at);
    case IDB:
        slot = &state->slots[instr->b];
        if (slot->bound == UNBOUND)
            return refuse(regions, at, UNBOUND_SLOT);
        registers[instr->a] = slot->bound == OBLIVIOUS ? UNKNOWN : slot->value;
        break;
    case LDW:
        slot = &state->slots[instr->b];
        if (slot->bound == UNBOUND)
            return refuse(regions, at, UNBOUND_SLOT);
        registers[instr->a] = word_in(regions, slot, registers[instr->c]);
        break;
    case STW:
        slot = &state->slots[instr->b];
        if (slot->bound == UNBOUND)
            return refuse(regions, at, UNBOUND_SLOT);
        if (slot->bound == PLAIN)
            return refuse(regions, at, RAM_STORE_IN_SECRET);
        break;
    case JMP:
        return refuse(regions, at, instr->offset > 0 ? BAD_REGION : SECRET_LOOP);
    default: { /* an operation */
        uint32_t left = registers[instr->b], right = registers[instr->c];
        bool is_known = left != UNKNOWN && right != UNKNOWN;
        registers[instr->a] = is_known ? operation(&regions->values, instr->opcode, left, right) : UNKNOWN;
        break;
    }
    }
    regions->gap += regions->cost[instr->opcode];
    return true;
}

/* Keeps of a state what is the same in another. */
static void keep_common(struct state *state, const struct state *other)
{
    for (unsigned reg = 0; reg < REGISTERS; reg++)
        if (state->registers[reg] != other->registers[reg])
            state->registers[reg] = UNKNOWN;
    for (unsigned k = 0; k < SLOTS; k++) {
        const struct slot *ours = &state->slots[k], *theirs = &other->slots[k];
        if (ours->bound != theirs->bound || ours->from != theirs->from || ours->value != theirs->value)
            state->slots[k] = (struct slot){UNBOUND, 0, 0};
    }
}

/* Whether a note stands behind one place and before another. */
static bool has_note_between(const struct object *object, uint32_t low, uint32_t high)
{
    uint32_t from = 0, count = object->note_count;
    while (count > 0) {
        uint32_t half = count / 2;
        if (object->notes[from + half].place <= low) {
            from += half + 1;
            count -= half + 1;
        } else {
            count = half;
        }
    }
    return from < object->note_count && object->notes[from].place < high;
}

/*
 * Finds where the second arm of a branch begins and where both join, at `end` or before it. Within a region no note is
 * looked for, since none stands in it.
 */
static bool find_arms(struct regions *regions, unsigned depth, uint32_t branch, uint32_t end, uint32_t *second,
                      uint32_t *join)
{
    const struct object *object = regions->object;
    int32_t offset = object->code[branch].offset;
    if (depth >= MOST_DEPTH)
        return refuse(regions, branch, BAD_REGION);
    if (offset <= 0)
        return refuse(regions, branch, SECRET_LOOP);
    *second = branch + (uint32_t)offset;
    if (*second >= object->code_count)
        return refuse(regions, branch, JUMP_OUTSIDE);
    if (*second == branch + 1 || *second > end)
        return refuse(regions, branch, BAD_REGION);
    const struct instruction *jump = &object->code[*second - 1];
    if (jump->opcode != JMP)
        return refuse(regions, branch, BAD_REGION);
    if (jump->offset <= 0)
        return refuse(regions, *second - 1, SECRET_LOOP);
    *join = *second - 1 + (uint32_t)jump->offset;
    if (*join >= object->code_count)
        return refuse(regions, *second - 1, JUMP_OUTSIDE);
    if (*join > end || (depth == 0 && has_note_between(object, branch, *join)))
        return refuse(regions, branch, BAD_REGION);
    return true;
}

static bool walk(struct regions *regions, unsigned depth, uint32_t from, uint32_t end, struct state *state);

/*
 * Crosses the region of a branch within so many others; the state becomes that of the join. What it shows is put behind
 * what was shown before it: the first arm in its place, the second behind it, to be compared and dropped.
 */
static bool cross_region(struct regions *regions, unsigned depth, uint32_t branch, uint32_t end, struct state *state,
                         uint32_t *join)
{
    uint32_t second;
    if (!find_arms(regions, depth, branch, end, &second, join))
        return false;
    const uint32_t jump = regions->object->profile.taken;
    const uint64_t before = regions->gap;
    const size_t first_shown = regions->shown_count;
    struct state taken = *state;

    regions->gap = 1;
    if (!walk(regions, depth + 1, branch + 1, second - 1, state))
        return false;
    const uint64_t last_gap = regions->gap + jump;
    const size_t second_shown = regions->shown_count;
    regions->gap = jump;
    if (!walk(regions, depth + 1, second, *join, &taken))
        return false;

    const size_t count = second_shown - first_shown;
    struct shown *first_arm = regions->shown + first_shown, *second_arm = regions->shown + second_shown;
    if (regions->gap != last_gap || regions->shown_count - second_shown != count)
        return refuse(regions, branch, UNEQUAL_ARMS);
    for (size_t i = 0; i < count; i++)
        if (first_arm[i].gap != second_arm[i].gap || first_arm[i].event != second_arm[i].event
            || first_arm[i].value != second_arm[i].value)
            return refuse(regions, branch, UNEQUAL_ARMS);
    regions->shown_count = second_shown;
    if (count > 0)
        first_arm[0].gap += before;
    else
        regions->gap += before;
    keep_common(state, &taken);
    return true;
}

/* Walks code within so many regions from a place up to an end; the state becomes that at the end. */
static bool walk(struct regions *regions, unsigned depth, uint32_t from, uint32_t end, struct state *state)
{
    uint32_t at = from;
    while (at < end) {
        if (regions->object->code[at].opcode >= BR_EQ) {
            uint32_t join;
            if (!cross_region(regions, depth, at, end, state, &join))
                return false;
            at = join;
        } else {
            if (!walk_one(regions, state, at))
                return false;
            at++;
        }
    }
    return true;
}

/* What is known at the entry of a region: what public registers hold there, and the banks of slots. */
static void enter(struct state *state, const struct known *known)
{
    for (unsigned reg = 0; reg < REGISTERS; reg++)
        state->registers[reg] = known->secrets >> reg & 1 ? UNKNOWN : reg;
    for (unsigned k = 0; k < SLOTS; k++) {
        switch (known->banks[k]) {
        case ANY_BANK: state->slots[k] = (struct slot){UNBOUND, 0, 0}; break;
        case 0: state->slots[k] = (struct slot){PLAIN, (uint8_t)k, REGISTERS + k}; break;
        case 1: state->slots[k] = (struct slot){ENCRYPTED, 0, REGISTERS + k}; break;
        default: state->slots[k] = (struct slot){OBLIVIOUS, 0, known->banks[k]}; break;
        }
    }
}

/* What is known behind a region: a register is public where its value is known, and slots keep their banks. */
static void leave(const struct state *state, struct known *known)
{
    known->secrets = 0;
    for (unsigned reg = 0; reg < REGISTERS; reg++)
        known->secrets |= (uint32_t)(state->registers[reg] == UNKNOWN) << reg;
    for (unsigned k = 0; k < SLOTS; k++) {
        switch (state->slots[k].bound) {
        case UNBOUND: known->banks[k] = ANY_BANK; break;
        case PLAIN: known->banks[k] = 0; break;
        case ENCRYPTED: known->banks[k] = 1; break;
        default: known->banks[k] = (uint8_t)state->slots[k].value; break;
        }
    }
}

uint32_t cross(struct regions *regions, uint32_t branch, struct known *known, struct refusal *refusal)
{
    struct state state;
    uint32_t join;
    regions->refusal = refusal;
    if (regions->values.room == 0) {
        regions->values.count = ENTRY_VALUES;
        widen(&regions->values);
    }
    clear_values(&regions->values);
    regions->shown_count = 0;
    regions->gap = 0;
    enter(&state, known);
    if (!cross_region(regions, 0, branch, regions->object->code_count - 1, &state, &join))
        return 0;
    leave(&state, known);
    return join;
}
