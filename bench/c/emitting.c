/*
 * Making the code of programs in one pass over their trees. See emitting.h.
 *
 * An expression leaves its value in a register, and uses those above. A resident variable is in the block that its slot holds
 * for the whole run, or in those of several slots, and needs no load and no store of a block. In public code a load of
 * another block of plain or encrypted memory is skipped where the slot holds the block, and a note stands behind it. A branch
 * on a secret becomes two arms that show the same: each does its own statements, and those of the other without effect, by
 * storing the old words; statements of the two that show the same stand side by side instead. If no arm accesses memory, the
 * shorter one does nothing for some cycles instead. Arms have no notes.
 */
#include "emitting.h"

#include "files.h"
#include "holding.h"
#include "layout.h"
#include "ranges.h"
#include "reducing.h"
#include "selecting.h"

#include <stdlib.h>

enum { SCALAR_REGISTER = 0, FIRST_CODE = 1024, FIRST_NOTES = 256, MOST_SLACK = 50 };

/* How code is made: in public code; in an arm with its effect; in an arm without it. */
enum mode { IN_PUBLIC, WITH_EFFECT, WITHOUT_EFFECT };

struct emitter {
    const struct source *source;
    struct object *object;
    bool is_fast;
    size_t code_room, note_room;
    /* What each note claims of the slots. */
    uint8_t claims[SLOTS];
    /* What registers hold for the whole run. */
    struct holding holding;
    /* The registers that may hold a secret between statements. */
    uint32_t base_mask;
    /* What is known of scalars here. */
    struct ranges known;
};

/* The statements of the two blocks of a branch on a secret, of which so many first ones pair. */
struct parts {
    const struct block *first, *second;
    size_t pairs;
    enum mode mode;
};

/* Cycles, if they are known: those of code that doesn't access memory. */
struct cycles {
    bool is_known;
    uint64_t count;
};

/* Whether a branch on a secret is quiet, and for how many cycles each of its ways then does nothing. */
struct slack {
    bool is_quiet;
    unsigned untaken, taken;
};

/* ---- instructions and notes */

static void put(struct emitter *emitter, struct instruction instr)
{
    struct object *object = emitter->object;
    if (object->code_count == emitter->code_room) {
        emitter->code_room *= 2;
        object->code = more_room(object->code, emitter->code_room, sizeof instr);
    }
    object->code[object->code_count++] = instr;
}

static void put_constant(struct emitter *emitter, unsigned to, int64_t constant)
{
    put(emitter, (struct instruction){.opcode = LI, .a = (uint8_t)to, .constant = constant});
}

/* Puts an instruction with up to three operands. */
static void put_plain(struct emitter *emitter, uint8_t opcode, unsigned a, unsigned b, unsigned c)
{
    put(emitter, (struct instruction){.opcode = opcode, .a = (uint8_t)a, .b = (uint8_t)b, .c = (uint8_t)c});
}

static void put_nops(struct emitter *emitter, unsigned count)
{
    while (count-- > 0)
        put_plain(emitter, NOP, 0, 0, 0);
}

/* Puts what a jump or branch takes the place of, and answers where. */
static uint32_t put_later(struct emitter *emitter)
{
    put_nops(emitter, 1);
    return emitter->object->code_count - 1;
}

/* The instruction at a place is a jump or branch, by its opcode, that leads behind the code so far. */
static void lead_here(struct emitter *emitter, uint32_t at, uint8_t opcode)
{
    struct object *object = emitter->object;
    struct instruction instr = {.opcode = opcode, .offset = (int32_t)(object->code_count - at)};
    if (opcode != JMP)
        instr.b = SCALAR_REGISTER + 1;
    object->code[at] = instr;
}

static void put_note(struct emitter *emitter, uint32_t secrets)
{
    struct object *object = emitter->object;
    if (object->note_count == emitter->note_room) {
        emitter->note_room *= 2;
        object->notes = more_room(object->notes, emitter->note_room, sizeof object->notes[0]);
    }
    struct note *note = &object->notes[object->note_count++];
    note->place = object->code_count;
    note->secrets = secrets;
    for (unsigned slot = 0; slot < SLOTS; slot++)
        note->banks[slot] = emitter->claims[slot];
}

/* ---- expressions */

static uint32_t without(uint32_t mask, unsigned reg)
{
    return mask & ~((uint32_t)1 << reg);
}

/* The registers that may hold a secret behind an expression whose value this one holds. */
static uint32_t mask_behind(const struct expr *expr, uint32_t mask, unsigned reg)
{
    return expr->is_secret ? mask : without(mask, reg);
}

static const struct variable *variable_of(const struct emitter *emitter, int32_t variable)
{
    return &emitter->source->variables[variable];
}

static void put_expr(struct emitter *emitter, const struct expr *expr, unsigned to, enum mode mode, uint32_t mask);

/* Leaves the value of an expression in a register, and returns which: this one, unless a register holds the value for the whole
 * run. */
static unsigned put_operand(struct emitter *emitter, const struct expr *expr, unsigned to, enum mode mode, uint32_t mask)
{
    const unsigned held = register_of(&emitter->holding, expr);
    if (held == 0)
        put_expr(emitter, expr, to, mode, mask);
    return held == 0 ? to : held;
}

/* The registers that may hold a secret after an operand that was left in a register. */
static uint32_t mask_with(const struct expr *expr, uint32_t mask, unsigned held, unsigned to)
{
    return held == to ? mask_behind(expr, mask, to) : mask;
}

/* Puts an operation on a register and a number. If no register holds the number for the whole run, another gets it first. */
static void put_applied(struct emitter *emitter, uint8_t opcode, unsigned to, unsigned from, unsigned own, int64_t number)
{
    const unsigned held = register_of_number(&emitter->holding, number);
    if (held == 0)
        put_constant(emitter, own, number);
    put_plain(emitter, opcode, to, from, held == 0 ? own : held);
}

/* Copies a value of a label. */
static void put_copy(struct emitter *emitter, unsigned to, unsigned from, bool is_secret)
{
    put_plain(emitter, ADD, to, from, is_secret ? SECRET_ZERO : PUBLIC_ZERO);
}

static bool is_fixed(const struct variable *array, const struct expr *index)
{
    return !is_oblivious(array) && index->kind == CONSTANT;
}

/* Whether an index is compared with the length of its array before the remainder is taken. */
static bool is_compared(const struct emitter *emitter, const struct variable *array, const struct expr *index, enum mode mode)
{
    return emitter->is_fast && mode == IN_PUBLIC && !is_masked(array) && !index->is_secret;
}

/* The index in a register becomes its remainder by a length. If it is below the length, nothing is done: 2^63 less, so that
 * signed numbers compare as unsigned ones, it is below the length less 2^63. */
static void put_compared(struct emitter *emitter, uint32_t length, unsigned to, uint32_t mask)
{
    put_constant(emitter, to + 1, INT64_MIN);
    put_plain(emitter, ADD, to + 1, to + 1, to);
    put_constant(emitter, to + 2, INT64_MIN + (int64_t)length);
    put(emitter, (struct instruction){.opcode = BR_LT, .a = (uint8_t)(to + 1), .b = (uint8_t)(to + 2), .offset = 3});
    put_constant(emitter, to + 1, length);
    put_plain(emitter, REMU, to, to, to + 1);
    put_note(emitter, without(mask, to));
}

/* Whether an index is known to be within its array. */
static bool is_within(const struct emitter *emitter, const struct variable *array, const struct expr *index)
{
    return emitter->is_fast && !is_oblivious(array) && is_below(&emitter->known, index, array->symbol.length);
}

/* Leaves the number of the word of an array that an index names in a register. */
static void put_word(struct emitter *emitter, const struct variable *array, const struct expr *index, unsigned to,
                     enum mode mode, uint32_t mask)
{
    if (is_within(emitter, array, index)) {
        put_expr(emitter, index, to, mode, mask);
        return;
    }
    if (is_compared(emitter, array, index, mode)) {
        put_expr(emitter, index, to, mode, mask);
        put_compared(emitter, array->symbol.length, to, mask);
        return;
    }
    const unsigned held = put_operand(emitter, index, to, mode, mask);
    put_applied(emitter, is_masked(array) ? AND : REMU, to, held, to + 1, reducer_of(array));
}

/* Leaves the number of the word that an index names in a register, and that of its block in the next. */
static void put_place(struct emitter *emitter, const struct variable *array, const struct expr *index, unsigned to,
                      enum mode mode, uint32_t mask)
{
    const struct symbol *symbol = &array->symbol;
    const uint8_t block_log = emitter->object->profile.block_log;
    if (is_fixed(array, index)) {
        const uint64_t word = (uint64_t)index->number % symbol->length;
        put_constant(emitter, to, (int64_t)word);
        put_constant(emitter, to + 1, (int64_t)(symbol->block + (word >> block_log)));
        return;
    }
    put_word(emitter, array, index, to, mode, mask);
    put_applied(emitter, SHR, to + 1, to, to + 1, block_log);
    put_applied(emitter, ADD, to + 1, to + 1, to + 2, symbol->block);
}

/* Leaves the number of the word that an index of a resident array names, in its block, in a register. An index that is
   known to be below the length is added to the array's first word as it is. */
static void put_resident_place(struct emitter *emitter, const struct variable *array, const struct expr *index, unsigned to,
                               enum mode mode, uint32_t mask)
{
    const struct symbol *symbol = &array->symbol;
    if (is_fixed(array, index)) {
        put_constant(emitter, to, (int64_t)(symbol->word + (uint64_t)index->number % symbol->length));
        return;
    }
    if (symbol->word != 0 && is_within(emitter, array, index)) {
        const unsigned held = put_operand(emitter, index, to, mode, mask);
        put_applied(emitter, ADD, to, held, to + 1, symbol->word);
        return;
    }
    put_word(emitter, array, index, to, mode, mask);
    if (symbol->word != 0)
        put_applied(emitter, ADD, to, to, to + 1, symbol->word);
}

/* Leaves the number of the word that an index names in a register, and its block in the array's slot. */
static void put_access(struct emitter *emitter, const struct variable *array, const struct expr *index, unsigned to,
                       enum mode mode, uint32_t mask)
{
    const bool may_skip = mode == IN_PUBLIC && !is_oblivious(array);
    if (array->is_resident) {
        put_resident_place(emitter, array, index, to, mode, mask);
        return;
    }
    put_place(emitter, array, index, to, mode, mask);
    if (may_skip) {
        put_plain(emitter, IDB, to + 2, array->slot, 0);
        put(emitter, (struct instruction){.opcode = BR_EQ, .a = (uint8_t)(to + 2), .b = (uint8_t)(to + 1), .offset = 2});
    }
    put_plain(emitter, LDB, array->slot, array->symbol.bank, to + 1);
    if (may_skip)
        put_note(emitter, without(without(without(mask, to), to + 1), to + 2));
}

static void put_steps(struct emitter *emitter, struct steps steps)
{
    for (unsigned i = 0; i < steps.count; i++)
        put(emitter, steps.items[i]);
}

/* The slot that has the word of a fixed index, or of any index of an array of one block. */
static unsigned slot_at(const struct emitter *emitter, const struct variable *array, const struct expr *index)
{
    if (!is_spread(array))
        return array->slot;
    return array->spread[((uint64_t)index->number % array->symbol.length) >> emitter->object->profile.block_log];
}

/* Puts the steps that read the word of an array whose number a register has, into that register. */
static void put_read(struct emitter *emitter, const struct variable *array, const struct expr *index, unsigned to)
{
    if (is_spread(array) && !is_fixed(array, index))
        put_steps(emitter, steps_to_read(array, block_words(emitter->object), to));
    else
        put_plain(emitter, LDW, to, slot_at(emitter, array, index), to);
}

/* The word of a slot whose number register 1 has becomes the value in a register. Without effect it stays. Secret code
   reads the old word first, but with `--fast` only where it would stay. */
static void put_stored(struct emitter *emitter, unsigned slot, unsigned value, enum mode mode)
{
    if (emitter->is_fast && mode == WITHOUT_EFFECT) {
        put_plain(emitter, LDW, 0, slot, 1);
        return;
    }
    if (mode != IN_PUBLIC && !emitter->is_fast)
        put_plain(emitter, LDW, 2, slot, 1);
    put_plain(emitter, STW, mode == WITHOUT_EFFECT ? 2 : value, slot, 1);
}

/* The same of an element. */
static void put_write(struct emitter *emitter, const struct variable *array, const struct expr *index, unsigned value,
                      enum mode mode)
{
    if (is_spread(array) && !is_fixed(array, index))
        put_steps(emitter, steps_to_write(array, block_words(emitter->object), value, mode != WITHOUT_EFFECT));
    else
        put_stored(emitter, slot_at(emitter, array, index), value, mode);
    if (!array->is_resident)
        put_plain(emitter, STB, array->slot, 0, 0);
}

/* Puts the steps of an operation by a number. Answers whether there are any. */
static bool put_by_number(struct emitter *emitter, const struct expr *expr, unsigned to, enum mode mode, uint32_t mask)
{
    struct instruction steps[MOST_STEPS];
    if (!emitter->is_fast || expr->right->kind != CONSTANT)
        return false;
    const int count = steps_by_number(expr->opcode, expr->right->number, to, steps);
    if (count == NO_STEPS)
        return false;
    put_expr(emitter, expr->left, to, mode, mask);
    for (int i = 0; i < count; i++)
        put(emitter, steps[i]);
    return true;
}

/* Leaves the result of an operation in a register, with the sides in registers from another one on. */
static void put_operation(struct emitter *emitter, const struct expr *expr, unsigned from, unsigned to, enum mode mode,
                          uint32_t mask)
{
    const unsigned left = put_operand(emitter, expr->left, from, mode, mask);
    const unsigned right = put_operand(emitter, expr->right, from + 1, mode, mask_with(expr->left, mask, left, from));
    put_plain(emitter, expr->opcode, to, left, right);
}

/* Leaves the value of an expression in a register. The mask says which registers may be secret in its notes. */
static void put_expr(struct emitter *emitter, const struct expr *expr, unsigned to, enum mode mode, uint32_t mask)
{
    const struct variable *variable;
    switch (expr->kind) {
    case CONSTANT:
        put_constant(emitter, to, expr->number);
        break;
    case SCALAR:
        variable = variable_of(emitter, expr->variable);
        if (emitter->holding.variables[expr->variable] != 0) {
            put_copy(emitter, to, emitter->holding.variables[expr->variable], false);
            break;
        }
        put_constant(emitter, to, variable->symbol.word);
        put_plain(emitter, LDW, to, variable->slot, to);
        break;
    case ELEMENT:
        variable = variable_of(emitter, expr->variable);
        put_access(emitter, variable, expr->left, to, mode, mask);
        put_read(emitter, variable, expr->left, to);
        break;
    case OPERATION:
        if (!put_by_number(emitter, expr, to, mode, mask))
            put_operation(emitter, expr, to, to, mode, mask);
        break;
    }
}

/* Leaves the two sides of a guard in registers 0 and 1. */
static void put_guard(struct emitter *emitter, const struct guard *guard, enum mode mode)
{
    const uint32_t mask = emitter->base_mask;
    put_expr(emitter, guard->left, SCALAR_REGISTER, mode, mask);
    put_expr(emitter, guard->right, SCALAR_REGISTER + 1, mode, mask_behind(guard->left, mask, SCALAR_REGISTER));
}

static bool is_product(uint8_t opcode)
{
    return opcode >= MUL && opcode <= REMU;
}

/* Whether steps may replace an operation. */
static bool may_step(const struct emitter *emitter, const struct expr *expr)
{
    return emitter->is_fast && expr->right->kind == CONSTANT && is_product(expr->opcode);
}

/* Whether the last instruction of an assignment leaves the value in the register that holds the scalar: an operation that no
 * steps may replace, to a public scalar or of a secret. */
static bool is_straight(const struct emitter *emitter, const struct statement *made)
{
    return emitter->is_fast && emitter->holding.variables[made->variable] != 0 && made->value->kind == OPERATION
           && !may_step(emitter, made->value)
           && (!variable_of(emitter, made->variable)->symbol.is_secret || made->value->is_secret);
}

/* Puts an assignment. Without effect the old word is stored, or what is for a register that holds a scalar left in register
 * 0. */
static void put_assignment(struct emitter *emitter, const struct statement *made, enum mode mode)
{
    const struct variable *target = variable_of(emitter, made->variable);
    const uint32_t mask = emitter->base_mask;
    const unsigned held = emitter->holding.variables[made->variable];
    const unsigned to = mode == WITHOUT_EFFECT ? 0 : held;
    if (made->kind == SET && is_straight(emitter, made)) {
        put_operation(emitter, made->value, 0, to, mode, mask);
        return;
    }
    const unsigned value = put_operand(emitter, made->value, 0, mode, mask);
    if (made->kind == SET && held != 0) {
        put_copy(emitter, to, value, target->symbol.is_secret);
        return;
    }
    if (made->kind == PUT) {
        put_access(emitter, target, made->index, 1, mode, mask_with(made->value, mask, value, 0));
        put_write(emitter, target, made->index, value, mode);
    } else {
        put_constant(emitter, 1, target->symbol.word);
        put_stored(emitter, target->slot, value, mode);
    }
}

/* ---- statements that show the same */

static bool is_same(const struct expr *one, const struct expr *other)
{
    if (one->kind != other->kind)
        return false;
    switch (one->kind) {
    case CONSTANT: return one->number == other->number;
    case SCALAR: return one->variable == other->variable;
    case ELEMENT: return one->variable == other->variable && is_same(one->left, other->left);
    default: return one->opcode == other->opcode && is_same(one->left, other->left) && is_same(one->right, other->right);
    }
}

/* Whether two operations are the same operation by the same number. */
static bool is_by_same_number(const struct expr *one, const struct expr *other)
{
    return one->opcode == other->opcode && one->right->kind == CONSTANT && is_same(one->right, other->right);
}

static bool is_alike(const struct emitter *emitter, const struct expr *one, const struct expr *other);

/* Whether registers hold two numbers, or neither. */
static bool is_number_alike(const struct emitter *emitter, int64_t one, int64_t other)
{
    return (register_of_number(&emitter->holding, one) != 0) == (register_of_number(&emitter->holding, other) != 0);
}

/* Whether the indexes of two arrays become numbers of words alike: neither is reduced, or both are by the same operation. */
static bool is_reduced_alike(const struct emitter *emitter, const struct variable *one, const struct expr *index,
                             const struct variable *other, const struct expr *other_index)
{
    const bool within = is_within(emitter, one, index);
    if (within != is_within(emitter, other, other_index))
        return false;
    return within || (is_masked(one) == is_masked(other)
                      && is_number_alike(emitter, reducer_of(one), reducer_of(other)));
}

/* Whether accesses of two arrays show the same for any indexes that do, and that are reduced alike: of one oblivious bank, or
 * of resident arrays that are both at the beginning of a block, or neither, and that as many slots hold. Registers hold the
 * numbers of their code alike. */
static bool is_like(const struct emitter *emitter, const struct variable *one, const struct variable *other)
{
    if (is_oblivious(one))
        return one->symbol.bank == other->symbol.bank && is_number_alike(emitter, one->symbol.block, other->symbol.block);
    return one->is_resident && other->is_resident && (one->symbol.word == 0) == (other->symbol.word == 0)
           && is_number_alike(emitter, one->symbol.word, other->symbol.word) && one->spread_count == other->spread_count;
}

/* Whether accesses of two arrays show the same. */
static bool shows_same(const struct emitter *emitter, int32_t array, const struct expr *index, int32_t other_array,
                       const struct expr *other_index)
{
    const struct variable *one = variable_of(emitter, array), *other = variable_of(emitter, other_array);
    if (is_reduced_alike(emitter, one, index, other, other_index) && is_like(emitter, one, other)
        && is_alike(emitter, index, other_index))
        return true;
    return !is_oblivious(one) && array == other_array && is_same(index, other_index);
}

/* Whether registers hold two scalars or two numbers, or neither. */
static bool is_held_alike(const struct emitter *emitter, const struct expr *one, const struct expr *other)
{
    return (register_of(&emitter->holding, one) != 0) == (register_of(&emitter->holding, other) != 0);
}

/* Whether two expressions show the same in secret code. */
static bool is_alike(const struct emitter *emitter, const struct expr *one, const struct expr *other)
{
    if (one->kind != other->kind)
        return false;
    switch (one->kind) {
    case CONSTANT:
    case SCALAR: return is_held_alike(emitter, one, other);
    case ELEMENT: return shows_same(emitter, one->variable, one->left, other->variable, other->left);
    case OPERATION:
        if (!is_alike(emitter, one->left, other->left))
            return false;
        if (is_by_same_number(one, other))
            return true;
        return !may_step(emitter, one) && !may_step(emitter, other) && is_product(one->opcode) == is_product(other->opcode)
               && is_alike(emitter, one->right, other->right);
    }
    return false;
}

static bool is_pair(const struct emitter *emitter, const struct statement *one, const struct statement *other)
{
    if (one->kind != other->kind || (one->kind != SET && one->kind != PUT) || !is_alike(emitter, one->value, other->value))
        return false;
    if (one->kind == SET)
        return (emitter->holding.variables[one->variable] != 0) == (emitter->holding.variables[other->variable] != 0)
               && is_straight(emitter, one) == is_straight(emitter, other);
    return shows_same(emitter, one->variable, one->index, other->variable, other->index);
}

static size_t pairs_of(const struct emitter *emitter, const struct block *first, const struct block *second)
{
    size_t count = 0;
    while (count < first->count && count < second->count && is_pair(emitter, &first->items[count], &second->items[count]))
        count++;
    return count;
}

/* ---- secret code */

static void put_branch(struct emitter *emitter, const struct statement *made, enum mode mode);

/* Puts the statements of an arm from one on. */
static void put_row(struct emitter *emitter, const struct block *block, size_t from, size_t to, enum mode mode)
{
    for (size_t i = from; i < to; i++)
        if (block->items[i].kind == CHOICE)
            put_branch(emitter, &block->items[i], mode);
        else
            put_assignment(emitter, &block->items[i], mode);
}

static void put_untaken(struct emitter *emitter, const struct parts *parts)
{
    put_nops(emitter, emitter->object->profile.taken - 1u);
    put_row(emitter, parts->second, 0, parts->pairs, parts->mode);
    put_row(emitter, parts->first, parts->pairs, parts->first->count, WITHOUT_EFFECT);
    put_row(emitter, parts->second, parts->pairs, parts->second->count, parts->mode);
}

static void put_taken(struct emitter *emitter, const struct parts *parts)
{
    put_row(emitter, parts->first, 0, parts->first->count, parts->mode);
    put_row(emitter, parts->second, parts->pairs, parts->second->count, WITHOUT_EFFECT);
    put_nops(emitter, emitter->object->profile.taken);
}

/* The cycles of the instructions from a place on, which are taken back. */
static struct cycles taken_back(struct emitter *emitter, uint32_t from)
{
    const struct profile *profile = &emitter->object->profile;
    struct cycles cycles = {true, 0};
    for (uint32_t at = from; at < emitter->object->code_count; at++) {
        const uint8_t opcode = emitter->object->code[at].opcode;
        switch (opcode) {
        case LDB: case STB: case IDB: cycles.is_known = false; break;
        case LDW: case STW: cycles.count += profile->word; break;
        case MUL: case DIV: case REM: case REMU: cycles.count += profile->mul; break;
        case LI: case NOP: cycles.count++; break;
        default: cycles.count += profile->alu; break; /* the other operations */
        }
    }
    emitter->object->code_count = from;
    return cycles;
}

/* The slack of a branch whose blocks take so many cycles. The way on which it isn't taken costs one cycle more. */
static struct slack slack_between(struct cycles first, struct cycles second)
{
    const uint64_t one = first.count, other = second.count + 1;
    const uint64_t untaken = one > other ? one - other : 0, taken = other > one ? other - one : 0;
    const bool is_quiet = first.is_known && second.is_known && untaken <= MOST_SLACK && taken <= MOST_SLACK;
    return is_quiet ? (struct slack){true, (unsigned)untaken, (unsigned)taken} : (struct slack){false, 0, 0};
}

static struct cycles cycles_of_all(struct emitter *emitter, const struct block *block);

/* The cycles of a statement in an arm. It is put, and taken back. */
static struct cycles cycles_of(struct emitter *emitter, const struct statement *made)
{
    const uint32_t from = emitter->object->code_count;
    if (made->kind != CHOICE) {
        put_assignment(emitter, made, WITH_EFFECT);
        return taken_back(emitter, from);
    }
    put_guard(emitter, &made->guard, WITH_EFFECT);
    const struct cycles guard = taken_back(emitter, from), first = cycles_of_all(emitter, &made->first);
    const struct slack slack = slack_between(first, cycles_of_all(emitter, &made->second));
    return (struct cycles){guard.is_known && slack.is_quiet,
                           guard.count + emitter->object->profile.taken + slack.taken + first.count};
}

static struct cycles cycles_of_all(struct emitter *emitter, const struct block *block)
{
    struct cycles all = {true, 0};
    for (size_t i = 0; i < block->count && all.is_known; i++) {
        const struct cycles one = cycles_of(emitter, &block->items[i]);
        all.is_known = one.is_known;
        all.count += one.count;
    }
    return all;
}

/* Puts the arms of a branch, between which the jump is that is put at the place returned. */
static uint32_t put_arms(struct emitter *emitter, const struct statement *made, uint32_t branch, enum mode mode)
{
    const struct slack slack = emitter->is_fast
        ? slack_between(cycles_of_all(emitter, &made->first), cycles_of_all(emitter, &made->second))
        : (struct slack){false, 0, 0};
    const struct parts parts = {&made->first, &made->second, pairs_of(emitter, &made->first, &made->second), mode};
    if (slack.is_quiet) {
        put_row(emitter, parts.second, 0, parts.second->count, mode);
        put_nops(emitter, slack.untaken);
    } else {
        put_untaken(emitter, &parts);
    }
    const uint32_t jump = put_later(emitter);
    lead_here(emitter, branch, made->guard.opcode);
    if (slack.is_quiet) {
        put_row(emitter, parts.first, 0, parts.first->count, mode);
        put_nops(emitter, slack.taken);
    } else {
        put_taken(emitter, &parts);
    }
    return jump;
}

/* Puts a choice whose arms are secret code and show the same. */
static void put_branch(struct emitter *emitter, const struct statement *made, enum mode mode)
{
    put_guard(emitter, &made->guard, mode);
    const uint32_t branch = put_later(emitter);
    const uint32_t jump = put_arms(emitter, made, branch, mode == IN_PUBLIC ? WITH_EFFECT : mode);
    lead_here(emitter, jump, JMP);
}

/* ---- public code */

/* Puts a note to which public code may jump, where none stands yet. */
static void put_head_note(struct emitter *emitter, bool is_noted)
{
    if (!is_noted)
        put_note(emitter, emitter->base_mask);
}

/* The branch whose comparison holds exactly where that of another doesn't. */
static uint8_t opposite(uint8_t opcode)
{
    switch (opcode) {
    case BR_EQ: return BR_NE;
    case BR_NE: return BR_EQ;
    case BR_LT: return BR_GE;
    case BR_LE: return BR_GT;
    case BR_GT: return BR_LE;
    default: return BR_LT; /* of BR_GE */
    }
}

static bool put_block(struct emitter *emitter, const struct block *block);

/* Puts a block before which this is known. What is known outside stays. */
static bool put_inner_block(struct emitter *emitter, const struct block *block, struct ranges known)
{
    const struct ranges outside = emitter->known;
    emitter->known = known;
    const bool is_noted = put_block(emitter, block);
    free(known.of);
    emitter->known = outside;
    return is_noted;
}

/* Puts a choice with a public guard: the branch leads over the first block, and a jump over the second. */
static void put_choice(struct emitter *emitter, const struct statement *made)
{
    put_guard(emitter, &made->guard, IN_PUBLIC);
    const uint32_t branch = put_later(emitter);
    bool is_noted = put_inner_block(emitter, &made->first, copied_ranges(&emitter->known));
    if (made->second.count > 0) {
        const uint32_t jump = put_later(emitter);
        lead_here(emitter, branch, opposite(made->guard.opcode));
        put_head_note(emitter, false);
        is_noted = put_inner_block(emitter, &made->second, copied_ranges(&emitter->known));
        lead_here(emitter, jump, JMP);
    } else {
        lead_here(emitter, branch, opposite(made->guard.opcode));
    }
    put_head_note(emitter, is_noted);
}

/* Puts a loop: a jump leads to the guard, which stands behind the body. */
static void put_loop(struct emitter *emitter, const struct statement *made)
{
    const uint32_t start = put_later(emitter);
    put_head_note(emitter, false);
    const bool is_noted = put_inner_block(emitter, &made->first, inside_loop(&emitter->known, made));
    pass_statement(&emitter->known, made);
    lead_here(emitter, start, JMP);
    put_head_note(emitter, is_noted || emitter->object->code_count == start + 1);
    put_guard(emitter, &made->guard, IN_PUBLIC);
    put(emitter, (struct instruction){.opcode = made->guard.opcode, .b = SCALAR_REGISTER + 1,
                                      .offset = -(int32_t)(emitter->object->code_count - (start + 1))});
}

/* Puts statements of public code. Answers whether a note stands just behind them. */
static bool put_block(struct emitter *emitter, const struct block *block)
{
    bool is_noted = false;
    for (size_t i = 0; i < block->count; i++) {
        const struct statement *made = &block->items[i];
        is_noted = made->kind == CHOICE && !is_secret_guard(&made->guard);
        if (is_noted)
            put_choice(emitter, made);
        else if (made->kind == CHOICE)
            put_branch(emitter, made, IN_PUBLIC);
        else if (made->kind == LOOP)
            put_loop(emitter, made);
        else
            put_assignment(emitter, made, IN_PUBLIC);
        pass_statement(&emitter->known, made);
    }
    return is_noted;
}

/* The first variable that a slot serves; NULL if it serves none. */
static const struct variable *first_served(const struct source *source, unsigned slot)
{
    for (size_t i = 0; i < source->count; i++)
        if (source->variables[i].slot == slot)
            return &source->variables[i];
    return NULL;
}

/* The spread array one of whose further blocks a slot holds, and the number of the block in it; NULL if it holds none. */
static const struct variable *spread_in(const struct source *source, unsigned slot, unsigned *block)
{
    for (size_t i = 0; i < source->count; i++)
        for (unsigned at = 1; at < source->variables[i].spread_count; at++)
            if (source->variables[i].spread[at] == slot) {
                *block = at;
                return &source->variables[i];
            }
    return NULL;
}

/* The variable whose block a slot holds when the code begins, and the number of the block in it; NULL if it holds none. */
static const struct variable *first_held(const struct source *source, unsigned slot, unsigned *block)
{
    *block = 0;
    if (slot == OBLIVIOUS_SLOT)
        return NULL;
    const struct variable *first = first_served(source, slot);
    return first != NULL ? first : spread_in(source, slot, block);
}

static void put_load(struct emitter *emitter, unsigned slot, unsigned bank, uint32_t block)
{
    put_constant(emitter, 0, block);
    put_plain(emitter, LDB, slot, bank, 0);
}

/* Puts what the held registers begin with, in their order. */
static void put_held_values(struct emitter *emitter)
{
    put_plain(emitter, LDW, SECRET_ZERO, SECRET_SLOT, 0);
    put_plain(emitter, SUB, SECRET_ZERO, SECRET_ZERO, SECRET_ZERO);
    put_constant(emitter, PUBLIC_ZERO, 0);
    for (size_t i = 0; i < emitter->source->count; i++) {
        if (emitter->holding.variables[i] == 0)
            continue;
        const struct variable *scalar = &emitter->source->variables[i];
        put_constant(emitter, 0, scalar->symbol.word);
        put_plain(emitter, LDW, emitter->holding.variables[i], scalar->slot, 0);
    }
    for (unsigned reg = FIRST_HELD; reg < REGISTERS; reg++)
        if (emitter->holding.has_number[reg])
            put_constant(emitter, reg, emitter->holding.numbers[reg]);
}

/* Stores the words of held scalars in their blocks. */
static void put_held_words(struct emitter *emitter)
{
    for (size_t i = 0; i < emitter->source->count; i++) {
        if (emitter->holding.variables[i] == 0)
            continue;
        const struct variable *scalar = &emitter->source->variables[i];
        put_constant(emitter, 0, scalar->symbol.word);
        put_plain(emitter, STW, emitter->holding.variables[i], scalar->slot, 0);
    }
}

/* Puts the loads of the slots that the code relies on: the scalars, and the first array of each slot that has one; then
 * those of the held registers. Sets what the notes claim. */
static void put_beginning(struct emitter *emitter)
{
    for (unsigned slot = 0; slot < SLOTS; slot++)
        emitter->claims[slot] = ANY_BANK;
    emitter->claims[PUBLIC_SLOT] = 0;
    emitter->claims[SECRET_SLOT] = 1;
    put_load(emitter, PUBLIC_SLOT, 0, 0);
    put_load(emitter, SECRET_SLOT, 1, 0);
    for (unsigned slot = PLAIN_SLOT; slot < SLOTS; slot++) {
        unsigned block;
        const struct variable *first = first_held(emitter->source, slot, &block);
        if (first == NULL)
            continue;
        put_load(emitter, slot, first->symbol.bank, first->symbol.block + block);
        emitter->claims[slot] = first->symbol.bank;
    }
    if (emitter->is_fast)
        put_held_values(emitter);
}

/* Puts the stores of the scalars that registers hold, and of the blocks that slots hold for the whole run. */
static void put_end(struct emitter *emitter)
{
    put_held_words(emitter);
    put_plain(emitter, STB, PUBLIC_SLOT, 0, 0);
    put_plain(emitter, STB, SECRET_SLOT, 0, 0);
    for (unsigned slot = PLAIN_SLOT; slot < SLOTS; slot++) {
        unsigned block;
        const struct variable *first = first_held(emitter->source, slot, &block);
        if (first != NULL && first->is_resident)
            put_plain(emitter, STB, slot, 0, 0);
    }
    put_plain(emitter, HALT, 0, 0, 0);
}

void emit(const struct source *source, bool is_fast, struct object *object)
{
    struct emitter emitter = {
        .source = source, .object = object, .is_fast = is_fast, .code_room = FIRST_CODE, .note_room = FIRST_NOTES,
        .holding = is_fast ? hold_for(source) : hold_nothing(source), .known = ranges_for(source),
    };
    emitter.base_mask = secret_registers(&emitter.holding, source);
    object->code = room_for(FIRST_CODE, sizeof object->code[0]);
    object->notes = room_for(FIRST_NOTES, sizeof object->notes[0]);
    put_beginning(&emitter);
    put_block(&emitter, &source->body);
    put_end(&emitter);
}
