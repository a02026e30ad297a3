/* The check of public code: each place is looked at once, upwards. See checking.h. */
#include "checking.h"

#include "files.h"

#include <stdio.h>
#include <stdlib.h>
#include <string.h>

enum { REFUSED = 7 };

/* What the check goes by: for each place of the code the number of its note and 1, or 0; and the table of regions. */
struct check {
    const struct object *object;
    const uint32_t *note_at;
    struct regions *regions;
    struct refusal *refusal;
};

static bool refuse(struct check *check, uint32_t place, enum reason reason)
{
    *check->refusal = (struct refusal){place, reason};
    return false;
}

static bool is_secret(const struct known *known, unsigned reg)
{
    return known->secrets >> reg & 1;
}

static void set_secret(struct known *known, unsigned reg, bool secret)
{
    known->secrets = (known->secrets & ~((uint32_t)1 << reg)) | (uint32_t)secret << reg;
}

/* Whether no more is claimed than is known: of each slot no bank, or the one that it is bound to. */
static bool fits(const struct known *known, const struct note *note)
{
    if ((known->secrets & ~note->secrets) != 0)
        return false;
    for (unsigned slot = 0; slot < SLOTS; slot++)
        if (note->banks[slot] != ANY_BANK && note->banks[slot] != known->banks[slot])
            return false;
    return true;
}

static const struct note *note_at(const struct check *check, uint32_t place)
{
    uint32_t number = check->note_at[place];
    return number == 0 ? NULL : &check->object->notes[number - 1];
}

/* Whether the target of a jump is a place of the code with a note that what is known fits. */
static bool may_jump(struct check *check, uint32_t place, int32_t offset, const struct known *known)
{
    int64_t target = (int64_t)place + offset;
    if (target < 0 || target >= check->object->code_count)
        return refuse(check, place, JUMP_OUTSIDE);
    const struct note *note = note_at(check, (uint32_t)target);
    if (note == NULL)
        return refuse(check, place, NO_NOTE);
    return fits(known, note) || refuse(check, place, NOTE_TOO_LOW);
}

/*
 * Judges the instruction at a place where this is known. `known` becomes what is known at the next place, and `next` that
 * place, or 0 where nothing comes to the one behind.
 */
static bool judge(struct check *check, uint32_t place, struct known *known, uint32_t *next)
{
    const struct instruction *instr = &check->object->code[place];
    const unsigned a = instr->a, b = instr->b, c = instr->c;
    *next = place + 1;
    switch (instr->opcode) {
    case NOP:
        return true;
    case HALT:
        *next = 0;
        return true;
    case LI:
        set_secret(known, a, false);
        return true;
    case LDB:
        if (b < 2 && is_secret(known, c))
            return refuse(check, place, SECRET_ADDRESS);
        known->banks[a] = (uint8_t)b;
        return true;
    case STB:
        return known->banks[a] != ANY_BANK || refuse(check, place, UNBOUND_SLOT);
    case IDB:
        if (known->banks[b] == ANY_BANK)
            return refuse(check, place, UNBOUND_SLOT);
        set_secret(known, a, known->banks[b] >= 2);
        return true;
    case LDW:
        if (known->banks[b] == ANY_BANK)
            return refuse(check, place, UNBOUND_SLOT);
        set_secret(known, a, known->banks[b] != 0 || is_secret(known, c));
        return true;
    case STW:
        if (known->banks[b] == ANY_BANK)
            return refuse(check, place, UNBOUND_SLOT);
        if (known->banks[b] == 0 && (is_secret(known, a) || is_secret(known, c)))
            return refuse(check, place, SECRET_TO_RAM);
        return true;
    case JMP:
        *next = 0;
        return may_jump(check, place, instr->offset, known);
    case BR_EQ: case BR_NE: case BR_LT: case BR_LE: case BR_GT: case BR_GE:
        if (!is_secret(known, a) && !is_secret(known, b))
            return may_jump(check, place, instr->offset, known);
        *next = cross(check->regions, place, known, check->refusal);
        return *next != 0;
    default: /* an operation */
        set_secret(known, a, is_secret(known, b) || is_secret(known, c));
        return true;
    }
}

static bool is_public_code_accepted(struct check *check)
{
    const uint32_t count = check->object->code_count;
    struct known known = {0, {0}};
    memset(known.banks, ANY_BANK, sizeof known.banks);
    bool is_reached = true;
    uint32_t place = 0;
    while (place < count) {
        const struct note *note = note_at(check, place);
        if (note == NULL && !is_reached)
            return refuse(check, place, NO_NOTE);
        if (note != NULL) {
            if (is_reached && !fits(&known, note))
                return refuse(check, place, NOTE_TOO_LOW);
            known.secrets = note->secrets;
            memcpy(known.banks, note->banks, sizeof known.banks);
        }
        uint32_t next;
        if (!judge(check, place, &known, &next))
            return false;
        is_reached = next != 0;
        if (next == count)
            return refuse(check, place, RUNS_OFF_END);
        place = is_reached ? next : place + 1;
    }
    return true;
}

static bool has_secret_in_ram(const struct object *object)
{
    for (uint32_t i = 0; i < object->symbol_count; i++)
        if (object->symbols[i].is_secret && object->symbols[i].bank == 0)
            return true;
    return false;
}

bool is_accepted(const struct object *object, struct refusal *refusal)
{
    struct check check = {.object = object, .refusal = refusal};
    if (has_secret_in_ram(object))
        return refuse(&check, 0, SECRET_SYMBOL_IN_RAM);
    uint32_t *notes = zeros_for(object->code_count, sizeof notes[0]);
    for (uint32_t i = 0; i < object->note_count; i++)
        notes[object->notes[i].place] = i + 1;
    check.note_at = notes;
    check.regions = new_regions(object);
    bool accepted = is_public_code_accepted(&check);
    free_regions(check.regions);
    free(notes);
    return accepted;
}

void check_or_end(const struct object *object)
{
    struct refusal refusal;
    if (is_accepted(object, &refusal))
        return;
    printf("fault 7 refused %u %d\n", refusal.place, refusal.reason);
    exit(REFUSED);
}
