/* The machine. See machine.h. */
#include "machine.h"

#include "files.h"
#include "words.h"

#include <stdlib.h>
#include <string.h>

struct cell {
    int64_t *words;
    uint32_t block;
    uint8_t bank;
};

struct machine {
    const struct object *object;
    /* The words of plain and of encrypted memory, the blocks one behind the other. */
    int64_t *memory[2];
    bool is_recursive;
    union {
        struct path_oram oram;
        struct recursive_oram trees;
    } orams[MOST_BANKS];
    struct cell slots[SLOTS];
};

/* The words of a bank at the start. */
static int64_t *image(const struct object *object, int64_t **inputs, unsigned bank)
{
    int64_t *words = zeros_for((size_t)object->banks[bank].blocks * block_words(object), sizeof words[0]);
    for (uint32_t i = 0; i < object->symbol_count; i++) {
        const struct symbol *symbol = &object->symbols[i];
        if (symbol->bank == bank)
            memcpy(words + first_word(object, symbol), inputs[i], symbol->length * sizeof words[0]);
    }
    return words;
}

struct machine *new_machine(const struct object *object, int64_t **inputs, uint64_t seed, bool is_recursive)
{
    struct machine *machine = zeros_for(1, sizeof *machine);
    machine->object = object;
    machine->is_recursive = is_recursive;
    for (unsigned bank = 0; bank < 2; bank++)
        machine->memory[bank] = image(object, inputs, bank);
    for (unsigned bank = 2; bank < object->bank_count; bank++) {
        uint8_t key[32] = {0};
        for (int i = 0; i < 8; i++)
            key[i] = (uint8_t)(seed >> (8 * i));
        key[8] = (uint8_t)bank;
        int64_t *contents = image(object, inputs, bank);
        const uint32_t blocks = object->banks[bank].blocks;
        if (is_recursive)
            start_recursive_oram(&machine->orams[bank].trees, contents, blocks, block_words(object), key);
        else
            start_path_oram(&machine->orams[bank].oram, contents, blocks, block_words(object), key);
    }
    for (unsigned slot = 0; slot < SLOTS; slot++)
        machine->slots[slot].words = zeros_for(block_words(object), sizeof machine->slots[slot].words[0]);
    return machine;
}

void free_machine(struct machine *machine)
{
    for (unsigned bank = 0; bank < 2; bank++)
        free(machine->memory[bank]);
    for (unsigned bank = 2; bank < machine->object->bank_count; bank++)
        if (machine->is_recursive)
            free_recursive_oram(&machine->orams[bank].trees);
        else
            free_path_oram(&machine->orams[bank].oram);
    for (unsigned slot = 0; slot < SLOTS; slot++)
        free(machine->slots[slot].words);
    free(machine);
}

/* The cycle at which an access starts that the machine comes to at this one: memory may be closed, and is waited for. */
static uint64_t access_start(const struct profile *profile, uint64_t cycle)
{
    if (profile->period == 1)
        return cycle;
    uint64_t into = cycle % profile->period;
    if (into >= profile->closes)
        return cycle + profile->period + profile->opens - into;
    return into < profile->opens ? cycle + profile->opens - into : cycle;
}

/* Reads a block of an oblivious bank, or writes it, and lists the leaves that it shows. */
static unsigned read_bank(struct machine *machine, uint8_t bank, uint32_t block, int64_t *into, uint32_t *leaves)
{
    if (machine->is_recursive)
        return read_recursive(&machine->orams[bank].trees, block, into, leaves);
    leaves[0] = read_oblivious(&machine->orams[bank].oram, block, into);
    return 1;
}

static unsigned write_bank(struct machine *machine, uint8_t bank, uint32_t block, const int64_t *from, uint32_t *leaves)
{
    if (machine->is_recursive)
        return write_recursive(&machine->orams[bank].trees, block, from, leaves);
    leaves[0] = write_oblivious(&machine->orams[bank].oram, block, from);
    return 1;
}

static void load_block(struct machine *machine, unsigned slot, uint8_t bank, uint32_t block, uint32_t stamp,
                       const struct watcher *watcher)
{
    struct cell *cell = &machine->slots[slot];
    const uint32_t width = block_words(machine->object);
    uint32_t leaves[MOST_LEVELS];
    unsigned count = 0;
    cell->bank = bank;
    cell->block = block;
    if (bank < 2)
        memcpy(cell->words, machine->memory[bank] + (size_t)block * width, width * sizeof cell->words[0]);
    else
        count = read_bank(machine, bank, block, cell->words, leaves);
    if (watcher == NULL)
        return;
    watcher->read(watcher->self, stamp, bank, block, cell->words);
    if (bank >= 2)
        watcher->path(watcher->self, stamp, bank, leaves, count);
}

static void store_block(struct machine *machine, unsigned slot, uint32_t stamp, const struct watcher *watcher)
{
    const struct cell *cell = &machine->slots[slot];
    const uint32_t width = block_words(machine->object);
    uint32_t leaves[MOST_LEVELS];
    unsigned count = 0;
    if (cell->bank < 2)
        memcpy(machine->memory[cell->bank] + (size_t)cell->block * width, cell->words, width * sizeof cell->words[0]);
    else
        count = write_bank(machine, cell->bank, cell->block, cell->words, leaves);
    if (watcher == NULL)
        return;
    watcher->wrote(watcher->self, stamp, cell->bank, cell->block, cell->words);
    if (cell->bank >= 2)
        watcher->path(watcher->self, stamp, cell->bank, leaves, count);
}

/* The first operand, and the two that follow it, as registers of the instruction that runs. */
#define A registers[now->a]
#define B registers[now->b]
#define C registers[now->c]

struct end run_machine(struct machine *machine, uint32_t cycles, const struct watcher *watcher)
{
    const struct object *object = machine->object;
    const struct profile *profile = &object->profile;
    const struct instruction *next = object->code;
    const uint64_t alu = profile->alu, mul = profile->mul, word = profile->word, taken = profile->taken;
    const uint64_t mask = block_words(object) - 1;
    struct cell *slots = machine->slots;
    int64_t registers[REGISTERS] = {0};
    uint64_t cycle = 0;

    while (cycle < cycles) {
        const struct instruction *now = next++;
        bool holds;
        switch (now->opcode) {
        case NOP: cycle++; continue;
        case HALT:
            if (watcher != NULL)
                watcher->halted(watcher->self, (uint32_t)cycle);
            return (struct end){true, (uint32_t)cycle};
        case LI: A = now->constant; cycle++; continue;
        case LDB:
            cycle = access_start(profile, cycle);
            if (cycle >= cycles)
                continue;
            load_block(machine, now->a, now->b, (uint32_t)((uint64_t)C % object->banks[now->b].blocks), (uint32_t)cycle,
                       watcher);
            cycle += object->banks[now->b].latency;
            continue;
        case STB:
            cycle = access_start(profile, cycle);
            if (cycle >= cycles)
                continue;
            store_block(machine, now->a, (uint32_t)cycle, watcher);
            cycle += object->banks[slots[now->a].bank].latency;
            continue;
        case IDB: A = slots[now->b].block; cycle++; continue;
        case LDW: A = slots[now->b].words[(uint64_t)C & mask]; cycle += word; continue;
        case STW: slots[now->b].words[(uint64_t)C & mask] = A; cycle += word; continue;
        case JMP: next = now + now->offset; cycle += taken; continue;
        case ADD: A = (int64_t)((uint64_t)B + (uint64_t)C); cycle += alu; continue;
        case SUB: A = (int64_t)((uint64_t)B - (uint64_t)C); cycle += alu; continue;
        case MUL: A = (int64_t)((uint64_t)B * (uint64_t)C); cycle += mul; continue;
        case DIV: A = quotient(B, C); cycle += mul; continue;
        case REM: A = remainder_of(B, C); cycle += mul; continue;
        case REMU: A = unsigned_remainder(B, C); cycle += mul; continue;
        case AND: A = B & C; cycle += alu; continue;
        case OR: A = B | C; cycle += alu; continue;
        case XOR: A = B ^ C; cycle += alu; continue;
        case SHL: A = shifted_left(B, C); cycle += alu; continue;
        case SHR: A = shifted_right(B, C); cycle += alu; continue;
        case BR_EQ: holds = A == B; break;
        case BR_NE: holds = A != B; break;
        case BR_LT: holds = A < B; break;
        case BR_LE: holds = A <= B; break;
        case BR_GT: holds = A > B; break;
        default: holds = A >= B; break; /* BR_GE */
        }
        if (holds)
            next = now + now->offset;
        cycle += holds ? taken : 1;
    }
    return (struct end){false, 0};
}

int64_t **symbol_words(const struct machine *machine)
{
    const struct object *object = machine->object;
    int64_t **words = room_for(object->symbol_count, sizeof words[0]);
    for (uint32_t i = 0; i < object->symbol_count; i++) {
        const struct symbol *symbol = &object->symbols[i];
        const int64_t *contents =
            symbol->bank < 2 ? machine->memory[symbol->bank] : oblivious_bank(machine, symbol->bank)->contents;
        words[i] = room_for(symbol->length, sizeof words[i][0]);
        memcpy(words[i], contents + first_word(object, symbol), symbol->length * sizeof words[i][0]);
    }
    return words;
}

const struct path_tree *oblivious_bank(const struct machine *machine, unsigned bank)
{
    return machine->is_recursive ? &machine->orams[bank].trees.trees[0] : &machine->orams[bank].oram.tree;
}
