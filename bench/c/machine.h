/*
 * The machine of docs/MACHINE.md: it runs an accepted object, and tells a watcher what the bus shows. Nothing is looked at
 * that the check has looked at: no slot is unbound where it is used, and no place lies outside the code.
 */
#ifndef MACHINE_H
#define MACHINE_H

#include "object.h"
#include "recursive_oram.h"

#include <stdbool.h>

struct machine;

/* What is called at each access of a block and at the halt; and behind one to an oblivious bank with its leaves. */
struct watcher {
    void (*read)(void *self, uint32_t stamp, uint8_t bank, uint32_t block, const int64_t *words);
    void (*wrote)(void *self, uint32_t stamp, uint8_t bank, uint32_t block, const int64_t *words);
    void (*path)(void *self, uint32_t stamp, uint8_t bank, const uint32_t *leaves, unsigned count);
    void (*halted)(void *self, uint32_t stamp);
    void *self;
};

/* How a run ended, and where it halted the cycle. */
struct end {
    bool halted;
    uint32_t stamp;
};

/* A machine at the start of a run on these inputs, whose oblivious banks have the random words of a seed, and keep their
 * positions in smaller ones where it is recursive. */
struct machine *new_machine(const struct object *object, int64_t **inputs, uint64_t seed, bool is_recursive);
void free_machine(struct machine *machine);

/* Runs as long as the next instruction starts below this cycle. There may be no watcher. */
struct end run_machine(struct machine *machine, uint32_t cycles, const struct watcher *watcher);

/* The words that the banks hold of each symbol, on the heap. */
int64_t **symbol_words(const struct machine *machine);

/* The tree of the blocks of the bank with this number, which is an oblivious one. */
const struct path_tree *oblivious_bank(const struct machine *machine, unsigned bank);

#endif
