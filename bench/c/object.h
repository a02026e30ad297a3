/*
 * Objects: programs of the machine with their memory. How a file spells one, what each field may be, and in which order
 * the fields are looked at, stands in docs/FORMATS.md.
 */
#ifndef OBJECT_H
#define OBJECT_H

#include <stdbool.h>
#include <stddef.h>
#include <stdint.h>

enum {
    REGISTERS = 32,
    SLOTS = 8,
    ANY_BANK = 255,
    NAME_BYTES = 32,
    LEAST_BANKS = 2,
    MOST_BANKS = 10,
    MOST_SYMBOLS = 1024,
    MOST_NOTES = 262144,
    MOST_INSTRUCTIONS = 1048576,
    MOST_SYMBOL_WORDS = 4194304,
    MOST_ARRAY_WORDS = 1048576,
    MOST_LATENCY = 1000000,
    MOST_PERIOD = 1000000,
    OBJECT_BYTES = 33554432,
    INSTRUCTION_BYTES = 16,
    NOTE_BYTES = 16
};

enum opcode {
    NOP, HALT, LI, LDB, STB, IDB, LDW, STW, JMP,
    ADD = 16, SUB, MUL, DIV, REM, REMU, AND, OR, XOR, SHL, SHR,
    BR_EQ = 32, BR_NE, BR_LT, BR_LE, BR_GT, BR_GE
};

/* An instruction, with the fields of the file. */
struct instruction {
    uint8_t opcode, a, b, c;
    int32_t offset;
    int64_t constant;
};

struct profile {
    uint8_t block_log, alu, mul, word, taken;
    /* Memory is open from `opens` up to `closes` in each period: from 0 up to 1 in a period of 1, which is always. */
    uint32_t period, opens, closes;
};

struct bank {
    uint32_t blocks, latency;
};

struct symbol {
    uint8_t name[NAME_BYTES];
    uint8_t name_bytes;
    bool is_secret, is_array;
    uint8_t bank;
    uint16_t word;
    uint32_t block, length;
};

struct note {
    uint32_t place, secrets;
    uint8_t banks[SLOTS];
};

struct object {
    struct profile profile;
    struct bank banks[MOST_BANKS];
    unsigned bank_count;
    struct symbol *symbols;
    uint32_t symbol_count;
    struct note *notes;
    uint32_t note_count;
    struct instruction *code;
    uint32_t code_count;
};

/* What the operand fields of an opcode may hold at most; 0 where the field isn't used. */
struct limits {
    bool is_opcode, has_offset, has_constant;
    uint8_t a, b, c;
};

/* The limits of each opcode where there are so many banks. */
void set_limits(struct limits limits[256], unsigned banks);

/* The words of a block. */
static inline uint32_t block_words(const struct object *object)
{
    return (uint32_t)1 << object->profile.block_log;
}

/* Which fault a file has. */
enum object_fault { FITS, TRUNCATED, BAD_MAGIC, BAD_VERSION, BAD_FIELD, TRAILING };

/*
 * Reads the object that the bytes spell. Otherwise tells the first fault, and in `at` the place of its field, or the
 * version.
 */
enum object_fault decode(const uint8_t *bytes, size_t count, struct object *object, uint32_t *at);

/* Reads the object of this file, or ends the program with the line and the status that tell why there is none. */
struct object read_object(const char *name);

/* Bytes of an object file, on the heap, and how many there are. */
uint8_t *encode(const struct object *object, size_t *count);

/* Whether the bytes are a name: 1 to 32 letters, digits and `_`, no digit first. */
bool is_name(const uint8_t *bytes, size_t count);

/* Whether no symbol has this name. */
bool is_new_name(const struct object *object, const uint8_t *name, size_t count);

/* The most blocks of the bank with this number. */
uint32_t most_blocks(unsigned bank);

/* The least bank that the next symbol may lie in. */
uint8_t least_bank(const struct object *object);

/* The first free word of a block for the next symbol. */
uint64_t first_free(const struct object *object, uint8_t bank, uint32_t block);

/* The most words of a symbol that begins with this word of a bank. */
uint64_t most_length(const struct object *object, bool is_array, uint8_t bank, uint64_t start);

/* The number of a symbol's first word in its bank. */
uint64_t first_word(const struct object *object, const struct symbol *symbol);

#endif
