/* Words of assembly texts. See spelling.h. */
#include "spelling.h"

#include <string.h>

enum { MOST_DIGITS = 19 };

bool is_word(struct word word, const char *text)
{
    return word.count == strlen(text) && memcmp(word.at, text, word.count) == 0;
}

static struct word but_first(struct word word)
{
    return (struct word){word.at + 1, word.count - 1};
}

static bool is_digit(uint8_t byte)
{
    return byte >= '0' && byte <= '9';
}

bool number(struct word word, uint64_t low, uint64_t high, uint64_t *value)
{
    if (word.count < 1 || word.count > MOST_DIGITS || (word.count > 1 && word.at[0] == '0'))
        return false;
    *value = 0;
    for (size_t i = 0; i < word.count; i++) {
        if (!is_digit(word.at[i]))
            return false;
        *value = *value * 10 + (uint64_t)(word.at[i] - '0');
    }
    return *value >= low && *value <= high;
}

static bool constant(struct word word, int64_t *value)
{
    uint64_t read;
    if (word.count > 0 && word.at[0] == '-') {
        if (!number(but_first(word), 1, (uint64_t)1 << 63, &read))
            return false;
        *value = -1 - (int64_t)(read - 1);
        return true;
    }
    if (!number(word, 0, INT64_MAX, &read))
        return false;
    *value = (int64_t)read;
    return true;
}

static bool reg(struct word word, uint8_t *into)
{
    uint64_t value;
    if (word.count < 2 || word.at[0] != 'r' || !number(but_first(word), 0, REGISTERS - 1, &value))
        return false;
    *into = (uint8_t)value;
    return true;
}

static bool slot(struct word word, uint8_t *into)
{
    uint64_t value;
    if (!number(word, 0, SLOTS - 1, &value))
        return false;
    *into = (uint8_t)value;
    return true;
}

static bool bank(struct word word, uint8_t *into)
{
    uint64_t value;
    if (is_word(word, "D") || is_word(word, "E")) {
        *into = word.at[0] == 'E';
        return true;
    }
    if (word.count < 2 || word.at[0] != 'O' || !number(but_first(word), 2, MOST_BANKS - 1, &value))
        return false;
    *into = (uint8_t)value;
    return true;
}

/* The bytes of a word of at most four, as one number; 0 of a longer word. */
static uint32_t packed(struct word word)
{
    uint32_t key = 0;
    for (size_t i = 0; i < word.count && word.count <= 4; i++)
        key = key << 8 | word.at[i];
    return key;
}

#define PACKED(a, b, c, d) ((uint32_t)(a) << 24 | (uint32_t)(b) << 16 | (uint32_t)(c) << 8 | (uint32_t)(d))

/* The opcode that the first word of an instruction names, BR_EQ of a branch, or -1. */
static int opcode_named(struct word word)
{
    switch (packed(word)) {
    case PACKED(0, 'n', 'o', 'p'): return NOP;
    case PACKED('h', 'a', 'l', 't'): return HALT;
    case PACKED(0, 0, 'l', 'i'): return LI;
    case PACKED(0, 'l', 'd', 'b'): return LDB;
    case PACKED(0, 's', 't', 'b'): return STB;
    case PACKED(0, 'i', 'd', 'b'): return IDB;
    case PACKED(0, 'l', 'd', 'w'): return LDW;
    case PACKED(0, 's', 't', 'w'): return STW;
    case PACKED(0, 'j', 'm', 'p'): return JMP;
    case PACKED(0, 'a', 'd', 'd'): return ADD;
    case PACKED(0, 's', 'u', 'b'): return SUB;
    case PACKED(0, 'm', 'u', 'l'): return MUL;
    case PACKED(0, 'd', 'i', 'v'): return DIV;
    case PACKED(0, 'r', 'e', 'm'): return REM;
    case PACKED('r', 'e', 'm', 'u'): return REMU;
    case PACKED(0, 'a', 'n', 'd'): return AND;
    case PACKED(0, 0, 'o', 'r'): return OR;
    case PACKED(0, 'x', 'o', 'r'): return XOR;
    case PACKED(0, 's', 'h', 'l'): return SHL;
    case PACKED(0, 's', 'h', 'r'): return SHR;
    case PACKED(0, 0, 'b', 'r'): return BR_EQ;
    default: return -1;
    }
}

/* The opcode of a branch with this comparison, or -1. */
static int comparison_named(struct word word)
{
    switch (packed(word)) {
    case PACKED(0, 0, 'e', 'q'): return BR_EQ;
    case PACKED(0, 0, 'n', 'e'): return BR_NE;
    case PACKED(0, 0, 'l', 't'): return BR_LT;
    case PACKED(0, 0, 'l', 'e'): return BR_LE;
    case PACKED(0, 0, 'g', 't'): return BR_GT;
    case PACKED(0, 0, 'g', 'e'): return BR_GE;
    default: return -1;
    }
}

/* Reads where an instruction at a place leads: an offset, or 0 and the label. */
static enum fault target(struct word word, uint32_t place, int32_t *offset, struct word *label)
{
    uint64_t value;
    *offset = 0;
    if (word.at[0] == '+' || is_digit(word.at[0])) {
        bool is_offset = word.at[0] == '+';
        if (!number(is_offset ? but_first(word) : word, 0, INT32_MAX, &value))
            return BAD_NUMBER;
        *offset = is_offset ? (int32_t)value : (int32_t)((int64_t)value - place);
        return NONE;
    }
    if (word.at[0] == '-') {
        if (!number(but_first(word), 1, (uint64_t)1 << 31, &value))
            return BAD_NUMBER;
        *offset = (int32_t)-(int64_t)value;
        return NONE;
    }
    if (!is_name(word.at, word.count))
        return BAD_LINE;
    *label = word;
    return NONE;
}

/* Reads the words behind the first of an instruction without a target, where there are so many banks. */
static enum fault operands(const struct word *words, int count, unsigned banks, struct instruction *instr)
{
    switch (instr->opcode) {
    case NOP: case HALT:
        return count == 0 ? NONE : BAD_LINE;
    case LI:
        if (count != 2 || !reg(words[0], &instr->a))
            return BAD_LINE;
        return constant(words[1], &instr->constant) ? NONE : BAD_NUMBER;
    case LDB:
        if (count != 3 || !bank(words[1], &instr->b) || !reg(words[2], &instr->c))
            return BAD_LINE;
        return slot(words[0], &instr->a) && instr->b < banks ? NONE : BAD_NUMBER;
    case STB:
        if (count != 1)
            return BAD_LINE;
        return slot(words[0], &instr->a) ? NONE : BAD_NUMBER;
    case IDB:
        if (count != 2 || !reg(words[0], &instr->a))
            return BAD_LINE;
        return slot(words[1], &instr->b) ? NONE : BAD_NUMBER;
    case LDW: case STW:
        if (count != 3 || !reg(words[0], &instr->a) || !reg(words[2], &instr->c))
            return BAD_LINE;
        return slot(words[1], &instr->b) ? NONE : BAD_NUMBER;
    default: /* an operation */
        if (count != 3 || !reg(words[0], &instr->a) || !reg(words[1], &instr->b) || !reg(words[2], &instr->c))
            return BAD_LINE;
        return NONE;
    }
}

enum fault instruction(const struct word *words, int count, unsigned banks, uint32_t place,
                       struct instruction *instr, struct word *label)
{
    int opcode = opcode_named(words[0]);
    *instr = (struct instruction){.opcode = (uint8_t)opcode};
    label->count = 0;
    if (opcode < 0)
        return BAD_LINE;
    if (opcode == JMP) {
        if (count != 3 || !is_word(words[1], "->"))
            return BAD_LINE;
        return target(words[2], place, &instr->offset, label);
    }
    if (opcode == BR_EQ) {
        if (count != 6 || (opcode = comparison_named(words[1])) < 0 || !reg(words[2], &instr->a)
            || !reg(words[3], &instr->b) || !is_word(words[4], "->"))
            return BAD_LINE;
        instr->opcode = (uint8_t)opcode;
        return target(words[5], place, &instr->offset, label);
    }
    return operands(words + 1, count - 1, banks, instr);
}

int words_of(const uint8_t *line, const uint8_t *end, struct word words[MOST_WORDS])
{
    int count = 0;
    uint8_t high = 0;
    for (const uint8_t *at = line; at < end; at++)
        high |= *at;
    if (high >= 0x80)
        return -1;
    const uint8_t *at = line;
    for (;;) {
        while (at < end && (*at == ' ' || *at == '\t'))
            at++;
        if (at == end || *at == ';')
            return count;
        const uint8_t *from = at;
        while (at < end && *at != ' ' && *at != '\t' && *at != ';')
            at++;
        if (count == MOST_WORDS)
            return -1;
        words[count++] = (struct word){from, (size_t)(at - from)};
    }
}

bool mask(struct word word, uint32_t *value)
{
    *value = 0;
    if (word.count != 8)
        return false;
    for (size_t i = 0; i < word.count; i++) {
        uint8_t byte = word.at[i];
        if (!is_digit(byte) && !(byte >= 'a' && byte <= 'f'))
            return false;
        *value = *value << 4 | (uint32_t)(is_digit(byte) ? byte - '0' : byte - 'a' + 10);
    }
    return true;
}
