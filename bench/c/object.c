/* Reading and writing object files. See object.h. */
#include "object.h"

#include "files.h"

#include <stdio.h>
#include <stdlib.h>
#include <string.h>

enum { MALFORMED = 6 };

/* The bytes of a file, how many of them are read, and the fault that ended the reading. */
struct reader {
    const uint8_t *bytes;
    size_t count, next;
    enum object_fault fault;
    uint32_t at;
};

static inline uint32_t number_of_2(const uint8_t *bytes)
{
    return (uint32_t)bytes[0] | (uint32_t)bytes[1] << 8;
}

static inline uint32_t number_of_4(const uint8_t *bytes)
{
    return number_of_2(bytes) | number_of_2(bytes + 2) << 16;
}

static inline uint64_t number_of_8(const uint8_t *bytes)
{
    return (uint64_t)number_of_4(bytes) | (uint64_t)number_of_4(bytes + 4) << 32;
}

static bool stops(struct reader *reader, enum object_fault fault, size_t at)
{
    reader->fault = fault;
    reader->at = (uint32_t)at;
    return false;
}

/* Reads a number of 1, 2, 4 or 8 bytes. */
static bool number(struct reader *reader, unsigned size, uint64_t *value)
{
    if (reader->count - reader->next < size)
        return stops(reader, TRUNCATED, reader->next);
    const uint8_t *bytes = reader->bytes + reader->next;
    switch (size) {
    case 1: *value = bytes[0]; break;
    case 2: *value = number_of_2(bytes); break;
    case 4: *value = number_of_4(bytes); break;
    default: *value = number_of_8(bytes); break;
    }
    reader->next += size;
    return true;
}

/* Reads a number that is from `low` to `high`. */
static bool field(struct reader *reader, unsigned size, uint64_t low, uint64_t high, uint64_t *value)
{
    size_t at = reader->next;
    if (!number(reader, size, value))
        return false;
    if (*value < low || *value > high)
        return stops(reader, BAD_FIELD, at);
    return true;
}

bool is_name(const uint8_t *bytes, size_t count)
{
    if (count < 1 || count > NAME_BYTES || (bytes[0] >= '0' && bytes[0] <= '9'))
        return false;
    for (size_t i = 0; i < count; i++) {
        uint8_t byte = bytes[i];
        bool is_letter = (byte >= 'a' && byte <= 'z') || (byte >= 'A' && byte <= 'Z');
        if (!is_letter && !(byte >= '0' && byte <= '9') && byte != '_')
            return false;
    }
    return true;
}

bool is_new_name(const struct object *object, const uint8_t *name, size_t count)
{
    for (uint32_t i = 0; i < object->symbol_count; i++) {
        const struct symbol *symbol = &object->symbols[i];
        if (symbol->name_bytes == count && memcmp(symbol->name, name, count) == 0)
            return false;
    }
    return true;
}

uint32_t most_blocks(unsigned bank)
{
    return bank < 2 ? 65536 : 4096;
}

uint64_t first_word(const struct object *object, const struct symbol *symbol)
{
    return (uint64_t)symbol->block * block_words(object) + symbol->word;
}

static const struct symbol *last_symbol(const struct object *object)
{
    return object->symbol_count == 0 ? NULL : &object->symbols[object->symbol_count - 1];
}

uint8_t least_bank(const struct object *object)
{
    const struct symbol *last = last_symbol(object);
    return last == NULL ? 0 : last->bank;
}

uint64_t first_free(const struct object *object, uint8_t bank, uint32_t block)
{
    const struct symbol *last = last_symbol(object);
    if (last == NULL || last->bank != bank)
        return 0;
    uint64_t start = (uint64_t)block * block_words(object);
    uint64_t end = first_word(object, last) + last->length;
    return end > start ? end - start : 0;
}

uint64_t most_length(const struct object *object, bool is_array, uint8_t bank, uint64_t start)
{
    uint64_t most = is_array ? MOST_ARRAY_WORDS : 1;
    uint64_t words = (uint64_t)object->banks[bank].blocks * block_words(object);
    uint64_t left = words > start ? words - start : 0;
    return left < most ? left : most;
}

void set_limits(struct limits limits[256], unsigned banks)
{
    const uint8_t reg = REGISTERS - 1, slot = SLOTS - 1;
    memset(limits, 0, 256 * sizeof limits[0]);
    limits[NOP] = (struct limits){.is_opcode = true};
    limits[HALT] = (struct limits){.is_opcode = true};
    limits[LI] = (struct limits){.is_opcode = true, .a = reg, .has_constant = true};
    limits[LDB] = (struct limits){.is_opcode = true, .a = slot, .b = (uint8_t)(banks - 1), .c = reg};
    limits[STB] = (struct limits){.is_opcode = true, .a = slot};
    limits[IDB] = (struct limits){.is_opcode = true, .a = reg, .b = slot};
    limits[LDW] = (struct limits){.is_opcode = true, .a = reg, .b = slot, .c = reg};
    limits[STW] = limits[LDW];
    limits[JMP] = (struct limits){.is_opcode = true, .has_offset = true};
    for (int opcode = ADD; opcode <= SHR; opcode++)
        limits[opcode] = (struct limits){.is_opcode = true, .a = reg, .b = reg, .c = reg};
    for (int opcode = BR_EQ; opcode <= BR_GE; opcode++)
        limits[opcode] = (struct limits){.is_opcode = true, .a = reg, .b = reg, .has_offset = true};
}

static bool read_profile(struct reader *reader, struct profile *profile)
{
    uint64_t magic, version, value;
    if (!number(reader, 4, &magic))
        return false;
    if (magic != 0x544c5247)
        return stops(reader, BAD_MAGIC, 0);
    if (!number(reader, 2, &version))
        return false;
    if (version != 1 && version != 2)
        return stops(reader, BAD_VERSION, version);
    const struct { uint8_t *into; uint8_t low, high; } cycles[] = {
        {&profile->block_log, 3, 9}, {&profile->alu, 1, 127}, {&profile->mul, 1, 127},
        {&profile->word, 1, 127}, {&profile->taken, 1, 32},
    };
    for (size_t i = 0; i < sizeof cycles / sizeof cycles[0]; i++) {
        if (!field(reader, 1, cycles[i].low, cycles[i].high, &value))
            return false;
        *cycles[i].into = (uint8_t)value;
    }
    profile->period = 1;
    profile->opens = 0;
    profile->closes = 1;
    if (version == 1)
        return true;
    if (!field(reader, 4, 2, MOST_PERIOD, &value))
        return false;
    profile->period = (uint32_t)value;
    if (!field(reader, 4, 0, profile->period - 1, &value))
        return false;
    profile->opens = (uint32_t)value;
    if (!field(reader, 4, profile->opens + 1, profile->period, &value))
        return false;
    profile->closes = (uint32_t)value;
    return true;
}

static bool read_banks(struct reader *reader, struct object *object)
{
    uint64_t count, blocks, latency;
    if (!field(reader, 1, LEAST_BANKS, MOST_BANKS, &count))
        return false;
    object->bank_count = (unsigned)count;
    for (unsigned i = 0; i < object->bank_count; i++) {
        if (!field(reader, 4, 1, most_blocks(i), &blocks) || !field(reader, 4, 1, MOST_LATENCY, &latency))
            return false;
        object->banks[i] = (struct bank){(uint32_t)blocks, (uint32_t)latency};
    }
    return true;
}

static bool read_name(struct reader *reader, const struct object *object, struct symbol *symbol)
{
    uint64_t count;
    if (!field(reader, 1, 1, NAME_BYTES, &count))
        return false;
    if (reader->count - reader->next < count)
        return stops(reader, TRUNCATED, reader->next);
    const uint8_t *name = reader->bytes + reader->next;
    if (!is_name(name, count) || !is_new_name(object, name, count))
        return stops(reader, BAD_FIELD, reader->next);
    memcpy(symbol->name, name, count);
    symbol->name_bytes = (uint8_t)count;
    reader->next += count;
    return true;
}

/* Reads a symbol where so many words are left of those that all symbols may have together. */
static bool read_symbol(struct reader *reader, const struct object *object, uint64_t left, struct symbol *symbol)
{
    uint64_t label, shape, bank, block, word, length;
    if (!read_name(reader, object, symbol) || !field(reader, 1, 0, 1, &label) || !field(reader, 1, 0, 1, &shape))
        return false;
    if (!field(reader, 1, least_bank(object), object->bank_count - 1, &bank))
        return false;
    symbol->is_secret = label == 1;
    symbol->is_array = shape == 1;
    symbol->bank = (uint8_t)bank;
    if (!field(reader, 4, 0, object->banks[bank].blocks - 1, &block))
        return false;
    symbol->block = (uint32_t)block;
    if (!field(reader, 2, first_free(object, symbol->bank, symbol->block), block_words(object) - 1, &word))
        return false;
    symbol->word = (uint16_t)word;
    uint64_t most = most_length(object, symbol->is_array, symbol->bank, first_word(object, symbol));
    if (!field(reader, 4, 1, most < left ? most : left, &length))
        return false;
    symbol->length = (uint32_t)length;
    return true;
}

static bool read_symbols(struct reader *reader, struct object *object)
{
    uint64_t count, left = MOST_SYMBOL_WORDS;
    if (!field(reader, 2, 0, MOST_SYMBOLS, &count))
        return false;
    object->symbols = room_for(count, sizeof object->symbols[0]);
    while (object->symbol_count < count) {
        struct symbol *symbol = &object->symbols[object->symbol_count];
        if (!read_symbol(reader, object, left, symbol))
            return false;
        left -= symbol->length;
        object->symbol_count++;
    }
    return true;
}

/* As many items of a size as there are, but no more than the bytes that are left can spell. */
static size_t items_left(const struct reader *reader, uint64_t count, size_t size)
{
    size_t most = (reader->count - reader->next) / size;
    return count < most ? count : most;
}

static bool read_notes(struct reader *reader, struct object *object)
{
    uint64_t count, value, least = 0;
    if (!field(reader, 4, 0, MOST_NOTES, &count))
        return false;
    object->notes = room_for(items_left(reader, count, NOTE_BYTES), sizeof object->notes[0]);
    for (uint32_t i = 0; i < count; i++) {
        if (!field(reader, 4, least, UINT32_MAX, &value))
            return false;
        uint32_t place = (uint32_t)value;
        least = value + 1;
        if (!number(reader, 4, &value))
            return false;
        uint8_t banks[SLOTS];
        for (unsigned slot = 0; slot < SLOTS; slot++) {
            size_t at = reader->next;
            uint64_t bank;
            if (!number(reader, 1, &bank))
                return false;
            if (bank != ANY_BANK && bank >= object->bank_count)
                return stops(reader, BAD_FIELD, at);
            banks[slot] = (uint8_t)bank;
        }
        object->notes[i].place = place;
        object->notes[i].secrets = (uint32_t)value;
        memcpy(object->notes[i].banks, banks, SLOTS);
    }
    object->note_count = (uint32_t)count;
    return true;
}

/* Reads an instruction field by field, to name its first fault. */
static bool read_instruction(struct reader *reader, const struct limits limits[256])
{
    uint64_t opcode, value;
    size_t at = reader->next;
    if (!number(reader, 1, &opcode))
        return false;
    const struct limits *most = &limits[opcode];
    if (!most->is_opcode)
        return stops(reader, BAD_FIELD, at);
    return field(reader, 1, 0, most->a, &value) && field(reader, 1, 0, most->b, &value)
           && field(reader, 1, 0, most->c, &value)
           && field(reader, 4, 0, most->has_offset ? UINT32_MAX : 0, &value)
           && field(reader, 8, 0, most->has_constant ? UINT64_MAX : 0, &value);
}

static bool read_code(struct reader *reader, struct object *object)
{
    struct limits limits[256];
    set_limits(limits, object->bank_count);
    uint64_t count, fewest = 1;
    if (object->note_count > 0)
        fewest = (uint64_t)object->notes[object->note_count - 1].place + 1;
    if (!field(reader, 4, fewest, MOST_INSTRUCTIONS, &count))
        return false;
    size_t whole = items_left(reader, count, INSTRUCTION_BYTES);
    object->code = room_for(whole, sizeof object->code[0]);
    const uint8_t *bytes = reader->bytes + reader->next;
    for (size_t i = 0; i < whole; i++, bytes += INSTRUCTION_BYTES) {
        struct instruction instr = {
            bytes[0], bytes[1], bytes[2], bytes[3], (int32_t)number_of_4(bytes + 4), (int64_t)number_of_8(bytes + 8),
        };
        const struct limits *most = &limits[instr.opcode];
        bool fits = most->is_opcode && instr.a <= most->a && instr.b <= most->b && instr.c <= most->c
                    && (instr.offset == 0 || most->has_offset) && (instr.constant == 0 || most->has_constant);
        if (!fits) {
            reader->next += i * INSTRUCTION_BYTES;
            return read_instruction(reader, limits);
        }
        object->code[i] = instr;
    }
    reader->next += whole * INSTRUCTION_BYTES;
    if (whole < count)
        return read_instruction(reader, limits);
    object->code_count = (uint32_t)count;
    return true;
}

enum object_fault decode(const uint8_t *bytes, size_t count, struct object *object, uint32_t *at)
{
    struct reader reader = {bytes, count, 0, FITS, 0};
    memset(object, 0, sizeof *object);
    if (read_profile(&reader, &object->profile) && read_banks(&reader, object) && read_symbols(&reader, object)
        && read_notes(&reader, object) && read_code(&reader, object) && reader.next < reader.count)
        stops(&reader, TRAILING, reader.next);
    *at = reader.at;
    return reader.fault;
}

struct object read_object(const char *name)
{
    struct bytes file = read_file(name, OBJECT_BYTES);
    struct object object;
    uint32_t at;
    enum object_fault fault = decode(file.at, file.count, &object, &at);
    free(file.at);
    switch (fault) {
    case FITS: return object;
    case TRUNCATED: printf("fault 6 object truncated %u\n", at); break;
    case BAD_MAGIC: puts("fault 6 object magic"); break;
    case BAD_VERSION: printf("fault 6 object version %u\n", at); break;
    case BAD_FIELD: printf("fault 6 object field %u\n", at); break;
    case TRAILING: printf("fault 6 object trailing %u\n", at); break;
    }
    exit(MALFORMED);
}

/* Puts a number of so many bytes, the lowest first, and answers where the next goes. */
static uint8_t *put(uint8_t *to, unsigned size, uint64_t value)
{
    for (unsigned i = 0; i < size; i++)
        *to++ = (uint8_t)(value >> (8 * i));
    return to;
}

static uint8_t *put_head(uint8_t *to, const struct object *object)
{
    const struct profile *profile = &object->profile;
    bool is_windowed = profile->period != 1;
    memcpy(to, "GRLT", 4);
    to = put(to + 4, 2, is_windowed ? 2 : 1);
    to = put(to, 1, profile->block_log);
    to = put(to, 1, profile->alu);
    to = put(to, 1, profile->mul);
    to = put(to, 1, profile->word);
    to = put(to, 1, profile->taken);
    if (is_windowed)
        to = put(put(put(to, 4, profile->period), 4, profile->opens), 4, profile->closes);
    to = put(to, 1, object->bank_count);
    for (unsigned i = 0; i < object->bank_count; i++)
        to = put(put(to, 4, object->banks[i].blocks), 4, object->banks[i].latency);
    return to;
}

static uint8_t *put_symbol(uint8_t *to, const struct symbol *symbol)
{
    to = put(to, 1, symbol->name_bytes);
    memcpy(to, symbol->name, symbol->name_bytes);
    to = put(to + symbol->name_bytes, 1, symbol->is_secret);
    to = put(to, 1, symbol->is_array);
    to = put(to, 1, symbol->bank);
    to = put(to, 4, symbol->block);
    to = put(to, 2, symbol->word);
    return put(to, 4, symbol->length);
}

uint8_t *encode(const struct object *object, size_t *count)
{
    enum { HEAD_BYTES = 114, SYMBOL_BYTES = 46 };
    uint8_t *bytes = room_for(HEAD_BYTES + (size_t)object->symbol_count * SYMBOL_BYTES
                                  + (size_t)object->note_count * NOTE_BYTES
                                  + (size_t)object->code_count * INSTRUCTION_BYTES, 1);
    uint8_t *to = put_head(bytes, object);
    to = put(to, 2, object->symbol_count);
    for (uint32_t i = 0; i < object->symbol_count; i++)
        to = put_symbol(to, &object->symbols[i]);
    to = put(to, 4, object->note_count);
    for (uint32_t i = 0; i < object->note_count; i++) {
        to = put(put(to, 4, object->notes[i].place), 4, object->notes[i].secrets);
        memcpy(to, object->notes[i].banks, SLOTS);
        to += SLOTS;
    }
    to = put(to, 4, object->code_count);
    for (uint32_t i = 0; i < object->code_count; i++) {
        const struct instruction *instr = &object->code[i];
        to[0] = instr->opcode;
        to[1] = instr->a;
        to[2] = instr->b;
        to[3] = instr->c;
        put(put(to + 4, 4, (uint32_t)instr->offset), 8, (uint64_t)instr->constant);
        to += INSTRUCTION_BYTES;
    }
    *count = (size_t)(to - bytes);
    return bytes;
}
