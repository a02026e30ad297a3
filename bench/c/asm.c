/*
 * asm TEXT OUT: writes the object file of the object that an assembly text spells, as `ghostrider asm` does: the same
 * bytes, or the line and the status of the text's first fault, by the rules of docs/FORMATS.md. The measure of bench/asm.
 */
#include "files.h"
#include "object.h"
#include "spelling.h"

#include <stdio.h>
#include <stdlib.h>
#include <string.h>

enum { TEXT_BYTES = 67108864, BAD_TEXT = 12, FIRST_ROOM = 1024 };

/* A name and the place that it stands for; in the list of uses the place of the instruction, and its line. */
struct label {
    struct word name;
    uint32_t place, line;
};

/* The labels of a text, in an open table with a power of two of places; a place without a name is empty. */
struct labels {
    struct label *table;
    size_t count, room;
};

/* What is read of a text. */
struct draft {
    struct object object;
    bool has_profile;
    uint64_t symbol_words;
    struct labels labels;
    struct label *uses;
    size_t use_count;
    /* The line of a note whose instruction isn't read yet, and the text behind that line; 0 where there is none. */
    uint32_t noted;
    const uint8_t *behind_note;
    const uint8_t *end;
};

/* The end of a line that begins here. */
static const uint8_t *line_end(const uint8_t *line, const uint8_t *end)
{
    const uint8_t *found = memchr(line, '\n', (size_t)(end - line));
    return found == NULL ? end : found;
}

/* Whether some line of a text has the form of an instruction, whatever its numbers are. */
static bool has_instruction(const uint8_t *text, const uint8_t *end)
{
    while (text < end) {
        const uint8_t *stop = line_end(text, end);
        struct word words[MOST_WORDS], label;
        struct instruction instr;
        int count = words_of(text, stop, words);
        if (count > 0 && instruction(words, count, LEAST_BANKS, 0, &instr, &label) != BAD_LINE)
            return true;
        text = stop == end ? end : stop + 1;
    }
    return false;
}

static bool has_code(const struct draft *draft)
{
    return draft->object.code_count > 0 || draft->object.note_count > 0 || draft->labels.count > 0;
}

static enum fault object_line(struct draft *draft, const struct word *words, int count)
{
    struct profile *profile = &draft->object.profile;
    uint64_t value;
    if (draft->has_profile || (count != 6 && count != 9))
        return BAD_LINE;
    const uint64_t version = count == 6 ? 1 : 2;
    if (!number(words[0], version, version, &value))
        return BAD_NUMBER;
    const struct { uint8_t *into; uint8_t low, high; } cycles[] = {
        {&profile->block_log, 3, 9}, {&profile->alu, 1, 127}, {&profile->mul, 1, 127},
        {&profile->word, 1, 127}, {&profile->taken, 1, 32},
    };
    for (int i = 0; i < 5; i++) {
        if (!number(words[1 + i], cycles[i].low, cycles[i].high, &value))
            return BAD_NUMBER;
        *cycles[i].into = (uint8_t)value;
    }
    uint64_t period = 1, opens = 0, closes = 1;
    if (count == 9 && (!number(words[6], 2, MOST_PERIOD, &period) || !number(words[7], 0, period - 1, &opens)
                       || !number(words[8], opens + 1, period, &closes)))
        return BAD_NUMBER;
    profile->period = (uint32_t)period;
    profile->opens = (uint32_t)opens;
    profile->closes = (uint32_t)closes;
    draft->has_profile = true;
    return NONE;
}

static enum fault bank_line(struct draft *draft, const struct word *words, int count)
{
    struct object *object = &draft->object;
    uint64_t blocks, latency;
    if (!draft->has_profile || object->symbol_count > 0 || has_code(draft) || count != 2)
        return BAD_LINE;
    if (!number(words[0], 1, most_blocks(object->bank_count), &blocks) || !number(words[1], 1, MOST_LATENCY, &latency))
        return BAD_NUMBER;
    if (object->bank_count >= MOST_BANKS)
        return OVER_LIMIT;
    object->banks[object->bank_count++] = (struct bank){(uint32_t)blocks, (uint32_t)latency};
    return NONE;
}

/* Reads where a symbol lies, by four words. */
static bool site(const struct object *object, const struct word *words, struct symbol *symbol)
{
    uint64_t in_bank, block, word, length;
    if (!number(words[0], least_bank(object), object->bank_count - 1, &in_bank))
        return false;
    symbol->bank = (uint8_t)in_bank;
    if (!number(words[1], 0, object->banks[in_bank].blocks - 1, &block))
        return false;
    symbol->block = (uint32_t)block;
    if (!number(words[2], first_free(object, symbol->bank, symbol->block), block_words(object) - 1, &word))
        return false;
    symbol->word = (uint16_t)word;
    uint64_t most = most_length(object, symbol->is_array, symbol->bank, first_word(object, symbol));
    if (!number(words[3], 1, most, &length))
        return false;
    symbol->length = (uint32_t)length;
    return true;
}

static enum fault symbol_line(struct draft *draft, const struct word *words, int count)
{
    struct object *object = &draft->object;
    struct symbol symbol;
    if (!draft->has_profile || object->bank_count < LEAST_BANKS || has_code(draft) || count != 7
        || !is_name(words[0].at, words[0].count))
        return BAD_LINE;
    symbol.is_secret = is_word(words[1], "secret");
    symbol.is_array = is_word(words[2], "array");
    if ((!symbol.is_secret && !is_word(words[1], "public")) || (!symbol.is_array && !is_word(words[2], "scalar")))
        return BAD_LINE;
    if (!site(object, words + 3, &symbol))
        return BAD_NUMBER;
    if (!is_new_name(object, words[0].at, words[0].count))
        return TWICE_NAMED;
    if (object->symbol_count >= MOST_SYMBOLS || draft->symbol_words + symbol.length > MOST_SYMBOL_WORDS)
        return OVER_LIMIT;
    memcpy(symbol.name, words[0].at, words[0].count);
    symbol.name_bytes = (uint8_t)words[0].count;
    draft->symbol_words += symbol.length;
    object->symbols[object->symbol_count++] = symbol;
    return NONE;
}

static enum fault note_fields(const struct object *object, const struct word *words, int count, struct note *note)
{
    if (count != 1 + SLOTS || !mask(words[0], &note->secrets))
        return BAD_LINE;
    for (int i = 0; i < SLOTS; i++) {
        uint64_t in_bank = ANY_BANK;
        if (!is_word(words[1 + i], "-") && !number(words[1 + i], 0, object->bank_count - 1, &in_bank))
            return BAD_NUMBER;
        note->banks[i] = (uint8_t)in_bank;
    }
    return object->note_count >= MOST_NOTES ? OVER_LIMIT : NONE;
}

/* Room for one more item of a size behind so many: the room doubles at each power of two from the first on. */
static void *with_room(void *items, size_t count, size_t size)
{
    if (count == 0)
        return more_room(items, FIRST_ROOM, size);
    return count >= FIRST_ROOM && (count & (count - 1)) == 0 ? more_room(items, 2 * count, size) : items;
}

/* The line of a note, with this number, and the text behind it. That an instruction follows is seen when it comes. */
static enum fault note_line(struct draft *draft, const struct word *words, int count, uint32_t line, const uint8_t *behind)
{
    struct object *object = &draft->object;
    struct note note = {.place = object->code_count};
    if (object->bank_count < LEAST_BANKS || draft->noted != 0)
        return BAD_LINE;
    enum fault fault = note_fields(object, words, count, &note);
    if (fault != NONE)
        return has_instruction(behind, draft->end) ? fault : BAD_LINE;
    object->notes = with_room(object->notes, object->note_count, sizeof note);
    object->notes[object->note_count++] = note;
    draft->noted = line;
    draft->behind_note = behind;
    return NONE;
}

/* Where a name stands in the table of labels, or would stand. */
static struct label *find_label(const struct labels *labels, struct word name)
{
    uint64_t hash = name.count;
    for (size_t i = 0; i < name.count; i++)
        hash = (hash ^ name.at[i]) * 0x100000001b3;
    size_t at = (hash ^ hash >> 32) & (labels->room - 1);
    while (labels->table[at].name.at != NULL
           && (labels->table[at].name.count != name.count || memcmp(labels->table[at].name.at, name.at, name.count) != 0))
        at = (at + 1) & (labels->room - 1);
    return &labels->table[at];
}

static void widen(struct labels *labels)
{
    struct labels old = *labels;
    labels->room = old.room == 0 ? FIRST_ROOM : 2 * old.room;
    labels->table = zeros_for(labels->room, sizeof labels->table[0]);
    for (size_t i = 0; i < old.room; i++)
        if (old.table[i].name.at != NULL)
            *find_label(labels, old.table[i].name) = old.table[i];
    free(old.table);
}

static enum fault label_line(struct draft *draft, struct word name, int behind)
{
    struct labels *labels = &draft->labels;
    if (draft->object.bank_count < LEAST_BANKS || !is_name(name.at, name.count) || behind > 0)
        return BAD_LINE;
    if (2 * labels->count >= labels->room)
        widen(labels);
    struct label *label = find_label(labels, name);
    if (label->name.at != NULL)
        return TWICE_NAMED;
    *label = (struct label){name, draft->object.code_count, 0};
    labels->count++;
    return NONE;
}

static enum fault code_line(struct draft *draft, const struct word *words, int count, uint32_t line)
{
    struct object *object = &draft->object;
    struct instruction instr;
    struct word label;
    if (object->bank_count < LEAST_BANKS)
        return BAD_LINE;
    enum fault fault = instruction(words, count, object->bank_count, object->code_count, &instr, &label);
    if (fault != NONE)
        return fault;
    if (object->code_count >= MOST_INSTRUCTIONS)
        return OVER_LIMIT;
    if (label.count > 0) {
        draft->uses = with_room(draft->uses, draft->use_count, sizeof draft->uses[0]);
        draft->uses[draft->use_count++] = (struct label){label, object->code_count, line};
    }
    object->code = with_room(object->code, object->code_count, sizeof instr);
    object->code[object->code_count++] = instr;
    draft->noted = 0;
    return NONE;
}

static enum fault read_line(struct draft *draft, const uint8_t *line, const uint8_t *end, uint32_t number_of_line,
                            const uint8_t *behind)
{
    struct word words[MOST_WORDS];
    int count = words_of(line, end, words);
    if (count < 0)
        return BAD_LINE;
    if (count == 0)
        return NONE;
    struct word first = words[0];
    if (first.at[0] == '.') {
        if (is_word(first, ".note"))
            return note_line(draft, words + 1, count - 1, number_of_line, behind);
        if (is_word(first, ".symbol"))
            return symbol_line(draft, words + 1, count - 1);
        if (is_word(first, ".bank"))
            return bank_line(draft, words + 1, count - 1);
        if (is_word(first, ".object"))
            return object_line(draft, words + 1, count - 1);
    }
    if (first.at[first.count - 1] == ':')
        return label_line(draft, (struct word){first.at, first.count - 1}, count - 1);
    return code_line(draft, words, count, number_of_line);
}

static _Noreturn void end_with(const char *fault, uint32_t line)
{
    printf("fault 12 assembly %s %u\n", fault, line);
    exit(BAD_TEXT);
}

/* Ends the program with the fault of a line, or with that of the note before it where no instruction follows the note. */
static _Noreturn void end_with_fault(const struct draft *draft, enum fault fault, uint32_t line)
{
    static const char *const names[] = {"", "line", "number", "twice", "limit"};
    if (draft->noted != 0 && !has_instruction(draft->behind_note, draft->end))
        end_with(names[BAD_LINE], draft->noted);
    end_with(names[fault], line);
}

/* Reads the lines of a text. Answers the number behind that of the last. */
static uint32_t read_text(struct draft *draft, struct bytes text)
{
    const uint8_t *line = text.at;
    uint32_t number_of_line = 1;
    while (line < draft->end) {
        const uint8_t *end = line_end(line, draft->end);
        const uint8_t *behind = end == draft->end ? end : end + 1;
        enum fault fault = read_line(draft, line, end, number_of_line, behind);
        if (fault != NONE)
            end_with_fault(draft, fault, number_of_line);
        line = behind;
        number_of_line++;
    }
    return number_of_line;
}

/* Lets each use of a label lead to its place. */
static void settle(struct draft *draft)
{
    for (size_t i = 0; i < draft->use_count; i++) {
        const struct label *use = &draft->uses[i];
        const struct label *label = draft->labels.room == 0 ? NULL : find_label(&draft->labels, use->name);
        if (label == NULL || label->name.at == NULL)
            end_with("unknown", use->line);
        draft->object.code[use->place].offset = (int32_t)label->place - (int32_t)use->place;
    }
}

int main(int count, char **words)
{
    if (count != 4 || strcmp(words[1], "asm") != 0)
        end_with_usage();
    struct bytes text = read_file(words[2], TEXT_BYTES);
    struct draft draft = {.end = text.at + text.count};
    draft.object.symbols = room_for(MOST_SYMBOLS, sizeof draft.object.symbols[0]);
    uint32_t end = read_text(&draft, text);
    if (draft.noted != 0)
        end_with("line", draft.noted);
    if (draft.object.bank_count < LEAST_BANKS || draft.object.code_count == 0)
        end_with("line", end);
    settle(&draft);
    size_t size;
    uint8_t *bytes = encode(&draft.object, &size);
    write_file(words[3], bytes, size);
    puts("assembled");
    return DONE;
}
