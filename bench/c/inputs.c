/* Inputs and outputs as JSON. See inputs.h. */
#include "inputs.h"

#include "files.h"
#include "json.h"

#include <stdio.h>
#include <stdlib.h>
#include <string.h>

enum { BAD_INPUT = 9, MOST_DECIMAL = 20 };

/* Puts a name as JSON writes it, within quotation marks. The characters from 127 to 159 are escaped too. */
static void put_quoted(const char *name, size_t count)
{
    static const char special[] = "\"\\\b\f\n\r\t", letters[] = "\"\\bfnrt";
    putchar('"');
    for (size_t i = 0; i < count; i++) {
        uint8_t byte = (uint8_t)name[i];
        const char *found = byte == 0 ? NULL : strchr(special, byte);
        if (found != NULL)
            printf("\\%c", letters[found - special]);
        else if (byte < 0x20 || byte == 0x7f)
            printf("\\u%04x", byte);
        else if (byte == 0xc2 && i + 1 < count && (uint8_t)name[i + 1] < 0xa0)
            printf("\\u%04x", (uint8_t)name[++i]);
        else
            putchar(byte);
    }
    putchar('"');
}

static _Noreturn void end_with(const char *fault, const struct json_member *member)
{
    printf("fault 9 input %s ", fault);
    put_quoted(member->name, member->name_bytes);
    putchar('\n');
    exit(BAD_INPUT);
}

static const struct symbol *symbol_named(const struct object *object, const struct json_member *member)
{
    for (uint32_t i = 0; i < object->symbol_count; i++) {
        const struct symbol *symbol = &object->symbols[i];
        if (symbol->name_bytes == member->name_bytes && memcmp(symbol->name, member->name, member->name_bytes) == 0)
            return symbol;
    }
    return NULL;
}

static void check_member(const struct object *object, const struct json_member *member)
{
    const struct symbol *symbol = symbol_named(object, member);
    const struct json *value = &member->value;
    bool is_number = value->kind == JSON_WORD || value->kind == JSON_OTHER_NUMBER;
    if (symbol == NULL)
        end_with("unknown", member);
    if (symbol->is_array ? value->kind != JSON_LIST : !is_number)
        end_with("shape", member);
    if (!symbol->is_array) {
        if (value->kind != JSON_WORD)
            end_with("word", member);
        return;
    }
    if (value->count != symbol->length)
        end_with("length", member);
    for (size_t i = 0; i < value->count; i++)
        if (value->items[i].kind != JSON_WORD)
            end_with("word", member);
}

int64_t **read_inputs(const char *name, const struct object *object)
{
    struct bytes file = read_file(name, INPUT_BYTES);
    struct json value;
    bool is_json = read_json(file.at, file.count, &value);
    free(file.at);
    if (!is_json || value.kind != JSON_OBJECT) {
        puts(is_json ? "fault 9 input object" : "fault 9 input json");
        exit(BAD_INPUT);
    }
    for (size_t i = 0; i < value.count; i++)
        check_member(object, &value.members[i]);
    int64_t **inputs = room_for(object->symbol_count, sizeof inputs[0]);
    for (uint32_t i = 0; i < object->symbol_count; i++)
        inputs[i] = zeros_for(object->symbols[i].length, sizeof inputs[i][0]);
    for (size_t i = 0; i < value.count; i++) {
        const struct json *given = &value.members[i].value;
        int64_t *words = inputs[symbol_named(object, &value.members[i]) - object->symbols];
        if (given->kind == JSON_WORD)
            words[0] = given->word;
        for (size_t word = 0; given->kind == JSON_LIST && word < given->count; word++)
            words[word] = given->items[word].word;
    }
    free_json(&value);
    return inputs;
}

void free_inputs(int64_t **inputs, const struct object *object)
{
    for (uint32_t i = 0; i < object->symbol_count; i++)
        free(inputs[i]);
    free(inputs);
}

char *put_decimal(char *to, int64_t number)
{
    char digits[MOST_DECIMAL];
    int count = 0;
    uint64_t left = number < 0 ? 0 - (uint64_t)number : (uint64_t)number;
    do {
        digits[count++] = (char)('0' + left % 10);
        left /= 10;
    } while (left != 0);
    if (number < 0)
        *to++ = '-';
    while (count > 0)
        *to++ = digits[--count];
    return to;
}

/* A symbol's number among those of an object that is being put in order. */
struct named {
    const struct symbol *symbol;
    uint32_t number;
};

static int compare_names(const void *one, const void *other)
{
    const struct symbol *first = ((const struct named *)one)->symbol, *second = ((const struct named *)other)->symbol;
    size_t least = first->name_bytes < second->name_bytes ? first->name_bytes : second->name_bytes;
    int order = memcmp(first->name, second->name, least);
    return order != 0 ? order : (int)first->name_bytes - (int)second->name_bytes;
}

char *output_text(const struct object *object, int64_t **words, size_t *count)
{
    struct named *order = room_for(object->symbol_count, sizeof order[0]);
    size_t most = 2;
    for (uint32_t i = 0; i < object->symbol_count; i++) {
        order[i] = (struct named){&object->symbols[i], i};
        most += NAME_BYTES + 6 + (size_t)object->symbols[i].length * (MOST_DECIMAL + 1);
    }
    qsort(order, object->symbol_count, sizeof order[0], compare_names);
    char *text = room_for(most, 1), *to = text;
    *to++ = '{';
    for (uint32_t i = 0; i < object->symbol_count; i++) {
        const struct symbol *symbol = order[i].symbol;
        if (i > 0)
            *to++ = ',';
        *to++ = '"';
        memcpy(to, symbol->name, symbol->name_bytes);
        to += symbol->name_bytes;
        *to++ = '"';
        *to++ = ':';
        if (symbol->is_array)
            *to++ = '[';
        for (uint32_t word = 0; word < symbol->length; word++) {
            if (word > 0)
                *to++ = ',';
            to = put_decimal(to, words[order[i].number][word]);
        }
        if (symbol->is_array)
            *to++ = ']';
    }
    *to++ = '}';
    free(order);
    *count = (size_t)(to - text);
    return text;
}
