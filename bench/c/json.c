/* Reading JSON. See json.h. */
#include "json.h"

#include "files.h"

#include <math.h>
#include <stdlib.h>
#include <string.h>

enum { MOST_DEPTH = 128 };

struct json_reader {
    const uint8_t *next, *end;
    int depth;
};

static bool read_value(struct json_reader *reader, struct json *value);

static void skip_white(struct json_reader *reader)
{
    while (reader->next < reader->end && strchr(" \t\n\r", *reader->next) != NULL && *reader->next != 0)
        reader->next++;
}

/* Reads this byte behind white space, if it is there. */
static bool takes(struct json_reader *reader, uint8_t byte)
{
    skip_white(reader);
    if (reader->next == reader->end || *reader->next != byte)
        return false;
    reader->next++;
    return true;
}

static bool takes_word(struct json_reader *reader, const char *word)
{
    size_t count = strlen(word);
    if ((size_t)(reader->end - reader->next) < count || memcmp(reader->next, word, count) != 0)
        return false;
    reader->next += count;
    return true;
}

static bool is_digit(const struct json_reader *reader)
{
    return reader->next < reader->end && *reader->next >= '0' && *reader->next <= '9';
}

static bool skip_digits(struct json_reader *reader)
{
    if (!is_digit(reader))
        return false;
    while (is_digit(reader))
        reader->next++;
    return true;
}

/* The word that digits write behind a sign, if it is in range. */
static bool word_of(const uint8_t *digits, const uint8_t *end, bool is_negative, int64_t *word)
{
    uint64_t most = is_negative ? (uint64_t)1 << 63 : ((uint64_t)1 << 63) - 1, value = 0;
    for (; digits < end; digits++) {
        uint64_t digit = *digits - (uint64_t)'0';
        if (value > (most - digit) / 10)
            return false;
        value = value * 10 + digit;
    }
    if (is_negative && value == 0)
        return false;
    *word = is_negative ? (int64_t)(0 - value) : (int64_t)value;
    return true;
}

/* Whether a number is a finite one of 64 bits. */
static bool is_finite(const uint8_t *from, const uint8_t *end)
{
    size_t count = (size_t)(end - from);
    char *text = room_for(count + 1, 1);
    memcpy(text, from, count);
    text[count] = 0;
    bool finite = isfinite(strtod(text, NULL));
    free(text);
    return finite;
}

static bool read_number(struct json_reader *reader, struct json *value)
{
    const uint8_t *from = reader->next;
    bool is_negative = takes_word(reader, "-");
    const uint8_t *digits = reader->next;
    if (!skip_digits(reader) || (*digits == '0' && reader->next - digits > 1))
        return false;
    const uint8_t *digits_end = reader->next;
    bool is_whole = true;
    if (takes_word(reader, ".")) {
        is_whole = false;
        if (!skip_digits(reader))
            return false;
    }
    if (takes_word(reader, "e") || takes_word(reader, "E")) {
        is_whole = false;
        if (!takes_word(reader, "+"))
            takes_word(reader, "-");
        if (!skip_digits(reader))
            return false;
    }
    bool is_word = is_whole && word_of(digits, digits_end, is_negative, &value->word);
    value->kind = is_word ? JSON_WORD : JSON_OTHER_NUMBER;
    return is_word || is_finite(from, reader->next);
}

static bool read_hex(struct json_reader *reader, uint32_t *code)
{
    *code = 0;
    for (int i = 0; i < 4; i++) {
        static const char digits[] = "0123456789abcdef0123456789ABCDEF";
        const char *found = NULL;
        if (reader->next < reader->end && *reader->next != 0)
            found = strchr(digits, *reader->next);
        if (found == NULL)
            return false;
        *code = *code * 16 + (uint32_t)((found - digits) % 16);
        reader->next++;
    }
    return true;
}

static char *put_utf8(char *to, uint32_t code)
{
    if (code < 0x80) {
        *to++ = (char)code;
    } else if (code < 0x800) {
        *to++ = (char)(0xc0 | code >> 6);
        *to++ = (char)(0x80 | (code & 0x3f));
    } else if (code < 0x10000) {
        *to++ = (char)(0xe0 | code >> 12);
        *to++ = (char)(0x80 | (code >> 6 & 0x3f));
        *to++ = (char)(0x80 | (code & 0x3f));
    } else {
        *to++ = (char)(0xf0 | code >> 18);
        *to++ = (char)(0x80 | (code >> 12 & 0x3f));
        *to++ = (char)(0x80 | (code >> 6 & 0x3f));
        *to++ = (char)(0x80 | (code & 0x3f));
    }
    return to;
}

/* Reads what stands behind a `\`. */
static bool read_escape(struct json_reader *reader, char **to)
{
    static const char letters[] = "\"\\/bfnrt", meanings[] = "\"\\/\b\f\n\r\t";
    if (reader->next == reader->end || *reader->next == 0)
        return false;
    uint8_t letter = *reader->next++;
    const char *found = strchr(letters, letter);
    if (found != NULL) {
        *(*to)++ = meanings[found - letters];
        return true;
    }
    uint32_t code, low;
    if (letter != 'u' || !read_hex(reader, &code) || (code >= 0xdc00 && code <= 0xdfff))
        return false;
    if (code >= 0xd800 && code <= 0xdbff) {
        if (!takes_word(reader, "\\u") || !read_hex(reader, &low) || low < 0xdc00 || low > 0xdfff)
            return false;
        code = 0x10000 + ((code - 0xd800) << 10) + (low - 0xdc00);
    }
    *to = put_utf8(*to, code);
    return true;
}

/* Reads a character of more than one byte. */
static bool read_utf8(struct json_reader *reader, char **to)
{
    static const struct { uint8_t low, high, second_low, second_high; int more; } forms[] = {
        {0xc2, 0xdf, 0x80, 0xbf, 1}, {0xe0, 0xe0, 0xa0, 0xbf, 2}, {0xe1, 0xec, 0x80, 0xbf, 2}, {0xed, 0xed, 0x80, 0x9f, 2},
        {0xee, 0xef, 0x80, 0xbf, 2}, {0xf0, 0xf0, 0x90, 0xbf, 3}, {0xf1, 0xf3, 0x80, 0xbf, 3}, {0xf4, 0xf4, 0x80, 0x8f, 3},
    };
    for (size_t i = 0; i < sizeof forms / sizeof forms[0]; i++) {
        uint8_t first = *reader->next;
        if (first < forms[i].low || first > forms[i].high)
            continue;
        if (reader->end - reader->next <= forms[i].more || reader->next[1] < forms[i].second_low
            || reader->next[1] > forms[i].second_high)
            return false;
        for (int more = 2; more <= forms[i].more; more++)
            if ((reader->next[more] & 0xc0) != 0x80)
                return false;
        memcpy(*to, reader->next, (size_t)forms[i].more + 1);
        *to += forms[i].more + 1;
        reader->next += forms[i].more + 1;
        return true;
    }
    return false;
}

/* Reads a text behind its first quotation mark. */
static bool read_text(struct json_reader *reader, char **text, size_t *count)
{
    const uint8_t *end = reader->next;
    while (end < reader->end && *end != '"')
        end += *end == '\\' ? 2 : 1;
    char *to = *text = room_for((size_t)(end - reader->next) + 1, 1);
    while (reader->next < reader->end) {
        uint8_t byte = *reader->next;
        bool is_read = true;
        if (byte == '"') {
            reader->next++;
            *count = (size_t)(to - *text);
            return true;
        }
        if (byte < 0x20) {
            is_read = false;
        } else if (byte == '\\') {
            reader->next++;
            is_read = read_escape(reader, &to);
        } else if (byte < 0x80) {
            *to++ = (char)byte;
            reader->next++;
        } else {
            is_read = read_utf8(reader, &to);
        }
        if (!is_read)
            break;
    }
    free(*text);
    return false;
}

/* Room for one more item of a size behind so many: the room doubles at each power of two. */
static void *with_room(void *items, size_t count, size_t size)
{
    return (count & (count - 1)) == 0 ? more_room(items, count == 0 ? 1 : 2 * count, size) : items;
}

/* Reads a list behind its bracket. */
static bool read_list(struct json_reader *reader, struct json *value)
{
    value->kind = JSON_LIST;
    if (takes(reader, ']'))
        return true;
    do {
        struct json item;
        if (!read_value(reader, &item))
            return false;
        value->items = with_room(value->items, value->count, sizeof item);
        value->items[value->count++] = item;
    } while (takes(reader, ','));
    return takes(reader, ']');
}

static int compare_members(const void *one, const void *other)
{
    const struct json_member *first = one, *second = other;
    size_t least = first->name_bytes < second->name_bytes ? first->name_bytes : second->name_bytes;
    int order = memcmp(first->name, second->name, least);
    if (order != 0)
        return order;
    if (first->name_bytes != second->name_bytes)
        return first->name_bytes < second->name_bytes ? -1 : 1;
    return first->place < second->place ? -1 : 1;
}

static bool have_one_name(const struct json_member *first, const struct json_member *second)
{
    return first->name_bytes == second->name_bytes && memcmp(first->name, second->name, first->name_bytes) == 0;
}

/* Puts members in byte order of their names, and keeps of each name the last. */
static void order_members(struct json *value)
{
    if (value->count == 0)
        return;
    qsort(value->members, value->count, sizeof value->members[0], compare_members);
    size_t kept = 0;
    for (size_t i = 0; i < value->count; i++) {
        bool is_last = i + 1 == value->count || !have_one_name(&value->members[i], &value->members[i + 1]);
        if (is_last) {
            value->members[kept++] = value->members[i];
        } else {
            free(value->members[i].name);
            free_json(&value->members[i].value);
        }
    }
    value->count = kept;
}

/* Reads an object behind its brace. */
static bool read_object(struct json_reader *reader, struct json *value)
{
    value->kind = JSON_OBJECT;
    if (takes(reader, '}'))
        return true;
    do {
        struct json_member member = {.place = value->count};
        if (!takes(reader, '"') || !read_text(reader, &member.name, &member.name_bytes))
            return false;
        if (!takes(reader, ':') || !read_value(reader, &member.value)) {
            free(member.name);
            return false;
        }
        value->members = with_room(value->members, value->count, sizeof member);
        value->members[value->count++] = member;
    } while (takes(reader, ','));
    if (!takes(reader, '}'))
        return false;
    order_members(value);
    return true;
}

static bool read_value(struct json_reader *reader, struct json *value)
{
    memset(value, 0, sizeof *value);
    skip_white(reader);
    if (reader->next == reader->end)
        return false;
    bool is_read;
    switch (*reader->next) {
    case 'n': return takes_word(reader, "null");
    case 't': value->kind = JSON_TRUTH; return takes_word(reader, "true");
    case 'f': value->kind = JSON_TRUTH; return takes_word(reader, "false");
    case '"':
        reader->next++;
        is_read = read_text(reader, &value->text, &value->count);
        value->kind = is_read ? JSON_TEXT : JSON_NULL;
        return is_read;
    case '[': case '{':
        if (--reader->depth == 0)
            return false;
        is_read = *reader->next++ == '[' ? read_list(reader, value) : read_object(reader, value);
        reader->depth++;
        if (!is_read)
            free_json(value);
        return is_read;
    default:
        return read_number(reader, value);
    }
}

bool read_json(const uint8_t *bytes, size_t count, struct json *value)
{
    struct json_reader reader = {bytes, bytes + count, MOST_DEPTH};
    if (!read_value(&reader, value))
        return false;
    skip_white(&reader);
    return reader.next == reader.end;
}

void free_json(struct json *value)
{
    switch (value->kind) {
    case JSON_TEXT:
        free(value->text);
        break;
    case JSON_LIST:
        for (size_t i = 0; i < value->count; i++)
            free_json(&value->items[i]);
        free(value->items);
        break;
    case JSON_OBJECT:
        for (size_t i = 0; i < value->count; i++) {
            free(value->members[i].name);
            free_json(&value->members[i].value);
        }
        free(value->members);
        break;
    default:
        break;
    }
    value->kind = JSON_NULL;
}
