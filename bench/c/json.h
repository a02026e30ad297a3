/*
 * JSON values, read as `serde_json` reads them: of a name that stands twice the last value counts, at most 127 lists and
 * objects stand within one another, and texts are UTF-8 without half surrogates.
 */
#ifndef JSON_H
#define JSON_H

#include <stdbool.h>
#include <stddef.h>
#include <stdint.h>

/* A number is a word where it is written without point and exponent, and is from -2^63 to 2^63 - 1; `-0` is none. */
enum json_kind { JSON_NULL, JSON_TRUTH, JSON_WORD, JSON_OTHER_NUMBER, JSON_TEXT, JSON_LIST, JSON_OBJECT };

struct json_member;

struct json {
    enum json_kind kind;
    int64_t word;
    size_t count;
    union {
        char *text;
        struct json *items;
        /* In byte order of the names, each of which stands once. */
        struct json_member *members;
    };
};

struct json_member {
    char *name;
    size_t name_bytes;
    struct json value;
    /* Where the member stands in the text. */
    size_t place;
};

/* Reads the one value that the bytes are. Answers whether they are one. */
bool read_json(const uint8_t *bytes, size_t count, struct json *value);

void free_json(struct json *value);

#endif
