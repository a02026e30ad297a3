/*
 * compile SRC OUT [--block-log W] [--fast]: writes the object file of the program that a source text spells, as
 * `ghostrider compile` does: the same bytes, or the line and the status of the text's first fault, by the rules of
 * docs/LANGUAGE.md, docs/PERFORMANCE.md and docs/ERRORS.md. The measure of bench/compile.
 */
#include "emitting.h"
#include "files.h"
#include "folding.h"
#include "layout.h"
#include "options.h"

#include <stdio.h>
#include <stdlib.h>
#include <string.h>

enum { USUAL_BLOCK_LOG = 9 };

/* What the words ask for. */
struct asked {
    const char *source, *output;
    uint8_t block_log;
    bool is_fast;
};

static struct asked read_words(int count, char **words)
{
    struct asked asked = {.block_log = USUAL_BLOCK_LOG};
    const char **names[] = {&asked.source, &asked.output};
    const int files = 2;
    int given = 0;
    if (count < 2 || strcmp(words[1], "compile") != 0)
        end_with_usage();
    for (int i = 2; i < count; i++) {
        const char *value;
        if ((value = option("--block-log", words, count, &i)) != NULL)
            asked.block_log = (uint8_t)number_within(3, 9, value);
        else if (strcmp(words[i], "--fast") == 0)
            asked.is_fast = true;
        else if (words[i][0] != '-' && given < files)
            *names[given++] = words[i];
        else
            end_with_usage();
    }
    if (given < files)
        end_with_usage();
    return asked;
}

int main(int count, char **words)
{
    struct asked asked = read_words(count, words);
    struct source source = read_source(asked.source);
    struct object object;
    lay_out(&source, asked.block_log, asked.is_fast, &object);
    if (asked.is_fast)
        fold(&source);
    emit(&source, asked.is_fast, &object);
    size_t byte_count;
    uint8_t *bytes = encode(&object, &byte_count);
    write_file(asked.output, bytes, byte_count);
    puts("compiled");
    return DONE;
}
