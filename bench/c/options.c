/* The words of a call. See options.h. */
#include "options.h"

#include "files.h"

#include <string.h>

enum { MOST_DIGITS = 20 };

uint64_t number_within(uint64_t low, uint64_t high, const char *word)
{
    size_t digits = strlen(word);
    uint64_t value = 0;
    if (digits < 1 || digits > MOST_DIGITS || strspn(word, "0123456789") != digits)
        end_with_usage();
    for (; *word != 0; word++) {
        uint64_t digit = (uint64_t)(*word - '0');
        if (value > (high - digit) / 10)
            end_with_usage();
        value = value * 10 + digit;
    }
    if (value < low)
        end_with_usage();
    return value;
}

const char *option(const char *name, char **words, int count, int *at)
{
    size_t length = strlen(name);
    if (strncmp(words[*at], name, length) != 0)
        return NULL;
    if (words[*at][length] == '=')
        return words[*at] + length + 1;
    if (words[*at][length] != 0 || *at + 1 >= count)
        return NULL;
    return words[++*at];
}
