/*
 * check OBJ: says whether an object is accepted, as `ghostrider check` does: the same line and the same status, by the rules
 * of docs/FORMATS.md, docs/MACHINE.md and docs/ERRORS.md. The measure of bench/check.
 */
#include "checking.h"
#include "files.h"

#include <stdio.h>
#include <string.h>

int main(int count, char **words)
{
    if (count != 3 || strcmp(words[1], "check") != 0)
        end_with_usage();
    struct object object = read_object(words[2]);
    check_or_end(&object);
    puts("accepted");
    return DONE;
}
