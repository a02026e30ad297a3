/*
 * run OBJ INPUT OUT [--cycles N] [--seed S] [--recursive]: runs an accepted object on inputs and writes its outputs.
 * trace OBJ INPUT [--cycles N] [--seed S] [--paths] [--recursive]: puts what the bus shows of the run.
 *
 * The lines, the statuses and the files are those of `ghostrider run` and `ghostrider trace`, by the rules of
 * docs/FORMATS.md and docs/MACHINE.md. The measure of bench/run and bench/oram.
 */
#include "checking.h"
#include "files.h"
#include "inputs.h"
#include "machine.h"
#include "options.h"

#include <stdio.h>
#include <stdlib.h>
#include <string.h>

enum { SPENT = 10, USUAL_CYCLES = 1000000000, LINE_BYTES = 64, WORD_BYTES = 21, HELD_BYTES = 65536 };

/* What the words ask for. */
struct asked {
    bool is_trace, paths, recursive;
    const char *object, *input, *output;
    uint32_t cycles;
    uint64_t seed;
};

/* Lines that wait to be put on standard output. */
struct lines {
    bool paths;
    size_t count;
    char held[HELD_BYTES];
};

static void put_lines(struct lines *lines)
{
    if (fwrite(lines->held, 1, lines->count, stdout) != lines->count)
        exit(UNWRITTEN);
    lines->count = 0;
}

/* Where the next bytes go, so many at most. */
static char *line_room(struct lines *lines, size_t most)
{
    if (lines->count + most > sizeof lines->held)
        put_lines(lines);
    return lines->held + lines->count;
}

static void end_piece(struct lines *lines, const char *to)
{
    lines->count = (size_t)(to - lines->held);
}

static char *put_text(char *to, const char *text)
{
    while (*text != 0)
        *to++ = *text++;
    return to;
}

static void put_access(struct lines *lines, uint32_t stamp, uint8_t bank, char direction, uint32_t block,
                       const int64_t *words, uint32_t count)
{
    char *to = put_decimal(line_room(lines, LINE_BYTES), stamp);
    if (bank >= 2) {
        to = put_decimal(put_text(to, " O"), bank);
    } else {
        to = put_text(to, bank == 0 ? " D " : " E ");
        *to++ = direction;
        *to++ = ' ';
        to = put_decimal(to, block);
    }
    for (uint32_t i = 0; bank == 0 && i < count; i++) {
        end_piece(lines, to);
        to = line_room(lines, WORD_BYTES + 1);
        *to++ = ' ';
        to = put_decimal(to, words[i]);
    }
    *to++ = '\n';
    end_piece(lines, to);
}

/* What the watcher goes by. */
struct tracing {
    struct lines lines;
    uint32_t block_words;
};

static void see_read(void *self, uint32_t stamp, uint8_t bank, uint32_t block, const int64_t *words)
{
    struct tracing *tracing = self;
    put_access(&tracing->lines, stamp, bank, 'r', block, words, tracing->block_words);
}

static void see_write(void *self, uint32_t stamp, uint8_t bank, uint32_t block, const int64_t *words)
{
    struct tracing *tracing = self;
    put_access(&tracing->lines, stamp, bank, 'w', block, words, tracing->block_words);
}

static void see_path(void *self, uint32_t stamp, uint8_t bank, const uint32_t *leaves, unsigned count)
{
    struct lines *lines = &((struct tracing *)self)->lines;
    if (!lines->paths)
        return;
    char *to = put_decimal(line_room(lines, LINE_BYTES), stamp);
    to = put_decimal(put_text(to, " P"), bank);
    for (unsigned i = 0; i < count; i++) {
        *to++ = ' ';
        to = put_decimal(to, leaves[i]);
    }
    *to++ = '\n';
    end_piece(lines, to);
}

static void see_halt(void *self, uint32_t stamp)
{
    struct lines *lines = &((struct tracing *)self)->lines;
    char *to = put_decimal(line_room(lines, LINE_BYTES), stamp);
    end_piece(lines, put_text(to, " H\n"));
}

/* Puts where the blocks of each oblivious bank stand. */
static void put_levels(struct lines *lines, const struct machine *machine, unsigned banks)
{
    for (unsigned bank = 2; bank < banks; bank++) {
        const struct path_tree *tree = oblivious_bank(machine, bank);
        char *to = put_decimal(put_text(line_room(lines, LINE_BYTES), "levels "), bank);
        for (uint32_t block = 0; block < tree->blocks; block++) {
            end_piece(lines, to);
            to = line_room(lines, LINE_BYTES);
            int level = level_of(tree, block);
            *to++ = ' ';
            to = level == IN_STASH ? put_text(to, "s") : put_decimal(to, level);
        }
        *to++ = '\n';
        end_piece(lines, to);
    }
}

static int trace(const struct asked *asked, const struct object *object, struct machine *machine)
{
    struct tracing *tracing = zeros_for(1, sizeof *tracing);
    tracing->lines.paths = asked->paths;
    tracing->block_words = block_words(object);
    const struct watcher watcher = {see_read, see_write, see_path, see_halt, tracing};
    struct end end = run_machine(machine, asked->cycles, &watcher);
    char *to = line_room(&tracing->lines, LINE_BYTES);
    end_piece(&tracing->lines, put_text(to, end.halted ? "end halted\n" : "end spent\n"));
    if (asked->paths && !asked->recursive)
        put_levels(&tracing->lines, machine, object->bank_count);
    put_lines(&tracing->lines);
    free(tracing);
    return end.halted ? DONE : SPENT;
}

static int run(const struct asked *asked, const struct object *object, struct machine *machine)
{
    struct end end = run_machine(machine, asked->cycles, NULL);
    if (!end.halted) {
        printf("fault 10 spent %u\n", asked->cycles);
        return SPENT;
    }
    int64_t **words = symbol_words(machine);
    size_t count;
    char *text = output_text(object, words, &count);
    write_file(asked->output, text, count);
    printf("halted %u\n", end.stamp);
    free(text);
    free_inputs(words, object);
    return DONE;
}

static struct asked read_words(int count, char **words)
{
    struct asked asked = {.cycles = USUAL_CYCLES};
    const char **names[] = {&asked.object, &asked.input, &asked.output};
    int given = 0;
    if (count < 2 || (strcmp(words[1], "trace") != 0 && strcmp(words[1], "run") != 0))
        end_with_usage();
    asked.is_trace = strcmp(words[1], "trace") == 0;
    const int files = asked.is_trace ? 2 : 3;
    for (int i = 2; i < count; i++) {
        const char *value;
        if ((value = option("--cycles", words, count, &i)) != NULL)
            asked.cycles = (uint32_t)number_within(1, UINT32_MAX, value);
        else if ((value = option("--seed", words, count, &i)) != NULL)
            asked.seed = number_within(0, UINT64_MAX, value);
        else if (asked.is_trace && strcmp(words[i], "--paths") == 0)
            asked.paths = true;
        else if (strcmp(words[i], "--recursive") == 0 && !asked.recursive)
            asked.recursive = true;
        else if (words[i][0] != '-' && given < files)
            *names[given++] = words[i];
        else
            end_with_usage();
    }
    if (given < files)
        end_with_usage();
    return asked;
}

int main(int count, char **words)
{
    struct asked asked = read_words(count, words);
    struct object object = read_object(asked.object);
    check_or_end(&object);
    int64_t **inputs = read_inputs(asked.input, &object);
    struct machine *machine = new_machine(&object, inputs, asked.seed, asked.recursive);
    free_inputs(inputs, &object);
    int status = asked.is_trace ? trace(&asked, &object, machine) : run(&asked, &object, machine);
    free_machine(machine);
    return status;
}
