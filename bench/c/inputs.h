/* What variables begin with, from a JSON object, and what they end with, as one (docs/FORMATS.md, "Inputs and outputs"). */
#ifndef INPUTS_H
#define INPUTS_H

#include "object.h"

enum { INPUT_BYTES = 67108864 };

/*
 * The words that the file of this name gives each symbol of an object, zeros where it gives none. Ends the program with
 * the line and the status of the file's first fault, where it has one.
 */
int64_t **read_inputs(const char *name, const struct object *object);

void free_inputs(int64_t **inputs, const struct object *object);

/* The text of symbols with their words, on the heap, and its length. */
char *output_text(const struct object *object, int64_t **words, size_t *count);

/* Puts a number in decimal, and answers where the next byte goes. It takes at most 20 bytes. */
char *put_decimal(char *to, int64_t number);

#endif
