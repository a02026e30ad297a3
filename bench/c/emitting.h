/* The code of compiled programs: the same instructions and notes as `ghostrider compile` makes. */
#ifndef EMITTING_H
#define EMITTING_H

#include "source.h"

/* Gives an object the code and the notes of a program whose variables have their places, as with `--fast` or without it. */
void emit(const struct source *source, bool is_fast, struct object *object);

#endif
