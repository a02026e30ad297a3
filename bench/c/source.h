/*
 * Programs of the source language: their variables and statements, how a text spells them, and when they are well typed
 * and within the limits (docs/LANGUAGE.md, "Grammar", and docs/ERRORS.md).
 */
#ifndef SOURCE_H
#define SOURCE_H

#include "object.h"

enum { SOURCE_BYTES = 1048576, UNDECLARED = -1, MOST_SPREAD = 5 };

/* A variable: its symbol, whose place is that of its layout once there is one; its words; whether an array has a secret
 * index somewhere in the program; the slot of its layout, and whether that holds the variable for the whole run. A spread
 * array is held by several slots, the first of which is its slot: one for each of its blocks, in order. */
struct variable {
    struct symbol symbol;
    uint64_t words;
    bool has_secret_index, is_resident;
    uint8_t slot, spread_count, spread[MOST_SPREAD];
};

/* The first fault of the names in an expression. */
enum name_fault { NAMES_FIT, NOT_DECLARED, WRONG_SHAPE };

enum expr_kind { CONSTANT, SCALAR, ELEMENT, OPERATION };

/* An expression. An element has its index on the left; what is said of its parts is kept in each. */
struct expr {
    enum expr_kind kind;
    /* The operation, by the opcode of its instruction. */
    uint8_t opcode;
    bool is_secret;
    /* A public array has a secret index in it. */
    bool leaks;
    enum name_fault fault;
    int32_t variable;
    uint32_t height, weight;
    int64_t number;
    const struct expr *left, *right;
};

/* A guard, with the opcode of the branch by its comparison. */
struct guard {
    uint8_t opcode;
    const struct expr *left, *right;
};

struct statement;

struct block {
    struct statement *items;
    size_t count;
};

enum statement_kind { SET, PUT, CHOICE, LOOP };

/* A statement. An assignment has the number of its variable, the index where it is of an element, and the value; the
 * others have a guard and blocks. */
struct statement {
    enum statement_kind kind;
    int32_t variable;
    const struct expr *index, *value;
    struct guard guard;
    struct block first, second;
};

/* A program. `twice` is the number of the first declaration of a name that stands before, if it is below the count. */
struct source {
    struct variable *variables;
    size_t count, twice;
    struct block body;
};

static inline bool is_secret_guard(const struct guard *guard)
{
    return guard->left->is_secret || guard->right->is_secret;
}

/* The program that the tokens of a text are, or the end of the program with the line and the status of its first fault. */
struct source parse(const uint8_t *text, size_t count);

/* Ends the program with the line and the status of the first fault of types or limits, where there is one. */
void type_or_end(const struct source *source);

/* The well-typed program that a file spells, or the end of the program as above. */
struct source read_source(const char *name);

#endif
