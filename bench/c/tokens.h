/* The tokens of source texts (docs/LANGUAGE.md, "Tokens"). */
#ifndef TOKENS_H
#define TOKENS_H

#include <stddef.h>
#include <stdint.h>

/* The status of a text that spells no program. */
enum { BAD_SOURCE = 8 };

/* The comparisons and the operations stand in the order of their opcodes. */
enum token_kind {
    IS_PUBLIC, IS_SECRET, IS_INT, IS_IF, IS_ELSE, IS_WHILE,
    LEFT_PAREN, RIGHT_PAREN, LEFT_BRACKET, RIGHT_BRACKET, LEFT_BRACE, RIGHT_BRACE, SEMICOLON, ASSIGN,
    EQUAL, NOT_EQUAL, LESS, LESS_EQUAL, GREATER, GREATER_EQUAL,
    PLUS, MINUS, STAR, SLASH, PERCENT, AMPERSAND, BAR, CARET, SHIFT_LEFT, SHIFT_RIGHT,
    IS_NUMBER, IS_NAME, TEXT_END
};

/* A token: its kind, its first byte, how many bytes it has, and the number that it is. */
struct token {
    enum token_kind kind;
    uint32_t start, count;
    int64_t number;
};

/*
 * The tokens of a text, on the heap, with one of the kind TEXT_END behind them. Ends the program with the line and the
 * status of the first wrong piece, where there is one.
 */
struct token *tokens_of(const uint8_t *text, size_t count);

#endif
