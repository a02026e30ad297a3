/* Splitting source texts into tokens. See tokens.h. */
#include "tokens.h"

#include "files.h"
#include "object.h"

#include <stdio.h>
#include <stdlib.h>
#include <string.h>

enum { FIRST_TOKENS = 256 };

struct lexer {
    const uint8_t *text, *next, *end;
};

static _Noreturn void end_at(const struct lexer *lexer, const char *fault, const uint8_t *at)
{
    printf("fault 8 source %s %zu\n", fault, (size_t)(at - lexer->text));
    exit(BAD_SOURCE);
}

static bool is_digit(uint8_t byte)
{
    return byte >= '0' && byte <= '9';
}

static bool is_in_name(uint8_t byte)
{
    return is_digit(byte) || (byte >= 'a' && byte <= 'z') || (byte >= 'A' && byte <= 'Z') || byte == '_';
}

/* Goes behind white space and comments. */
static void skip_white(struct lexer *lexer)
{
    while (lexer->next < lexer->end) {
        uint8_t byte = *lexer->next;
        if (byte == ' ' || byte == '\t' || byte == '\n' || byte == '\r') {
            lexer->next++;
        } else if (byte == '/' && lexer->end - lexer->next > 1 && lexer->next[1] == '/') {
            const uint8_t *line_end = memchr(lexer->next, '\n', (size_t)(lexer->end - lexer->next));
            lexer->next = line_end == NULL ? lexer->end : line_end;
        } else {
            return;
        }
    }
}

/* Makes a token of a run that begins with a digit. */
static void read_number(struct lexer *lexer, const uint8_t *run_end, struct token *token)
{
    const uint8_t *from = lexer->next, *at = from;
    uint64_t value = 0;
    bool is_big = false;
    for (; at < run_end && is_digit(*at); at++) {
        uint64_t digit = *at - (uint64_t)'0';
        is_big = is_big || value > (INT64_MAX - digit) / 10;
        value = value * 10 + digit;
    }
    if (is_big)
        end_at(lexer, "number", from);
    if (at < run_end)
        end_at(lexer, "byte", at);
    token->kind = IS_NUMBER;
    token->number = (int64_t)value;
}

/* Makes a token of a run of letters, digits and `_` that begins with no digit: a keyword or a name. */
static void read_word(struct lexer *lexer, size_t count, struct token *token)
{
    static const char *const keywords[] = {"public", "secret", "int", "if", "else", "while"};
    token->kind = IS_NAME;
    for (unsigned i = 0; i < sizeof keywords / sizeof keywords[0]; i++)
        if (strlen(keywords[i]) == count && memcmp(keywords[i], lexer->next, count) == 0)
            token->kind = (enum token_kind)(IS_PUBLIC + i);
    if (token->kind == IS_NAME && count > NAME_BYTES)
        end_at(lexer, "name", lexer->next);
}

/* The kind of a sign of two bytes; TEXT_END where they are none. */
static enum token_kind sign_of_two(uint8_t first, uint8_t second)
{
    if (second == '=')
        switch (first) {
        case '=': return EQUAL;
        case '!': return NOT_EQUAL;
        case '<': return LESS_EQUAL;
        case '>': return GREATER_EQUAL;
        default: return TEXT_END;
        }
    if (first == '<' && second == '<')
        return SHIFT_LEFT;
    return first == '>' && second == '>' ? SHIFT_RIGHT : TEXT_END;
}

/* The kind of a sign of one byte; TEXT_END where it is none. */
static enum token_kind sign_of_one(uint8_t byte)
{
    switch (byte) {
    case '(': return LEFT_PAREN;
    case ')': return RIGHT_PAREN;
    case '[': return LEFT_BRACKET;
    case ']': return RIGHT_BRACKET;
    case '{': return LEFT_BRACE;
    case '}': return RIGHT_BRACE;
    case ';': return SEMICOLON;
    case '=': return ASSIGN;
    case '<': return LESS;
    case '>': return GREATER;
    case '+': return PLUS;
    case '-': return MINUS;
    case '*': return STAR;
    case '/': return SLASH;
    case '%': return PERCENT;
    case '&': return AMPERSAND;
    case '|': return BAR;
    case '^': return CARET;
    default: return TEXT_END;
    }
}

/* Reads the token that begins here. */
static struct token read_token(struct lexer *lexer)
{
    struct token token = {.start = (uint32_t)(lexer->next - lexer->text)};
    const uint8_t *run_end = lexer->next;
    while (run_end < lexer->end && is_in_name(*run_end))
        run_end++;
    token.count = (uint32_t)(run_end - lexer->next);
    if (token.count > 0 && is_digit(*lexer->next)) {
        read_number(lexer, run_end, &token);
    } else if (token.count > 0) {
        read_word(lexer, token.count, &token);
    } else {
        uint8_t second = lexer->end - lexer->next > 1 ? lexer->next[1] : 0;
        token.kind = sign_of_two(*lexer->next, second);
        token.count = token.kind == TEXT_END ? 1 : 2;
        if (token.kind == TEXT_END)
            token.kind = sign_of_one(*lexer->next);
        if (token.kind == TEXT_END)
            end_at(lexer, "byte", lexer->next);
    }
    lexer->next += token.count;
    return token;
}

struct token *tokens_of(const uint8_t *text, size_t count)
{
    struct lexer lexer = {text, text, text + count};
    size_t room = FIRST_TOKENS, done = 0;
    struct token *tokens = room_for(room, sizeof tokens[0]);
    for (;;) {
        skip_white(&lexer);
        if (done == room) {
            room *= 2;
            tokens = more_room(tokens, room, sizeof tokens[0]);
        }
        if (lexer.next == lexer.end)
            break;
        tokens[done++] = read_token(&lexer);
    }
    tokens[done] = (struct token){.kind = TEXT_END, .start = (uint32_t)count};
    return tokens;
}
