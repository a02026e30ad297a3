/* Reading programs from their tokens, by recursive descent. See source.h. */
#include "source.h"

#include "files.h"
#include "tokens.h"

#include <stdio.h>
#include <stdlib.h>
#include <string.h>

enum { MOST_BRACKETS = 32, MOST_BRACES = 32, MOST_OPERATORS = 256, FIRST_ROOM = 64, PIECE_EXPRS = 1024, LEVELS = 6 };

/* What is read of a text. `depth` and `used` count the brackets and signs that are open and the operators and signs that
 * were used in a statement's own expressions. */
struct parser {
    const uint8_t *text;
    const struct token *next;
    struct source source;
    size_t room;
    /* The numbers of variables by their names and one more, in an open table with a power of two of places. */
    uint32_t *table;
    size_t table_room;
    unsigned depth, used, braces;
    struct expr *exprs;
    size_t exprs_left;
};

static _Noreturn void end_unexpected(const struct parser *parser)
{
    if (parser->next->kind == TEXT_END)
        puts("fault 8 source end");
    else
        printf("fault 8 source unexpected %u\n", parser->next->start);
    exit(BAD_SOURCE);
}

static _Noreturn void end_deep(const struct parser *parser)
{
    printf("fault 8 source deep %u\n", parser->next->start);
    exit(BAD_SOURCE);
}

static bool takes(struct parser *parser, enum token_kind kind)
{
    if (parser->next->kind != kind)
        return false;
    parser->next++;
    return true;
}

/* Goes behind a token of this kind, which must be there. */
static const struct token *take(struct parser *parser, enum token_kind kind)
{
    if (parser->next->kind != kind)
        end_unexpected(parser);
    return parser->next++;
}

/* Where the table has a name, or would have it. */
static uint32_t *find(const struct parser *parser, const uint8_t *name, size_t count)
{
    uint64_t hash = count;
    for (size_t i = 0; i < count; i++)
        hash = (hash ^ name[i]) * 0x100000001b3;
    size_t at = (hash ^ hash >> 32) & (parser->table_room - 1);
    for (; parser->table[at] != 0; at = (at + 1) & (parser->table_room - 1)) {
        const struct symbol *symbol = &parser->source.variables[parser->table[at] - 1].symbol;
        if (symbol->name_bytes == count && memcmp(symbol->name, name, count) == 0)
            break;
    }
    return &parser->table[at];
}

/* Makes room for one more variable. */
static void widen(struct parser *parser)
{
    struct source *source = &parser->source;
    if (source->count < parser->room)
        return;
    parser->room = parser->room == 0 ? FIRST_ROOM : 2 * parser->room;
    source->variables = more_room(source->variables, parser->room, sizeof source->variables[0]);
    free(parser->table);
    parser->table_room = 2 * parser->room;
    parser->table = zeros_for(parser->table_room, sizeof parser->table[0]);
    for (size_t i = 0; i < source->count; i++) {
        const struct symbol *symbol = &source->variables[i].symbol;
        uint32_t *place = find(parser, symbol->name, symbol->name_bytes);
        if (*place == 0)
            *place = (uint32_t)i + 1;
    }
}

/* Reads a declaration behind its label. */
static void declaration(struct parser *parser, bool is_secret)
{
    struct source *source = &parser->source;
    struct variable variable = {.symbol = {.is_secret = is_secret}, .words = 1};
    struct symbol *symbol = &variable.symbol;
    take(parser, IS_INT);
    const struct token *name = take(parser, IS_NAME);
    memcpy(symbol->name, parser->text + name->start, name->count);
    symbol->name_bytes = (uint8_t)name->count;
    symbol->is_array = takes(parser, LEFT_BRACKET);
    if (symbol->is_array) {
        variable.words = (uint64_t)take(parser, IS_NUMBER)->number;
        take(parser, RIGHT_BRACKET);
    }
    take(parser, SEMICOLON);
    symbol->length = (uint32_t)variable.words;
    widen(parser);
    uint32_t *place = find(parser, symbol->name, symbol->name_bytes);
    if (*place == 0)
        *place = (uint32_t)source->count + 1;
    else if (source->twice == SIZE_MAX)
        source->twice = source->count;
    source->variables[source->count++] = variable;
}

static int32_t variable_named(const struct parser *parser, const struct token *name)
{
    if (parser->table_room == 0)
        return UNDECLARED;
    return (int32_t)*find(parser, parser->text + name->start, name->count) - 1;
}

static struct expr *new_expr(struct parser *parser, struct expr made)
{
    if (parser->exprs_left == 0) {
        parser->exprs = room_for(PIECE_EXPRS, sizeof parser->exprs[0]);
        parser->exprs_left = PIECE_EXPRS;
    }
    parser->exprs_left--;
    *parser->exprs = made;
    return parser->exprs++;
}

static enum name_fault use_fault(const struct parser *parser, int32_t variable, bool is_array)
{
    if (variable == UNDECLARED)
        return NOT_DECLARED;
    return parser->source.variables[variable].symbol.is_array == is_array ? NAMES_FIT : WRONG_SHAPE;
}

static struct expr *constant(struct parser *parser, int64_t number)
{
    return new_expr(parser, (struct expr){.kind = CONSTANT, .height = 1, .weight = 1, .number = number});
}

static struct expr *scalar(struct parser *parser, int32_t variable)
{
    bool is_secret = variable != UNDECLARED && parser->source.variables[variable].symbol.is_secret;
    return new_expr(parser, (struct expr){.kind = SCALAR, .is_secret = is_secret, .variable = variable, .height = 1, .weight = 1,
                                          .fault = use_fault(parser, variable, false)});
}

/* Keeps that an array has a secret index. */
static void mark_index(struct parser *parser, int32_t variable, const struct expr *index)
{
    if (variable != UNDECLARED && index->is_secret)
        parser->source.variables[variable].has_secret_index = true;
}

static struct expr *element(struct parser *parser, int32_t variable, const struct expr *index)
{
    bool is_secret = variable != UNDECLARED && parser->source.variables[variable].symbol.is_secret;
    enum name_fault fault = use_fault(parser, variable, true);
    mark_index(parser, variable, index);
    return new_expr(parser, (struct expr){
        .kind = ELEMENT, .is_secret = is_secret || index->is_secret, .leaks = index->leaks || (index->is_secret && !is_secret),
        .variable = variable, .height = index->height + 1, .weight = index->weight + 1, .left = index,
        .fault = fault != NAMES_FIT ? fault : index->fault,
    });
}

static struct expr *operation(struct parser *parser, uint8_t opcode, const struct expr *left, const struct expr *right)
{
    return new_expr(parser, (struct expr){
        .kind = OPERATION, .opcode = opcode, .is_secret = left->is_secret || right->is_secret,
        .leaks = left->leaks || right->leaks, .fault = left->fault != NAMES_FIT ? left->fault : right->fault,
        .height = (left->height > right->height ? left->height : right->height) + 1,
        .weight = left->weight + right->weight + 1, .left = left, .right = right,
    });
}

/* The operation of a sign between two operands, and how tightly it binds; no operation where the level is below 0. */
struct operator {
    uint8_t opcode;
    int level;
};

static struct operator operator_of(enum token_kind kind)
{
    switch (kind) {
    case BAR: return (struct operator){OR, 0};
    case CARET: return (struct operator){XOR, 1};
    case AMPERSAND: return (struct operator){AND, 2};
    case SHIFT_LEFT: return (struct operator){SHL, 3};
    case SHIFT_RIGHT: return (struct operator){SHR, 3};
    case PLUS: return (struct operator){ADD, 4};
    case MINUS: return (struct operator){SUB, 4};
    case STAR: return (struct operator){MUL, 5};
    case SLASH: return (struct operator){DIV, 5};
    case PERCENT: return (struct operator){REM, 5};
    default: return (struct operator){NOP, -1};
    }
}

static struct expr *expression(struct parser *parser, int least);

/* Opens a bracket or a sign, where one more may be open. */
static void open_one(struct parser *parser)
{
    if (parser->depth >= MOST_BRACKETS)
        end_deep(parser);
    parser->depth++;
    parser->next++;
}

/* Counts an operator or a sign, where one more may be used. */
static void use_one(struct parser *parser)
{
    if (parser->used >= MOST_OPERATORS)
        end_deep(parser);
    parser->used++;
}

/* The expression within a bracket, up to its end. */
static struct expr *bracketed(struct parser *parser, enum token_kind end)
{
    open_one(parser);
    struct expr *inner = expression(parser, 0);
    take(parser, end);
    parser->depth--;
    return inner;
}

static struct expr *negated(struct parser *parser);

static struct expr *factor(struct parser *parser)
{
    const struct token *token = parser->next;
    switch (token->kind) {
    case IS_NUMBER:
        parser->next++;
        return constant(parser, token->number);
    case IS_NAME:
        parser->next++;
        if (parser->next->kind != LEFT_BRACKET)
            return scalar(parser, variable_named(parser, token));
        return element(parser, variable_named(parser, token), bracketed(parser, RIGHT_BRACKET));
    case LEFT_PAREN: return bracketed(parser, RIGHT_PAREN);
    case MINUS: return negated(parser);
    default: end_unexpected(parser);
    }
}

static struct expr *negated(struct parser *parser)
{
    if (parser->depth >= MOST_BRACKETS)
        end_deep(parser);
    use_one(parser);
    open_one(parser);
    struct expr *inner = factor(parser);
    parser->depth--;
    return operation(parser, SUB, constant(parser, 0), inner);
}

/* An expression of operators that bind at this level or tighter. */
static struct expr *expression(struct parser *parser, int least)
{
    struct expr *left = factor(parser);
    for (;;) {
        struct operator operator = operator_of(parser->next->kind);
        if (operator.level < least)
            return left;
        use_one(parser);
        parser->next++;
        left = operation(parser, operator.opcode, left, expression(parser, operator.level + 1));
    }
}

static struct guard guard(struct parser *parser)
{
    struct guard guard;
    parser->depth = parser->used = 0;
    take(parser, LEFT_PAREN);
    guard.left = expression(parser, 0);
    enum token_kind kind = parser->next->kind;
    if (kind < EQUAL || kind > GREATER_EQUAL)
        end_unexpected(parser);
    parser->next++;
    guard.opcode = (uint8_t)(BR_EQ + (kind - EQUAL));
    guard.right = expression(parser, 0);
    take(parser, RIGHT_PAREN);
    return guard;
}

static struct block block(struct parser *parser, enum token_kind end);

/* The block behind a guard or an `else`. */
static struct block braced(struct parser *parser)
{
    if (parser->next->kind == LEFT_BRACE && parser->braces >= MOST_BRACES)
        end_deep(parser);
    take(parser, LEFT_BRACE);
    parser->braces++;
    struct block made = block(parser, RIGHT_BRACE);
    parser->braces--;
    return made;
}

static struct statement assignment(struct parser *parser)
{
    struct statement made = {.kind = SET, .variable = variable_named(parser, take(parser, IS_NAME))};
    parser->depth = parser->used = 0;
    if (parser->next->kind == LEFT_BRACKET) {
        made.kind = PUT;
        made.index = bracketed(parser, RIGHT_BRACKET);
        mark_index(parser, made.variable, made.index);
    }
    take(parser, ASSIGN);
    made.value = expression(parser, 0);
    take(parser, SEMICOLON);
    return made;
}

static struct statement statement(struct parser *parser)
{
    if (takes(parser, IS_WHILE)) {
        struct statement made = {.kind = LOOP, .guard = guard(parser)};
        made.first = braced(parser);
        return made;
    }
    if (takes(parser, IS_IF)) {
        struct statement made = {.kind = CHOICE, .guard = guard(parser)};
        made.first = braced(parser);
        if (takes(parser, IS_ELSE))
            made.second = braced(parser);
        return made;
    }
    return assignment(parser);
}

/* Statements up to the token that ends them. */
static struct block block(struct parser *parser, enum token_kind end)
{
    struct block made = {NULL, 0};
    while (!takes(parser, end)) {
        struct statement next = statement(parser);
        if ((made.count & (made.count - 1)) == 0)
            made.items = more_room(made.items, made.count == 0 ? 1 : 2 * made.count, sizeof next);
        made.items[made.count++] = next;
    }
    return made;
}

struct source parse(const uint8_t *text, size_t count)
{
    struct token *tokens = tokens_of(text, count);
    struct parser parser = {.text = text, .next = tokens, .source = {.twice = SIZE_MAX}};
    while (parser.next->kind == IS_PUBLIC || parser.next->kind == IS_SECRET) {
        bool is_secret = parser.next++->kind == IS_SECRET;
        declaration(&parser, is_secret);
    }
    parser.source.body = block(&parser, TEXT_END);
    free(tokens);
    free(parser.table);
    return parser.source;
}

struct source read_source(const char *name)
{
    struct bytes file = read_file(name, SOURCE_BYTES);
    struct source source = parse(file.at, file.count);
    free(file.at);
    type_or_end(&source);
    return source;
}
