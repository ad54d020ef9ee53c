/* Decodes a sheet that is accepted (decoded.h). */
#include "decoded.h"

#include <stdbool.h>
#include <string.h>

enum { KIND, NEXT, A, B, C, D };

static const uint8_t *records;
static uint8_t leaves_of[MOST_RECORDS]; /* of types */
static uint16_t types;                  /* the first type */
static uint16_t scope[MOST_NAMES];      /* types of the names */

static struct decoded sheet;
static struct expression expressions[MOST_RECORDS];
static struct pattern patterns[MOST_RECORDS];
static bool decoded[MOST_RECORDS]; /* which patterns are: IFs may share one */

/* Room for the bytes of expressions, and how much is taken. */
static uint8_t room[2 * MOST_RECORDS * MOST_LEAVES];
static size_t taken;

static uint16_t word(size_t record, size_t number)
{
    return word_of(records, record, number);
}

static void read_types(void)
{
    for (size_t type = types; type != 0; type = word(type, NEXT))
        leaves_of[type] = word(type, KIND) == FLAT_TYPE
                              ? 1
                              : (uint8_t)(leaves_of[word(type, A)] + leaves_of[word(type, B)]);
}

static uint16_t pair_type(uint16_t first, uint16_t second)
{
    uint16_t type = types;
    while (word(type, KIND) != PAIR_TYPE || word(type, A) != first || word(type, B) != second)
        type = word(type, NEXT);
    return type;
}

static uint8_t *new_bytes(int leaves)
{
    uint8_t *bytes = room + taken;
    taken += (size_t)leaves;
    memset(bytes, 0, (size_t)leaves);
    return bytes;
}

static uint8_t *new_value(uint16_t leaf, int leaves)
{
    uint8_t *bytes = new_bytes(leaves);
    for (int i = 0; i < leaves; i++, leaf = word(leaf, NEXT))
        bytes[i] = (uint8_t)word(leaf, A);
    return bytes;
}

/* How many leaves a pattern looks at; an alternative looks at as many as the first. */
static int read_pattern(uint16_t record)
{
    struct pattern *pattern = &patterns[record];
    int leaves = 1;
    pattern->kind = word(record, KIND);
    if (pattern->kind == WHOLE)
        leaves = leaves_of[word(record, A)];
    if (pattern->kind == CONSTRUCTOR)
        pattern->constructor = word(record, B);
    if (pattern->kind == PAIR_PATTERN) {
        pattern->a = &patterns[word(record, A)];
        pattern->b = &patterns[word(record, B)];
        pattern->first_leaves = read_pattern(word(record, A));
        leaves = pattern->first_leaves + read_pattern(word(record, B));
    }
    uint16_t other = word(record, NEXT);
    pattern->other = other != 0 ? &patterns[other] : NULL;
    if (other != 0)
        read_pattern(other);
    return leaves;
}

/* Gives back the expression's type. */
static uint16_t read_expression(uint16_t record, int names)
{
    struct expression *e = &expressions[record];
    uint16_t a = word(record, A), b = word(record, B), c = word(record, C), type = 0;
    e->kind = word(record, KIND);
    e->a = e->b = e->c = NULL;
    switch (e->kind) {
    case CONSTANT:
        type = a;
        e->bytes = new_value(b, leaves_of[type]);
        break;
    case NAME:
        e->place = names - 1 - a;
        type = scope[e->place];
        break;
    case PAIR:
        e->a = &expressions[a];
        e->b = &expressions[b];
        type = read_expression(a, names);
        type = pair_type(type, read_expression(b, names));
        e->bytes = new_bytes(leaves_of[type]);
        break;
    case FIRST:
    case SECOND:
        e->a = &expressions[a];
        type = read_expression(a, names);
        e->place = e->kind == FIRST ? 0 : leaves_of[word(type, A)];
        type = word(type, e->kind == FIRST ? A : B);
        break;
    case LET:
        e->a = &expressions[a];
        e->b = &expressions[b];
        e->place = names;
        type = read_expression(a, names);
        scope[names] = type;
        type = read_expression(b, names + 1);
        break;
    case FEEDBACK:
        e->b = &expressions[b];
        e->c = &expressions[c];
        e->place = names;
        e->bytes = new_bytes(leaves_of[a]);
        scope[names] = a;
        read_expression(b, names + 1);
        type = read_expression(c, names + 1);
        break;
    case IF:
        e->a = &expressions[a];
        e->b = &expressions[b];
        e->c = &expressions[c];
        e->pattern = &patterns[word(record, D)];
        if (!decoded[word(record, D)]) {
            decoded[word(record, D)] = true;
            read_pattern(word(record, D));
        }
        read_expression(a, names);
        type = read_expression(b, names);
        read_expression(c, names);
        e->bytes = new_bytes(leaves_of[type]);
        break;
    case DELAY:
        e->c = &expressions[c];
        type = a;
        e->bytes = new_value(b, leaves_of[type]);
        e->next = new_bytes(leaves_of[type]);
        e->leaf = b;
        sheet.delays[sheet.delay_count++] = e;
        read_expression(c, names);
        break;
    }
    e->leaves = leaves_of[type];
    return type;
}

const struct decoded *decode(const uint8_t *bytes)
{
    records = bytes;
    types = word(0, NEXT);
    sheet.delay_count = taken = 0;
    memset(decoded, 0, sizeof decoded);
    read_types();
    scope[0] = word(0, A);
    sheet.input = leaves_of[scope[0]];
    sheet.root = &expressions[word(0, B)];
    sheet.output = read_expression(word(0, B), 1);
    return &sheet;
}
