/*
 * How long a cycle of a sheet can take, before it is run: a bound on its steps, which a host can
 * copy and call. docs/SHEETS.md, Time, has the nanoseconds that a step took.
 *
 * A step is an expression evaluated, a leaf copied or compared, a pattern matched with a value, or
 * a record looked at after the cycle, for its delays. A pair pattern counts three times, for itself
 * and for the two chains in it. What lies in a feedback of w leaves is evaluated at most w + 1
 * times for each time that the feedback is.
 */
#ifndef STEPS_H
#define STEPS_H

#include <stdint.h>

#include "sheet.h"

/* The words and the kinds of records. */
enum { WORD_KIND, WORD_NEXT, WORD_A, WORD_B, WORD_C, WORD_D };
enum {
    KIND_FLAT_TYPE = 16,
    KIND_PAIR_TYPE = 17,
    KIND_CONSTANT = 32,
    KIND_NAME = 33,
    KIND_PAIR = 34,
    KIND_FIRST = 35,
    KIND_SECOND = 36,
    KIND_LET = 37,
    KIND_FEEDBACK = 38,
    KIND_IF = 39,
    KIND_DELAY = 40,
    KIND_WHOLE_PATTERN = 48,
    KIND_CONSTRUCTOR_PATTERN = 49,
    KIND_PAIR_PATTERN = 50
};

/*
 * The shape of a value is a record: its type, or the pair whose value it is, so that no pair type
 * is looked for.
 */
struct steps {
    const uint8_t *sheet;
    uint8_t leaves[SHEET_MOST_RECORDS];   /* of the values of a type or of a pair */
    uint16_t shapes[SHEET_MOST_RECORDS];  /* of the values of an expression */
    uint16_t matched[SHEET_MOST_RECORDS]; /* the steps of a match from this alternative on */
    uint16_t scope[64];                   /* the shapes of the names, the input's first */
    uint64_t total;
};

static unsigned word_of(const uint8_t *sheet, unsigned record, unsigned word)
{
    const uint8_t *at = sheet + 12 * record + 2 * word;
    return at[0] + 256u * at[1];
}

/* The shape of a part of a value, the first by word a and the second by word b. */
static unsigned part_of(const struct steps *steps, unsigned shape, unsigned word)
{
    unsigned part = word_of(steps->sheet, shape, word);
    return word_of(steps->sheet, shape, WORD_KIND) == KIND_PAIR ? steps->shapes[part] : part;
}

/*
 * Adds the steps of an expression that is evaluated so many times with so many names in scope, and
 * gives its shape. Expressions lie at most 64 deep.
 */
static unsigned add_steps(struct steps *steps, unsigned record, uint64_t times, unsigned names)
{
    unsigned a = word_of(steps->sheet, record, WORD_A), b = word_of(steps->sheet, record, WORD_B);
    unsigned c = word_of(steps->sheet, record, WORD_C), d = word_of(steps->sheet, record, WORD_D);
    unsigned shape, own = 1;
    switch (word_of(steps->sheet, record, WORD_KIND)) {
    case KIND_CONSTANT:
        shape = a;
        own += steps->leaves[shape];
        break;
    case KIND_NAME:
        shape = steps->scope[names - 1 - a];
        own += steps->leaves[shape];
        break;
    case KIND_PAIR:
        shape = record;
        steps->leaves[shape] = steps->leaves[add_steps(steps, a, times, names)];
        steps->leaves[shape] += steps->leaves[add_steps(steps, b, times, names)];
        break;
    case KIND_FIRST:
        shape = part_of(steps, add_steps(steps, a, times, names), WORD_A);
        own += steps->leaves[shape];
        break;
    case KIND_SECOND:
        shape = part_of(steps, add_steps(steps, a, times, names), WORD_B);
        own += steps->leaves[shape];
        break;
    case KIND_LET:
        shape = add_steps(steps, a, times, names);
        own += steps->leaves[shape];
        steps->scope[names] = shape;
        shape = add_steps(steps, b, times, names + 1);
        break;
    case KIND_FEEDBACK: {
        /* Each value of the defining part is compared with the name's, and the name is set. */
        unsigned leaves = steps->leaves[a], evaluations = leaves + 1;
        own += leaves + 2 * leaves * evaluations;
        steps->scope[names] = a;
        add_steps(steps, b, times * evaluations, names + 1);
        shape = add_steps(steps, c, times, names + 1);
        break;
    }
    case KIND_IF:
        add_steps(steps, a, times, names);
        add_steps(steps, b, times, names);
        shape = add_steps(steps, c, times, names);
        own += steps->leaves[shape] + steps->matched[d];
        break;
    default: /* A delay: what it holds next is noted, and then what it holds is read. */
        add_steps(steps, c, times, names);
        shape = a;
        own += 2 * steps->leaves[shape];
        /* After the cycle the leaves are copied. */
        steps->total += steps->leaves[shape];
    }
    steps->shapes[record] = shape;
    steps->total += times * own;
    return shape;
}

/*
 * The most steps of one cycle of a sheet that sheet_check accepts. There is no overflow: the number
 * is below 2^45, and times 65,535 cycles below 2^61.
 */
static uint64_t steps_of(const uint8_t *sheet)
{
    struct steps steps = {.sheet = sheet};
    unsigned records = word_of(sheet, 0, WORD_C), input = word_of(sheet, 0, WORD_A);
    /* The parts of a type are lower records, those of a pattern and the next one are higher. */
    for (unsigned record = 1; record < records; record++) {
        unsigned kind = word_of(sheet, record, WORD_KIND);
        if (kind == KIND_FLAT_TYPE)
            steps.leaves[record] = 1;
        if (kind == KIND_PAIR_TYPE)
            steps.leaves[record] = steps.leaves[word_of(sheet, record, WORD_A)] +
                                   steps.leaves[word_of(sheet, record, WORD_B)];
    }
    for (unsigned record = records - 1; record > 0; record--) {
        unsigned kind = word_of(sheet, record, WORD_KIND);
        if (kind == KIND_WHOLE_PATTERN || kind == KIND_CONSTRUCTOR_PATTERN)
            steps.matched[record] = 1 + steps.matched[word_of(sheet, record, WORD_NEXT)];
        if (kind == KIND_PAIR_PATTERN)
            steps.matched[record] = 3 + steps.matched[word_of(sheet, record, WORD_A)] +
                                    steps.matched[word_of(sheet, record, WORD_B)] +
                                    steps.matched[word_of(sheet, record, WORD_NEXT)];
    }
    steps.scope[0] = input;
    steps.total = records + steps.leaves[input];
    add_steps(&steps, word_of(sheet, 0, WORD_B), 1, 1);
    return steps.total;
}

#endif
