/*
 * Counts on 65,536 inputs: circuits in which one evaluation settles many inputs or none, an
 * expression as deep as can be, and the stack need.
 */
#include <string.h>

#include "counting.h"
#include "guard.h"
#include "measure.h"
#include "shapes.h"
#include "suite.h"

enum { BITS = 16, ALL = 65536, MOST_LEAVES = 64, UNIT = 1, BIT = 2, WIDEST = 65 };

static struct draft draft;
static const struct place root = {0, B};

static void lend(void)
{
    draft_end(&draft);
    lent.length = draft_write(&draft, lent.sheet);
}

/* Leaf k of 16 bits by begin_pairs: the second part of the first k + 1, or the first of all. */
static void leaf_of_pairs(struct place at, size_t k)
{
    if (k > 0)
        at = (struct place){draft_part(&draft, at.namer, at.word, SECOND_PART), A};
    for (size_t part = k + 1; part < BITS; part++)
        at = (struct place){draft_part(&draft, at.namer, at.word, FIRST_PART), A};
    name(&draft, at.namer, at.word, 0);
}

static void constant_bit(uint16_t namer, enum word word, uint16_t value)
{
    uint16_t constant = draft_part(&draft, namer, word, CONSTANT);
    draft.words[constant][A] = 1;
    draft.words[draft_part(&draft, constant, B, LEAF)][A] = value;
}

static uint16_t constructor(struct place at, uint16_t value)
{
    uint16_t pattern = draft_part(&draft, at.namer, at.word, CONSTRUCTOR);
    draft.words[pattern][A] = 1;
    draft.words[pattern][B] = value;
    return pattern;
}

/* 16 bits in. XOR of the first k + 1: an IF on leaf k and the XOR of those before it. */
static void xor_of(struct place at, size_t k)
{
    if (k == 0) {
        leaf_of_pairs(at, 0);
        return;
    }
    uint16_t choice = draft_part(&draft, at.namer, at.word, IF);
    uint16_t pair = draft_part(&draft, choice, A, PAIR);
    leaf_of_pairs((struct place){pair, A}, k);
    xor_of((struct place){pair, B}, k - 1);
    constant_bit(choice, B, 1);
    constant_bit(choice, C, 2);
    /* The pattern (1,2)|(2,1). */
    uint16_t first = draft_part(&draft, choice, D, PAIR_PATTERN);
    constructor((struct place){first, A}, 1);
    constructor((struct place){first, B}, 2);
    uint16_t other = draft_part(&draft, first, NEXT, PAIR_PATTERN);
    constructor((struct place){other, A}, 2);
    constructor((struct place){other, B}, 1);
}

/* Nothing is defined before all 16 bits are, and half of the inputs have an odd number of 1s. */
static void of_xor(void)
{
    begin_pairs(&draft, BITS);
    xor_of(root, BITS - 1);
    lend();
    expect_counted("count on XOR of 16", 0, ALL, (uint32_t[]){0, 32768, 32768}, 3);
}

/* Every input gives the value of a constant, undefined or not. */
static void of_constants(void)
{
    for (uint16_t value = 0; value <= 2; value++) {
        uint32_t counters[3] = {0};
        counters[value] = ALL;
        begin_pairs(&draft, BITS);
        constant_bit(0, B, value);
        lend();
        expect_counted("count on a constant beside 16 bits", 0, ALL, counters, 3);
    }
}

/*
 * Types for 16 bits followed by 48 leaves of one constructor: record 1 has one constructor, record
 * 2 two, and record k from 3 on, up to 65, has k - 1 leaves. The last one is the input's.
 */
static void begin_widest(void)
{
    begin(&draft);
    draft.words[UNIT][A] = 1;
    draft_part(&draft, UNIT, NEXT, FLAT_TYPE);
    draft.words[BIT][A] = 2;
    for (uint16_t k = 3; k <= WIDEST; k++) {
        uint16_t pair = draft_part(&draft, k - 1, NEXT, PAIR_TYPE);
        draft.words[pair][A] = k - 1;
        draft.words[pair][B] = k - 1 <= BITS ? BIT : UNIT;
    }
    draft.words[0][A] = WIDEST;
}

/* As a part, a constant of the input's type: 2 for each bit, 1 for the others. */
static void bits_of_2(struct place at)
{
    at = (struct place){draft_part(&draft, at.namer, at.word, CONSTANT), B};
    draft.words[at.namer][A] = WIDEST;
    for (size_t leaf = 0; leaf < MOST_LEAVES; leaf++) {
        at = (struct place){draft_part(&draft, at.namer, at.word, LEAF), NEXT};
        draft.words[at.namer][A] = leaf < BITS ? 2 : 1;
    }
}

/* The pattern that says yes where each bit is 1: 63 pair patterns in each other. */
static void bits_of_1(struct place at)
{
    for (uint16_t type = WIDEST; type > 2; type--) {
        at = (struct place){draft_part(&draft, at.namer, at.word, PAIR_PATTERN), A};
        if (draft.words[type][B] == BIT)
            draft.words[constructor((struct place){at.namer, B}, 1)][A] = BIT;
        else
            draft.words[draft_part(&draft, at.namer, B, WHOLE_TYPE)][A] = UNIT;
    }
    draft.words[constructor(at, 1)][A] = BIT;
}

/*
 * AND of 16, in the defining parts of three feedbacks and in 59 expressions of one kind: an IF at
 * depth 63 on the input, which it gives where each bit is 1; else a constant.
 */
struct deep_and {
    const char *name;
    enum kind kind;
    enum word inner;
    /* The number of the input: past the names of the feedbacks, and of LETs around their bodies. */
    uint16_t input;
};

static const struct deep_and deep_ands[] = {
    {"AND of 16 in LET bodies", LET, B, 62},
    {"AND of 16 in LET defining parts", LET, A, 3},
    {"AND of 16 in IF then parts", IF, B, 3},
};
enum { DEEP_ANDS = sizeof deep_ands / sizeof *deep_ands };

static void take_deep(const struct deep_and *one)
{
    begin_widest();
    struct place at = nested(&draft, root, FEEDBACK, B, 3);
    at = nested(&draft, at, one->kind, one->inner, 59);
    uint16_t choice = draft_part(&draft, at.namer, at.word, IF);
    name(&draft, choice, A, one->input);
    name(&draft, choice, B, one->input);
    bits_of_2((struct place){choice, C});
    bits_of_1((struct place){choice, D});
    lend();
}

static void of_deep_ands(void)
{
    for (size_t k = 0; k < DEEP_ANDS; k++) {
        const char *name = deep_ands[k].name;
        take_deep(&deep_ands[k]);
        expect_counted(name, 0, ALL, (uint32_t[]){0, 1, 65535}, 3);
        expect_counted(name, BITS - 1, ALL, (uint32_t[]){0, 1, 65535}, 3);
        /* Both branches have 1 there. */
        expect_counted(name, BITS, ALL, (uint32_t[]){0, ALL}, 2);
        expect_counted(name, MOST_LEAVES - 1, ALL, (uint32_t[]){0, ALL}, 2);
        expect_count_refused(name, MOST_LEAVES, SHEET_NO_OUTPUT_LEAF, MOST_LEAVES);
    }
}

static void wide_counts(void)
{
    of_xor();
    of_constants();
    of_deep_ands();
}

/* The call on the first output leaf. */
static void once(void)
{
    sheet_count(at_limit.sheet, at_limit.length, 0);
}

/*
 * On the sheets at a limit, of which those with 64 bits in are refused by 20; and on those above,
 * of which 16 leaves are tried one in another.
 */
static void stack_need(void)
{
    size_t most = 0;
    const char *worst = "";
    measure_on_limits("sheet_count", once, SHEET_COUNT_STACK);
    for (size_t k = 0; k < DEEP_ANDS; k++) {
        take_deep(&deep_ands[k]);
        at_limit.length = lent.length;
        memcpy(at_limit.sheet, lent.sheet, lent.length);
        size_t used = stack_used(SMALL_STACK, once);
        if (used > most) {
            most = used;
            worst = deep_ands[k].name;
        }
    }
    tell_stack("sheet_count", most, worst, SHEET_COUNT_STACK);
}

TESTS(wide_counts, SMALL_STACK)
TESTS_ONCE(stack_need)
