/* Counts that are refused: the codes of the sheet, 20 for too many inputs, and 21. */
#include "cases.h"
#include "counting.h"
#include "shapes.h"
#include "suite.h"

static struct draft draft;

/* Code 21, at the number of output leaves: one of T and AND, two of P and F. */
struct no_leaf {
    const char *name;
    const uint16_t (*records)[WORDS];
    size_t count;
    size_t leaf;
    uint32_t leaves;
};

static const struct no_leaf no_leaves[] = {
    {"count: after the only leaf", sheet_t, T_RECORDS, 1, 1},
    {"count: after the last leaf", sheet_p, P_RECORDS, 2, 2},
    {"count: more leaves out than in", sheet_f, F_RECORDS, 2, 2},
    {"count: fewer out than in", sheet_and, AND_RECORDS, 1, 1},
    {"count: leaf 256", sheet_t, T_RECORDS, 256, 1},
    {"count: leaf 65,536", sheet_t, T_RECORDS, 65536, 1},
    {"count: leaf 2^32", sheet_t, T_RECORDS, 4294967296, 1},
    {"count: leaf 2^32 + 1", sheet_p, P_RECORDS, 4294967297, 2},
    {"count: leaf 2^63", sheet_t, T_RECORDS, (size_t)1 << 63, 1},
    {"count: leaf 2^64 - 1", sheet_t, T_RECORDS, SIZE_MAX, 1},
};

static void refused_leaves(void)
{
    for (size_t k = 0; k < sizeof no_leaves / sizeof *no_leaves; k++) {
        const struct no_leaf *one = &no_leaves[k];
        take(one->records, one->count);
        expect_count_refused(one->name, one->leaf, SHEET_NO_OUTPUT_LEAF, one->leaves);
    }
}

/* Code 20 at 0, for every number of a leaf: it goes before 21. */
static void expect_too_many(const char *name)
{
    static const size_t asked[] = {0, 1, 63, 64, 4294967296, SIZE_MAX};
    for (size_t k = 0; k < sizeof asked / sizeof *asked; k++)
        expect_count_refused(name, asked[k], SHEET_TOO_MANY_INPUTS, 0);
}

/* So many leaves of a type with so many constructors. */
struct alike {
    const char *name;
    size_t leaves;
    uint16_t constructors;
};

/* The products of some are 0 in 32 bits, or in 64. */
static const struct alike too_many[] = {
    {"count: 2^17 inputs", 17, 2},      {"count: 2^32 inputs", 32, 2},
    {"count: 2^33 inputs", 33, 2},      {"count: 2^64 inputs", 64, 2},
    {"count: 3^11 inputs", 11, 3},      {"count: 16^5 inputs", 5, 16},
    {"count: 16^16 inputs", 16, 16},    {"count: 128^64 inputs", 64, 128},
    {"count: 255^3 inputs", 3, 255},    {"count: 255^64 inputs", 64, 255},
    {"count: 41^3 inputs", 3, 41},
};

/*
 * Four leaves of different types: the input's type is a pair of pairs. The root is a constant of
 * the first type, so that the output depends on none of them.
 */
static void take_four(const uint16_t counts[4])
{
    draft_begin(&draft);
    uint16_t last = 0;
    for (size_t k = 0; k < 4; k++) {
        last = draft_part(&draft, last, NEXT, FLAT_TYPE);
        draft.words[last][A] = counts[k];
    }
    for (uint16_t pair = 5; pair <= 7; pair++) {
        last = draft_part(&draft, last, NEXT, PAIR_TYPE);
        /* Types 5 and 6 are (1,2) and (3,4), type 7 is (5,6). */
        draft.words[pair][A] = (uint16_t)(2 * pair - 9);
        draft.words[pair][B] = (uint16_t)(2 * pair - 8);
    }
    draft.words[0][A] = 7;
    uint16_t constant = draft_part(&draft, 0, B, CONSTANT);
    draft.words[constant][A] = 1;
    draft.words[draft_part(&draft, constant, B, LEAF)][A] = 1;
    draft_end(&draft);
    lent.length = draft_write(&draft, lent.sheet);
}

/*
 * The limit. Of the products that are over it the lowest is 65,540, since 331 divides 65,538, and
 * 65,537 and 65,539 are prime; below it 65,534 is the highest, since 257 divides 65,535.
 */
static void four_leaves(void)
{
    static const uint16_t over[] = {4, 5, 29, 113}, turned[] = {113, 29, 5, 4};
    static const uint16_t most[] = {2, 128, 16, 16}, below[] = {2, 7, 31, 151};
    take_four(over);
    expect_too_many("count: 65,540 inputs");
    take_four(turned);
    expect_too_many("count: 65,540 inputs the other way round");
    take_four(most);
    expect_counted("count: 65,536 inputs", 0, 65536, (uint32_t[]){0, 65536}, 2);
    take_four(below);
    expect_counted("count: 65,534 inputs", 0, 65534, (uint32_t[]){0, 65534}, 2);
    expect_count_refused("count: 65,534 inputs, leaf 1", 1, SHEET_NO_OUTPUT_LEAF, 1);
}

static void refused_products(void)
{
    for (size_t k = 0; k < sizeof too_many / sizeof *too_many; k++) {
        begin_pairs(&draft, too_many[k].leaves);
        draft.words[1][A] = too_many[k].constructors;
        name(&draft, 0, B, 0);
        draft_end(&draft);
        lent.length = draft_write(&draft, lent.sheet);
        expect_too_many(too_many[k].name);
    }
    four_leaves();
}

/* A refusal of the sheet goes before what is wrong with the leaf. */
static void expect_sheet_refused(const char *name, uint32_t code, uint32_t place)
{
    expect_count_refused(name, 0, code, place);
    expect_count_refused(name, SIZE_MAX, code, place);
}

/* T with one word changed. */
struct changed_t {
    const char *name;
    size_t record;
    enum word word;
    uint16_t value;
    uint32_t code, place;
};

static const struct changed_t changed[] = {
    {"count: the header's kind", 0, KIND, 2, SHEET_WRONG_HEADER, 0},
    {"count: a leaf of 256", 4, A, 256, SHEET_WRONG_RECORD, 4},
    /* Name 15 is named by no word then, and 16 by two. */
    {"count: an else branch that is the body", 5, C, 16, SHEET_WRONG_NAMING, 15},
    /* Two names are in scope at 6. */
    {"count: a name out of scope", 6, A, 2, SHEET_ILL_TYPED, 6},
};

/* Codes 1 to 4 and 7 by T, and 1, 5, 6 and 7 by sheets just past a limit. */
static void refused_sheets(void)
{
    for (size_t k = 0; k < sizeof changed / sizeof *changed; k++) {
        draft_take(&draft, sheet_t, T_RECORDS);
        draft.words[changed[k].record][changed[k].word] = changed[k].value;
        lent.length = draft_write(&draft, lent.sheet);
        expect_sheet_refused(changed[k].name, changed[k].code, changed[k].place);
    }
    take(sheet_t, T_RECORDS);
    for (lent.length = 0; lent.length < T_BYTES; lent.length++) {
        int whole = lent.length > 0 && lent.length % RECORD_BYTES == 0;
        uint32_t code = whole ? SHEET_WRONG_HEADER : SHEET_WRONG_LENGTH;
        expect_sheet_refused("count: T cut off", code, 0);
    }
    for (size_t k = 0; k < limit_count; k++) {
        const struct limit_case *one = &limit_cases[k];
        lent.length = limit_sheet(one, lent.sheet);
        if (one->code != SHEET_ACCEPTED)
            expect_sheet_refused(one->name, one->code, one->place);
    }
    /* 2^65 inputs too, if the sheet were good. */
    begin_pairs(&draft, 65);
    name(&draft, 0, B, 0);
    draft_end(&draft);
    lent.length = draft_write(&draft, lent.sheet);
    expect_sheet_refused("count: 65 leaves", SHEET_WRONG_TYPE, 65);
}

TESTS(refused_leaves, SMALL_STACK)
TESTS(refused_products, SMALL_STACK)
TESTS(refused_sheets, SMALL_STACK)
