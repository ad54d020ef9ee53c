/*
 * Sheets at a limit and just past it: the deepest, the longest, the widest. A comment says why the verdict and the outputs are
 * these.
 */
#include "cases.h"
#include "guard.h"
#include "measure.h"
#include "shapes.h"
#include "sheet.h"
#include "suite.h"

static const struct place root = {0, B};

static void flat_types(struct draft *draft, const struct limit_case *one)
{
    begin(draft);
    fill(draft, 1, one->size, 1);
    name(draft, 0, B, 0);
}

static void input_of_leaves(struct draft *draft, const struct limit_case *one)
{
    begin_pairs(draft, one->size);
    name(draft, 0, B, 0);
}

/* The innermost expression lies `size` deep. */
static void deep(struct draft *draft, const struct limit_case *one)
{
    begin(draft);
    struct place at = nested(draft, root, one->kind, one->inner, one->size - 1);
    name(draft, at.namer, at.word, 0);
}

/* The same with an input of 64 leaves; of pairs the input is flat, and each is a leaf wider than the one in it. */
static void deep_in_pairs(struct draft *draft, const struct limit_case *one)
{
    begin_pairs(draft, 64);
    if (one->kind == PAIR)
        draft->words[0][A] = 1;
    struct place at = nested(draft, root, one->kind, one->inner, one->size - 1);
    name(draft, at.namer, at.word, 0);
}

/* An IF at depth 63, its parts at 64, with the deepest pattern. */
static void deep_with_pattern(struct draft *draft, const struct limit_case *one)
{
    begin_pairs(draft, 64);
    deepest_pattern(draft, nested(draft, root, one->kind, one->inner, 62), 0);
}

/* The same inside the defining parts of three feedbacks; the IF is on the input, past the feedbacks' names and the others. */
static void in_three_feedbacks(struct draft *draft, const struct limit_case *one)
{
    begin_pairs(draft, 64);
    int adds_names = one->kind == LET && one->inner == B;
    struct place at = nested(draft, root, FEEDBACK, B, 3);
    deepest_pattern(draft, nested(draft, at, one->kind, one->inner, 59), adds_names ? 62 : 3);
}

/* LETs in each other's both parts, as flat as can be, with so many names. */
static void tree(struct draft *draft, uint16_t namer, enum word word, size_t names)
{
    if (names == 1) {
        name(draft, namer, word, 0);
        return;
    }
    uint16_t let = draft_part(draft, namer, word, LET);
    tree(draft, let, A, names / 2);
    tree(draft, let, B, names - names / 2);
}

/* 4,093 records are 2,047 names and 2,046 LETs; the header and two types besides. */
static void wide(struct draft *draft, const struct limit_case *one)
{
    begin(draft);
    fill(draft, 1, one->size, 4093);
    tree(draft, 0, B, 2047);
}

/* An IF with as many alternatives as there are records left. */
static void alternatives(struct draft *draft, const struct limit_case *one)
{
    begin(draft);
    uint16_t at = draft->words[nested(draft, root, IF, D, 1).namer][D];
    while (draft->count < one->size) {
        at = draft_part(draft, at, NEXT, CONSTRUCTOR);
        draft->words[at][A] = 1;
        draft->words[at][B] = 1;
    }
}

/* IFs in each other's three parts, so many; every other part is the input. */
static void choices(struct draft *draft, struct place at, size_t count)
{
    if (count == 0) {
        name(draft, at.namer, at.word, 0);
        return;
    }
    uint16_t choice = draft_part(draft, at.namer, at.word, IF);
    for (enum word part = A; part <= C; part++)
        choices(draft, (struct place){choice, part}, (count - 1 + (size_t)(part - A)) / 3);
}

/* 512 IFs, which have 1,025 names for parts, on one chain of 2,048 alternatives: constructor 2, as the last record of all. */
static void shared_pattern(struct draft *draft, const struct limit_case *one)
{
    begin(draft);
    fill(draft, 1, one->size, 512 + 1025 + 2048);
    choices(draft, root, 512);
    uint16_t first = (uint16_t)draft->count;
    for (size_t record = 1; record < first; record++)
        if (draft->words[record][KIND] == IF)
            draft->words[record][D] = first;
    for (uint16_t at = draft_add(draft, CONSTRUCTOR);; at = draft_part(draft, at, NEXT, CONSTRUCTOR)) {
        draft->words[at][A] = 1;
        draft->words[at][B] = 2;
        if (draft->count == one->size)
            return;
    }
}

/* A constant of a flat type with as many leaves as there are records left. */
static void leaf_chain(struct draft *draft, const struct limit_case *one)
{
    begin(draft);
    uint16_t at = draft_part(draft, 0, B, CONSTANT);
    draft->words[at][A] = 1;
    leaves(draft, at, B, one->size - draft->count);
}

/*
 * Constants of 64 leaves, 61, or delays of the innermost name, 60: the defining parts of LETs in each other's bodies, the last
 * one the innermost body.
 */
static void in_a_row(struct draft *draft, const struct limit_case *one)
{
    size_t count = one->kind == CONSTANT ? 61 : 60, each = one->kind == CONSTANT ? 65 : 66;
    begin_pairs(draft, 64);
    fill(draft, 64, one->size, count - 1 + count * each);
    struct place at = root;
    for (size_t k = 0; k < count; k++) {
        if (k < count - 1)
            at = (struct place){draft_part(draft, at.namer, at.word, LET), A};
        uint16_t part = draft_part(draft, at.namer, at.word, (uint16_t)one->kind);
        draft->words[part][A] = 64;
        leaves(draft, part, B, 64);
        if (one->kind == DELAY)
            name(draft, part, C, 0);
        at.word = B;
    }
}

/* 60 delays of 64 leaves in each other. */
static void delays(struct draft *draft, const struct limit_case *one)
{
    begin_pairs(draft, 64);
    fill(draft, 64, one->size, 60 * 65 + 1);
    struct place at = nested(draft, root, DELAY, C, 60);
    name(draft, at.namer, at.word, 0);
}

/* 64 flat types, and pair types of two of them up to the number of records. */
static void pair_types(struct draft *draft, const struct limit_case *one)
{
    begin(draft);
    fill(draft, 1, 65, 0);
    for (size_t k = 0; draft->count + 1 < one->size; k++) {
        uint16_t pair = draft_part(draft, (uint16_t)(draft->count - 1), NEXT, PAIR_TYPE);
        draft->words[pair][A] = (uint16_t)(1 + k / 64);
        draft->words[pair][B] = (uint16_t)(1 + k % 64);
    }
    name(draft, 0, B, 0);
}

/* A feedback of 64 leaves, type 7 by six doublings, that defines one leaf in each application. */
static void slow_feedback(struct draft *draft, const struct limit_case *one)
{
    (void)one;
    begin(draft);
    uint16_t type = doubled(draft, 1, 1, 6), feedback = draft_part(draft, 0, B, FEEDBACK);
    draft->words[feedback][A] = type;
    shifted(draft, (struct place){feedback, B}, (struct shift){0, 1, LAST_OF_FLAT});
    name(draft, feedback, C, 0);
}

/*
 * Three such feedbacks, each in the defining part of the one around it. The first leaf of the outermost is the input's last
 * leaf; that of each other one is the last leaf of the one around it, so that they settle one after the other: while the
 * innermost is applied for the 65th time, so are the two around it. In its defining part, besides, an IF at depth 63 with the
 * deepest pattern, in LETs.
 */
static void three_slow_feedbacks(struct draft *draft, const struct limit_case *one)
{
    (void)one;
    begin_pairs(draft, 64);
    uint16_t type = doubled(draft, 2, 64, 5), feedbacks[3], namer = 0;
    for (size_t k = 0; k < 3; k++) {
        namer = feedbacks[k] = draft_part(draft, namer, B, FEEDBACK);
        draft->words[namer][A] = type;
    }
    uint16_t let = draft_part(draft, namer, B, LET);
    deepest_pattern(draft, nested(draft, (struct place){let, A}, LET, A, 58), 3);
    shifted(draft, (struct place){let, B}, (struct shift){1, 2, LAST_OF_DOUBLED});
    shifted(draft, (struct place){feedbacks[2], C}, (struct shift){1, 2, LAST_OF_DOUBLED});
    shifted(draft, (struct place){feedbacks[1], C}, (struct shift){1, 2, LAST_OF_PAIRS});
    name(draft, feedbacks[0], C, 0);
}

const struct limit_case limit_cases[] = {
    /* The root is the input, of type 1. */
    {"4,096 records", flat_types, 4096, 0, 0, SHEET_ACCEPTED, 1, INPUT},
    {"4,097 records", flat_types, 4097, 0, 0, SHEET_WRONG_LENGTH, 0, NO_RUN},
    /* The root is the input, whose type is the last pair type; record k has k leaves. */
    {"64 leaves", input_of_leaves, 64, 0, 0, SHEET_ACCEPTED, 64, INPUT},
    {"65 leaves", input_of_leaves, 65, 0, 0, SHEET_WRONG_TYPE, 65, NO_RUN},

    /* All names have type 1. LET k, from 0, is record 2 + 2k at depth k + 1, and 3 + 2k is its other part, one deeper. All
     * names hold the input. */
    {"LET bodies 64 deep", deep, 64, LET, B, SHEET_ACCEPTED, 1, INPUT},
    {"LET bodies 65 deep", deep, 65, LET, B, SHEET_TOO_DEEP, 129, NO_RUN},
    {"LET defining parts 64 deep", deep, 64, LET, A, SHEET_ACCEPTED, 1, INPUT},
    {"LET defining parts 65 deep", deep, 65, LET, A, SHEET_TOO_DEEP, 129, NO_RUN},
    /* A whole pattern says yes, also on 0. */
    {"IF tested parts 64 deep", deep, 64, IF, A, SHEET_ACCEPTED, 1, INPUT},
    {"IF then parts 64 deep", deep, 64, IF, B, SHEET_ACCEPTED, 1, INPUT},
    {"IF else parts 64 deep", deep, 64, IF, C, SHEET_ACCEPTED, 1, INPUT},
    /* IF k is record 2 + 4k, with its pattern, and its other parts at 4 + 4k and 5 + 4k: IF 63, at depth 64, is record 254. */
    {"IF else parts 65 deep", deep, 65, IF, C, SHEET_TOO_DEEP, 256, NO_RUN},
    /* 63 delays hold 63 inputs; the outermost, with the lowest number, holds the oldest. */
    {"delays 64 deep", deep, 64, DELAY, C, SHEET_ACCEPTED, 1, DELAYED_INSIDE},
    /* Delay k is record 2 + 2k, with its leaf at 3 + 2k, which has no depth: the innermost name is record 130. */
    {"delays 65 deep", deep, 65, DELAY, C, SHEET_TOO_DEEP, 130, NO_RUN},
    /* Bodies are in no defining part. Each feedback is defined as itself. */
    {"feedback bodies 64 deep", deep, 64, FEEDBACK, C, SHEET_ACCEPTED, 1, UNDEFINED},
    /* Each feedback is its own body; the innermost is defined as itself. */
    {"three feedbacks", deep, 4, FEEDBACK, B, SHEET_ACCEPTED, 1, UNDEFINED},
    /* Feedback k is record 2 + 2k, its body 3 + 2k; record 10 is the defining part of the fourth. */
    {"four feedbacks", deep, 5, FEEDBACK, B, SHEET_TOO_DEEP, 10, NO_RUN},
    /* 63 first parts leave one of the input's 64 leaves; 63 pairs around a name have 64. */
    {"first parts 64 deep", deep_in_pairs, 64, FIRST_PART, A, SHEET_ACCEPTED, 1, FIRST_LEAF},
    /* First parts are records 65 to 128, the name at depth 65 is 129; 6 is lower than 7. */
    {"first parts 65 deep", deep_in_pairs, 65, FIRST_PART, A, SHEET_TOO_DEEP, 129, NO_RUN},
    {"pairs 64 deep", deep_in_pairs, 64, PAIR, A, SHEET_ACCEPTED, 64, EACH_LEAF},

    /* All names have type 64, and so has the root. The pattern is undecided where the first leaf is 0; both branches of its IF
     * are one name, so they agree all the same. The outer IFs say yes, whatever their tested part gives. */
    {"LET bodies, deepest pattern", deep_with_pattern, 64, LET, B, SHEET_ACCEPTED, 64, INPUT},
    {"LET defining parts, deepest pattern", deep_with_pattern, 64, LET, A, SHEET_ACCEPTED, 64, INPUT},
    {"IF tested parts, deepest pattern", deep_with_pattern, 64, IF, A, SHEET_ACCEPTED, 64, INPUT},
    {"IF then parts, deepest pattern", deep_with_pattern, 64, IF, B, SHEET_ACCEPTED, 64, INPUT},
    {"IF else parts, deepest pattern", deep_with_pattern, 64, IF, C, SHEET_ACCEPTED, 64, INPUT},
    {"feedback bodies, deepest pattern", deep_with_pattern, 64, FEEDBACK, C, SHEET_ACCEPTED, 64, UNDEFINED},

    /* The three feedbacks have what the innermost one's defining part gives: the IF on the input; or, where the outer IFs have
     * the feedback's name for their then part, the least value that is itself. */
    {"three feedbacks, LET bodies", in_three_feedbacks, 64, LET, B, SHEET_ACCEPTED, 64, INPUT},
    {"three feedbacks, LET defining parts", in_three_feedbacks, 64, LET, A, SHEET_ACCEPTED, 64, INPUT},
    {"three feedbacks, IF tested parts", in_three_feedbacks, 64, IF, A, SHEET_ACCEPTED, 64, UNDEFINED},
    {"three feedbacks, IF then parts", in_three_feedbacks, 64, IF, B, SHEET_ACCEPTED, 64, INPUT},
    {"three feedbacks, IF else parts", in_three_feedbacks, 64, IF, C, SHEET_ACCEPTED, 64, UNDEFINED},
    /* Leaf 0 is the input, and each other one the leaf before it: 64 applications. */
    {"a feedback of 64 applications", slow_feedback, 64, 0, 0, SHEET_ACCEPTED, 7, EACH_LEAF},
    /* Type 69 is the last of five doublings after the 64 types. */
    {"three feedbacks of 64 applications", three_slow_feedbacks, 64, 0, 0, SHEET_ACCEPTED, 69, EACH_LEAF},

    /* The longest. All names have type 1, the constants type 64; the one constant of record 2 has leaves too many. */
    {"4,096 records: names", wide, 4096, 0, 0, SHEET_ACCEPTED, 1, INPUT},
    {"4,096 records: alternatives", alternatives, 4096, 0, 0, SHEET_ACCEPTED, 1, INPUT},
    /* On 1 and 0 every IF comes to the end of the chain; whatever they say, all parts are the input. */
    {"4,096 records: IFs on one pattern", shared_pattern, 4096, 0, 0, SHEET_ACCEPTED, 1, INPUT},
    {"4,096 records: one chain of leaves", leaf_chain, 4096, 0, 0, SHEET_ILL_TYPED, 2, NO_RUN},
    {"4,096 records: constants", in_a_row, 4096, CONSTANT, 0, SHEET_ACCEPTED, 64, UNDEFINED},
    /* Each delay holds what the name of the one before it gave; the first one, with the lowest number, holds the newest. */
    {"4,096 records: delays in a row", in_a_row, 4096, DELAY, 0, SHEET_ACCEPTED, 64, DELAYED_IN_A_ROW},
    {"4,096 records: delays in each other", delays, 4096, DELAY, C, SHEET_ACCEPTED, 64, DELAYED_INSIDE},
    {"4,096 records: pair types", pair_types, 4096, 0, 0, SHEET_ACCEPTED, 1, INPUT},
};

const size_t limit_count = sizeof limit_cases / sizeof *limit_cases;

size_t limit_sheet(const struct limit_case *one, uint8_t *bytes)
{
    static struct draft draft;
    one->build(&draft, one);
    draft_end(&draft);
    return draft_write(&draft, bytes);
}

static void limits_checked(void)
{
    static uint8_t bytes[MOST_BYTES];
    for (size_t k = 0; k < limit_count; k++) {
        size_t length = limit_sheet(&limit_cases[k], bytes);
        expect(limit_cases[k].name, bytes, length, limit_cases[k].code, limit_cases[k].place);
    }
}

static void once(void)
{
    sheet_check(at_limit.sheet, at_limit.length);
}

static void stack_need(void)
{
    measure_on_limits("sheet_check", once, SHEET_CHECK_STACK);
}

TESTS(limits_checked, SMALL_STACK)
TESTS_ONCE(stack_need)
