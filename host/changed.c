/* T with one to three words changed. A comment says why the code and the place are these. */
#include "cases.h"
#include "guard.h"
#include "sheet.h"
#include "suite.h"

const uint16_t sheet_t[T_RECORDS][WORDS] = {
    {HEADER, 1, 1, 2, T_RECORDS}, /* 0: types from 1; input of type 1; root 2 */
    {FLAT_TYPE, 0, 2},            /* 1: two constructors */
    {FEEDBACK, 0, 1, 3, 16},      /* 2: of type 1; defining part 3; body 16 */
    {DELAY, 0, 1, 4, 5},          /* 3: of type 1; leaves from 4; part 5 */
    {LEAF, 0, 2},                 /* 4 */
    {IF, 0, 6, 8, 15, 7},         /* 5: tested 6; then 8; else 15; pattern 7 */
    {NAME, 0, 1},                 /* 6: the input, around the feedback's name */
    {CONSTRUCTOR, 0, 1, 1},       /* 7: constructor 1 of type 1 */
    {IF, 0, 9, 11, 13, 10},       /* 8: tested 9; then 11; else 13; pattern 10 */
    {NAME},                       /* 9: the feedback's name */
    {CONSTRUCTOR, 0, 1, 2},       /* 10: constructor 2 of type 1 */
    {CONSTANT, 0, 1, 12},         /* 11: of type 1; leaves from 12 */
    {LEAF, 0, 1},                 /* 12 */
    {CONSTANT, 0, 1, 14},         /* 13: of type 1; leaves from 14 */
    {LEAF, 0, 2},                 /* 14 */
    {NAME},                       /* 15 */
    {NAME},                       /* 16 */
};

struct change {
    uint16_t record;
    enum word word;
    uint16_t value;
};

struct changed_case {
    const char *name;
    size_t count;
    struct change changes[3];
    uint32_t code, place;
};

static const struct changed_case cases[] = {
    /* The root has the feedback's type, record 1. */
    {"T", 0, {{0}}, SHEET_ACCEPTED, 1},

    /* Code 2: each word of the header, place 0. */
    {"header: kind", 1, {{0, KIND, 16}}, SHEET_WRONG_HEADER, 0},
    {"header: count too low", 1, {{0, C, 16}}, SHEET_WRONG_HEADER, 0},
    {"header: count too high", 1, {{0, C, 18}}, SHEET_WRONG_HEADER, 0},
    {"header: d", 1, {{0, D, 1}}, SHEET_WRONG_HEADER, 0},
    {"header: no first type", 1, {{0, NEXT, 0}}, SHEET_WRONG_HEADER, 0},
    {"header: first type an expression", 1, {{0, NEXT, 2}}, SHEET_WRONG_HEADER, 0},
    {"header: first type past the count", 1, {{0, NEXT, 17}}, SHEET_WRONG_HEADER, 0},
    {"header: input type the header", 1, {{0, A, 0}}, SHEET_WRONG_HEADER, 0},
    {"header: input type a leaf", 1, {{0, A, 4}}, SHEET_WRONG_HEADER, 0},
    {"header: input type past the count", 1, {{0, A, 17}}, SHEET_WRONG_HEADER, 0},
    {"header: root the header", 1, {{0, B, 0}}, SHEET_WRONG_HEADER, 0},
    {"header: root a type", 1, {{0, B, 1}}, SHEET_WRONG_HEADER, 0},
    {"header: root the last number of all", 1, {{0, B, 65535}}, SHEET_WRONG_HEADER, 0},
    /* The root's record has no sort, so the header names one of the wrong sort; 2 is lower than 3. */
    {"header: root of unknown kind", 1, {{2, KIND, 99}}, SHEET_WRONG_HEADER, 0},

    /* Code 3. The record of unknown kind, 16, and its namer, 2, both break the rule; 2 is the lower. */
    {"record: unknown kind", 1, {{16, KIND, 99}}, SHEET_WRONG_RECORD, 2},
    {"record: a second header", 1, {{16, KIND, HEADER}}, SHEET_WRONG_RECORD, 2},
    {"record: kind with a high byte", 1, {{16, KIND, 256 + NAME}}, SHEET_WRONG_RECORD, 2},
    /* A name has no word but a. */
    {"record: name with next", 1, {{16, NEXT, 1}}, SHEET_WRONG_RECORD, 16},
    {"record: name with b", 1, {{16, B, 1}}, SHEET_WRONG_RECORD, 16},
    {"record: name with d, high byte", 1, {{16, D, 256}}, SHEET_WRONG_RECORD, 16},
    {"record: no constructors", 1, {{1, A, 0}}, SHEET_WRONG_RECORD, 1},
    {"record: 256 constructors", 1, {{1, A, 256}}, SHEET_WRONG_RECORD, 1},
    /* 255 is allowed, and constructors 1 and 2 are below it. */
    {"255 constructors", 1, {{1, A, 255}}, SHEET_ACCEPTED, 1},
    /* Type 1 has one constructor, so pattern 10 names one above the count; pattern 7 does not. */
    {"record: pattern above a smaller count", 1, {{1, A, 1}}, SHEET_WRONG_RECORD, 10},
    {"record: leaf of 256", 1, {{4, A, 256}}, SHEET_WRONG_RECORD, 4},
    /* Any label at a delay, also one past the count; none elsewhere. */
    {"a label", 1, {{3, D, 1}}, SHEET_ACCEPTED, 1},
    {"the greatest label", 1, {{3, D, 65535}}, SHEET_ACCEPTED, 1},
    {"record: label at a feedback", 1, {{2, D, 1}}, SHEET_WRONG_RECORD, 2},
    {"record: label at a constant", 1, {{11, D, 1}}, SHEET_WRONG_RECORD, 11},
    {"record: type word 0", 1, {{3, A, 0}}, SHEET_WRONG_RECORD, 3},
    {"record: type word its own number", 1, {{3, A, 3}}, SHEET_WRONG_RECORD, 3},
    {"record: type word no type", 1, {{3, A, 2}}, SHEET_WRONG_RECORD, 3},
    {"record: first leaf lower", 1, {{3, B, 1}}, SHEET_WRONG_RECORD, 3},
    {"record: first leaf an expression", 1, {{3, B, 5}}, SHEET_WRONG_RECORD, 3},
    {"record: first leaf 0", 1, {{3, B, 0}}, SHEET_WRONG_RECORD, 3},
    {"record: part past the count", 1, {{3, C, 17}}, SHEET_WRONG_RECORD, 3},
    {"record: pattern an expression", 1, {{5, D, 6}}, SHEET_WRONG_RECORD, 5},
    {"record: constructor 0", 1, {{7, B, 0}}, SHEET_WRONG_RECORD, 7},
    {"record: constructor past the count", 1, {{7, B, 3}}, SHEET_WRONG_RECORD, 7},
    {"record: alternative a leaf", 1, {{7, NEXT, 12}}, SHEET_WRONG_RECORD, 7},
    {"record: next leaf lower", 1, {{12, NEXT, 4}}, SHEET_WRONG_RECORD, 12},
    /* Both break the rule; the lower one is the place. */
    {"record: two wrong", 2, {{12, A, 256}, {7, B, 3}}, SHEET_WRONG_RECORD, 7},
    /* 2 is lower than 3. */
    {"header and record", 2, {{0, D, 1}, {4, A, 256}}, SHEET_WRONG_HEADER, 0},

    /* Code 4. Record 10 is named by 7 and by 8. */
    {"naming: alternative named twice", 1, {{7, NEXT, 10}}, SHEET_WRONG_NAMING, 10},
    /* Leaf 12 is named by 4 and by 11. */
    {"naming: leaf named twice", 1, {{4, NEXT, 12}}, SHEET_WRONG_NAMING, 12},
    /* 15 is named by 2 and by 5, and 16 by none; 15 is the lower. */
    {"naming: body is the else part", 1, {{2, C, 15}}, SHEET_WRONG_NAMING, 15},
    /* 15 is named by none, and 16 by 2 and by 5. */
    {"naming: else part is the body", 1, {{5, C, 16}}, SHEET_WRONG_NAMING, 15},
    /* Record 2 is named by none; 3 by the header and by 2. */
    {"naming: root below the root", 1, {{0, B, 3}}, SHEET_WRONG_NAMING, 2},
    /* One record names 16 by two of its words; 3 is then named by none, and lower. */
    {"naming: twice by one record", 1, {{2, B, 16}}, SHEET_WRONG_NAMING, 3},
    /* 3 is lower than 4. */
    {"record and naming", 2, {{2, C, 15}, {16, B, 1}}, SHEET_WRONG_RECORD, 16},

    /* Code 7. Two names are in scope in both parts of the feedback: numbers 0 and 1. */
    {"typing: name out of scope in the body", 1, {{16, A, 2}}, SHEET_ILL_TYPED, 16},
    {"typing: name out of scope, tested", 1, {{6, A, 2}}, SHEET_ILL_TYPED, 6},
    {"typing: greatest name", 1, {{15, A, 65535}}, SHEET_ILL_TYPED, 15},
    {"the input's name in the body", 1, {{16, A, 1}}, SHEET_ACCEPTED, 1},
    /* Leaves above the two constructors of type 1, reported at the constant and the delay. */
    {"typing: constant's leaf", 1, {{12, A, 3}}, SHEET_ILL_TYPED, 11},
    {"typing: delay's leaf", 1, {{4, A, 3}}, SHEET_ILL_TYPED, 3},
    {"undefined leaves", 3, {{4, A, 0}, {12, A, 0}, {14, A, 0}}, SHEET_ACCEPTED, 1},
    /* The delay is judged after its part, in which constant 11 lies. */
    {"typing: delay after its part", 2, {{4, A, 3}, {12, A, 3}}, SHEET_ILL_TYPED, 11},
    /* The feedback's part b, with the delay, goes before c. */
    {"typing: defining part before body", 2, {{4, A, 3}, {16, A, 2}}, SHEET_ILL_TYPED, 3},
    /* In the walk 6 comes before 8's parts, then 15. */
    {"typing: tested part first", 3, {{6, A, 9}, {12, A, 3}, {15, A, 9}}, SHEET_ILL_TYPED, 6},
    {"typing: then before else", 2, {{12, A, 3}, {15, A, 9}}, SHEET_ILL_TYPED, 11},
    /* 4 is lower than 7. */
    {"naming and typing", 2, {{7, NEXT, 10}, {6, A, 2}}, SHEET_WRONG_NAMING, 10},
};

static void changed_cases(void)
{
    static struct draft draft;
    static uint8_t bytes[MOST_BYTES];
    for (size_t k = 0; k < sizeof cases / sizeof *cases; k++) {
        const struct changed_case *one = &cases[k];
        draft_take(&draft, sheet_t, T_RECORDS);
        for (size_t c = 0; c < one->count; c++)
            draft.words[one->changes[c].record][one->changes[c].word] = one->changes[c].value;
        size_t length = draft_write(&draft, bytes);
        expect(one->name, bytes, length, one->code, one->place);
    }
}

TESTS(changed_cases, SMALL_STACK)
