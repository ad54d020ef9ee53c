/*
 * Refusals of the call on what can still happen: the codes of the sheet, 22 for a feedback or a
 * flat type above 64 constructors, 8 for other than one cycle, 9 and 10, in this order.
 */
#include <string.h>

#include "cases.h"
#include "estimating.h"
#include "shapes.h"
#include "suite.h"

static struct draft draft;

struct refused_possible {
    const char *name;
    const uint16_t (*records)[WORDS];
    size_t count;
    /* The stimulus: bytes of 1, and from a place on another one. */
    size_t stim_length, from;
    uint8_t byte;
    size_t out_length;
    uint32_t code, place;
};

static const struct refused_possible refused[] = {
    /* Code 8, place 0: not exactly one cycle. G has one leaf in and out, P two, AND two in. */
    {"possible: no cycle", sheet_g, G_RECORDS, 0, 0, 1, 1, SHEET_WRONG_STIMULUS, 0},
    {"possible: no cycle, no output", sheet_g, G_RECORDS, 0, 0, 1, 0, SHEET_WRONG_STIMULUS, 0},
    {"possible: two cycles", sheet_g, G_RECORDS, 2, 2, 1, 1, SHEET_WRONG_STIMULUS, 0},
    {"possible: two with outputs", sheet_g, G_RECORDS, 2, 2, 1, 2, SHEET_WRONG_STIMULUS, 0},
    {"possible: 65,535 cycles", sheet_g, G_RECORDS, 65535, 65535, 1, 1, SHEET_WRONG_STIMULUS, 0},
    {"possible: 65,536 bytes", sheet_g, G_RECORDS, 65536, 65536, 1, 1, SHEET_WRONG_STIMULUS, 0},
    {"possible: no cycle of two leaves", sheet_p, P_RECORDS, 0, 0, 1, 2, SHEET_WRONG_STIMULUS, 0},
    {"possible: half a cycle", sheet_p, P_RECORDS, 1, 1, 1, 2, SHEET_WRONG_STIMULUS, 0},
    {"possible: a cycle and a half", sheet_p, P_RECORDS, 3, 3, 1, 2, SHEET_WRONG_STIMULUS, 0},
    {"possible: two cycles of two", sheet_p, P_RECORDS, 4, 4, 1, 4, SHEET_WRONG_STIMULUS, 0},

    /* Code 9, at the first byte above its leaf's count. P has a bit and a three. */
    {"possible: the only byte", sheet_g, G_RECORDS, 1, 0, 3, 1, SHEET_WRONG_INPUT, 0},
    {"possible: 255", sheet_g, G_RECORDS, 1, 0, 255, 1, SHEET_WRONG_INPUT, 0},
    {"possible: the first byte of two", sheet_p, P_RECORDS, 2, 0, 3, 2, SHEET_WRONG_INPUT, 0},
    {"possible: the second byte of two", sheet_p, P_RECORDS, 2, 1, 4, 2, SHEET_WRONG_INPUT, 1},
    {"possible: both bytes", sheet_p, P_RECORDS, 2, 0, 4, 2, SHEET_WRONG_INPUT, 0},

    /* Code 10, at the output's leaves: one byte for each. L has four. */
    {"possible: no output", sheet_g, G_RECORDS, 1, 1, 1, 0, SHEET_WRONG_OUTPUT_LENGTH, 1},
    {"possible: two for one", sheet_g, G_RECORDS, 1, 1, 1, 2, SHEET_WRONG_OUTPUT_LENGTH, 1},
    {"possible: eight for one", sheet_g, G_RECORDS, 1, 1, 1, 8, SHEET_WRONG_OUTPUT_LENGTH, 1},
    {"possible: as many as in", sheet_and, AND_RECORDS, 2, 2, 1, 2, SHEET_WRONG_OUTPUT_LENGTH, 1},
    {"possible: as few as in", sheet_l, L_RECORDS, 2, 2, 1, 2, SHEET_WRONG_OUTPUT_LENGTH, 4},
    {"possible: of two cycles", sheet_l, L_RECORDS, 2, 2, 1, 8, SHEET_WRONG_OUTPUT_LENGTH, 4},
    {"possible: one short", sheet_l, L_RECORDS, 2, 2, 1, 3, SHEET_WRONG_OUTPUT_LENGTH, 4},
    {"possible: as the sheet", sheet_p, P_RECORDS, 2, 2, 1, 60, SHEET_WRONG_OUTPUT_LENGTH, 2},

    /* The first in the order of the checks. T has a feedback at record 2. */
    {"possible: 8 before 9", sheet_p, P_RECORDS, 4, 0, 255, 2, SHEET_WRONG_STIMULUS, 0},
    {"possible: 8 before 10", sheet_g, G_RECORDS, 0, 0, 1, 7, SHEET_WRONG_STIMULUS, 0},
    {"possible: 8 before 9 and 10", sheet_g, G_RECORDS, 3, 1, 255, 0, SHEET_WRONG_STIMULUS, 0},
    {"possible: 9 before 10", sheet_g, G_RECORDS, 1, 0, 3, 0, SHEET_WRONG_INPUT, 0},
    {"possible: 22", sheet_t, T_RECORDS, 1, 1, 1, 1, SHEET_NOT_FOR_SETS, 2},
    {"possible: 22 before 8, no cycle", sheet_t, T_RECORDS, 0, 0, 1, 1, SHEET_NOT_FOR_SETS, 2},
    {"possible: 22 before 8, two cycles", sheet_t, T_RECORDS, 2, 2, 1, 2, SHEET_NOT_FOR_SETS, 2},
    {"possible: 22 before 8, too long", sheet_t, T_RECORDS, 65536, 9, 1, 1, SHEET_NOT_FOR_SETS, 2},
    {"possible: 22 before 9", sheet_t, T_RECORDS, 1, 0, 3, 1, SHEET_NOT_FOR_SETS, 2},
    {"possible: 22 before 10", sheet_t, T_RECORDS, 1, 1, 1, 0, SHEET_NOT_FOR_SETS, 2},
    {"possible: 22 before 9 and 10", sheet_t, T_RECORDS, 1, 0, 255, 5, SHEET_NOT_FOR_SETS, 2},
    {"possible: 22 before all", sheet_t, T_RECORDS, 3, 1, 255, 0, SHEET_NOT_FOR_SETS, 2},
};

static void refused_calls(void)
{
    for (size_t k = 0; k < sizeof refused / sizeof *refused; k++) {
        const struct refused_possible *one = &refused[k];
        take(one->records, one->count);
        memset(lent.stim, 1, one->from);
        memset(lent.stim + one->from, one->byte, one->stim_length - one->from);
        expect_estimate_refused(one->name, one->stim_length, one->out_length, one->code,
                                one->place);
    }
}

/* A refusal of the sheet goes before what is wrong with the stimulus and the slice. */
static void expect_sheet_refused(const char *name, uint32_t code, uint32_t place)
{
    lent.stim[0] = 1;
    expect_estimate_refused(name, 1, 1, code, place);
    expect_estimate_refused(name, 0, 64, code, place);
    lent.stim[0] = 255;
    expect_estimate_refused(name, 1, 0, code, place);
}

/* Sheets with feedbacks and with flat types above 64 constructors; the lowest of both is told. */
enum { MOST_PAST = 9 };
struct past_sets {
    const char *name;
    size_t count;
    uint32_t place;
    uint16_t records[MOST_PAST][WORDS];
};

static const struct past_sets past[] = {
    {"possible: 65 constructors", 3, 1, {{1, 1, 1, 2, 3}, {16, 0, 65}, {33}}},
    {"possible: 255 constructors", 3, 1, {{1, 1, 1, 2, 3}, {16, 0, 255}, {33}}},
    {"possible: a part of a pair", 4, 1, {{1, 1, 2, 3, 4}, {16, 2, 65}, {17, 0, 1, 1}, {33}}},
    /* Also where no word but the next word of a type names it. */
    {"possible: 65, unused", 4, 2, {{1, 1, 1, 3, 4}, {16, 2, 2}, {16, 0, 65}, {33}}},
    {"possible: 65, unused and last", 4, 3, {{1, 1, 1, 2, 4}, {16, 3, 2}, {33}, {16, 0, 65}}},
    {"possible: 64, 65 and 66",
     5,
     2,
     {{1, 1, 1, 4, 5}, {16, 2, 64}, {16, 3, 65}, {16, 0, 66}, {33}}},
    /* A feedback anywhere: as the root, a body, a defining part, and the part of a delay, which is
     * not evaluated for the output. */
    {"possible: a feedback", 5, 2, {{1, 1, 1, 2, 5}, {16, 0, 2}, {38, 0, 1, 3, 4}, {33}, {33}}},
    {"possible: a feedback as a body",
     7,
     4,
     {{1, 1, 1, 2, 7}, {16, 0, 2}, {37, 0, 3, 4}, {33}, {38, 0, 1, 5, 6}, {33}, {33}}},
    {"possible: a feedback in a defining part",
     7,
     3,
     {{1, 1, 1, 2, 7}, {16, 0, 2}, {37, 0, 3, 6}, {38, 0, 1, 4, 5}, {33}, {33}, {33}}},
    {"possible: a feedback in a delay",
     7,
     4,
     {{1, 1, 1, 2, 7}, {16, 0, 2}, {40, 0, 1, 3, 4}, {64, 0, 1}, {38, 0, 1, 5, 6}, {33}, {33}}},
    {"possible: two feedbacks",
     7,
     2,
     {{1, 1, 1, 2, 7}, {16, 0, 2}, {38, 0, 1, 3, 6}, {38, 0, 1, 4, 5}, {33}, {33}, {33}}},
    /* Both. */
    {"possible: 65 before a feedback",
     6,
     2,
     {{1, 1, 1, 3, 6}, {16, 2, 2}, {16, 0, 65}, {38, 0, 1, 4, 5}, {33}, {33}}},
    {"possible: a feedback before 65",
     6,
     2,
     {{1, 1, 1, 2, 6}, {16, 5, 2}, {38, 0, 1, 3, 4}, {33}, {33}, {16, 0, 65}}},
    {"possible: a feedback of 65",
     5,
     1,
     {{1, 1, 1, 2, 5}, {16, 0, 65}, {38, 0, 1, 3, 4}, {33}, {33}}},
};

/* 64 constructors in place of more, and LETs in place of feedbacks, which have the type besides. */
static void take_for_sets(const struct past_sets *one)
{
    draft_take(&draft, one->records, one->count);
    for (size_t record = 1; record < one->count; record++) {
        uint16_t *words = draft.words[record];
        if (words[KIND] == FLAT_TYPE && words[A] > 64)
            words[A] = 64;
        if (words[KIND] == FEEDBACK) {
            words[KIND] = LET;
            words[A] = words[B];
            words[B] = words[C];
            words[C] = 0;
        }
    }
    lent.length = draft_write(&draft, lent.sheet);
}

/* With nothing else changed such a sheet is good, and what is wrong with the stimulus is told. */
static void refused_for_sets(void)
{
    for (size_t k = 0; k < sizeof past / sizeof *past; k++) {
        take(past[k].records, past[k].count);
        expect_sheet_refused(past[k].name, SHEET_NOT_FOR_SETS, past[k].place);
        take_for_sets(&past[k]);
        expect_estimate_refused(past[k].name, 0, 1, SHEET_WRONG_STIMULUS, 0);
    }
    take(sheet_f, F_RECORDS);
    expect_sheet_refused("possible: delays in a feedback", SHEET_NOT_FOR_SETS, 3);
}

/* T, which has a feedback, with one word changed: the codes of the sheet go before 22. */
struct changed_t {
    const char *name;
    size_t record;
    enum word word;
    uint16_t value;
    uint32_t code, place;
};

static const struct changed_t changed[] = {
    {"possible: the header's kind", 0, KIND, 2, SHEET_WRONG_HEADER, 0},
    {"possible: a leaf of 256", 4, A, 256, SHEET_WRONG_RECORD, 4},
    /* Name 15 is named by no word then, and 16 by two. */
    {"possible: an else branch that is the body", 5, C, 16, SHEET_WRONG_NAMING, 15},
    /* Two names are in scope at 6. */
    {"possible: a name out of scope", 6, A, 2, SHEET_ILL_TYPED, 6},
};

/* Codes 1 to 4 and 7 by T, and 1, 5, 6 and 7 by sheets just past a limit. */
static void refused_sheets(void)
{
    for (size_t k = 0; k < sizeof changed / sizeof *changed; k++) {
        draft_take(&draft, sheet_t, T_RECORDS);
        draft.words[changed[k].record][changed[k].word] = changed[k].value;
        lent.length = draft_write(&draft, lent.sheet);
        expect_sheet_refused(changed[k].name, changed[k].code, changed[k].place);
    }
    take(sheet_t, T_RECORDS);
    for (lent.length = 0; lent.length < T_BYTES; lent.length++) {
        int whole = lent.length > 0 && lent.length % RECORD_BYTES == 0;
        uint32_t code = whole ? SHEET_WRONG_HEADER : SHEET_WRONG_LENGTH;
        expect_sheet_refused("possible: T cut off", code, 0);
    }
    for (size_t k = 0; k < limit_count; k++) {
        const struct limit_case *one = &limit_cases[k];
        lent.length = limit_sheet(one, lent.sheet);
        if (one->code != SHEET_ACCEPTED)
            expect_sheet_refused(one->name, one->code, one->place);
    }
    /* 65 leaves of 65 constructors, and a name out of scope of such a type: 5 and 7 before 22. */
    begin_pairs(&draft, 65);
    draft.words[1][A] = 65;
    name(&draft, 0, B, 0);
    draft_end(&draft);
    lent.length = draft_write(&draft, lent.sheet);
    expect_sheet_refused("possible: 65 leaves of 65 constructors", SHEET_WRONG_TYPE, 65);
    static const uint16_t ill_typed[3][WORDS] = {{1, 1, 1, 2, 3}, {16, 0, 65}, {33, 0, 1}};
    take(ill_typed, 3);
    expect_sheet_refused("possible: a name of 65 constructors", SHEET_ILL_TYPED, 2);
}

TESTS(refused_calls, SMALL_STACK)
TESTS(refused_for_sets, SMALL_STACK)
TESTS(refused_sheets, SMALL_STACK)
