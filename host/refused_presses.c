/* Presses that are refused: the codes of the sheet, 8 for other than one cycle, 9 and 21. */
#include <string.h>

#include "cases.h"
#include "pressing.h"
#include "suite.h"

struct refused_press {
    const char *name;
    const uint16_t (*records)[WORDS];
    size_t count;
    /* The stimulus: bytes of 1, and from a place on another one. */
    size_t stim_length, from;
    uint8_t byte;
    size_t leaf;
    uint32_t code, place;
};

static const struct refused_press refused[] = {
    /* Code 8, place 0: not exactly one cycle. */
    {"press: no cycle", sheet_t, T_RECORDS, 0, 0, 1, 0, SHEET_WRONG_STIMULUS, 0},
    {"press: two cycles", sheet_t, T_RECORDS, 2, 2, 1, 0, SHEET_WRONG_STIMULUS, 0},
    {"press: 65,535 cycles", sheet_t, T_RECORDS, 65535, 65535, 1, 0, SHEET_WRONG_STIMULUS, 0},
    {"press: 65,536 bytes", sheet_t, T_RECORDS, 65536, 65536, 1, 0, SHEET_WRONG_STIMULUS, 0},
    {"press: no cycle of two leaves", sheet_p, P_RECORDS, 0, 0, 1, 0, SHEET_WRONG_STIMULUS, 0},
    {"press: half a cycle", sheet_p, P_RECORDS, 1, 1, 1, 0, SHEET_WRONG_STIMULUS, 0},
    {"press: a cycle and a half", sheet_p, P_RECORDS, 3, 3, 1, 0, SHEET_WRONG_STIMULUS, 0},
    {"press: two cycles of two leaves", sheet_p, P_RECORDS, 4, 4, 1, 0, SHEET_WRONG_STIMULUS, 0},

    /* Code 9, at the first byte above its leaf's count. */
    {"press: the only byte", sheet_t, T_RECORDS, 1, 0, 3, 0, SHEET_WRONG_INPUT, 0},
    {"press: 255", sheet_t, T_RECORDS, 1, 0, 255, 0, SHEET_WRONG_INPUT, 0},
    {"press: the first byte of two", sheet_p, P_RECORDS, 2, 0, 3, 0, SHEET_WRONG_INPUT, 0},
    {"press: the second byte of two", sheet_p, P_RECORDS, 2, 1, 4, 0, SHEET_WRONG_INPUT, 1},

    /* Code 21, at the number of output leaves: one of T and AND, two of P and F. */
    {"press: after the only leaf", sheet_t, T_RECORDS, 1, 1, 1, 1, SHEET_NO_OUTPUT_LEAF, 1},
    {"press: after the last leaf", sheet_p, P_RECORDS, 2, 2, 1, 2, SHEET_NO_OUTPUT_LEAF, 2},
    {"press: more leaves out than in", sheet_f, F_RECORDS, 1, 1, 1, 2, SHEET_NO_OUTPUT_LEAF, 2},
    {"press: fewer out than in", sheet_and, AND_RECORDS, 2, 2, 1, 1, SHEET_NO_OUTPUT_LEAF, 1},
    {"press: leaf 256", sheet_t, T_RECORDS, 1, 1, 1, 256, SHEET_NO_OUTPUT_LEAF, 1},
    {"press: leaf 65,536", sheet_t, T_RECORDS, 1, 1, 1, 65536, SHEET_NO_OUTPUT_LEAF, 1},
    {"press: leaf 2^32", sheet_t, T_RECORDS, 1, 1, 1, 4294967296, SHEET_NO_OUTPUT_LEAF, 1},
    {"press: leaf 2^32 + 1", sheet_p, P_RECORDS, 2, 2, 1, 4294967297, SHEET_NO_OUTPUT_LEAF, 2},
    {"press: leaf 2^63", sheet_t, T_RECORDS, 1, 1, 1, (size_t)1 << 63, SHEET_NO_OUTPUT_LEAF, 1},
    {"press: leaf 2^64 - 1", sheet_t, T_RECORDS, 1, 1, 1, SIZE_MAX, SHEET_NO_OUTPUT_LEAF, 1},

    /* The first in the order of the checks. */
    {"press: 8 before 9", sheet_p, P_RECORDS, 4, 0, 255, 0, SHEET_WRONG_STIMULUS, 0},
    {"press: 8 before 21", sheet_t, T_RECORDS, 0, 0, 1, SIZE_MAX, SHEET_WRONG_STIMULUS, 0},
    {"press: 8 before 9 and 21", sheet_t, T_RECORDS, 3, 1, 255, 1, SHEET_WRONG_STIMULUS, 0},
    {"press: 9 before 21", sheet_t, T_RECORDS, 1, 0, 3, 1, SHEET_WRONG_INPUT, 0},
};

static void refused_presses(void)
{
    for (size_t k = 0; k < sizeof refused / sizeof *refused; k++) {
        const struct refused_press *one = &refused[k];
        take(one->records, one->count);
        memset(lent.stim, 1, one->from);
        memset(lent.stim + one->from, one->byte, one->stim_length - one->from);
        expect_press_refused(one->name, one->stim_length, one->leaf, one->code, one->place);
    }
}

/* A refusal of the sheet goes before what is wrong with the stimulus and the leaf. */
static void expect_sheet_refused(const char *name, uint32_t code, uint32_t place)
{
    lent.stim[0] = 1;
    expect_press_refused(name, 1, 0, code, place);
    expect_press_refused(name, 0, SIZE_MAX, code, place);
    lent.stim[0] = 255;
    expect_press_refused(name, 1, 0, code, place);
}

/* T with one word changed. */
struct changed_t {
    const char *name;
    size_t record;
    enum word word;
    uint16_t value;
    uint32_t code, place;
};

static const struct changed_t changed[] = {
    {"press: the header's kind", 0, KIND, 2, SHEET_WRONG_HEADER, 0},
    {"press: a leaf of 256", 4, A, 256, SHEET_WRONG_RECORD, 4},
    /* Name 15 is named by no word then, and 16 by two. */
    {"press: an else branch that is the body", 5, C, 16, SHEET_WRONG_NAMING, 15},
    /* Two names are in scope at 6. */
    {"press: a name out of scope", 6, A, 2, SHEET_ILL_TYPED, 6},
};

/* Codes 1 to 4 and 7 by T, and 1, 5, 6 and 7 by sheets just past a limit. */
static void refused_sheets(void)
{
    for (size_t k = 0; k < sizeof changed / sizeof *changed; k++) {
        static struct draft draft;
        draft_take(&draft, sheet_t, T_RECORDS);
        draft.words[changed[k].record][changed[k].word] = changed[k].value;
        lent.length = draft_write(&draft, lent.sheet);
        expect_sheet_refused(changed[k].name, changed[k].code, changed[k].place);
    }
    take(sheet_t, T_RECORDS);
    for (lent.length = 0; lent.length < T_BYTES; lent.length++) {
        int whole = lent.length > 0 && lent.length % RECORD_BYTES == 0;
        uint32_t code = whole ? SHEET_WRONG_HEADER : SHEET_WRONG_LENGTH;
        expect_sheet_refused("press: T cut off", code, 0);
    }
    for (size_t k = 0; k < limit_count; k++) {
        const struct limit_case *one = &limit_cases[k];
        lent.length = limit_sheet(one, lent.sheet);
        if (one->code != SHEET_ACCEPTED)
            expect_sheet_refused(one->name, one->code, one->place);
    }
}

TESTS(refused_presses, SMALL_STACK)
TESTS(refused_sheets, SMALL_STACK)
