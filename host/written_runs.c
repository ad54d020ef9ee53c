/*
 * Small sheets written out in full, and runs of them: each record's kind, next, a, b, c, d as far as they are not 0, from the
 * header on; the stimulus and the outputs; and what the leaves of delays hold at the end. A comment says why. In all of them
 * type 1 is flat.
 */
#include "cases.h"
#include "guard.h"
#include "sheet.h"
#include "suite.h"

enum { MOST_WRITTEN = 20, MOST_STIM = 14, MOST_HELD = 2 };

struct held {
    uint16_t leaf, value;
};

struct written_run {
    const char *name;
    size_t count;
    uint16_t records[MOST_WRITTEN][WORDS];
    size_t cycles, stim_length, out_length;
    uint8_t stim[MOST_STIM], out[MOST_STIM];
    size_t held_count;
    struct held held[MOST_HELD];
};

static const struct written_run runs[] = {
    /* The bench cases of docs/SHEETS.md. AND: (2,0) gives 2, (1,0) gives 0, (1,1) gives 1; no where either part says no. */
    {"AND",
     12,
     {{1, 1, 2, 3, 12}, {16, 2, 2}, {17, 0, 1, 1}, {39, 0, 4, 8, 10, 5}, {33}, {50, 0, 6, 7}, {49, 0, 1, 1}, {49, 0, 1, 1},
      {32, 0, 1, 9}, {64, 0, 1}, {32, 0, 1, 11}, {64, 0, 2}},
     7, 14, 7, {2, 0, 1, 0, 1, 1, 0, 2, 0, 1, 0, 0, 2, 1}, {2, 0, 1, 2, 0, 0, 2}, 0, {{0}}},
    {"a NOT fed back on itself",
     11,
     {{1, 1, 1, 2, 11}, {16, 0, 2}, {38, 0, 1, 3, 10}, {39, 0, 4, 6, 8, 5}, {33}, {49, 0, 1, 1}, {32, 0, 1, 7}, {64, 0, 2},
      {32, 0, 1, 9}, {64, 0, 1}, {33}},
     3, 3, 3, {0, 1, 2}, {0, 0, 0}, 0, {{0}}},
    {"a feedback defined as (hi, its own first part)",
     10,
     {{1, 1, 1, 3, 10}, {16, 2, 2}, {17, 0, 1, 1}, {38, 0, 2, 4, 9}, {34, 0, 5, 7}, {32, 0, 1, 6}, {64, 0, 1}, {35, 0, 8},
      {33}, {33}},
     2, 2, 4, {0, 2}, {1, 1, 1, 1}, 0, {{0}}},
    {"a feedback defined as itself",
     5,
     {{1, 1, 1, 2, 5}, {16, 0, 2}, {38, 0, 1, 3, 4}, {33}, {33}},
     3, 3, 3, {0, 1, 2}, {0, 0, 0}, 0, {{0}}},

    /* Patterns: then is 1, else is 2. 1|2 on 0 is undecided, and no on 3. */
    {"pattern 1|2",
     10,
     {{1, 1, 1, 2, 10}, {16, 0, 3}, {39, 0, 3, 6, 8, 4}, {33}, {49, 5, 1, 1}, {49, 0, 1, 2}, {32, 0, 1, 7}, {64, 0, 1},
      {32, 0, 1, 9}, {64, 0, 2}},
     4, 4, 4, {0, 1, 2, 3}, {0, 1, 1, 2}, 0, {{0}}},
    /* The whole type says yes on 0, also as a second alternative. */
    {"pattern of the whole type",
     10,
     {{1, 1, 1, 2, 10}, {16, 0, 3}, {39, 0, 3, 6, 8, 4}, {33}, {49, 5, 1, 1}, {48, 0, 1}, {32, 0, 1, 7}, {64, 0, 1},
      {32, 0, 1, 9}, {64, 0, 2}},
     4, 4, 4, {0, 1, 2, 3}, {1, 1, 1, 1}, 0, {{0}}},
    /* (1,1)|(2,2): undecided on (0,0), on (1,0) by the first and on (0,2) by the second alternative; no on (1,2). */
    {"pattern (1,1)|(2,2)",
     15,
     {{1, 1, 2, 3, 15}, {16, 2, 2}, {17, 0, 1, 1}, {39, 0, 4, 11, 13, 5}, {33}, {50, 8, 6, 7}, {49, 0, 1, 1}, {49, 0, 1, 1},
      {50, 0, 9, 10}, {49, 0, 1, 2}, {49, 0, 1, 2}, {32, 0, 1, 12}, {64, 0, 1}, {32, 0, 1, 14}, {64, 0, 2}},
     6, 12, 6, {0, 0, 1, 1, 2, 2, 1, 2, 1, 0, 0, 2}, {0, 1, 1, 2, 0, 0}, 0, {{0}}},

    /* Shared patterns: 1|3, from 9. IF the input is 1|3 THEN (IF the input is 1|3 THEN 2 ELSE the input) ELSE the input. On 0 the
     * inner IF is undecided between 2 and 0, and the outer one between 0 and 0. */
    {"two IFs on one pattern",
     12,
     {{1, 1, 1, 2, 12}, {16, 0, 3}, {39, 0, 3, 4, 11, 9}, {33}, {39, 0, 5, 6, 8, 9}, {33}, {32, 0, 1, 7}, {64, 0, 2}, {33},
      {49, 10, 1, 1}, {49, 0, 1, 3}, {33}},
     4, 4, 4, {0, 1, 2, 3}, {0, 2, 2, 2}, 0, {{0}}},
    /* Pattern 2 for three IFs: IF (IF the input is 2 THEN 1 ELSE 2) is 2 THEN (IF a delay, from 2, of the input is 2 THEN 3 ELSE 1)
     * ELSE 2. The delay holds 2, 1, 2, 3, 0 in the cycles, and 1 at the end. In cycle 3, on 0, the tested part is undecided between
     * 1 and 2, and the branches are 1 and 2; in cycle 4 the then part is undecided between 3 and 1. */
    {"three IFs on one pattern",
     20,
     {{1, 1, 1, 2, 20}, {16, 0, 3}, {39, 0, 3, 9, 17, 19}, {39, 0, 4, 5, 7, 19}, {33}, {32, 0, 1, 6}, {64, 0, 1}, {32, 0, 1, 8},
      {64, 0, 2}, {39, 0, 10, 13, 15, 19}, {40, 0, 1, 11, 12}, {64, 0, 2}, {33}, {32, 0, 1, 14}, {64, 0, 3}, {32, 0, 1, 16},
      {64, 0, 1}, {32, 0, 1, 18}, {64, 0, 2}, {49, 0, 1, 2}},
     5, 5, 5, {1, 2, 3, 0, 1}, {3, 2, 3, 0, 0}, 1, {{11, 1}}},

    /* Undecided IFs. IF the input is 1 THEN (1,2) ELSE (1,1): on 0 the first leaf is agreed on, the second is not. */
    {"branches that agree in one leaf",
     12,
     {{1, 1, 1, 3, 12}, {16, 2, 2}, {17, 0, 1, 1}, {39, 0, 4, 6, 9, 5}, {33}, {49, 0, 1, 1}, {32, 0, 2, 7}, {64, 8, 1},
      {64, 0, 2}, {32, 0, 2, 10}, {64, 11, 1}, {64, 0, 1}},
     3, 3, 6, {0, 1, 2}, {1, 0, 1, 2, 1, 1}, 0, {{0}}},
    /* One branch is undefined, and so not agreed with. */
    {"a branch that is undefined",
     9,
     {{1, 1, 1, 2, 9}, {16, 0, 2}, {39, 0, 3, 5, 7, 4}, {33}, {49, 0, 1, 1}, {32, 0, 1, 6}, {64}, {32, 0, 1, 8}, {64, 0, 2}},
     3, 3, 3, {0, 1, 2}, {0, 0, 2}, 0, {{0}}},
    /* x = IF x is 1 THEN 2 ELSE 2: agreed on from undefined on. */
    {"branches that agree in a feedback",
     11,
     {{1, 1, 1, 2, 11}, {16, 0, 2}, {38, 0, 1, 3, 10}, {39, 0, 4, 6, 8, 5}, {33}, {49, 0, 1, 1}, {32, 0, 1, 7}, {64, 0, 2},
      {32, 0, 1, 9}, {64, 0, 2}, {33}},
     2, 2, 2, {0, 1}, {2, 2}, 0, {{0}}},
    /* A delay, from 1, of IF the input is 1 THEN 2 ELSE 2: it holds what is agreed on. */
    {"branches that agree under a delay",
     11,
     {{1, 1, 1, 2, 11}, {16, 0, 2}, {40, 0, 1, 3, 4}, {64, 0, 1}, {39, 0, 5, 7, 9, 6}, {33}, {49, 0, 1, 1}, {32, 0, 1, 8},
      {64, 0, 2}, {32, 0, 1, 10}, {64, 0, 2}},
     2, 2, 2, {0, 0}, {1, 2}, 1, {{3, 2}}},

    /* Names and parts. The input is of a bit and a three; the root is (second part, first part). */
    {"parts exchanged",
     10,
     {{1, 1, 3, 5, 10}, {16, 2, 2}, {16, 3, 3}, {17, 4, 1, 2}, {17, 0, 2, 1}, {34, 0, 6, 8}, {36, 0, 7}, {33}, {35, 0, 9}, {33}},
     3, 6, 6, {1, 3, 0, 2, 2, 0}, {3, 1, 2, 0, 0, 2}, 0, {{0}}},
    /* LET x = 1 IN LET y = 2 IN ((x, y), the input): y is number 0, x the one around it, the input around both. */
    {"names",
     15,
     {{1, 1, 1, 4, 15}, {16, 2, 3}, {17, 3, 1, 1}, {17, 0, 2, 1}, {37, 0, 5, 7}, {32, 0, 1, 6}, {64, 0, 1}, {37, 0, 8, 10},
      {32, 0, 1, 9}, {64, 0, 2}, {34, 0, 11, 14}, {34, 0, 12, 13}, {33, 0, 1}, {33}, {33, 0, 2}},
     3, 3, 9, {0, 3, 1}, {1, 2, 0, 1, 2, 3, 1, 2, 1}, 0, {{0}}},

    /* Delays. One on the input gives 0 first, then the input of the cycle before. */
    {"a delay",
     5,
     {{1, 1, 1, 2, 5}, {16, 0, 3}, {40, 0, 1, 3, 4}, {64}, {33}},
     4, 4, 4, {3, 0, 2, 1}, {0, 3, 0, 2}, 1, {{3, 1}}},
    /* The same with a label, which stays in the next sheet. */
    {"a labelled delay",
     5,
     {{1, 1, 1, 2, 5}, {16, 0, 3}, {40, 0, 1, 3, 4, 513}, {64}, {33}},
     4, 4, 4, {3, 0, 2, 1}, {0, 3, 0, 2}, 1, {{3, 1}}},
    /* IF the input is 1 THEN a delay of the input, from 2, ELSE another, from 3. Both advance in each cycle, also on 0,
     * where both hold 1. */
    {"delays in both branches",
     11,
     {{1, 1, 1, 2, 11}, {16, 0, 3}, {39, 0, 3, 5, 8, 4}, {33}, {49, 0, 1, 1}, {40, 0, 1, 6, 7}, {64, 0, 2}, {33},
      {40, 0, 1, 9, 10}, {64, 0, 3}, {33}},
     5, 5, 5, {1, 2, 1, 0, 3}, {2, 1, 2, 1, 0}, 2, {{6, 3}, {9, 3}}},
    /* LET REC x = (a delay, from 1, of a delay, from 2, of x's second part; the input) IN x: two rounds a cycle. */
    {"delays in a feedback",
     13,
     {{1, 1, 1, 3, 13}, {16, 2, 2}, {17, 0, 1, 1}, {38, 0, 2, 4, 12}, {34, 0, 5, 11}, {40, 0, 1, 6, 7}, {64, 0, 1},
      {40, 0, 1, 8, 9}, {64, 0, 2}, {36, 0, 10}, {33}, {33, 0, 1}, {33}},
     3, 3, 6, {1, 1, 2}, {1, 1, 2, 1, 1, 2}, 2, {{6, 1}, {8, 2}}},

    /* x = IF (x, the input) is (1,1) THEN 1 ELSE 2. On 1 every value is given back, and the least is 0, also after a cycle in
     * which it was 2. */
    {"a feedback with fixed points above the least",
     16,
     {{1, 1, 1, 3, 16}, {16, 2, 2}, {17, 0, 1, 1}, {38, 0, 1, 4, 15}, {39, 0, 5, 11, 13, 8}, {34, 0, 6, 7}, {33}, {33, 0, 1},
      {50, 0, 9, 10}, {49, 0, 1, 1}, {49, 0, 1, 1}, {32, 0, 1, 12}, {64, 0, 1}, {32, 0, 1, 14}, {64, 0, 2}, {33}},
     4, 4, 4, {1, 2, 1, 0}, {0, 2, 0, 0}, 0, {{0}}},
    /* x = LET REC y = (the input, y's first part) IN (y's second part, x's first part): y is the input twice, and so is x. */
    {"a feedback in a feedback",
     15,
     {{1, 1, 1, 3, 15}, {16, 2, 2}, {17, 0, 1, 1}, {38, 0, 2, 4, 14}, {38, 0, 2, 5, 9}, {34, 0, 6, 7}, {33, 0, 2}, {35, 0, 8},
      {33}, {34, 0, 10, 12}, {36, 0, 11}, {33}, {35, 0, 13}, {33, 0, 1}, {33}},
     3, 3, 6, {2, 0, 1}, {2, 2, 0, 0, 1, 1}, 0, {{0}}},
    /* x = (the input, LET REC y = a delay, from 2, of x's first part IN y): the second part is the input of the cycle before. */
    {"a delay in two feedbacks",
     13,
     {{1, 1, 1, 3, 13}, {16, 2, 2}, {17, 0, 1, 1}, {38, 0, 2, 4, 12}, {34, 0, 5, 6}, {33, 0, 1}, {38, 0, 1, 7, 11},
      {40, 0, 1, 8, 9}, {64, 0, 2}, {35, 0, 10}, {33, 0, 1}, {33}, {33}},
     3, 3, 6, {1, 2, 0}, {1, 2, 2, 1, 0, 2}, 1, {{8, 0}}},
};

static void written_runs(void)
{
    static struct draft draft;
    static uint8_t sheet[MOST_BYTES], next[MOST_BYTES];
    for (size_t k = 0; k < sizeof runs / sizeof *runs; k++) {
        const struct written_run *one = &runs[k];
        draft_take(&draft, one->records, one->count);
        size_t length = draft_write(&draft, sheet);
        for (size_t h = 0; h < one->held_count; h++)
            draft.words[one->held[h].leaf][A] = one->held[h].value;
        draft_write(&draft, next);
        struct run_call call = {sheet, length, one->stim, one->stim_length, one->out_length, length};
        expect_run(one->name, &call, (uint32_t)one->cycles, one->out, next);
        /* On no cycles there are no outputs, and the next sheet is the sheet. */
        struct run_call none = {sheet, length, one->stim, 0, 0, length};
        expect_run(one->name, &none, 0, one->out, sheet);
    }
}

TESTS(written_runs, SMALL_STACK)
