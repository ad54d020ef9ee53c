/*
 * What can still happen against previews. On small sheets every way of filling the undefined leaves
 * of input, constants and delays is previewed: each shows a constructor at each output leaf, and no
 * more of them than were counted. On other sheets the refusals are those of a preview, with 22
 * before 8, and a leaf that the preview shows defined has the count 1.
 */
#include <string.h>

#include "cases.h"
#include "estimating.h"
#include "guard.h"
#include "one_cycle.h"
#include "suite.h"

enum { MOST_LEAVES = 64, MOST_PLACES = 8 };

/* A small sheet: its leaves in and out, and the leaf records of its constants and delays. */
struct small {
    const char *name;
    const uint16_t (*records)[WORDS];
    size_t count, inputs, outputs;
    struct {
        /* 0 after the last one. */
        size_t record;
        uint8_t constructors;
    } held[MOST_PLACES];
    uint8_t constructors[2], shown[4];
};

static const struct small smalls[] = {
    {"every AND", sheet_and, AND_RECORDS, 2, 1, {{6, 2}, {8, 2}}, {2, 2}, {2}},
    {"every G", sheet_g, G_RECORDS, 1, 1, {{4, 2}, {8, 2}}, {2}, {2}},
    {"every S", sheet_s, S_RECORDS, 2, 2, {{10, 2}, {12, 2}}, {2, 7}, {2, 2}},
    {"every X", sheet_x, X_RECORDS, 2, 2, {{0}}, {2, 3}, {3, 2}},
    {"every L", sheet_l, L_RECORDS, 2, 4, {{0}}, {2, 3}, {2, 3, 2, 3}},
    {"every N", sheet_n, N_RECORDS, 1, 3, {{8, 2}, {10, 2}, {21, 2}, {23, 2}}, {2}, {2, 2, 2}},
    {"every J", sheet_j, J_RECORDS, 2, 1, {{8, 5}, {13, 5}, {15, 5}}, {2, 2}, {5}},
    {"every D", sheet_d, D_RECORDS, 2, 2, {{5, 2}, {6, 3}}, {2, 3}, {2, 3}},
};

/* The leaves of the sheet and the stimulus that may be undefined, and how many there are. */
static struct {
    uint8_t *at;
    uint8_t constructors, kept;
} places[MOST_PLACES];
static size_t place_count;

static void take_small(const struct small *one)
{
    take(one->records, one->count);
    place_count = 0;
    for (size_t k = 0; k < one->inputs; k++) {
        places[place_count].at = &lent.stim[k];
        places[place_count++].constructors = one->constructors[k];
    }
    for (size_t k = 0; k < MOST_PLACES && one->held[k].record != 0; k++) {
        places[place_count].at = &lent.sheet[one->held[k].record * RECORD_BYTES + 2 * A];
        places[place_count++].constructors = one->held[k].constructors;
    }
    for (size_t k = 0; k < place_count; k++)
        *places[k].at = 0;
}

/* Goes on to the next values of all places, undefined among them, and says whether there are any.
 */
static int next_values(void)
{
    for (size_t k = 0; k < place_count; k++) {
        if (*places[k].at < places[k].constructors) {
            ++*places[k].at;
            return 1;
        }
        *places[k].at = 0;
    }
    return 0;
}

/* The same for the places that are to be filled, with constructors alone. */
static int next_filling(void)
{
    for (size_t k = 0; k < place_count; k++) {
        if (places[k].kept != 0)
            continue;
        if (*places[k].at < places[k].constructors) {
            ++*places[k].at;
            return 1;
        }
        *places[k].at = 1;
    }
    return 0;
}

static void preview(const struct small *one, uint8_t *out)
{
    uint64_t result =
        sheet_preview(lent.sheet, lent.length, lent.stim, one->inputs, out, one->outputs);
    if (result != 0)
        tally(0, one->name, "a preview is refused");
}

static void estimate(const struct small *one, uint8_t *counts)
{
    struct one_cycle call = {sheet_possible, lent.sheet,  lent.length,
                             lent.stim,      one->inputs, one->outputs};
    struct one_cycle_answer answer = guarded_one_cycle(one->name, &call);
    if (answer.result != 0)
        tally(0, one->name, "the call is refused");
    memcpy(counts, answer.slice, one->outputs);
}

/* How many constructors the fillings show at each leaf; 0 stands for a leaf that one leaves
 * undefined. */
static void count_fillings(const struct small *one, uint8_t *reached)
{
    uint8_t seen[4][256] = {{0}};
    for (size_t k = 0; k < place_count; k++) {
        places[k].kept = *places[k].at;
        if (places[k].kept == 0)
            *places[k].at = 1;
    }
    do {
        uint8_t out[4];
        preview(one, out);
        for (size_t leaf = 0; leaf < one->outputs; leaf++)
            seen[leaf][out[leaf]] = 1;
    } while (next_filling());
    for (size_t k = 0; k < place_count; k++)
        *places[k].at = places[k].kept;
    for (size_t leaf = 0; leaf < one->outputs; leaf++) {
        reached[leaf] = 0;
        for (size_t value = 1; value < 256 && seen[leaf][0] == 0; value++)
            reached[leaf] += seen[leaf][value];
    }
}

/* How often a count was what the fillings reach, and how often more. */
static size_t exact, above;

static void as_filled(const struct small *one)
{
    uint8_t counts[4], out[4], reached[4];
    estimate(one, counts);
    preview(one, out);
    count_fillings(one, reached);
    for (size_t leaf = 0; leaf < one->outputs; leaf++) {
        uint8_t count = counts[leaf];
        tally(reached[leaf] > 0, one->name, "a filling leaves a leaf undefined");
        tally(reached[leaf] <= count, one->name, "fillings show more than is possible");
        tally(count <= one->shown[leaf], one->name, "more is possible than the type has");
        tally(out[leaf] == 0 || count == 1, one->name, "a defined leaf is not alone");
        exact += reached[leaf] == count;
        above += reached[leaf] < count;
    }
}

/* With one more leaf filled no count rises. */
static void as_filled_once(const struct small *one)
{
    uint8_t before[4], after[4];
    int rises = 0;
    estimate(one, before);
    for (size_t k = 0; k < place_count; k++) {
        if (*places[k].at != 0)
            continue;
        for (*places[k].at = 1; *places[k].at <= places[k].constructors; ++*places[k].at) {
            estimate(one, after);
            for (size_t leaf = 0; leaf < one->outputs; leaf++)
                rises |= after[leaf] > before[leaf];
        }
        *places[k].at = 0;
    }
    tally(!rises, one->name, "a count rises when a leaf is filled");
}

static void small_sheets(void)
{
    exact = above = 0;
    for (size_t k = 0; k < sizeof smalls / sizeof *smalls; k++) {
        take_small(&smalls[k]);
        do {
            as_filled(&smalls[k]);
            as_filled_once(&smalls[k]);
        } while (next_values());
    }
    /* Of N, whose last leaf is on a signal and its inverse, some counts are above. */
    tally(exact > 0 && above > 0, "possible", "every count is exact, or none is");
}

/* The lowest record that is a feedback or a flat type above 64 constructors; 0 if there is none. */
static uint32_t lowest_past(void)
{
    for (size_t record = 1; record < lent.length / RECORD_BYTES; record++) {
        const uint8_t *words = lent.sheet + record * RECORD_BYTES;
        int wide = words[2 * A] > 64 || words[2 * A + 1] > 0;
        if (words[2 * KIND] == FEEDBACK || (words[2 * KIND] == FLAT_TYPE && wide))
            return (uint32_t)record;
    }
    return 0;
}

/* Every byte of AND set to many values, with the input (1,0). */
static void damaged_and(void)
{
    const char *name = "possible of AND with a byte changed";
    size_t refused = 0, past = 0, done = 0;
    take(sheet_and, AND_RECORDS);
    for (size_t at = 0; at < lent.length; at++) {
        uint8_t kept = lent.sheet[at];
        for (int value = 0; value < 256; value += at % 2 == 0 ? 1 : 51) {
            lent.sheet[at] = (uint8_t)value;
            lent.stim[0] = 1;
            lent.stim[1] = 0;
            uint8_t out[1] = {0};
            uint64_t verdict = sheet_check(lent.sheet, lent.length);
            if (sheet_code_of(verdict) == SHEET_ACCEPTED && lowest_past() != 0)
                verdict = (uint64_t)SHEET_NOT_FOR_SETS << 32 | lowest_past();
            else if (sheet_code_of(verdict) == SHEET_ACCEPTED)
                verdict = sheet_preview(lent.sheet, lent.length, lent.stim, 2, out, 1);
            uint32_t code = sheet_code_of(verdict);
            refused += code != SHEET_DONE;
            past += code == SHEET_NOT_FOR_SETS;
            done += code == SHEET_DONE;
            if (code != SHEET_DONE) {
                expect_estimate_refused(name, 2, 1, code, sheet_place_of(verdict));
                continue;
            }
            uint8_t count[1] = {0};
            tally(sheet_possible(lent.sheet, lent.length, lent.stim, 2, count, 1) == 0, name,
                  "the call is refused, the preview is not");
            tally(count[0] >= 1 && (out[0] == 0 || count[0] == 1), name, "another count");
        }
        lent.sheet[at] = kept;
    }
    tally(refused > 0 && past > 0 && done > 0, name, "not refused, not by 22, or always");
}

/* The input leaf that an output leaf of a sheet at a limit is; of the other sheets it is undefined.
 */
static uint8_t leaf_shown(const struct limit_case *one, size_t inputs, size_t leaf)
{
    size_t at = one->answer == INPUT ? leaf : one->answer == EACH_LEAF ? inputs - 1 : 0;
    int shows = one->answer == INPUT || one->answer == FIRST_LEAF || one->answer == EACH_LEAF;
    return shows ? lent.stim[at] : 0;
}

/*
 * Sheets at a limit, one leaf or 64 in, all of two constructors. A preview with no slice says
 * whether that many make a cycle, and how many leaves go out. Constants and delays hold 0 there.
 */
static void limits(void)
{
    uint8_t counts[MOST_LEAVES], input[MOST_LEAVES];
    for (size_t at = 0; at < MOST_LEAVES; at++)
        input[at] = (uint8_t)((at * at + at / 7) % 3);
    size_t done = 0;
    for (size_t k = 0; k < limit_count; k++) {
        const struct limit_case *one = &limit_cases[k];
        if (one->answer == NO_RUN)
            continue;
        lent.length = limit_sheet(one, lent.sheet);
        memcpy(lent.stim, input, sizeof input);
        uint32_t past = lowest_past();
        for (size_t inputs = 1; inputs <= MOST_LEAVES; inputs += 63) {
            uint64_t result = sheet_preview(lent.sheet, lent.length, lent.stim, inputs, counts, 0);
            uint32_t code = past ? SHEET_NOT_FOR_SETS : sheet_code_of(result);
            uint32_t place = past ? past : sheet_place_of(result);
            expect_estimate_refused(one->name, inputs, 0, code, place);
            if (code != SHEET_WRONG_OUTPUT_LENGTH)
                continue;
            for (size_t leaf = 0; leaf < place; leaf++)
                counts[leaf] = leaf_shown(one, inputs, leaf) == 0 ? 2 : 1;
            expect_estimated(one->name, input, inputs, counts, place);
            done++;
        }
    }
    tally(done >= 15, "possible", "few sheets at a limit are without feedback");
}

TESTS(small_sheets, SMALL_STACK)
TESTS(damaged_and, SMALL_STACK)
TESTS(limits, SMALL_STACK)
