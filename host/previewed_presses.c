/*
 * Presses against previews: the change that the call gives is the lowest of those whose preview
 * shows another byte at the output leaf, found by making the preview of each in their order.
 */
#include <string.h>

#include "cases.h"
#include "guard.h"
#include "pressing.h"
#include "suite.h"

enum { MOST_LEAVES = 64 };

/* How many leaves come in and go out, and the constructor counts of those that come in. */
struct leaf_counts {
    size_t inputs, outputs;
    uint8_t counts[MOST_LEAVES];
};

/* What a preview shows at an output leaf. */
static uint8_t shown(const struct leaf_counts *of, size_t leaf)
{
    uint8_t out[MOST_LEAVES] = {0};
    uint64_t result =
        sheet_preview(lent.sheet, lent.length, lent.stim, of->inputs, out, of->outputs);
    if (result != 0)
        tally(0, "press", "the preview of a change is refused");
    return out[leaf];
}

static struct sheet_pressed by_previews(const struct leaf_counts *of, size_t leaf)
{
    uint8_t present = shown(of, leaf);
    for (size_t at = 0; at < of->inputs; at++) {
        uint8_t kept = lent.stim[at];
        for (uint64_t constructor = 1; constructor <= of->counts[at]; constructor++) {
            lent.stim[at] = (uint8_t)constructor;
            int alters = constructor != kept && shown(of, leaf) != present;
            lent.stim[at] = kept;
            if (alters)
                return (struct sheet_pressed){0, 1, at, constructor};
        }
    }
    return (struct sheet_pressed){0, 0, 0, 0};
}

/* How often there was a change, and how often none. */
static size_t found_count, none_count;

static void as_previewed(const char *name, const struct leaf_counts *of, size_t leaf)
{
    struct sheet_pressed wanted = by_previews(of, leaf);
    found_count += wanted.found == 1;
    none_count += wanted.found == 0;
    expect_pressed(name, of->inputs, leaf, wanted);
}

/* Goes on to the next input, of all that there are, and says whether there is one. */
static int next_input(const struct leaf_counts *of)
{
    for (size_t at = 0; at < of->inputs; at++) {
        if (lent.stim[at] < of->counts[at]) {
            lent.stim[at]++;
            return 1;
        }
        lent.stim[at] = 0;
    }
    return 0;
}

/* Every output leaf for every input, undefined leaves among them. */
static void all_inputs(const char *name, const struct leaf_counts *of)
{
    memset(lent.stim, 0, of->inputs);
    do {
        for (size_t leaf = 0; leaf < of->outputs; leaf++)
            as_previewed(name, of, leaf);
    } while (next_input(of));
}

/* Those with delays for every value that they may hold. */
static void small_sheets(void)
{
    found_count = none_count = 0;
    take(sheet_and, AND_RECORDS);
    all_inputs("every press on AND", &(struct leaf_counts){2, 1, {2, 2}});
    take(sheet_p, P_RECORDS);
    all_inputs("every press on P", &(struct leaf_counts){2, 2, {2, 3}});
    take(sheet_s, S_RECORDS);
    all_inputs("every press on S", &(struct leaf_counts){2, 2, {2, 7}});
    for (uint8_t held = 0; held <= 2; held++) {
        take(sheet_t, T_RECORDS);
        hold(T_HOLDS, held);
        all_inputs("every press on T", &(struct leaf_counts){1, 1, {2}});
        take(sheet_g, G_RECORDS);
        hold(G_HOLDS, held);
        all_inputs("every press on G", &(struct leaf_counts){1, 1, {2}});
        take(sheet_f, F_RECORDS);
        hold(F_HOLDS, held);
        all_inputs("every press on F", &(struct leaf_counts){1, 2, {2}});
    }
    tally(found_count > 0 && none_count > 0, "press", "a change is found always, or never");
}

/* Every byte of T set to every value: the check's refusal, or the lowest change by previews. */
static void damaged_t(void)
{
    const char *name = "press on T with a byte changed";
    take(sheet_t, T_RECORDS);
    for (size_t at = 0; at < lent.length; at++) {
        uint8_t kept = lent.sheet[at];
        for (int value = 0; value < 256; value += at % 2 == 0 ? 1 : 51) {
            lent.sheet[at] = (uint8_t)value;
            lent.stim[0] = 1;
            uint64_t verdict = sheet_check(lent.sheet, lent.length);
            uint32_t code = sheet_code_of(verdict), place = sheet_place_of(verdict);
            /* The input has T's only type. */
            struct leaf_counts of = {1, 1, {lent.sheet[RECORD_BYTES + 2 * A]}};
            if (code == SHEET_ACCEPTED)
                as_previewed(name, &of, 0);
            else
                expect_press_refused(name, 1, 0, code, place);
        }
        lent.sheet[at] = kept;
    }
}

/*
 * Sheets at a limit, whose leaves have two constructors, one or 64 in. A preview with no slice says
 * whether that many make a cycle, and how many leaves go out.
 */
static void limits(void)
{
    struct leaf_counts of = {0};
    uint8_t out[1];
    memset(of.counts, 2, sizeof of.counts);
    for (size_t k = 0; k < limit_count; k++) {
        const struct limit_case *one = &limit_cases[k];
        size_t cycles = 0;
        if (one->answer == NO_RUN)
            continue;
        lent.length = limit_sheet(one, lent.sheet);
        memset(lent.stim, 1, MOST_LEAVES);
        for (of.inputs = 1; of.inputs <= MOST_LEAVES; of.inputs += 63) {
            uint64_t result = sheet_preview(lent.sheet, lent.length, lent.stim, of.inputs, out, 0);
            if (sheet_code_of(result) == SHEET_WRONG_STIMULUS) {
                expect_press_refused(one->name, of.inputs, 0, SHEET_WRONG_STIMULUS, 0);
                continue;
            }
            uint32_t leaves = sheet_place_of(result);
            expect_press_refused(one->name, of.inputs, leaves, SHEET_NO_OUTPUT_LEAF, leaves);
            of.outputs = leaves;
            as_previewed(one->name, &of, leaves - 1);
            cycles++;
        }
        tally(cycles == 1, one->name, "the input has neither one leaf nor 64");
    }
}

TESTS(small_sheets, SMALL_STACK)
TESTS(damaged_t, SMALL_STACK)
TESTS(limits, SMALL_STACK)
