/*
 * Replays of what runs put out: the record of a run agrees and leaves the run's next sheet, and a
 * replay is refused where the run is. On damaged sheets, on slices of many lengths, on the sheets
 * at the limits and on the longest record; and the stack need.
 */
#include <string.h>

#include "cases.h"
#include "guard.h"
#include "measure.h"
#include "pressing.h"
#include "replaying.h"
#include "suite.h"

enum { CYCLES = 70, LIMIT_CYCLES = 8, MOST_LEAVES = 64, OUTS = SHEET_LONGEST_OUTPUT + 1 };

static uint8_t sheet[MOST_BYTES], next[MOST_BYTES], stim[SHEET_LONGEST_STIMULUS], recorded[OUTS];
static size_t length;

static void take_records(const uint16_t (*records)[WORDS], size_t count)
{
    static struct draft draft;
    draft_take(&draft, records, count);
    length = draft_write(&draft, sheet);
}

/* Every byte of T set to every value: the check's refusal, or what a run of 1 2 1 gives. */
static void damaged_t(void)
{
    static const uint8_t inputs[] = {1, 2, 1}, outputs[] = {2, 1, 1};
    take_records(sheet_t, T_RECORDS);
    for (size_t at = 0; at < length; at++) {
        uint8_t kept = sheet[at];
        for (int value = 0; value < 256; value += at % 2 == 0 ? 1 : 51) {
            struct replay_call call = {sheet, length, inputs, 3, outputs, 3, length};
            sheet[at] = (uint8_t)value;
            expect_as_run("replay of T with a byte changed", &call, 1);
        }
        sheet[at] = kept;
    }
}

/* A sheet with so many leaves in and out. */
struct small {
    const char *name;
    const uint16_t (*records)[WORDS];
    size_t count, inputs, outputs;
};

static const struct small smalls[] = {
    {"replay as run of T", sheet_t, T_RECORDS, 1, 1},
    {"replay as run of G", sheet_g, G_RECORDS, 1, 1},
    {"replay as run of W", sheet_w, W_RECORDS, W_LEAVES, W_LEAVES},
    {"replay as run of F", sheet_f, F_RECORDS, 1, 2},
    {"replay as run of AND", sheet_and, AND_RECORDS, 2, 1},
    {"replay as run of S", sheet_s, S_RECORDS, 2, 2},
};
enum { SMALLS = sizeof smalls / sizeof *smalls };

/* Slices of lengths about the right ones: the replay is refused where the run is, and as it. */
static void slice_lengths(void)
{
    static const uint8_t inputs[] = {1, 2, 1, 0, 2, 2, 1, 3}, outputs[12] = {2, 1, 1};
    for (size_t k = 0; k < SMALLS; k++) {
        take_records(smalls[k].records, smalls[k].count);
        for (size_t many = 0; many <= sizeof inputs; many++)
            for (size_t bytes = 0; bytes <= sizeof outputs; bytes++)
                for (size_t long_by = 0; long_by <= 2; long_by++) {
                    struct replay_call call = {sheet,   length, inputs,              many,
                                               outputs, bytes,  length - 1 + long_by};
                    expect_as_run(smalls[k].name, &call, smalls[k].outputs);
                }
    }
}

/* Runs the sheet on so many bytes and keeps the outputs and the sheet after; gives the cycles. */
static size_t run(const char *name, size_t bytes, size_t outputs)
{
    struct run_call call = {sheet, length, stim, bytes, outputs, length};
    struct run_answer ran = guarded_run(name, &call);
    tally(sheet_code_of(ran.result) == SHEET_ACCEPTED, name, "the run is refused");
    memcpy(recorded, ran.out, outputs);
    memcpy(next, ran.next, length);
    return sheet_place_of(ran.result);
}

/*
 * The run's outputs agree and leave its next sheet. With a byte changed they differ there: the
 * first byte, one in the middle, and the last; with a byte more or fewer they are refused.
 */
static void own_outputs(const char *name, size_t bytes, size_t cycles, size_t leaves)
{
    size_t outputs = cycles * leaves, places[] = {0, outputs / 2, outputs - 1};
    tally(run(name, bytes, outputs) == cycles, name, "the run has another number of cycles");
    struct replay_call call = {sheet, length, stim, bytes, recorded, outputs, length};
    expect_agrees(name, &call, cycles, next);
    for (size_t k = 0; k < sizeof places / sizeof *places; k++) {
        recorded[places[k]] ^= 1;
        expect_differs(name, &call, places[k] / leaves, places[k] % leaves);
        recorded[places[k]] ^= 1;
    }
    call.recorded_length = outputs + 1;
    expect_replay_refused(name, &call, SHEET_WRONG_RECORDED_LENGTH, (uint32_t)outputs);
    call.recorded_length = outputs - 1;
    expect_replay_refused(name, &call, SHEET_WRONG_RECORDED_LENGTH, (uint32_t)outputs);
}

/* Inputs of all values of two constructors. */
static void fill_stim(size_t bytes)
{
    for (size_t at = 0; at < bytes; at++)
        stim[at] = (uint8_t)((at * at + at / 7) % 3);
}

static void small_sheets(void)
{
    fill_stim(sizeof stim);
    for (size_t k = 0; k < SMALLS; k++) {
        const struct small *one = &smalls[k];
        take_records(one->records, one->count);
        for (size_t cycles = 1; cycles <= CYCLES; cycles += 3)
            own_outputs(one->name, cycles * one->inputs, cycles, one->outputs);
    }
}

/* The leaves of the input: the fewest bytes that are not refused by 8, except none. */
static size_t input_leaves(const char *name)
{
    size_t leaves = 1;
    while (leaves < MOST_LEAVES) {
        struct run_call call = {sheet, length, stim, leaves, 0, length};
        if (sheet_code_of(guarded_run(name, &call).result) != SHEET_WRONG_STIMULUS)
            break;
        leaves++;
    }
    return leaves;
}

/* The leaves of the output: the length that one cycle needs. */
static size_t output_leaves(const char *name, size_t inputs)
{
    struct run_call call = {sheet, length, stim, inputs, 0, length};
    uint64_t result = guarded_run(name, &call).result;
    tally(sheet_code_of(result) == SHEET_WRONG_OUTPUT_LENGTH, name, "the run needs no output");
    return sheet_place_of(result);
}

/* With 2 in all leaves of delays; on no cycles the next sheet is the sheet. */
static void limits(void)
{
    fill_stim(sizeof stim);
    for (size_t k = 0; k < limit_count; k++) {
        const struct limit_case *one = &limit_cases[k];
        if (one->answer == NO_RUN)
            continue;
        length = labelled_limit_sheet(one, sheet, 2);
        size_t inputs = input_leaves(one->name), outputs = output_leaves(one->name, inputs);
        own_outputs(one->name, LIMIT_CYCLES * inputs, LIMIT_CYCLES, outputs);
        struct replay_call none = {sheet, length, stim, 0, recorded, 0, length};
        expect_agrees(one->name, &none, 0, sheet);
    }
}

/* One byte a cycle in and 64 out: the longest stimulus and the longest record. */
static void longest(void)
{
    fill_stim(sizeof stim);
    for (size_t k = 0; k < limit_count; k++) {
        if (strcmp(limit_cases[k].name, "pairs 64 deep") != 0)
            continue;
        length = limit_sheet(&limit_cases[k], sheet);
        own_outputs("the longest record", sizeof stim, sizeof stim, MOST_LEAVES);
    }
}

/* The replay of one cycle, with one leaf or 64 in and out. */
static void once(void)
{
    for (size_t inputs = 1; inputs <= 64; inputs += 63)
        for (size_t outputs = 1; outputs <= 64; outputs += 63)
            sheet_replay(at_limit.sheet, at_limit.length, at_limit.stim, inputs, at_limit.out,
                         outputs, at_limit.next, at_limit.length);
}

static void stack_need(void)
{
    measure_on_limits("sheet_replay", once, SHEET_REPLAY_STACK);
}

TESTS(damaged_t, SMALL_STACK)
TESTS(slice_lengths, SMALL_STACK)
TESTS(small_sheets, SMALL_STACK)
TESTS(limits, SMALL_STACK)
TESTS_ONCE(longest)
TESTS_ONCE(stack_need)
