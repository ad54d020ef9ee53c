/* Runs of the sheets at the limits. What they are to give follows from what the cases say of each sheet. */
#include <string.h>

#include "cases.h"
#include "guard.h"
#include "measure.h"
#include "sheet.h"
#include "suite.h"

/* More cycles than there are delays in any sheet. */
enum { CYCLES = 70, MOST_LEAVES = 64, MOST_OUT = MOST_LEAVES * SHEET_LONGEST_STIMULUS };

static uint8_t sheet[MOST_BYTES], next[MOST_BYTES], stim[SHEET_LONGEST_STIMULUS], out[MOST_OUT];

static uint16_t word_of(size_t record, enum word word)
{
    const uint8_t *at = sheet + record * RECORD_BYTES + 2 * word;
    return (uint16_t)(at[0] | at[1] << 8);
}

/* A flat type has one leaf, a pair type those of its parts. */
static size_t leaves_of(size_t type)
{
    return word_of(type, KIND) == FLAT_TYPE ? 1 : leaves_of(word_of(type, A)) + leaves_of(word_of(type, B));
}

static size_t delays_in(size_t length)
{
    size_t count = 0;
    for (size_t record = 1; record < length / RECORD_BYTES; record++)
        count += word_of(record, KIND) == DELAY;
    return count;
}

/* The output of one cycle; `earlier` is the input that left the last delay, or NULL where there was none. */
static void output(enum answer answer, const uint8_t *input, size_t inputs, const uint8_t *earlier, uint8_t *given, size_t leaves)
{
    memset(given, 0, leaves);
    if (answer == INPUT)
        memcpy(given, input, leaves);
    if (answer == FIRST_LEAF)
        given[0] = input[0];
    if (answer == EACH_LEAF)
        memset(given, input[inputs - 1], leaves);
    if ((answer == DELAYED_INSIDE || answer == DELAYED_IN_A_ROW) && earlier != NULL)
        memcpy(given, earlier, leaves);
}

/* The leaves of a delay of the next sheet. */
static void hold(size_t delay, const uint8_t *value)
{
    for (size_t leaf = word_of(delay, B); leaf != 0; leaf = word_of(leaf, NEXT))
        next[leaf * RECORD_BYTES + 2 * A] = *value++;
}

/* Every delay of the next sheet: of the last inputs, the lowest record holds the oldest or the newest. */
static void hold_all(enum answer answer, size_t length, size_t cycles, size_t leaves)
{
    size_t delays = delays_in(length), met = 0;
    memcpy(next, sheet, length);
    for (size_t record = 1; record < length / RECORD_BYTES; record++) {
        if (word_of(record, KIND) != DELAY)
            continue;
        size_t age = answer == DELAYED_INSIDE ? delays - met : met + 1;
        hold(record, stim + (cycles - age) * leaves);
        met++;
    }
}

/* Runs a sheet on inputs of all values; the constructors are two. */
static void run_on_cycles(const struct limit_case *one, size_t cycles)
{
    size_t length = limit_sheet(one, sheet), delays = delays_in(length);
    size_t inputs = leaves_of(word_of(0, A)), outputs = leaves_of(one->place);
    for (size_t at = 0; at < cycles * inputs; at++)
        stim[at] = (uint8_t)((at * at + at / 7) % 3);
    for (size_t cycle = 0; cycle < cycles; cycle++) {
        const uint8_t *earlier = cycle < delays ? NULL : stim + (cycle - delays) * inputs;
        output(one->answer, stim + cycle * inputs, inputs, earlier, out + cycle * outputs, outputs);
    }
    hold_all(one->answer, length, cycles, inputs);
    struct run_call call = {sheet, length, stim, cycles * inputs, cycles * outputs, length};
    expect_run(one->name, &call, (uint32_t)cycles, out, next);
}

/* On no cycles there are no outputs, and the next sheet is the sheet. */
static void run_on_nothing(const struct limit_case *one)
{
    size_t length = limit_sheet(one, sheet);
    struct run_call call = {sheet, length, stim, 0, 0, length};
    expect_run(one->name, &call, 0, out, sheet);
}

static void limits_run(void)
{
    for (size_t k = 0; k < limit_count; k++) {
        if (limit_cases[k].answer == NO_RUN)
            continue;
        run_on_cycles(&limit_cases[k], CYCLES);
        run_on_nothing(&limit_cases[k]);
        /* One byte a cycle, and 64 leaves each: the longest stimulus and the longest output. */
        if (strcmp(limit_cases[k].name, "pairs 64 deep") == 0)
            run_on_cycles(&limit_cases[k], SHEET_LONGEST_STIMULUS);
    }
}

/* The run of one cycle: the stimulus and the output have one leaf, or 64. */
static void once(void)
{
    for (size_t inputs = 1; inputs <= 64; inputs += 63)
        for (size_t outputs = 1; outputs <= 64; outputs += 63)
            sheet_run(at_limit.sheet, at_limit.length, at_limit.stim, inputs, at_limit.out, outputs, at_limit.next, at_limit.length);
}

static void stack_need(void)
{
    measure_on_limits("sheet_run", once, SHEET_RUN_STACK);
}

TESTS(limits_run, SMALL_STACK)
TESTS_ONCE(stack_need)
