/*
 * Previews: outputs worked out by hand, every refusal, and the outputs and refusals of a run of the same cycle. The sheet lies on
 * pages that cannot be written while a preview is made.
 */
#include <string.h>

#include "cases.h"
#include "guard.h"
#include "measure.h"
#include "one_cycle.h"
#include "sheet.h"
#include "suite.h"

enum { MOST_LEAVES = 64, P_RECORDS = 5, Q_RECORDS = 8, F_RECORDS = 13 };

/* P: the input as it comes, of a bit and a three. */
static const uint16_t sheet_p[P_RECORDS][WORDS] = {{1, 1, 3, 4, 5}, {16, 2, 2}, {16, 3, 3}, {17, 0, 1, 2}, {33}};

/* Q: a delay, from 3, of the second part of such an input: two leaves in, one out. */
static const uint16_t sheet_q[Q_RECORDS][WORDS] = {{1, 1, 3, 4, 8},  {16, 2, 2}, {16, 3, 3}, {17, 0, 1, 2},
                                                   {40, 0, 2, 5, 6}, {64, 0, 3}, {36, 0, 7}, {33}};

/* F: LET REC x = (a delay, from 1, of a delay, from 2, of x's second part; the input) IN x: one leaf in, two out. */
static const uint16_t sheet_f[F_RECORDS][WORDS] = {
    {1, 1, 1, 3, 13}, {16, 2, 2}, {17, 0, 1, 1}, {38, 0, 2, 4, 12}, {34, 0, 5, 11}, {40, 0, 1, 6, 7}, {64, 0, 1},
    {40, 0, 1, 8, 9}, {64, 0, 2}, {36, 0, 10},   {33},              {33, 0, 1},     {33}};

static uint8_t sheet[MOST_BYTES], stim[SHEET_LONGEST_STIMULUS + 1];
static size_t length;

static void take(const uint16_t (*records)[WORDS], size_t count)
{
    static struct draft draft;
    draft_take(&draft, records, count);
    length = draft_write(&draft, sheet);
}

/* What the delay's leaf at a record holds. */
static void hold(size_t leaf, uint8_t value)
{
    sheet[leaf * RECORD_BYTES + 2 * A] = value;
}

static struct one_cycle lent(size_t stim_length, size_t out_length)
{
    return (struct one_cycle){sheet_preview, sheet, length, stim, stim_length, out_length};
}

static void shows(const char *name, const uint8_t *input, size_t inputs, const uint8_t *out, size_t outputs)
{
    memcpy(stim, input, inputs);
    struct one_cycle call = lent(inputs, outputs);
    expect_one_cycle(name, &call, out);
    /* Nothing was taken: it shows the same again. */
    expect_one_cycle(name, &call, out);
}

/* T shows what its delay holds, whatever the input is. */
static void of_t(void)
{
    take(sheet_t, T_RECORDS);
    for (uint8_t held = 0; held <= 2; held++)
        for (uint8_t input = 0; input <= 2; input++) {
            hold(4, held);
            shows("preview of T", &input, 1, &held, 1);
        }
}

static void of_small_sheets(void)
{
    take(sheet_p, P_RECORDS);
    shows("preview of the input", (uint8_t[]){2, 3}, 2, (uint8_t[]){2, 3}, 2);
    shows("preview of an undefined input", (uint8_t[]){0, 0}, 2, (uint8_t[]){0, 0}, 2);
    take(sheet_q, Q_RECORDS);
    shows("preview of a delay", (uint8_t[]){1, 2}, 2, (uint8_t[]){3}, 1);
    hold(5, 0);
    shows("preview of a delay of nothing", (uint8_t[]){1, 2}, 2, (uint8_t[]){0}, 1);
    /* The first part shows what the outer delay holds, the second the input. */
    take(sheet_f, F_RECORDS);
    shows("preview of delays in a feedback", (uint8_t[]){2}, 1, (uint8_t[]){1, 2}, 2);
    hold(6, 2);
    hold(8, 1);
    shows("preview of other delays in a feedback", (uint8_t[]){0}, 1, (uint8_t[]){2, 0}, 2);
}

struct refused_preview {
    const char *name;
    const uint16_t (*records)[WORDS];
    size_t count;
    /* The stimulus: bytes of 1, and from a place on another one. */
    size_t stim_length, from;
    uint8_t byte;
    size_t out_length;
    uint32_t code, place;
};

static const struct refused_preview refused[] = {
    /* Code 8, place 0: not exactly one cycle. */
    {"preview: no cycle", sheet_t, T_RECORDS, 0, 0, 1, 1, SHEET_WRONG_STIMULUS, 0},
    {"preview: no cycle and no output", sheet_t, T_RECORDS, 0, 0, 1, 0, SHEET_WRONG_STIMULUS, 0},
    {"preview: two cycles", sheet_t, T_RECORDS, 2, 2, 1, 1, SHEET_WRONG_STIMULUS, 0},
    {"preview: two cycles and their outputs", sheet_t, T_RECORDS, 2, 2, 1, 2, SHEET_WRONG_STIMULUS, 0},
    {"preview: 65,535 cycles", sheet_t, T_RECORDS, 65535, 65535, 1, 1, SHEET_WRONG_STIMULUS, 0},
    {"preview: 65,536 bytes", sheet_t, T_RECORDS, 65536, 65536, 1, 1, SHEET_WRONG_STIMULUS, 0},
    {"preview: no cycle of two leaves", sheet_p, P_RECORDS, 0, 0, 1, 2, SHEET_WRONG_STIMULUS, 0},
    {"preview: half a cycle", sheet_p, P_RECORDS, 1, 1, 1, 2, SHEET_WRONG_STIMULUS, 0},
    {"preview: a cycle and a half", sheet_p, P_RECORDS, 3, 3, 1, 2, SHEET_WRONG_STIMULUS, 0},
    {"preview: two cycles of two leaves", sheet_p, P_RECORDS, 4, 4, 1, 4, SHEET_WRONG_STIMULUS, 0},

    /* Code 9, at the first byte above its leaf's count. */
    {"preview: the only byte", sheet_t, T_RECORDS, 1, 0, 3, 1, SHEET_WRONG_INPUT, 0},
    {"preview: 255", sheet_t, T_RECORDS, 1, 0, 255, 1, SHEET_WRONG_INPUT, 0},
    {"preview: the first byte of two", sheet_p, P_RECORDS, 2, 0, 3, 2, SHEET_WRONG_INPUT, 0},
    {"preview: the second byte of two", sheet_p, P_RECORDS, 2, 1, 4, 2, SHEET_WRONG_INPUT, 1},

    /* Code 10, at the output's leaves. */
    {"preview: no output", sheet_t, T_RECORDS, 1, 1, 1, 0, SHEET_WRONG_OUTPUT_LENGTH, 1},
    {"preview: two bytes for one leaf", sheet_t, T_RECORDS, 1, 1, 1, 2, SHEET_WRONG_OUTPUT_LENGTH, 1},
    {"preview: output as long as the input", sheet_q, Q_RECORDS, 2, 2, 1, 2, SHEET_WRONG_OUTPUT_LENGTH, 1},
    {"preview: output as short as the input", sheet_f, F_RECORDS, 1, 1, 1, 1, SHEET_WRONG_OUTPUT_LENGTH, 2},
    {"preview: output of two cycles", sheet_f, F_RECORDS, 1, 1, 1, 4, SHEET_WRONG_OUTPUT_LENGTH, 2},
    {"preview: output as long as the sheet", sheet_p, P_RECORDS, 2, 2, 1, 60, SHEET_WRONG_OUTPUT_LENGTH, 2},

    /* The lowest number first. */
    {"preview: 8 before 9", sheet_p, P_RECORDS, 4, 0, 255, 2, SHEET_WRONG_STIMULUS, 0},
    {"preview: 8 before 10", sheet_t, T_RECORDS, 0, 0, 1, 7, SHEET_WRONG_STIMULUS, 0},
    {"preview: 8 before 9 and 10", sheet_t, T_RECORDS, 3, 1, 255, 0, SHEET_WRONG_STIMULUS, 0},
    {"preview: 9 before 10", sheet_t, T_RECORDS, 1, 0, 3, 0, SHEET_WRONG_INPUT, 0},
};

static void refused_calls(void)
{
    for (size_t k = 0; k < sizeof refused / sizeof *refused; k++) {
        const struct refused_preview *one = &refused[k];
        take(one->records, one->count);
        memset(stim, 1, one->from);
        memset(stim + one->from, one->byte, one->stim_length - one->from);
        struct one_cycle call = lent(one->stim_length, one->out_length);
        expect_one_cycle_refused(one->name, &call, one->code, one->place);
    }
}

/* The preview answers as the run of one cycle, and shows what it puts out. */
static void as_run(const char *name, size_t stim_length, size_t out_length)
{
    struct run_call run = {sheet, length, stim, stim_length, out_length, length};
    struct run_answer ran = guarded_run(name, &run);
    struct one_cycle call = lent(stim_length, out_length);
    if (sheet_code_of(ran.result) != SHEET_ACCEPTED) {
        expect_one_cycle_refused(name, &call, sheet_code_of(ran.result), sheet_place_of(ran.result));
    } else {
        tally(sheet_place_of(ran.result) == 1, name, "the run is not of one cycle");
        expect_one_cycle(name, &call, ran.out);
    }
}

/* A sheet that is refused is refused with the same verdict; one that is not shows what a run puts out. */
static void of_limits(void)
{
    for (size_t k = 0; k < limit_count; k++) {
        const struct limit_case *one = &limit_cases[k];
        length = limit_sheet(one, sheet);
        for (size_t at = 0; at < MOST_LEAVES; at++)
            stim[at] = (uint8_t)((at * at + at / 7) % 3);
        struct one_cycle empty = lent(0, 1);
        if (one->code != SHEET_ACCEPTED)
            expect_one_cycle_refused(one->name, &empty, one->code, one->place);
        if (one->answer == NO_RUN)
            continue;
        expect_one_cycle_refused(one->name, &empty, SHEET_WRONG_STIMULUS, 0);
        /* The input has one leaf, or as many as make one cycle; the output says itself how many it has. */
        for (size_t inputs = 1; inputs <= MOST_LEAVES; inputs++) {
            struct one_cycle asked = lent(inputs, 0);
            uint64_t result = guarded_one_cycle(one->name, &asked).result;
            if (sheet_code_of(result) == SHEET_WRONG_OUTPUT_LENGTH)
                as_run(one->name, inputs, sheet_place_of(result));
            else
                tally(result == (uint64_t)SHEET_WRONG_STIMULUS << 32, one->name, "neither 8 nor 10 without an output slice");
        }
    }
}

/* Every byte of T set to every value: the check's refusal, or what a run of the cycle gives. */
static void of_damaged_t(void)
{
    take(sheet_t, T_RECORDS);
    stim[0] = 1;
    for (size_t at = 0; at < length; at++) {
        uint8_t kept = sheet[at];
        for (int value = 0; value < 256; value += at % 2 == 0 ? 1 : 51) {
            sheet[at] = (uint8_t)value;
            as_run("preview of T with a byte changed", 1, 1);
        }
        sheet[at] = kept;
    }
}

/* T cut off or with zeros after it, with a stimulus and an output slice that are wrong too. */
static void of_lengths(void)
{
    take(sheet_t, T_RECORDS);
    memset(sheet + T_BYTES, 0, sizeof sheet - T_BYTES);
    static const size_t lengths[] = {0,           1,           11,           12,            13,        T_BYTES - 12,
                                     T_BYTES - 1, T_BYTES + 1, T_BYTES + 12, SHEET_LONGEST, MOST_BYTES};
    for (size_t k = 0; k < sizeof lengths / sizeof *lengths; k++) {
        length = lengths[k];
        int wrong = length < RECORD_BYTES || length > SHEET_LONGEST || length % RECORD_BYTES != 0;
        struct one_cycle call = lent(0, 5);
        expect_one_cycle_refused("preview of T with another length", &call, wrong ? SHEET_WRONG_LENGTH : SHEET_WRONG_HEADER, 0);
    }
}

static void previews(void)
{
    of_t();
    of_small_sheets();
    refused_calls();
    of_limits();
    of_damaged_t();
    of_lengths();
}

/* The preview of one cycle, with one leaf or 64 in and out. */
static void once(void)
{
    for (size_t inputs = 1; inputs <= 64; inputs += 63)
        for (size_t outputs = 1; outputs <= 64; outputs += 63)
            sheet_preview(at_limit.sheet, at_limit.length, at_limit.stim, inputs, at_limit.out, outputs);
}

static void stack_need(void)
{
    measure_on_limits("sheet_preview", once, SHEET_PREVIEW_STACK);
}

TESTS(previews, SMALL_STACK)
TESTS_ONCE(stack_need)
