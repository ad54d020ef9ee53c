/* Runs of T, which flips its bit when the input is 1. */
#include <string.h>

#include "cases.h"
#include "guard.h"
#include "sheet.h"
#include "suite.h"

/* Where the leaf that T's delay holds stands: record 4, word a. */
enum { HELD = 4 * RECORD_BYTES + 2 * A };

static uint8_t t[T_BYTES];

static void write_t(void)
{
    static struct draft draft;
    draft_take(&draft, sheet_t, T_RECORDS);
    draft_write(&draft, t);
}

/* T in one call: docs/SHEETS.md's outputs, and the next sheet is T. */
static void in_one_call(void)
{
    static const uint8_t stim[] = {1, 2, 1}, out[] = {2, 1, 1};
    struct run_call call = {t, T_BYTES, stim, 3, 3, T_BYTES};
    expect_run("T on 1 2 1", &call, 3, out, t);
}

/* T on nothing: no outputs, and the next sheet is T. */
static void on_nothing(void)
{
    static const uint8_t none[1] = {0};
    struct run_call call = {t, T_BYTES, none, 0, 0, T_BYTES};
    expect_run("T on no cycles", &call, 0, none, t);
}

/* T on 1 2 1 in pieces of such lengths: each begins from the next slice of the one before. The delay holds 2, 1, 1, 2. */
static void in_pieces(const char *name, const size_t *pieces)
{
    static const uint8_t stim[] = {1, 2, 1}, out[] = {2, 1, 1}, held[] = {2, 1, 1, 2};
    uint8_t sheet[T_BYTES], next[T_BYTES];
    memcpy(sheet, t, T_BYTES);
    for (size_t done = 0; done < sizeof stim; done += *pieces++) {
        struct run_call call = {sheet, T_BYTES, stim + done, *pieces, *pieces, T_BYTES};
        memcpy(next, t, T_BYTES);
        next[HELD] = held[done + *pieces];
        expect_run(name, &call, (uint32_t)*pieces, out + done, next);
        /* The bytes that the run gave, not those that were expected. */
        memcpy(sheet, guarded_run(name, &call).next, T_BYTES);
    }
    tally(memcmp(sheet, t, T_BYTES) == 0, name, "the last next sheet is not T");
}

/* What the delay holds after one cycle: 0 once the input or the value is undefined where it is asked for. */
static uint8_t after(uint8_t held, uint8_t input)
{
    static const uint8_t flipped[] = {0, 2, 1};
    return input == 0 ? 0 : input == 1 ? flipped[held] : held;
}

/* The longest stimulus, the last byte 0 or not, in one call. */
static void on_longest(const char *name, uint8_t last)
{
    static uint8_t stim[SHEET_LONGEST_STIMULUS], out[SHEET_LONGEST_STIMULUS];
    uint8_t next[T_BYTES], held = 2;
    for (size_t at = 0; at < sizeof stim; at++) {
        stim[at] = at + 1 < sizeof stim ? (uint8_t)(1 + (at * at + at / 5) % 2) : last;
        out[at] = held;
        held = after(held, stim[at]);
    }
    memcpy(next, t, T_BYTES);
    next[HELD] = held;
    struct run_call call = {t, T_BYTES, stim, sizeof stim, sizeof out, T_BYTES};
    expect_run(name, &call, sizeof stim, out, next);
}

static void runs_of_t(void)
{
    write_t();
    in_one_call();
    on_nothing();
    in_pieces("T cycle by cycle", (size_t[]){1, 1, 1});
    in_pieces("T in one cycle and two", (size_t[]){1, 2});
    in_pieces("T in two cycles and one", (size_t[]){2, 1});
    in_pieces("T in one cycle, none, one, none and one", (size_t[]){1, 0, 1, 0, 1});
    in_pieces("T in no cycles and three", (size_t[]){0, 3});
    on_longest("T on 65,535 cycles", 1);
    on_longest("T on 65,535 cycles, the last undefined", 0);
}

TESTS(runs_of_t, SMALL_STACK)
