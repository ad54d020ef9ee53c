/*
 * Replays: the struct, and records that agree or differ, worked out by hand. What the sheets put
 * out is that of docs/SHEETS.md for T, and follows from what replaying.h and pressing.h say of W
 * and F.
 */
#include <stddef.h>
#include <string.h>

#include "cases.h"
#include "guard.h"
#include "pressing.h"
#include "replaying.h"
#include "suite.h"

static void layout(void)
{
    const char *name = "struct sheet_replayed";
    tally(sizeof(struct sheet_replayed) == 32, name, "it has not 32 bytes");
    tally(offsetof(struct sheet_replayed, result) == 0, name, "result stands elsewhere");
    tally(offsetof(struct sheet_replayed, differs) == 8, name, "differs stands elsewhere");
    tally(offsetof(struct sheet_replayed, cycle) == 16, name, "cycle stands elsewhere");
    tally(offsetof(struct sheet_replayed, leaf) == 24, name, "leaf stands elsewhere");
    tally(SHEET_WRONG_RECORDED_LENGTH == 17, name, "the code of a record's length is not 17");
}

/* A sheet, a stimulus of so many cycles, and what a run gives: the outputs, and the next sheet. */
static struct shift {
    const char *name;
    uint8_t sheet[MOST_BYTES], next[MOST_BYTES];
    size_t length;
    uint8_t stim[16], out[16];
    size_t stim_length, cycles, leaves;
} shift;

static void begin_shift(const char *name, const uint16_t (*records)[WORDS], size_t count)
{
    static struct draft draft;
    draft_take(&draft, records, count);
    shift.name = name;
    shift.length = draft_write(&draft, shift.sheet);
    draft_write(&draft, shift.next);
}

static void put_in(const uint8_t *stim, size_t stim_length, size_t cycles)
{
    memcpy(shift.stim, stim, stim_length);
    shift.stim_length = stim_length;
    shift.cycles = cycles;
}

static void put_out(const uint8_t *out, size_t leaves)
{
    memcpy(shift.out, out, shift.cycles * leaves);
    shift.leaves = leaves;
}

/* What a leaf of the next sheet holds. */
static void hold_next(size_t record, uint8_t value)
{
    shift.next[record * RECORD_BYTES + 2 * A] = value;
}

static struct replay_call of_record(const uint8_t *recorded)
{
    return (struct replay_call){
        shift.sheet, shift.length,                shift.stim,  shift.stim_length,
        recorded,    shift.cycles * shift.leaves, shift.length};
}

/* Each byte of the outputs changed to each other value is found at its cycle and its leaf. */
static void each_byte(void)
{
    uint8_t recorded[sizeof shift.out];
    memcpy(recorded, shift.out, sizeof recorded);
    struct replay_call call = of_record(recorded);
    expect_agrees(shift.name, &call, shift.cycles, shift.next);
    for (size_t at = 0; at < call.recorded_length; at++) {
        for (int value = 0; value < 256; value++) {
            recorded[at] = (uint8_t)value;
            if (recorded[at] != shift.out[at])
                expect_differs(shift.name, &call, at / shift.leaves, at % shift.leaves);
        }
        recorded[at] = shift.out[at];
    }
    expect_agrees(shift.name, &call, shift.cycles, shift.next);
}

/* Of two bytes that differ, and of all from one on, the first is found. */
static void several_bytes(void)
{
    uint8_t recorded[sizeof shift.out];
    memcpy(recorded, shift.out, sizeof recorded);
    struct replay_call call = of_record(recorded);
    for (size_t at = 0; at < call.recorded_length; at++) {
        for (size_t other = at + 1; other < call.recorded_length; other++) {
            recorded[at] ^= 1;
            recorded[other] ^= 3;
            expect_differs(shift.name, &call, at / shift.leaves, at % shift.leaves);
            recorded[at] ^= 1;
            recorded[other] ^= 3;
        }
        memset(recorded + at, 255, call.recorded_length - at);
        expect_differs(shift.name, &call, at / shift.leaves, at % shift.leaves);
        memcpy(recorded, shift.out, sizeof recorded);
    }
}

/* The outputs of docs/SHEETS.md. The delay is back at 2. */
static void take_t(void)
{
    begin_shift("replay of T", sheet_t, T_RECORDS);
    put_in((uint8_t[]){1, 2, 1}, 3, 3);
    put_out((uint8_t[]){2, 1, 1}, 1);
}

/* W puts out what it holds and then the input of the cycle before. It holds the last input. */
static void take_w(void)
{
    begin_shift("replay of W", sheet_w, W_RECORDS);
    put_in((uint8_t[]){2, 7, 1, 0, 3, 2, 1, 1, 0, 2, 0, 2}, 12, 4);
    put_out((uint8_t[]){1, 5, 0, 2, 7, 1, 0, 3, 2, 1, 1, 0}, W_LEAVES);
    hold_next(W_HOLDS, 2);
    hold_next(W_HOLDS + 1, 0);
    hold_next(W_HOLDS + 2, 2);
}

/* F has one leaf in and two out: what the outer delay holds, and the input. Two delays hold 1 and
 * 2, and the outer one takes what the inner one holds. */
static void take_f(void)
{
    begin_shift("replay of F", sheet_f, F_RECORDS);
    put_in((uint8_t[]){1, 0, 2}, 3, 3);
    put_out((uint8_t[]){1, 1, 2, 0, 1, 2}, 2);
    hold_next(F_HOLDS, 0);
    hold_next(F_HOLDS + 2, 2);
}

/* A record, its length that of the outputs, with the cycle and the leaf in which it differs. */
struct differing {
    const char *name;
    uint8_t recorded[12];
    uint64_t cycle, leaf;
};

static const struct differing of_w[] = {
    {"W: 0 for a constructor", {0, 5, 0, 2, 7, 1, 0, 3, 2, 1, 1, 0}, 0, 0},
    {"W: 0 for a constructor, the last", {1, 5, 0, 2, 7, 1, 0, 3, 2, 1, 0, 0}, 3, 1},
    {"W: a constructor for 0", {1, 5, 1, 2, 7, 1, 0, 3, 2, 1, 1, 0}, 0, 2},
    {"W: a constructor for 0, the last", {1, 5, 0, 2, 7, 1, 0, 3, 2, 1, 1, 1}, 3, 2},
    {"W: a byte above a bit", {1, 5, 0, 3, 7, 1, 0, 3, 2, 1, 1, 0}, 1, 0},
    {"W: a byte above the seven", {1, 5, 0, 2, 8, 1, 0, 3, 2, 1, 1, 0}, 1, 1},
    {"W: 255 for 0", {1, 5, 0, 2, 7, 1, 255, 3, 2, 1, 1, 0}, 2, 0},
    {"W: undefined in all", {0, 0, 0, 0, 0, 0, 0, 0, 0, 0, 0, 0}, 0, 0},
    {"W: undefined in one cycle", {1, 5, 0, 2, 7, 1, 0, 0, 0, 1, 1, 0}, 2, 1},
    {"W: cycles exchanged", {1, 5, 0, 0, 3, 2, 2, 7, 1, 1, 1, 0}, 1, 0},
    {"W: two leaves exchanged", {1, 5, 0, 2, 7, 1, 0, 2, 3, 1, 1, 0}, 2, 1},
    {"W: the input of the cycle", {2, 7, 1, 0, 3, 2, 1, 1, 0, 2, 0, 2}, 0, 0},
    {"W: the first cycle again", {1, 5, 0, 1, 5, 0, 1, 5, 0, 1, 5, 0}, 1, 0},
    {"W: a cycle later", {1, 5, 0, 1, 5, 0, 2, 7, 1, 0, 3, 2}, 1, 0},
    {"W: a high leaf early, a low one late", {1, 5, 0, 2, 7, 2, 0, 3, 2, 2, 1, 0}, 1, 2},
    {"W: a low leaf and a high one", {1, 5, 0, 2, 7, 1, 0, 4, 1, 1, 1, 0}, 2, 1},
};

static void written_records(void)
{
    take_w();
    for (size_t k = 0; k < sizeof of_w / sizeof *of_w; k++) {
        struct replay_call call = of_record(of_w[k].recorded);
        expect_differs(of_w[k].name, &call, of_w[k].cycle, of_w[k].leaf);
    }
}

/* The first cycles of a shift, and the others from the sheet after them. */
static void in_parts(void)
{
    static const uint8_t held[][W_LEAVES] = {{1, 5, 0}, {2, 7, 1}, {0, 3, 2}, {1, 1, 0}, {2, 0, 2}};
    uint8_t between[MOST_BYTES];
    take_w();
    for (size_t first = 0; first <= shift.cycles; first++) {
        size_t cut = first * W_LEAVES, bytes = shift.cycles * W_LEAVES - cut;
        memcpy(between, shift.sheet, shift.length);
        for (size_t leaf = 0; leaf < W_LEAVES; leaf++)
            between[(W_HOLDS + leaf) * RECORD_BYTES + 2 * A] = held[first][leaf];
        struct replay_call front = {shift.sheet, shift.length, shift.stim,  cut,
                                    shift.out,   cut,          shift.length};
        expect_agrees("W: the first cycles", &front, first, between);
        struct replay_call rest = {between,         shift.length, shift.stim + cut, bytes,
                                   shift.out + cut, bytes,        shift.length};
        expect_agrees("W: the other cycles", &rest, shift.cycles - first, shift.next);
        /* From the sheet of the beginning they begin with 1 5 0, and here with 2, 0 and 1 1. */
        rest.sheet = shift.sheet;
        if (0 < first && first < shift.cycles)
            expect_differs("W: the other cycles from the beginning", &rest, 0, first == 3);
    }
}

/* No cycles: nothing is recorded, and the next sheet is the sheet; what is recorded is refused. */
static void on_no_cycles(void)
{
    struct replay_call call = {shift.sheet, shift.length, shift.stim,  0,
                               shift.out,   0,            shift.length};
    expect_agrees("replay of no cycles", &call, 0, shift.sheet);
    for (call.recorded_length = 1; call.recorded_length <= 2 * shift.leaves; call.recorded_length++)
        expect_replay_refused("replay of no cycles, a record", &call, SHEET_WRONG_RECORDED_LENGTH,
                              0);
    call.recorded_length = 0;
    call.next_length = shift.length - 1;
    expect_replay_refused("replay of no cycles, next short", &call, SHEET_WRONG_NEXT_LENGTH,
                          (uint32_t)shift.length);
}

/* T on one cycle, its delay from 2 to 1, and from undefined to undefined. */
static void on_one_cycle(void)
{
    take_t();
    put_in((uint8_t[]){1}, 1, 1);
    put_out((uint8_t[]){2}, 1);
    hold_next(T_HOLDS, 1);
    each_byte();
    shift.sheet[T_HOLDS * RECORD_BYTES + 2 * A] = 0;
    put_out((uint8_t[]){0}, 1);
    hold_next(T_HOLDS, 0);
    each_byte();
}

static void replays(void)
{
    void (*const takes[])(void) = {take_t, take_w, take_f};
    layout();
    for (size_t k = 0; k < sizeof takes / sizeof *takes; k++) {
        takes[k]();
        each_byte();
        several_bytes();
        on_no_cycles();
    }
    written_records();
    in_parts();
    on_one_cycle();
}

TESTS(replays, SMALL_STACK)
