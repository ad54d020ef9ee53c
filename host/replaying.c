#include "replaying.h"

#include <stdio.h>
#include <string.h>

#include "guard.h"
#include "room.h"

const uint16_t sheet_w[W_RECORDS][WORDS] = {{1, 1, 4, 5, 10}, {16, 2, 2},    {16, 3, 7},
                                            {17, 4, 1, 2},    {17, 0, 3, 1}, {40, 0, 4, 6, 9},
                                            {64, 7, 1},       {64, 8, 5},    {64, 0, 0},
                                            {33}};

/* The rooms of the four slices and of the struct, for each side; and of long records. */
static struct room sheets[SIDES], stims[SIDES], records[SIDES], nexts[SIDES], structs[SIDES];
static struct room long_records[SIDES];

static const uint8_t fills[SIDES] = {0xa5, 0x5a};

/* What the first of two calls on one side left in the next slice. */
static uint8_t first_next[MOST_BYTES];

static void open_once(void)
{
    if (sheets[0].start != NULL)
        return;
    for (enum side side = 0; side < SIDES; side++) {
        room_open(&sheets[side], MOST_BYTES);
        room_open(&stims[side], SHEET_LONGEST_STIMULUS + 1);
        room_open(&records[side], MOST_BYTES);
        room_open(&long_records[side], SHEET_LONGEST_OUTPUT + 1);
        room_open(&nexts[side], MOST_BYTES);
        room_open(&structs[side], sizeof(struct sheet_replayed));
    }
}

/*
 * The call as the System V ABI has it: a struct of over 16 bytes is written where the caller says,
 * and that address is given back. The compiler, which knows the type that C has for the call, is
 * not to see which function this is.
 */
typedef struct sheet_replayed *replay_into(struct sheet_replayed *replayed, const uint8_t *sheet,
                                           size_t sheet_length, const uint8_t *stim,
                                           size_t stim_length, const uint8_t *recorded,
                                           size_t recorded_length, uint8_t *next,
                                           size_t next_length);
static replay_into *volatile into = (replay_into *)(void (*)(void))sheet_replay;

/* A struct between two words that stay as they are; volatile, so that they are looked at again. */
enum { BESIDE = 0x3c };
struct between {
    volatile uint64_t before;
    struct sheet_replayed replayed;
    volatile uint64_t after;
};

/* The next slice of a side, filled, with bytes beyond it. */
static uint8_t *fill_next(const struct replay_call *call, enum side side)
{
    return room_fill(&nexts[side], side, call->next_length, fills[side]);
}

/* A room is made read-only page by page, so most records lie in one of few pages. */
static const uint8_t *copy_record(const struct replay_call *call, enum side side)
{
    const struct room *room =
        call->recorded_length <= MOST_BYTES ? &records[side] : &long_records[side];
    return room_copy(room, side, call->recorded, call->recorded_length);
}

static void tally_beyond(const char *name, const struct replay_call *call, enum side side)
{
    if (!room_kept(&nexts[side], side, call->next_length, fills[side]))
        tally(0, name, "the call writes beyond the next slice");
}

/* The call twice with its slices at one side of their rooms: the struct in its room, and in C. */
static struct replay_answer lend(const char *name, const struct replay_call *call, enum side side)
{
    const uint8_t *sheet = room_copy(&sheets[side], side, call->sheet, call->sheet_length);
    const uint8_t *stim = room_copy(&stims[side], side, call->stim, call->stim_length);
    const uint8_t *recorded = copy_record(call, side);
    struct sheet_replayed *given = (struct sheet_replayed *)(void *)room_fill(
        &structs[side], side, sizeof *given, fills[side]);
    uint8_t *next = fill_next(call, side);
    if (into(given, sheet, call->sheet_length, stim, call->stim_length, recorded,
             call->recorded_length, next, call->next_length) != given)
        tally(0, name, "the address of the struct is not given back");
    if (!room_kept(&structs[side], side, sizeof *given, fills[side]))
        tally(0, name, "the call writes beyond the struct");
    tally_beyond(name, call, side);
    memcpy(first_next, next, call->next_length);

    struct between field = {.before = BESIDE, .after = BESIDE};
    next = fill_next(call, side);
    field.replayed =
        sheet_replay(sheet, call->sheet_length, stim, call->stim_length, recorded,
                     call->recorded_length, next, call->next_length);
    if (field.before != BESIDE || field.after != BESIDE)
        tally(0, name, "the call writes beside the struct");
    tally_beyond(name, call, side);
    if (memcmp(&field.replayed, given, sizeof *given) != 0 ||
        memcmp(first_next, next, call->next_length) != 0)
        tally(0, name, "two calls on the same bytes differ");
    return (struct replay_answer){*given, next, all_are(next, call->next_length, fills[side])};
}

struct replay_answer guarded_replay(const char *name, const struct replay_call *call)
{
    open_once();
    guard_name(name);
    struct replay_answer one = lend(name, call, PAGE_AFTER), other = lend(name, call, PAGE_BEFORE);
    guard_name("none");
    int equal = memcmp(one.next, other.next, call->next_length) == 0;
    if (memcmp(&one.replayed, &other.replayed, sizeof one.replayed) != 0 ||
        one.untouched != other.untouched || (!one.untouched && !equal))
        tally(0, name, "two calls on the same bytes differ");
    return one;
}

/* All four fields are as wanted; says what was given where they are not. */
static void tally_fields(const char *name, struct sheet_replayed given,
                         struct sheet_replayed wanted)
{
    char what[192];
    snprintf(what, sizeof what, "%u at %u: %llu %llu %llu instead of %u at %u: %llu %llu %llu",
             sheet_code_of(given.result), sheet_place_of(given.result),
             (unsigned long long)given.differs, (unsigned long long)given.cycle,
             (unsigned long long)given.leaf, sheet_code_of(wanted.result),
             sheet_place_of(wanted.result), (unsigned long long)wanted.differs,
             (unsigned long long)wanted.cycle, (unsigned long long)wanted.leaf);
    tally(given.result == wanted.result && given.differs == wanted.differs &&
              given.cycle == wanted.cycle && given.leaf == wanted.leaf,
          name, what);
}

void expect_agrees(const char *name, const struct replay_call *call, uint64_t cycles,
                   const uint8_t *next)
{
    struct replay_answer answer = guarded_replay(name, call);
    size_t at = 0;
    char what[128] = "";
    tally_fields(name, answer.replayed, (struct sheet_replayed){0, 0, cycles, 0});
    while (at < call->next_length && answer.next[at] == next[at])
        at++;
    if (at < call->next_length)
        snprintf(what, sizeof what, "byte %zu of the next slice: %u instead of %u", at,
                 answer.next[at], next[at]);
    tally(at == call->next_length, name, what);
}

void expect_differs(const char *name, const struct replay_call *call, uint64_t cycle,
                    uint64_t leaf)
{
    struct replay_answer answer = guarded_replay(name, call);
    tally_fields(name, answer.replayed, (struct sheet_replayed){0, 1, cycle, leaf});
    tally(answer.untouched, name, "a differing record alters the next slice");
}

void expect_replay_refused(const char *name, const struct replay_call *call, uint32_t code,
                           uint32_t place)
{
    struct replay_answer answer = guarded_replay(name, call);
    uint64_t result = (uint64_t)code << 32 | place;
    tally_fields(name, answer.replayed, (struct sheet_replayed){result, 0, 0, 0});
    tally(answer.untouched, name, "the refused call alters the next slice");
}

void expect_as_run(const char *name, const struct replay_call *call, size_t leaves)
{
    struct run_call run = {call->sheet,       call->sheet_length,    call->stim,
                           call->stim_length, call->recorded_length, call->next_length};
    struct run_answer ran = guarded_run(name, &run);
    uint32_t code = sheet_code_of(ran.result), place = sheet_place_of(ran.result);
    size_t at = 0;
    if (code != SHEET_ACCEPTED) {
        code = code == SHEET_WRONG_OUTPUT_LENGTH ? SHEET_WRONG_RECORDED_LENGTH : code;
        expect_replay_refused(name, call, code, place);
        return;
    }
    while (at < call->recorded_length && call->recorded[at] == ran.out[at])
        at++;
    if (at < call->recorded_length)
        expect_differs(name, call, at / leaves, at % leaves);
    else
        expect_agrees(name, call, place, ran.next);
}
