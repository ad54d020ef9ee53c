#include "one_cycle.h"

#include <stdio.h>
#include <string.h>

#include "draft.h"
#include "guard.h"
#include "room.h"
#include "sheet.h"

/* The rooms of the three slices, for each side. */
static struct room sheets[SIDES], stims[SIDES], slices[SIDES];

static const uint8_t fills[SIDES] = {0xa5, 0x5a};

static void open_once(void)
{
    if (sheets[0].start != NULL)
        return;
    for (enum side side = 0; side < SIDES; side++) {
        room_open(&sheets[side], MOST_BYTES);
        room_open(&stims[side], SHEET_LONGEST_STIMULUS + 1);
        room_open(&slices[side], MOST_BYTES);
    }
}

/* One call with its slices at one side of their rooms. */
static struct one_cycle_answer lend(const struct one_cycle *lent, enum side side)
{
    const uint8_t *sheet = room_copy(&sheets[side], side, lent->sheet, lent->sheet_length);
    const uint8_t *stim = room_copy(&stims[side], side, lent->stim, lent->stim_length);
    uint8_t *slice = room_fill(&slices[side], side, lent->slice_bytes, fills[side]);
    uint64_t result = lent->call(sheet, lent->sheet_length, stim, lent->stim_length, slice, lent->slice_bytes);
    return (struct one_cycle_answer){result, slice, all_are(slice, lent->slice_bytes, fills[side])};
}

struct one_cycle_answer guarded_one_cycle(const char *name, const struct one_cycle *lent)
{
    open_once();
    guard_name(name);
    struct one_cycle_answer one = lend(lent, PAGE_AFTER), other = lend(lent, PAGE_BEFORE);
    guard_name("none");
    int equal = memcmp(one.slice, other.slice, lent->slice_bytes) == 0;
    if (one.result != other.result || one.untouched != other.untouched || (!one.untouched && !equal))
        tally(0, name, "two calls on the same bytes differ");
    for (enum side side = 0; side < SIDES; side++)
        if (!room_kept(&slices[side], side, lent->slice_bytes, fills[side]))
            tally(0, name, "the call writes beyond a slice");
    return one;
}

static void tally_answer(const char *name, uint64_t result, uint32_t code, uint32_t place)
{
    char what[128];
    snprintf(what, sizeof what, "%u at %u instead of %u at %u", sheet_code_of(result), sheet_place_of(result), code, place);
    tally(result == ((uint64_t)code << 32 | place), name, what);
}

void expect_one_cycle_refused(const char *name, const struct one_cycle *lent, uint32_t code, uint32_t place)
{
    struct one_cycle_answer answer = guarded_one_cycle(name, lent);
    tally_answer(name, answer.result, code, place);
    tally(answer.untouched, name, "the refused call alters a slice");
}

void expect_one_cycle(const char *name, const struct one_cycle *lent, const uint8_t *slice)
{
    struct one_cycle_answer answer = guarded_one_cycle(name, lent);
    size_t at = 0;
    char what[128] = "";
    tally_answer(name, answer.result, SHEET_DONE, 0);
    while (at < lent->slice_bytes && answer.slice[at] == slice[at])
        at++;
    if (at < lent->slice_bytes)
        snprintf(what, sizeof what, "byte %zu of the slice: %u instead of %u", at, answer.slice[at], slice[at]);
    tally(at == lent->slice_bytes, name, what);
}
