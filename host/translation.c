#include "translation.h"

#include <stdio.h>
#include <string.h>

#include "guard.h"
#include "room.h"
#include "sheet.h"

/* The rooms of the two slices, for each side. */
static struct room texts_lent[SIDES], sheets[SIDES];

static const uint8_t fills[SIDES] = {0xa5, 0x5a};

static void open_once(void)
{
    if (sheets[0].start != NULL)
        return;
    for (enum side side = 0; side < SIDES; side++) {
        room_open(&texts_lent[side], MOST_TEXT);
        room_open(&sheets[side], MOST_SLICE);
    }
}

/* One call with its slices at one side of their rooms. */
static struct translated lend(const struct translation *lent, enum side side)
{
    const uint8_t *text = room_copy(&texts_lent[side], side, lent->text, lent->text_length);
    uint8_t *sheet = room_fill(&sheets[side], side, lent->sheet_length, fills[side]);
    uint64_t result = sheet_translate(text, lent->text_length, sheet, lent->sheet_length);
    return (struct translated){result, sheet, all_are(sheet, lent->sheet_length, fills[side])};
}

struct translated guarded_translate(const char *name, const struct translation *lent)
{
    open_once();
    guard_name(name);
    struct translated one = lend(lent, PAGE_AFTER), other = lend(lent, PAGE_BEFORE);
    guard_name("none");
    int equal = memcmp(one.sheet, other.sheet, lent->sheet_length) == 0;
    if (one.result != other.result || one.untouched != other.untouched || (!one.untouched && !equal))
        tally(0, name, "two calls on the same bytes differ");
    for (enum side side = 0; side < SIDES; side++)
        if (!room_kept(&sheets[side], side, lent->sheet_length, fills[side]))
            tally(0, name, "the call writes beyond a slice");
    return one;
}

static void tally_answer(const char *name, uint64_t result, uint32_t code, uint32_t place)
{
    char what[128];
    snprintf(what, sizeof what, "%u at %u instead of %u at %u", sheet_code_of(result), sheet_place_of(result), code, place);
    tally(result == ((uint64_t)code << 32 | place), name, what);
}

void expect_text_refused(const char *name, const struct translation *lent, uint32_t code, uint32_t place)
{
    struct translated answer = guarded_translate(name, lent);
    tally_answer(name, answer.result, code, place);
    tally(answer.untouched, name, "the refused call alters a slice");
}

void expect_translated(const char *name, const struct translation *lent, const uint8_t *sheet, size_t length)
{
    struct translated answer = guarded_translate(name, lent);
    size_t at = 0;
    char what[128] = "";
    tally_answer(name, answer.result, SHEET_DONE, (uint32_t)length);
    while (at < lent->sheet_length && answer.sheet[at] == (at < length ? sheet[at] : 0))
        at++;
    if (at < lent->sheet_length)
        snprintf(what, sizeof what, "byte %zu of the slice: %u instead of %u", at, answer.sheet[at], at < length ? sheet[at] : 0);
    tally(at == lent->sheet_length, name, what);
}

void expect_length(const char *name, const struct translation *lent, size_t length)
{
    struct translated answer = guarded_translate(name, lent);
    tally_answer(name, answer.result, SHEET_DONE, (uint32_t)length);
    tally(length <= lent->sheet_length && all_are(answer.sheet + length, lent->sheet_length - length, 0), name,
          "the slice is not zero after the sheet");
}
