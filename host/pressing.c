#include "pressing.h"

#include <string.h>

#include "guard.h"
#include "one_cycle.h"

struct press_lent lent;

const uint16_t sheet_and[AND_RECORDS][WORDS] = {{1, 1, 2, 3, 12},    {16, 2, 2},    {17, 0, 1, 1},
                                                {39, 0, 4, 5, 7, 9}, {33},          {32, 0, 1, 6},
                                                {64, 0, 1},          {32, 0, 1, 8}, {64, 0, 2},
                                                {50, 0, 10, 11},     {49, 0, 1, 1}, {49, 0, 1, 1}};

const uint16_t sheet_g[G_RECORDS][WORDS] = {
    {1, 1, 1, 2, 10}, {16, 0, 2}, {39, 0, 3, 6, 7, 9}, {40, 0, 1, 4, 5}, {64, 0, 1}, {33}, {33},
    {32, 0, 1, 8},    {64, 0, 2}, {49, 0, 1, 1}};

const uint16_t sheet_p[P_RECORDS][WORDS] = {
    {1, 1, 3, 4, 5}, {16, 2, 2}, {16, 3, 3}, {17, 0, 1, 2}, {33}};

const uint16_t sheet_s[S_RECORDS][WORDS] = {{1, 1, 3, 5, 16},
                                            {16, 2, 2},
                                            {16, 3, 7},
                                            {17, 4, 1, 2},
                                            {17, 0, 1, 1},
                                            {34, 0, 6, 14},
                                            {39, 0, 7, 9, 11, 13},
                                            {36, 0, 8},
                                            {33},
                                            {32, 0, 1, 10},
                                            {64, 0, 1},
                                            {32, 0, 1, 12},
                                            {64, 0, 2},
                                            {49, 0, 2, 5},
                                            {35, 0, 15},
                                            {33}};

const uint16_t sheet_f[F_RECORDS][WORDS] = {{1, 1, 1, 3, 13},
                                            {16, 2, 2},
                                            {17, 0, 1, 1},
                                            {38, 0, 2, 4, 12},
                                            {34, 0, 5, 11},
                                            {40, 0, 1, 6, 7},
                                            {64, 0, 1},
                                            {40, 0, 1, 8, 9},
                                            {64, 0, 2},
                                            {36, 0, 10},
                                            {33},
                                            {33, 0, 1},
                                            {33}};

void take(const uint16_t (*records)[WORDS], size_t count)
{
    static struct draft draft;
    draft_take(&draft, records, count);
    lent.length = draft_write(&draft, lent.sheet);
}

void hold(size_t record, uint8_t value)
{
    lent.sheet[record * RECORD_BYTES + 2 * A] = value;
}

/* The output leaf of the call that is made. */
static size_t asked;

/*
 * The call as the System V ABI has it: a struct of over 16 bytes is written where the caller says,
 * and that address is given back. The compiler, which knows the type that C has for the call, is
 * not to see which function this is.
 */
typedef struct sheet_pressed *press_into(struct sheet_pressed *pressed, const uint8_t *sheet,
                                         size_t length, const uint8_t *stim, size_t stim_length,
                                         size_t leaf);
static press_into *volatile into = (press_into *)(void (*)(void))sheet_press;

/* A struct between two words that stay as they are; volatile, so that they are looked at again. */
enum { BESIDE = 0x3c };
struct between {
    volatile uint64_t before;
    struct sheet_pressed pressed;
    volatile uint64_t after;
};

/* The call with its struct as a slice; and as C has it, which must return the same. */
static uint64_t press_bytes(const uint8_t *sheet, size_t length, const uint8_t *stim, size_t inputs,
                            uint8_t *bytes, size_t count)
{
    struct sheet_pressed *slice = (struct sheet_pressed *)(void *)bytes;
    if (count != sizeof *slice || into(slice, sheet, length, stim, inputs, asked) != slice)
        tally(0, "press", "the address of the struct is not given back");
    struct between field = {.before = BESIDE, .after = BESIDE};
    field.pressed = sheet_press(sheet, length, stim, inputs, asked);
    if (field.before != BESIDE || field.after != BESIDE)
        tally(0, "press", "the call writes beside the struct");
    if (memcmp(&field.pressed, slice, sizeof *slice) != 0)
        tally(0, "press", "two calls on the same bytes differ");
    return field.pressed.result;
}

struct sheet_pressed guarded_press(const char *name, size_t inputs, size_t leaf)
{
    struct sheet_pressed pressed;
    struct one_cycle call = {press_bytes, lent.sheet, lent.length,
                             lent.stim,   inputs,     sizeof pressed};
    asked = leaf;
    memcpy(&pressed, guarded_one_cycle(name, &call).slice, sizeof pressed);
    return pressed;
}

void expect_pressed(const char *name, size_t inputs, size_t leaf, struct sheet_pressed wanted)
{
    struct sheet_pressed given = guarded_press(name, inputs, leaf);
    tally(given.result == wanted.result, name, "another result");
    tally(given.found == wanted.found, name, "another answer whether a change is found");
    tally(given.leaf == wanted.leaf, name, "another input leaf");
    tally(given.constructor == wanted.constructor, name, "another constructor");
}

void expect_press_refused(const char *name, size_t inputs, size_t leaf, uint32_t code,
                          uint32_t place)
{
    struct sheet_pressed wanted = {(uint64_t)code << 32 | place, 0, 0, 0};
    expect_pressed(name, inputs, leaf, wanted);
}
