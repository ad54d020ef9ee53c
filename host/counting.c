#include "counting.h"

#include <stdio.h>
#include <string.h>

#include "guard.h"
#include "one_cycle.h"

/* The output leaf of the call that is made. */
static size_t asked;

/*
 * The call as the System V ABI has it: a struct of over 16 bytes is written where the caller says,
 * and that address is given back. The compiler, which knows the type that C has for the call, is
 * not to see which function this is.
 */
typedef struct sheet_counts *count_into(struct sheet_counts *counts, const uint8_t *sheet,
                                        size_t length, size_t leaf);
static count_into *volatile into = (count_into *)(void (*)(void))sheet_count;

/* A struct between two words that stay as they are; volatile, so that they are looked at again. */
enum { BESIDE = 0x3c };
struct between {
    volatile uint64_t before;
    struct sheet_counts counts;
    volatile uint64_t after;
};

/* The call with its struct as a slice; and as C has it, which must return the same. No stimulus. */
static uint64_t count_bytes(const uint8_t *sheet, size_t length, const uint8_t *stim, size_t inputs,
                            uint8_t *bytes, size_t count)
{
    (void)stim, (void)inputs;
    struct sheet_counts *slice = (struct sheet_counts *)(void *)bytes;
    if (count != sizeof *slice || into(slice, sheet, length, asked) != slice)
        tally(0, "count", "the address of the struct is not given back");
    struct between field = {.before = BESIDE, .after = BESIDE};
    field.counts = sheet_count(sheet, length, asked);
    if (field.before != BESIDE || field.after != BESIDE)
        tally(0, "count", "the call writes beside the struct");
    if (memcmp(&field.counts, slice, sizeof *slice) != 0)
        tally(0, "count", "two calls on the same bytes differ");
    return field.counts.result;
}

struct sheet_counts guarded_count(const char *name, size_t leaf)
{
    struct sheet_counts counts;
    struct one_cycle call = {count_bytes, lent.sheet, lent.length, lent.stim, 0, sizeof counts};
    asked = leaf;
    memcpy(&counts, guarded_one_cycle(name, &call).slice, sizeof counts);
    return counts;
}

static uint64_t sum(const uint32_t *counters, size_t values)
{
    uint64_t all = 0;
    for (size_t value = 0; value < values; value++)
        all += counters[value];
    return all;
}

/* The result and all 256 counters are as wanted; says which is not, the first one. */
static void tally_counts(const char *name, const struct sheet_counts *given,
                         const struct sheet_counts *wanted)
{
    char what[128];
    snprintf(what, sizeof what, "%u at %u instead of %u at %u", sheet_code_of(given->result),
             sheet_place_of(given->result), sheet_code_of(wanted->result),
             sheet_place_of(wanted->result));
    tally(given->result == wanted->result, name, what);
    size_t value = 0;
    while (value < VALUES && given->counters[value] == wanted->counters[value])
        value++;
    if (value < VALUES)
        snprintf(what, sizeof what, "counter %zu: %u instead of %u", value, given->counters[value],
                 wanted->counters[value]);
    tally(value == VALUES, name, what);
}

void expect_counted(const char *name, size_t leaf, uint32_t inputs, const uint32_t *counters,
                    size_t values)
{
    struct sheet_counts wanted = {0}, given = guarded_count(name, leaf);
    memcpy(wanted.counters, counters, values * sizeof *counters);
    tally(sum(counters, values) == inputs, name, "the test wants another number of inputs");
    tally_counts(name, &given, &wanted);
    tally(sum(given.counters, VALUES) == inputs, name, "the counters do not add up to the inputs");
}

void expect_count_refused(const char *name, size_t leaf, uint32_t code, uint32_t place)
{
    struct sheet_counts wanted = {(uint64_t)code << 32 | place, {0}};
    struct sheet_counts given = guarded_count(name, leaf);
    tally_counts(name, &given, &wanted);
}
