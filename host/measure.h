/* The stack that a call needs, against the figure in sheet.h. */
#ifndef MEASURE_H
#define MEASURE_H

#include <stddef.h>
#include <stdint.h>

#include "draft.h"

/* What a measured call is lent: a sheet at a limit, the same with other values in delays, and slices. */
struct at_limit {
    uint8_t sheet[MOST_BYTES], other[MOST_BYTES];
    size_t length;
    uint8_t stim[64], out[64], next[MOST_BYTES];
    uint16_t words[MOST_RECORDS];
};
extern struct at_limit at_limit;

/* Makes a call, of this name in sheet.h, on each sheet at a limit, and tells the most stack used. */
void measure_on_limits(const char *call, void (*once)(void), size_t figure);

/*
 * Tells the most stack that a call used, and on what. Counts one failed where it is over the figure, or
 * below half of it.
 */
void tell_stack(const char *call, size_t most, const char *worst, size_t figure);

#endif
