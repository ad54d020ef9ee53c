/* Calls that take a sheet and one cycle of input and fill one slice, made on slices that lie against unreadable pages. */
#ifndef ONE_CYCLE_H
#define ONE_CYCLE_H

#include <stddef.h>
#include <stdint.h>

/* Such a call, its slice as bytes. */
typedef uint64_t one_cycle_call(const uint8_t *sheet, size_t sheet_length, const uint8_t *stim, size_t stim_length, uint8_t *slice,
                                size_t slice_bytes);

/* What it is lent: two slices to read, and the length in bytes of one to fill. */
struct one_cycle {
    one_cycle_call *call;
    const uint8_t *sheet;
    size_t sheet_length;
    const uint8_t *stim;
    size_t stim_length;
    size_t slice_bytes;
};

/* What it gave. The slice stands until the next call. */
struct one_cycle_answer {
    uint64_t result;
    const uint8_t *slice;
    /* No byte of the slice was changed. */
    int untouched;
};

/*
 * Makes the call twice: all three slices end at unreadable pages, or all begin after one. The sheet's pages and the stimulus's are
 * read-only meanwhile. The third slice is filled beforehand, with another byte for each call. Counts one failed where the two
 * calls differ, or bytes beyond the slice are altered.
 */
struct one_cycle_answer guarded_one_cycle(const char *name, const struct one_cycle *lent);

/* The call must be refused with this code at this place, and leave the slice as it is. */
void expect_one_cycle_refused(const char *name, const struct one_cycle *lent, uint32_t code, uint32_t place);

/* The call must give 0 at place 0 and fill the slice with these bytes. */
void expect_one_cycle(const char *name, const struct one_cycle *lent, const uint8_t *slice);

#endif
