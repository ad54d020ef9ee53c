/* Calls on slices that lie against unreadable pages, and the tally of what they gave. */
#ifndef GUARD_H
#define GUARD_H

#include <stddef.h>
#include <stdint.h>

/* Maps the pages; called once, before all else. Stops the program where they can't be had. */
void guard_open(void);

/* Has a fault on this thread, a slice overrun or a stack overflow, reported with the name of the call. */
void guard_thread(void);

/* Names the call that is made from here on, for such a report. */
void guard_name(const char *name);

/* Counts one passed or failed, and says what failed. */
void tally(int passed, const char *name, const char *what);

/* How many were counted so far. */
size_t tally_count(void);

/* Ends with the line `N passed, M failed`; gives the program's status. */
int tally_end(void);

/*
 * Calls the check twice: on a slice that ends at an unreadable page, and on one that begins after one. The pages of the slice are
 * read-only meanwhile. Gives the result; counts one failed where the two differ.
 */
uint64_t guarded_check(const char *name, const uint8_t *sheet, size_t length);

/* What a run is lent: two slices to read, and the lengths of two to fill. */
struct run_call {
    const uint8_t *sheet;
    size_t sheet_length;
    const uint8_t *stim;
    size_t stim_length;
    size_t out_length, next_length;
};

/* What a run gave. The slices stand until the next call. */
struct run_answer {
    uint64_t result;
    const uint8_t *out, *next;
    /* No byte of the two slices was changed. */
    int untouched;
};

/*
 * Calls the run twice: all four slices end at unreadable pages, or all begin after one. The sheet's pages and the stimulus's are
 * read-only meanwhile. The other two slices are filled beforehand, with another byte for each call. Counts one failed where the
 * two calls differ, or bytes beyond a slice are altered.
 */
struct run_answer guarded_run(const char *name, const struct run_call *call);

/* The run must be refused with this code at this place, and leave both slices as they are. */
void expect_refused(const char *name, const struct run_call *call, uint32_t code, uint32_t place);

/* The run must do so many cycles and fill the two slices with these bytes. */
void expect_run(const char *name, const struct run_call *call, uint32_t cycles, const uint8_t *out, const uint8_t *next);

/* What a call that carries values is lent: two slices to read, and the length of one to fill. */
struct carry_call {
    const uint8_t *old_sheet;
    size_t old_length;
    const uint8_t *new_sheet;
    size_t new_length;
    size_t next_length;
};

/* The call, made twice as a run is, must be refused with this code at this place, and leave the next slice as it is. */
void expect_carry_refused(const char *name, const struct carry_call *call, uint32_t code, uint32_t place);

/* The call, made twice, must give 0 at 0 and fill the next slice with these bytes. */
void expect_carried(const char *name, const struct carry_call *call, const uint8_t *next);

/*
 * The verdict must be this one. A run whose stimulus and lengths are wrong too must be refused with the same; where the verdict is
 * to accept, one of no cycles with wrong lengths must be refused with 10 at 0.
 */
void expect(const char *name, const uint8_t *sheet, size_t length, uint32_t code, uint32_t place);

/*
 * The verdict must be one that a sheet of this length can get, and the run on 1 2 1 must give the same where it is a refusal.
 * Where it is none, the input and the output have one leaf: the run does three cycles and changes no byte of the sheet but of
 * leaves, or it refuses one of the three bytes.
 */
void expect_possible(const char *name, const uint8_t *sheet, size_t length);

#endif
