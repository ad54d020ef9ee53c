/* The replay, made on slices that lie against unreadable pages, and a sheet of three leaves. */
#ifndef REPLAYING_H
#define REPLAYING_H

#include <stddef.h>
#include <stdint.h>

#include "draft.h"
#include "sheet.h"

/*
 * W: a delay of the input. Input and output are a bit and a seven, and a bit: three leaves. The
 * delay holds 1 5 0 in the leaves from record 6 on.
 */
enum { W_RECORDS = 10, W_HOLDS = 6, W_LEAVES = 3 };
extern const uint16_t sheet_w[W_RECORDS][WORDS];

/* What a replay is lent: three slices to read, and the length of one to fill. */
struct replay_call {
    const uint8_t *sheet;
    size_t sheet_length;
    const uint8_t *stim;
    size_t stim_length;
    const uint8_t *recorded;
    size_t recorded_length;
    size_t next_length;
};

/* What it gave. The slice stands until the next call. */
struct replay_answer {
    struct sheet_replayed replayed;
    const uint8_t *next;
    /* No byte of the slice was changed. */
    int untouched;
};

/*
 * Makes the call on both sides of unreadable pages, the struct that it returns lying against one
 * too, and each time once more with the struct between two words. The pages of the sheet, of the
 * stimulus and of the record are read-only meanwhile. The next slice is filled beforehand, with
 * another byte for each side. Counts one failed where the calls differ, or write beyond the next
 * slice or beside the struct.
 */
struct replay_answer guarded_replay(const char *name, const struct replay_call *call);

/* The record must agree in so many cycles, and the next slice must hold these bytes. */
void expect_agrees(const char *name, const struct replay_call *call, uint64_t cycles,
                   const uint8_t *next);

/* The record must differ, first in this cycle and lowest in this leaf, and the next slice stay. */
void expect_differs(const char *name, const struct replay_call *call, uint64_t cycle,
                    uint64_t leaf);

/* The call must be refused with this code at this place, 0 in the other fields, and the next slice
 * stay. */
void expect_replay_refused(const char *name, const struct replay_call *call, uint32_t code,
                           uint32_t place);

/*
 * The call must give what follows from the run of the same sheet and stimulus, with an output slice
 * as long as the record: its refusal, with 17 for 10; or the first byte in which its outputs and
 * the record differ, with so many leaves a cycle; or that there is none, and its next sheet.
 */
void expect_as_run(const char *name, const struct replay_call *call, size_t leaves);

#endif
