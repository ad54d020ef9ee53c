/*
 * The call for one press, made on a sheet and a stimulus that lie against unreadable pages, and the
 * small sheets that its tests share.
 */
#ifndef PRESSING_H
#define PRESSING_H

#include <stddef.h>
#include <stdint.h>

#include "draft.h"
#include "sheet.h"

/* What the call is lent, besides the length of the stimulus. */
struct press_lent {
    uint8_t sheet[MOST_BYTES];
    size_t length;
    uint8_t stim[SHEET_LONGEST_STIMULUS + 1];
};
extern struct press_lent lent;

/* AND: an IF on a pair of bits with the pattern (1,1), the constants 1 and 2 as its branches. */
enum { AND_RECORDS = 12 };
extern const uint16_t sheet_and[AND_RECORDS][WORDS];

/* G: an IF on a delay of the input: the input where the delay holds 1, else the constant 2. */
enum { G_RECORDS = 10, G_HOLDS = 4 };
extern const uint16_t sheet_g[G_RECORDS][WORDS];

/* P: the input as it comes, of a bit and a three. */
enum { P_RECORDS = 5 };
extern const uint16_t sheet_p[P_RECORDS][WORDS];

/*
 * S: the input is a bit and a seven, the output a pair of bits. The first is an IF on the seven
 * with the pattern 5, the constants 1 and 2 as its branches; the second is the input's bit.
 */
enum { S_RECORDS = 16 };
extern const uint16_t sheet_s[S_RECORDS][WORDS];

/*
 * F: LET REC x = (a delay of a delay of x's second part; the input) IN x. The first output leaf is
 * what the outer delay holds, the second the input.
 */
enum { F_RECORDS = 13, F_HOLDS = 6 };
extern const uint16_t sheet_f[F_RECORDS][WORDS];

/* The leaf of T's delay. */
enum { T_HOLDS = 4 };

/* Lends a sheet of these records. */
void take(const uint16_t (*records)[WORDS], size_t count);

/* Sets the value of the leaf at a record. */
void hold(size_t record, uint8_t value);

/*
 * Makes the call with so many bytes of the stimulus. It is made on both sides of unreadable pages,
 * the struct that it returns lying against one too. The pages of the sheet and of the stimulus are
 * read-only meanwhile. Counts one failed where the calls differ, or write beside the struct.
 */
struct sheet_pressed guarded_press(const char *name, size_t inputs, size_t leaf);

/* The call must return this. */
void expect_pressed(const char *name, size_t inputs, size_t leaf, struct sheet_pressed wanted);

/* The call must be refused with this code at this place, with 0 in the other fields. */
void expect_press_refused(const char *name, size_t inputs, size_t leaf, uint32_t code,
                          uint32_t place);

#endif
