/*
 * The call on what can still happen, made on slices that lie against unreadable pages, and small
 * sheets without feedback for its tests. Other sheets, and what is lent, are those of pressing.h.
 */
#ifndef ESTIMATING_H
#define ESTIMATING_H

#include <stddef.h>
#include <stdint.h>

#include "pressing.h"
#include "sheet.h"

/* X: the input is a bit and a three; the output has the three first, then the bit. */
enum { X_RECORDS = 10 };
extern const uint16_t sheet_x[X_RECORDS][WORDS];

/*
 * L: the input is a bit and a three. LET x = its bit IN LET y = its three IN (x, (y, the input)):
 * four leaves go out.
 */
enum { L_RECORDS = 17 };
extern const uint16_t sheet_l[L_RECORDS][WORDS];

/*
 * N: the input is a bit. LET x = its inverse IN ((the input, x), d), where d is 1 if the two
 * differ, by the pattern (1,2)|(2,1), and else 2. So d is 1 for every defined input.
 */
enum { N_RECORDS = 30 };
extern const uint16_t sheet_n[N_RECORDS][WORDS];

/*
 * J: the input is two bits, the output a five: 1 if the first bit is 1; else 2 if the second bit is
 * 1; else 3.
 */
enum { J_RECORDS = 18 };
extern const uint16_t sheet_j[J_RECORDS][WORDS];

/* K: a constant of a bit and a three, whatever the input, a bit, is. Its leaves are two records. */
enum { K_RECORDS = 7, K_BIT = 5, K_THREE = 6 };
extern const uint16_t sheet_k[K_RECORDS][WORDS];

/* D: a delay of the input, a bit and a three. What it holds are two records. */
enum { D_RECORDS = 8, D_BIT = 5, D_THREE = 6 };
extern const uint16_t sheet_d[D_RECORDS][WORDS];

/* For this input the call must give 0 at place 0 and write these counts. */
void expect_estimated(const char *name, const uint8_t *input, size_t inputs, const uint8_t *counts,
                      size_t outputs);

/*
 * With so many bytes of the stimulus, and a slice of so many for the counts, the call must be
 * refused with this code at this place, and leave the slice as it is.
 */
void expect_estimate_refused(const char *name, size_t inputs, size_t outputs, uint32_t code,
                             uint32_t place);

#endif
