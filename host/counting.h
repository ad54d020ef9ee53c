/*
 * The count, made on a sheet that lies against unreadable pages. The sheets and what is lent are
 * those of pressing.h; of them the count takes the sheet alone.
 */
#ifndef COUNTING_H
#define COUNTING_H

#include <stddef.h>
#include <stdint.h>

#include "pressing.h"
#include "sheet.h"

/* The values of a leaf, undefined among them. */
enum { VALUES = 256 };

/*
 * Makes the call on both sides of unreadable pages, the struct that it returns lying against one
 * too. The pages of the sheet are read-only meanwhile. Counts one failed where the calls differ, or
 * write beside the struct.
 */
struct sheet_counts guarded_count(const char *name, size_t leaf);

/*
 * The call must be done, with these counters from value 0 on and 0 in the others. What is wanted
 * must add up to the number of inputs, and so must what the call returns.
 */
void expect_counted(const char *name, size_t leaf, uint32_t inputs, const uint32_t *counters,
                    size_t values);

/* The call must be refused with this code at this place, and return 0 in every counter. */
void expect_count_refused(const char *name, size_t leaf, uint32_t code, uint32_t place);

#endif
