/*
 * Counts what can still happen in a cycle of a damaged sheet: refused as the check refuses the
 * sheet, by 22, or by 8 or 9 where the input is another.
 */
#include <stdlib.h>

#include "damaged.h"
#include "sheet.h"

static int differs(const uint8_t *sheet, size_t length, uint64_t verdict, size_t inputs)
{
    uint8_t *stim = block(inputs), *out = block(0);
    for (size_t at = 0; at < inputs; at++)
        stim[at] = (uint8_t)(at % 3);
    uint64_t result = sheet_possible(sheet, length, stim, inputs, out, 0);
    uint32_t leaves = sheet_place_of(result);
    if (sheet_code_of(result) == SHEET_WRONG_OUTPUT_LENGTH) {
        free(out);
        out = block(leaves);
        result = sheet_possible(sheet, length, stim, inputs, out, leaves);
    }
    if (sheet_code_of(result) == SHEET_DONE)
        look_at(out, leaves);
    free(stim);
    free(out);
    if (sheet_code_of(verdict) != SHEET_ACCEPTED)
        return result != verdict;
    return result != 0 && sheet_code_of(result) != SHEET_NOT_FOR_SETS &&
           sheet_code_of(result) != SHEET_WRONG_STIMULUS &&
           sheet_code_of(result) != SHEET_WRONG_INPUT;
}

/* With an input of one leaf, and of 64. */
static size_t possible(const uint8_t *sheet, size_t length, uint64_t verdict)
{
    return (size_t)differs(sheet, length, verdict, 1) + (size_t)differs(sheet, length, verdict, 64);
}

DAMAGED(possible)
