/*
 * Carries what the delays of a damaged sheet hold into a copy of it: refused as the check refuses
 * the sheet, or for a label that stands twice.
 */
#include <stdlib.h>
#include <string.h>

#include "damaged.h"
#include "sheet.h"

static size_t carry(const uint8_t *sheet, size_t length, uint64_t verdict)
{
    uint8_t *copy = memcpy(block(length), sheet, length), *next = block(length);
    uint64_t result = sheet_carry(sheet, length, copy, length, next, length);
    if (sheet_code_of(result) == SHEET_DONE)
        look_at(next, length);
    free(copy);
    free(next);
    if (sheet_code_of(verdict) != SHEET_ACCEPTED)
        return result != verdict;
    return sheet_code_of(result) != SHEET_DONE && sheet_code_of(result) != SHEET_LABEL_TWICE;
}

DAMAGED(carry)
