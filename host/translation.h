/* Translations of texts, made on slices that lie against unreadable pages. */
#ifndef TRANSLATION_H
#define TRANSLATION_H

#include <stddef.h>
#include <stdint.h>

#include "sheet.h"
#include "stack.h"

/* No text and no slice of a test is longer. */
enum { MOST_TEXT = 80000, MOST_SLICE = 80000 };

/* A translation needs more stack than the other calls; the tests of it have some for themselves. */
enum { TRANSLATION_STACK = SHEET_TRANSLATE_STACK + SMALL_STACK / 4 };

/* What a translation is lent: a slice to read, and the length of one to fill. */
struct translation {
    const uint8_t *text;
    size_t text_length;
    size_t sheet_length;
};

/* What it gave. The slice stands until the next call. */
struct translated {
    uint64_t result;
    const uint8_t *sheet;
    /* No byte of the slice was changed. */
    int untouched;
};

/*
 * Translates twice: both slices end at unreadable pages, or both begin after one. The text's pages are read-only meanwhile. The slice
 * for the sheet is filled beforehand, with another byte for each call. Counts one failed where the two calls differ, or bytes beyond
 * the slice are altered.
 */
struct translated guarded_translate(const char *name, const struct translation *lent);

/* The text must be refused with this code at this place, and the slice must stay as it is. */
void expect_text_refused(const char *name, const struct translation *lent, uint32_t code, uint32_t place);

/* The text must give a sheet of so many bytes, these ones, and zeros from there to the end of the slice. */
void expect_translated(const char *name, const struct translation *lent, const uint8_t *sheet, size_t length);

/* The same, but for the sheet's bytes, which are not compared. */
void expect_length(const char *name, const struct translation *lent, size_t length);

#endif
