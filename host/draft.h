/* Builds sheets from words. */
#ifndef DRAFT_H
#define DRAFT_H

#include <stddef.h>
#include <stdint.h>

enum kind {
    HEADER = 1,
    FLAT_TYPE = 16,
    PAIR_TYPE = 17,
    CONSTANT = 32,
    NAME = 33,
    PAIR = 34,
    FIRST_PART = 35,
    SECOND_PART = 36,
    LET = 37,
    FEEDBACK = 38,
    IF = 39,
    DELAY = 40,
    WHOLE_TYPE = 48,
    CONSTRUCTOR = 49,
    PAIR_PATTERN = 50,
    LEAF = 64
};

/* The words of a record. */
enum word { KIND, NEXT, A, B, C, D, WORDS };

/* One record more than a sheet may have, so that a sheet that is too long can be built. */
enum { MOST_RECORDS = 4097, RECORD_BYTES = 2 * WORDS, MOST_BYTES = MOST_RECORDS * RECORD_BYTES };

struct draft {
    uint16_t words[MOST_RECORDS][WORDS];
    size_t count;
};

/* Begins with a header alone, the words after its kind 0. */
void draft_begin(struct draft *draft);

/* Adds a record of a kind, its other words 0, and gives its number. */
uint16_t draft_add(struct draft *draft, uint16_t kind);

/* The same, named by a word of another record. */
uint16_t draft_part(struct draft *draft, uint16_t namer, enum word word, uint16_t kind);

/* Takes over records as they are, header included. */
void draft_take(struct draft *draft, const uint16_t (*records)[WORDS], size_t count);

/* Writes the records, each word low byte first, and gives the length in bytes. */
size_t draft_write(const struct draft *draft, uint8_t *bytes);

/* The header's word c says how many records there are; the last step of a built sheet. */
void draft_end(struct draft *draft);

#endif
