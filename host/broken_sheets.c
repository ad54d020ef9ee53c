/* T of every length, with every byte changed, and random sheets. */
#include <string.h>

#include "cases.h"
#include "guard.h"
#include "sheet.h"
#include "suite.h"

static uint8_t bytes[MOST_BYTES];

/* Random numbers by a shift register, the same in every run. */
static uint32_t random_below(uint32_t limit)
{
    static uint64_t state = 0x9e3779b97f4a7c15u;
    state ^= state << 13;
    state ^= state >> 7;
    state ^= state << 17;
    return (uint32_t)(state >> 32) % limit;
}

static size_t write_t(void)
{
    static struct draft draft;
    draft_take(&draft, sheet_t, T_RECORDS);
    return draft_write(&draft, bytes);
}

/* T cut off or with zeros after it. Only with its own length is the count right; no other length is accepted. */
static void t_of_length(size_t length)
{
    memset(bytes, 0, sizeof bytes);
    size_t whole = write_t();
    int wrong = length < RECORD_BYTES || length > SHEET_LONGEST || length % RECORD_BYTES != 0;
    if (length == whole)
        expect("T", bytes, length, SHEET_ACCEPTED, 1);
    else
        expect("T with another length", bytes, length, wrong ? SHEET_WRONG_LENGTH : SHEET_WRONG_HEADER, 0);
}

static void lengths(void)
{
    for (size_t length = 0; length <= 300; length++)
        t_of_length(length);
    for (size_t length = SHEET_LONGEST - 30; length <= SHEET_LONGEST + RECORD_BYTES; length++)
        t_of_length(length);
}

/* Every byte of T set to every value. */
static void damaged_bytes(void)
{
    size_t length = write_t();
    for (size_t at = 0; at < length; at++) {
        uint8_t kept = bytes[at];
        for (int value = 0; value < 256; value++) {
            bytes[at] = (uint8_t)value;
            if (bytes[at] == kept)
                expect("T", bytes, length, SHEET_ACCEPTED, 1);
            else
                expect_possible("T with a byte changed", bytes, length);
        }
        bytes[at] = kept;
    }
}

/* Random bytes of random lengths; and T with a header that fits and random words in the range of its own. */
static void random_sheets(void)
{
    for (int round = 0; round < 300; round++) {
        size_t length = random_below(round % 3 == 0 ? MOST_BYTES + 1 : 600);
        for (size_t at = 0; at < length; at++)
            bytes[at] = (uint8_t)random_below(256);
        expect_possible("random bytes", bytes, length);
    }
    for (int round = 0; round < 20000; round++) {
        size_t length = write_t();
        for (int changes = 0; changes <= round % 4; changes++) {
            size_t at = RECORD_BYTES + 2 * random_below((uint32_t)(length - RECORD_BYTES) / 2);
            bytes[at] = (uint8_t)random_below(T_RECORDS + 2);
        }
        expect_possible("T with words changed", bytes, length);
    }
}

TESTS(lengths, SMALL_STACK)
TESTS(damaged_bytes, SMALL_STACK)
TESTS(random_sheets, SMALL_STACK)
