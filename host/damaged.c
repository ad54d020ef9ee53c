/*
 * Makes the check, the run and the calls of the folder damaged/ on damaged sheets, for valgrind:
 * every slice is a block of its own and of its exact length, and those that a call fills hold
 * nothing beforehand. After the call each byte of them is looked at, so that one left as it was
 * shows.
 *
 *     damaged COUNT
 *
 * The sheets are T and those at the limits, with up to three words changed; every sixth is whole.
 * There is a line for each file of damaged/. The last line says how many sheets there were with each
 * code of the run. Status 0: the verdicts of all calls agree and every code from 0 to 11 came up.
 */
#include "damaged.h"

#include <stdio.h>
#include <stdlib.h>
#include <string.h>

#include "cases.h"
#include "sheet.h"

/* Random numbers by a shift register, the same in every run. */
static uint32_t random_below(uint32_t limit)
{
    static uint64_t state = 0x9e3779b97f4a7c15u;
    state ^= state << 13;
    state ^= state >> 7;
    state ^= state << 17;
    return (uint32_t)(state >> 32) % limit;
}

static struct damaged *first;

void damaged_enter(struct damaged *one)
{
    one->next = first;
    first = one;
}

uint8_t *block(size_t length)
{
    uint8_t *bytes = malloc(length > 0 ? length : 1);
    if (bytes == NULL) {
        perror("malloc");
        exit(2);
    }
    return bytes;
}

static size_t some_sheet(size_t number, uint8_t *bytes)
{
    static struct draft draft;
    if (number % 2 == 0)
        return limit_sheet(&limit_cases[number / 2 % limit_count], bytes);
    draft_take(&draft, sheet_t, T_RECORDS);
    return draft_write(&draft, bytes);
}

/* Changes up to three words to numbers that records of the sheet have, or its length. */
static size_t damage(size_t number, uint8_t *bytes, size_t length)
{
    uint32_t records = (uint32_t)(length / RECORD_BYTES);
    if (number % 6 == 0)
        return length;
    if (number % 29 == 1)
        return length - 1 - random_below(RECORD_BYTES - 1);
    for (uint32_t changes = random_below(3) + 1; changes > 0; changes--) {
        uint32_t at = RECORD_BYTES * random_below(records) + 2 * random_below(WORDS);
        uint32_t value = random_below(2) == 0 ? random_below(4) : random_below(records + 2);
        bytes[at] = (uint8_t)value;
        bytes[at + 1] = (uint8_t)(value >> 8);
    }
    return length;
}

/* Counts the zeros in what calls filled. The count is printed, so that each byte matters. */
static size_t zeros;
void look_at(const uint8_t *bytes, size_t length)
{
    for (size_t at = 0; at < length; at++)
        zeros += bytes[at] == 0;
}

/* Lends blocks of these lengths. The stimulus holds bytes up to 2, or up to 3. */
static uint64_t run(const uint8_t *sheet, size_t length, size_t stim_length, size_t out_length, size_t next_length, int above)
{
    uint8_t *stim = block(stim_length), *out = block(out_length), *next = block(next_length);
    for (size_t at = 0; at < stim_length; at++)
        stim[at] = (uint8_t)random_below(above ? 4 : 3);
    uint64_t result = sheet_run(sheet, length, stim, stim_length, out, out_length, next, next_length);
    if (sheet_code_of(result) == SHEET_ACCEPTED) {
        look_at(out, out_length);
        look_at(next, next_length);
    }
    free(stim);
    free(out);
    free(next);
    return result;
}

int main(int count, char **words)
{
    static uint8_t bytes[MOST_BYTES];
    size_t codes[SHEET_NO_FILE] = {0}, runs = 0, differences = 0, missing = 0;
    size_t sheets = count == 2 ? strtoul(words[1], NULL, 10) : 0;
    for (size_t number = 0; number < sheets; number++) {
        size_t length = damage(number, bytes, some_sheet(number, bytes));
        uint8_t *sheet = memcpy(block(length), bytes, length);
        uint64_t verdict = sheet_check(sheet, length);
        for (const struct damaged *one = first; one != NULL; one = one->next)
            differences += one->work(sheet, length, verdict);
        /* Without room the run says how much is needed, by code 10. */
        static const size_t stims[] = {0, 1, 3, 64, 192};
        for (size_t k = 0; k < sizeof stims / sizeof *stims; k++) {
            uint64_t asked = run(sheet, length, stims[k], 0, length, random_below(8) == 0);
            if (sheet_code_of(asked) == SHEET_WRONG_OUTPUT_LENGTH) {
                codes[SHEET_WRONG_OUTPUT_LENGTH]++;
                asked = run(sheet, length, stims[k], sheet_place_of(asked), length - random_below(5) / 4, 0);
            }
            if (sheet_code_of(verdict) != SHEET_ACCEPTED && asked != verdict)
                differences++;
            codes[sheet_code_of(asked)]++;
            runs++;
        }
        free(sheet);
    }
    for (const struct damaged *one = first; one != NULL; one = one->next)
        printf("damaged: %s\n", one->file);
    printf("%zu sheets, %zu runs; by code:", sheets, runs);
    for (size_t code = 0; code < SHEET_NO_FILE; code++) {
        printf(" %zu", codes[code]);
        missing += codes[code] == 0;
    }
    printf("; %zu zeros; %zu differ from the check\n", zeros, differences);
    return differences == 0 && missing == 0 ? 0 : 1;
}
