/*
 * A small host with every call: runs the sheet in a file on the stimulus in another.
 *
 *     run SHEET STIMULUS [NEXT]
 *
 * prints the listing (docs/SHEETS.md, Listing) and writes the sheet after the last cycle to NEXT, if that is named; or prints
 * `refused CODE at PLACE`, with a sentence for people on standard error, and writes nothing. Status 0: run; 1: refused; 2: not called
 * with two or three files; 3: no memory for the outputs; 4: NEXT cannot be written.
 */
#include <stdio.h>
#include <stdlib.h>

#include "read_file.h"
#include "sheet.h"

/* One byte more than the longest of each: a longer file is refused for its length, whatever follows. */
static uint8_t sheet[SHEET_LONGEST + 1], stimulus[SHEET_LONGEST_STIMULUS + 1];
static uint8_t next[SHEET_LONGEST + 1];

static int refuse(uint32_t code, uint32_t place)
{
    printf("refused %lu at %lu\n", (unsigned long)code, (unsigned long)place);
    fprintf(stderr, "%s\n", sheet_sentence(code));
    return 1;
}

static void print_listing(uint32_t type, uint32_t cycles, const uint8_t *out, size_t out_length)
{
    printf("type %lu\n", (unsigned long)type);
    size_t leaves = cycles == 0 ? 0 : out_length / cycles;
    for (size_t cycle = 0; cycle < cycles; cycle++) {
        printf("%zu:", cycle);
        for (size_t leaf = 0; leaf < leaves; leaf++)
            printf(" %d", out[cycle * leaves + leaf]);
        putchar('\n');
    }
    printf("cycles %lu\n", (unsigned long)cycles);
}

static int write_file(const char *name, const uint8_t *bytes, size_t length)
{
    FILE *file = fopen(name, "wb");
    if (file == NULL)
        return 0;
    int whole = fwrite(bytes, 1, length, file) == length;
    return fclose(file) == 0 && whole;
}

int main(int count, char **words)
{
    if (count != 3 && count != 4) {
        fprintf(stderr, "usage: %s SHEET STIMULUS [NEXT]\n", count > 0 ? words[0] : "run");
        return 2;
    }
    size_t length = 0, stimulus_length = 0;
    if (!read_file(words[1], sheet, sizeof sheet, &length))
        return refuse(SHEET_NO_FILE, 1);
    if (!read_file(words[2], stimulus, sizeof stimulus, &stimulus_length))
        return refuse(SHEET_NO_FILE, 2);

    /* With no room for outputs a good run is refused with code 10 and the length that they need; one of no cycles is made. */
    uint8_t none[1], *out = none;
    size_t out_length = 0;
    uint64_t result = sheet_run(sheet, length, stimulus, stimulus_length, none, 0, next, length);
    if (sheet_code_of(result) == SHEET_WRONG_OUTPUT_LENGTH) {
        out_length = sheet_place_of(result);
        out = malloc(out_length);
        if (out == NULL) {
            fputs("There is no memory for the outputs.\n", stderr);
            return 3;
        }
        result = sheet_run(sheet, length, stimulus, stimulus_length, out, out_length, next, length);
    }
    if (sheet_code_of(result) != SHEET_ACCEPTED)
        return refuse(sheet_code_of(result), sheet_place_of(result));

    print_listing(sheet_place_of(sheet_check(sheet, length)), sheet_place_of(result), out, out_length);
    if (count == 4 && !write_file(words[3], next, length)) {
        fprintf(stderr, "%s cannot be written.\n", words[3]);
        return 4;
    }
    return 0;
}
