/*
 * A small host that asks what can still happen: how many constructors are possible at each output
 * leaf of the sheet in a file, for one cycle of input with undefined leaves.
 *
 *     possible SHEET STIMULUS
 *
 * prints `possible` and the count of each leaf; or `refused CODE at PLACE`, with a sentence for
 * people on standard error. Status 0: counted; 1: refused; 2: not called with two files.
 */
#include <stdio.h>

#include "read_file.h"
#include "sheet.h"

/* One byte more than the longest of each: a longer file is refused for its length, whatever follows. */
static uint8_t sheet[SHEET_LONGEST + 1], stimulus[SHEET_LONGEST_STIMULUS + 1];

static int refuse(uint32_t code, uint32_t place)
{
    printf("refused %lu at %lu\n", (unsigned long)code, (unsigned long)place);
    fprintf(stderr, "%s\n", sheet_sentence(code));
    return 1;
}

int main(int count, char **words)
{
    if (count != 3) {
        fprintf(stderr, "usage: %s SHEET STIMULUS\n", count > 0 ? words[0] : "possible");
        return 2;
    }
    size_t length = 0, stimulus_length = 0;
    if (!read_file(words[1], sheet, sizeof sheet, &length))
        return refuse(SHEET_NO_FILE, 1);
    if (!read_file(words[2], stimulus, sizeof stimulus, &stimulus_length))
        return refuse(SHEET_NO_FILE, 2);

    /* With no room for counts a good call is refused with code 10 and the length needed. */
    uint8_t out[SHEET_MOST_LEAVES];
    size_t leaves = 0;
    uint64_t result = sheet_possible(sheet, length, stimulus, stimulus_length, out, 0);
    if (sheet_code_of(result) == SHEET_WRONG_OUTPUT_LENGTH) {
        leaves = sheet_place_of(result);
        result = sheet_possible(sheet, length, stimulus, stimulus_length, out, leaves);
    }
    if (sheet_code_of(result) != SHEET_DONE)
        return refuse(sheet_code_of(result), sheet_place_of(result));
    fputs("possible", stdout);
    for (size_t leaf = 0; leaf < leaves; leaf++)
        printf(" %d", out[leaf]);
    putchar('\n');
    return 0;
}
