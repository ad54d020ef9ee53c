/*
 * A small host that looks before it runs: shows the outputs of one cycle of the sheet in a file, without taking it.
 *
 *     preview SHEET STIMULUS
 *
 * prints `shows` and each leaf of the output; or `refused CODE at PLACE`, with a sentence for people on standard error. Status 0:
 * shown; 1: refused; 2: not called with two files.
 */
#include <stdio.h>

#include "read_file.h"
#include "sheet.h"

/* One byte more than the longest of each: a longer file is refused for its length, whatever follows. */
static uint8_t sheet[SHEET_LONGEST + 1], stimulus[SHEET_LONGEST_STIMULUS + 1];

static int refuse(uint32_t code, uint32_t place)
{
    printf("refused %lu at %lu\n", (unsigned long)code, (unsigned long)place);
    fprintf(stderr, "%s\n", sheet_sentence(code));
    return 1;
}

int main(int count, char **words)
{
    if (count != 3) {
        fprintf(stderr, "usage: %s SHEET STIMULUS\n", count > 0 ? words[0] : "preview");
        return 2;
    }
    size_t length = 0, stimulus_length = 0;
    if (!read_file(words[1], sheet, sizeof sheet, &length))
        return refuse(SHEET_NO_FILE, 1);
    if (!read_file(words[2], stimulus, sizeof stimulus, &stimulus_length))
        return refuse(SHEET_NO_FILE, 2);

    /* With no room for outputs a good preview is refused with code 10 and the length that they need, at most SHEET_MOST_LEAVES. */
    uint8_t out[SHEET_MOST_LEAVES];
    size_t leaves = 0;
    uint64_t result = sheet_preview(sheet, length, stimulus, stimulus_length, out, 0);
    if (sheet_code_of(result) == SHEET_WRONG_OUTPUT_LENGTH) {
        leaves = sheet_place_of(result);
        result = sheet_preview(sheet, length, stimulus, stimulus_length, out, leaves);
    }
    if (sheet_code_of(result) != SHEET_DONE)
        return refuse(sheet_code_of(result), sheet_place_of(result));
    fputs("shows", stdout);
    for (size_t leaf = 0; leaf < leaves; leaf++)
        printf(" %d", out[leaf]);
    putchar('\n');
    return 0;
}
