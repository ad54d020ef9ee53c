/*
 * A small host with the check alone: checks the sheet in a file.
 *
 *     check SHEET
 *
 * prints `type` and the record of the output's type, or `refused CODE at PLACE`; then a sentence for people. Status 0: accepted;
 * 1: refused; 2: not called with one file.
 */
#include <stdio.h>

#include "read_file.h"
#include "sheet.h"

/* One byte more than the longest sheet: a longer file is refused for its length, whatever follows. */
static uint8_t sheet[SHEET_LONGEST + 1];

static int tell(uint32_t code, uint32_t place)
{
    if (code == SHEET_ACCEPTED) {
        printf("type %lu\nThe sheet is accepted.\n", (unsigned long)place);
        return 0;
    }
    printf("refused %lu at %lu\n%s\n", (unsigned long)code, (unsigned long)place, sheet_sentence(code));
    return 1;
}

int main(int count, char **words)
{
    if (count != 2) {
        fprintf(stderr, "usage: %s SHEET\n", count > 0 ? words[0] : "check");
        return 2;
    }
    size_t length = 0;
    if (!read_file(words[1], sheet, sizeof sheet, &length))
        return tell(SHEET_NO_FILE, 1);
    uint64_t result = sheet_check(sheet, length);
    return tell(sheet_code_of(result), sheet_place_of(result));
}
