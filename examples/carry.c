/*
 * A small host that carries: writes the sheet in a new file with what the delays of a running sheet in an old file hold.
 *
 *     carry OLD NEW NEXT
 *
 * writes the carried sheet to NEXT (docs/SHEETS.md, Carrying); or prints `refused CODE at PLACE`, with a
 * sentence for people on standard error, for code 18 also that of the new sheet's code, and writes
 * nothing. Status 0: carried; 1: refused; 2: not called with three files; 4: NEXT cannot be written.
 */
#include <stdio.h>

#include "read_file.h"
#include "sheet.h"

/* One byte more than the longest sheet: a longer file is refused for its length, whatever follows. */
static uint8_t old_sheet[SHEET_LONGEST + 1], new_sheet[SHEET_LONGEST + 1];
static uint8_t next[SHEET_LONGEST + 1];

static int refuse(uint32_t code, uint32_t place)
{
    printf("refused %lu at %lu\n", (unsigned long)code, (unsigned long)place);
    fprintf(stderr, "%s\n", sheet_sentence(code));
    if (code == SHEET_NEW_SHEET_REFUSED)
        fprintf(stderr, "%s\n", sheet_sentence(place));
    return 1;
}

static int write_file(const char *name, const uint8_t *bytes, size_t length)
{
    FILE *file = fopen(name, "wb");
    if (file == NULL)
        return 0;
    int whole = fwrite(bytes, 1, length, file) == length;
    return fclose(file) == 0 && whole;
}

int main(int count, char **words)
{
    if (count != 4) {
        fprintf(stderr, "usage: %s OLD NEW NEXT\n", count > 0 ? words[0] : "carry");
        return 2;
    }
    size_t old_length = 0, new_length = 0;
    if (!read_file(words[1], old_sheet, sizeof old_sheet, &old_length))
        return refuse(SHEET_NO_FILE, 1);
    if (!read_file(words[2], new_sheet, sizeof new_sheet, &new_length))
        return refuse(SHEET_NO_FILE, 2);

    uint64_t result = sheet_carry(old_sheet, old_length, new_sheet, new_length, next, new_length);
    if (sheet_code_of(result) != SHEET_DONE)
        return refuse(sheet_code_of(result), sheet_place_of(result));
    if (!write_file(words[3], next, new_length)) {
        fprintf(stderr, "%s cannot be written.\n", words[3]);
        return 4;
    }
    return 0;
}
