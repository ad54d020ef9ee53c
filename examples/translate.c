/*
 * A small host that translates: writes the sheet of the circuit typed in a file.
 *
 *     translate TEXT SHEET
 *
 * writes the sheet to SHEET and prints `records` and their number (docs/SHEETS.md, Text); or prints `refused CODE at PLACE`, with a
 * sentence for people on standard error, and before it, where the place is one in the text, its line and column, both counted from
 * 1; then it writes nothing. Status 0: translated; 1: refused; 2: not called with two files; 4: SHEET cannot be written.
 */
#include <stdio.h>

#include "read_file.h"
#include "sheet.h"

/* One byte more than the longest text: a longer file is refused for its length, whatever follows. */
static uint8_t text[SHEET_LONGEST_TEXT + 1];
static uint8_t sheet[SHEET_LONGEST];

/* Where a byte of the text stands. */
static void print_place(size_t place)
{
    size_t line = 1, column = 1;
    for (size_t at = 0; at < place; at++) {
        column = text[at] == '\n' ? 1 : column + 1;
        line += text[at] == '\n';
    }
    fprintf(stderr, "line %zu, column %zu: ", line, column);
}

static int refuse(uint32_t code, uint32_t place)
{
    printf("refused %lu at %lu\n", (unsigned long)code, (unsigned long)place);
    if (code == SHEET_WRONG_TEXT || code == SHEET_WRONG_NAME)
        print_place(place);
    fprintf(stderr, "%s\n", sheet_sentence(code));
    return 1;
}

static int write_file(const char *name, const uint8_t *bytes, size_t length)
{
    FILE *file = fopen(name, "wb");
    if (file == NULL)
        return 0;
    int whole = fwrite(bytes, 1, length, file) == length;
    return fclose(file) == 0 && whole;
}

int main(int count, char **words)
{
    if (count != 3) {
        fprintf(stderr, "usage: %s TEXT SHEET\n", count > 0 ? words[0] : "translate");
        return 2;
    }
    size_t length = 0;
    if (!read_file(words[1], text, sizeof text, &length))
        return refuse(SHEET_NO_FILE, 1);

    uint64_t result = sheet_translate(text, length, sheet, sizeof sheet);
    if (sheet_code_of(result) != SHEET_DONE)
        return refuse(sheet_code_of(result), sheet_place_of(result));
    if (!write_file(words[2], sheet, sheet_place_of(result))) {
        fprintf(stderr, "%s cannot be written.\n", words[2]);
        return 4;
    }
    printf("records %lu\n", (unsigned long)sheet_place_of(result) / 12);
    return 0;
}
