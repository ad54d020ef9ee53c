/*
 * A small host that says which alternatives fire: one cycle of the sheet in a file, on the input in another.
 *
 *     fired SHEET INPUT
 *
 * prints `record R: alternative A` for each IF, at record R, of whose chain alternative A is the first that says yes; or prints
 * `refused CODE at PLACE`, with a sentence for people on standard error. Status 0: told; 1: refused; 2: not called with two files.
 */
#include <stdio.h>

#include "read_file.h"
#include "sheet.h"

/* One byte more than the longest of each: a longer file is refused for its length, whatever follows. */
static uint8_t sheet[SHEET_LONGEST + 1], input[SHEET_LONGEST_STIMULUS + 1];
static uint16_t fired[SHEET_MOST_RECORDS];

static int refuse(uint32_t code, uint32_t place)
{
    printf("refused %lu at %lu\n", (unsigned long)code, (unsigned long)place);
    fprintf(stderr, "%s\n", sheet_sentence(code));
    return 1;
}

int main(int count, char **words)
{
    if (count != 3) {
        fprintf(stderr, "usage: %s SHEET INPUT\n", count > 0 ? words[0] : "fired");
        return 2;
    }
    size_t length = 0, input_length = 0;
    if (!read_file(words[1], sheet, sizeof sheet, &length))
        return refuse(SHEET_NO_FILE, 1);
    if (!read_file(words[2], input, sizeof input, &input_length))
        return refuse(SHEET_NO_FILE, 2);

    /* A sheet that is accepted has whole records, at most as many as there is room for. */
    size_t records = length / 12;
    uint64_t result = sheet_fired(sheet, length, input, input_length, fired, records);
    if (sheet_code_of(result) != SHEET_DONE)
        return refuse(sheet_code_of(result), sheet_place_of(result));
    for (size_t record = 0; record < records; record++)
        if (fired[record] != 0)
            printf("record %zu: alternative %d\n", record, fired[record]);
    return 0;
}
