/*
 * A small host that counts inputs: how many fully defined inputs lead an output leaf to each value,
 * in one cycle of the sheet in a file.
 *
 *     count SHEET LEAF
 *
 * prints a line `C: N` for each constructor C that some input leads to, N being how many do, with
 * 0 first for undefined; then `inputs N`, all of them; or `refused CODE at PLACE`, with a sentence
 * for people on standard error. LEAF is the number of the output leaf, from 0, in decimal. Status
 * 0: counted; 1: refused; 2: not called with a file and a number.
 */
#include <errno.h>
#include <stdio.h>
#include <stdlib.h>

#include "read_file.h"
#include "sheet.h"

/* One byte more than the longest: a longer file is refused for its length, whatever follows. */
static uint8_t sheet[SHEET_LONGEST + 1];

static int refuse(uint32_t code, uint32_t place)
{
    printf("refused %lu at %lu\n", (unsigned long)code, (unsigned long)place);
    fprintf(stderr, "%s\n", sheet_sentence(code));
    return 1;
}

/* Takes a number of 64 bits from its decimal digits, and says whether it is one. */
static int read_number(const char *digits, size_t *number)
{
    char *end;
    errno = 0;
    *number = strtoull(digits, &end, 10);
    return '0' <= digits[0] && digits[0] <= '9' && *end == '\0' && errno == 0;
}

int main(int count, char **words)
{
    size_t length = 0, leaf = 0;
    if (count != 3 || !read_number(words[2], &leaf)) {
        fprintf(stderr, "usage: %s SHEET LEAF\n", count > 0 ? words[0] : "count");
        return 2;
    }
    if (!read_file(words[1], sheet, sizeof sheet, &length))
        return refuse(SHEET_NO_FILE, 1);

    struct sheet_counts counts = sheet_count(sheet, length, leaf);
    if (sheet_code_of(counts.result) != SHEET_DONE)
        return refuse(sheet_code_of(counts.result), sheet_place_of(counts.result));
    unsigned long inputs = 0;
    for (unsigned value = 0; value < 256; value++) {
        inputs += counts.counters[value];
        if (counts.counters[value] != 0)
            printf("%u: %lu\n", value, (unsigned long)counts.counters[value]);
    }
    printf("inputs %lu\n", inputs);
    return 0;
}
