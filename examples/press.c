/*
 * A small host that looks for one press: the change of one input leaf that alters an output leaf,
 * in one cycle of the sheet in a file, on the input in another.
 *
 *     press SHEET INPUT LEAF
 *
 * prints `leaf L to C`, the lowest input leaf, from 0, that has such a change, and the lowest
 * constructor of it; or `none` where no leaf has one; or `refused CODE at PLACE`, with a sentence
 * for people on standard error. LEAF is the number of the output leaf, from 0, in decimal. Status
 * 0: told; 1: refused; 2: not called with two files and a number.
 */
#include <errno.h>
#include <stdio.h>
#include <stdlib.h>

#include "read_file.h"
#include "sheet.h"

/*
 * One byte more than the longest of each: a longer file is refused for its length, whatever
 * follows.
 */
static uint8_t sheet[SHEET_LONGEST + 1], input[SHEET_LONGEST_STIMULUS + 1];

static int refuse(uint32_t code, uint32_t place)
{
    printf("refused %lu at %lu\n", (unsigned long)code, (unsigned long)place);
    fprintf(stderr, "%s\n", sheet_sentence(code));
    return 1;
}

/* Takes a number of 64 bits from its decimal digits, and says whether it is one. */
static int read_number(const char *digits, size_t *number)
{
    char *end;
    errno = 0;
    *number = strtoull(digits, &end, 10);
    return '0' <= digits[0] && digits[0] <= '9' && *end == '\0' && errno == 0;
}

int main(int count, char **words)
{
    size_t length = 0, input_length = 0, leaf = 0;
    if (count != 4 || !read_number(words[3], &leaf)) {
        fprintf(stderr, "usage: %s SHEET INPUT LEAF\n", count > 0 ? words[0] : "press");
        return 2;
    }
    if (!read_file(words[1], sheet, sizeof sheet, &length))
        return refuse(SHEET_NO_FILE, 1);
    if (!read_file(words[2], input, sizeof input, &input_length))
        return refuse(SHEET_NO_FILE, 2);

    struct sheet_pressed pressed = sheet_press(sheet, length, input, input_length, leaf);
    if (sheet_code_of(pressed.result) != SHEET_DONE)
        return refuse(sheet_code_of(pressed.result), sheet_place_of(pressed.result));
    if (pressed.found)
        printf("leaf %u to %u\n", (unsigned)pressed.leaf, (unsigned)pressed.constructor);
    else
        puts("none");
    return 0;
}
