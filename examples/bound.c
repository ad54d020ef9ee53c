/*
 * A small host that says how long a cycle can take before it runs one: a bound on the steps of a
 * cycle of the sheet in a file.
 *
 *     bound SHEET [LIMIT]
 *
 * prints `steps N`, where no cycle of the sheet takes more than N steps (steps.h); or `refused CODE
 * at PLACE`, with a sentence for people on standard error. Status 0: accepted, and N is at most
 * LIMIT, where one is given; 1: refused, or N is above LIMIT; 2: not called with a file and, at
 * most, a number.
 */
#include <errno.h>
#include <stdio.h>
#include <stdlib.h>

#include "read_file.h"
#include "sheet.h"
#include "steps.h"

/* One byte more than the longest: a longer file is refused for its length, whatever follows. */
static uint8_t sheet[SHEET_LONGEST + 1];

static int refuse(uint32_t code, uint32_t place)
{
    printf("refused %lu at %lu\n", (unsigned long)code, (unsigned long)place);
    fprintf(stderr, "%s\n", sheet_sentence(code));
    return 1;
}

/* Takes a number of 64 bits from its decimal digits, and says whether it is one. */
static int read_number(const char *digits, uint64_t *number)
{
    char *end;
    errno = 0;
    *number = strtoull(digits, &end, 10);
    return '0' <= digits[0] && digits[0] <= '9' && *end == '\0' && errno == 0;
}

int main(int count, char **words)
{
    size_t length = 0;
    uint64_t limit = UINT64_MAX;
    if (count < 2 || count > 3 || (count == 3 && !read_number(words[2], &limit))) {
        fprintf(stderr, "usage: %s SHEET [LIMIT]\n", count > 0 ? words[0] : "bound");
        return 2;
    }
    if (!read_file(words[1], sheet, sizeof sheet, &length))
        return refuse(SHEET_NO_FILE, 1);

    uint64_t result = sheet_check(sheet, length);
    if (sheet_code_of(result) != SHEET_ACCEPTED)
        return refuse(sheet_code_of(result), sheet_place_of(result));
    uint64_t steps = steps_of(sheet);
    printf("steps %llu\n", (unsigned long long)steps);
    return steps > limit;
}
