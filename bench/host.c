/*
 * sheet_run as a program, to compare where no listing is printed: reads sheet.bin and stim.bin,
 * writes next.bin and prints the listing of a run of one cycle or more.
 *
 * Usage: host [quiet]    quiet prints no listing
 */
#include "listing.h"
#include "sheet.h"

static uint8_t sheet[SHEET_LONGEST], stim[SHEET_LONGEST_STIMULUS];
static uint8_t out[SHEET_LONGEST_OUTPUT], next[SHEET_LONGEST];

int main(int count, char **words)
{
    size_t length = read_whole("sheet.bin", sheet, sizeof sheet);
    size_t stim_length = read_whole("stim.bin", stim, sizeof stim);
    uint64_t type = sheet_check(sheet, length);
    /* An output of no length is refused with the length that is needed. */
    uint64_t asked = sheet_run(sheet, length, stim, stim_length, out, 0, next, length);
    size_t out_length = sheet_place_of(asked);
    uint64_t done = sheet_run(sheet, length, stim, stim_length, out, out_length, next, length);
    if (sheet_code_of(done) != SHEET_ACCEPTED)
        return 1;
    FILE *file = fopen("next.bin", "wb");
    if (file != NULL) {
        fwrite(next, 1, length, file);
        fclose(file);
    }
    (void)words;
    if (count < 2)
        print_listing(sheet_place_of(type), out, sheet_place_of(done),
                      out_length / sheet_place_of(done));
    return 0;
}
