/*
 * The interpreter as a program: reads sheet.bin and stim.bin, writes next.bin and prints the
 * listing, as sheetrun does with a sheet and a stimulus that are accepted.
 *
 * Usage: interpret [quiet]    quiet prints no listing
 */
#include "interpreter.h"
#include "listing.h"

static uint8_t sheet[49152], stim[65535], out[65535 * 64], next[49152];

int main(int count, char **words)
{
    size_t length = read_whole("sheet.bin", sheet, sizeof sheet);
    size_t stim_length = read_whole("stim.bin", stim, sizeof stim);
    struct interpreted run = interpreter_run(sheet, length, stim, stim_length, out, next);
    FILE *file = fopen("next.bin", "wb");
    if (file != NULL) {
        fwrite(next, 1, length, file);
        fclose(file);
    }
    (void)words;
    if (count < 2)
        print_listing(run.type, out, run.cycles, run.leaves);
    return 0;
}
