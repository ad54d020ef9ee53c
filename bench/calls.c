/*
 * Processor times of calls in one process: sheet_check, sheet_run and the interpreter, in turns, on
 * the same sheet and stimulus, with outputs into memory. Prints a line of three numbers of
 * nanoseconds for each turn. Outputs and next sheets are compared each time; status 1 if they
 * differ or the run is refused.
 *
 * Usage: calls SHEET STIM TURNS
 */
#define _POSIX_C_SOURCE 199309L
#include "interpreter.h"
#include "listing.h"
#include "sheet.h"

#include <string.h>
#include <time.h>

static uint8_t sheet[SHEET_LONGEST], stim[SHEET_LONGEST_STIMULUS];
static uint8_t out[SHEET_LONGEST_OUTPUT], next[SHEET_LONGEST];
static uint8_t other_out[SHEET_LONGEST_OUTPUT], other_next[SHEET_LONGEST];

static long long now(void)
{
    struct timespec time;
    clock_gettime(CLOCK_PROCESS_CPUTIME_ID, &time);
    return time.tv_sec * 1000000000LL + time.tv_nsec;
}

int main(int count, char **words)
{
    if (count != 4)
        return 2;
    size_t length = read_whole(words[1], sheet, sizeof sheet);
    size_t stim_length = read_whole(words[2], stim, sizeof stim);
    /* The first run says how long the output is, and brings both into the caches. */
    struct interpreted run =
        interpreter_run(sheet, length, stim, stim_length, other_out, other_next);
    size_t out_length = run.cycles * run.leaves;
    uint64_t expected = run.cycles;

    for (int turn = -1; turn < atoi(words[3]); turn++) {
        long long start = now();
        uint64_t checked = sheet_check(sheet, length);
        long long after_check = now();
        uint64_t done = sheet_run(sheet, length, stim, stim_length, out, out_length, next, length);
        long long after_run = now();
        interpreter_run(sheet, length, stim, stim_length, other_out, other_next);
        long long end = now();
        if (checked != run.type || done != expected || memcmp(out, other_out, out_length) != 0 ||
            memcmp(next, other_next, length) != 0) {
            fprintf(stderr, "sheet_run and the interpreter differ on %s\n", words[1]);
            return 1;
        }
        if (turn >= 0)
            printf("%lld %lld %lld\n", after_check - start, after_run - after_check,
                   end - after_run);
    }
    return 0;
}
