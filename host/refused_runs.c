/* Runs that are refused with codes 8 to 11: what is wrong with the stimulus and the lengths of the other slices. */
#include <string.h>

#include "cases.h"
#include "guard.h"
#include "sheet.h"
#include "suite.h"

/* T, with one leaf of two constructors for input and output; or P, the input as it comes, of a bit and a three. */
enum sheet_of_run { OF_T, OF_P };
enum { P_RECORDS = 5, P_BYTES = P_RECORDS * RECORD_BYTES };
static const uint16_t sheet_p[P_RECORDS][WORDS] = {{1, 1, 3, 4, 5}, {16, 2, 2}, {16, 3, 3}, {17, 0, 1, 2}, {33}};

struct refused_run {
    const char *name;
    enum sheet_of_run sheet;
    /* The stimulus: bytes of 1, and from a place on another one. */
    size_t stim_length, from;
    uint8_t byte;
    size_t out_length, next_length;
    uint32_t code, place;
};

static const struct refused_run runs[] = {
    /* Code 8, place 0. 65,535 bytes are not whole cycles of two; 65,536 are, and too many. */
    {"stimulus: over 65,535 bytes", OF_T, 65536, 65536, 1, 65536, T_BYTES, SHEET_WRONG_STIMULUS, 0},
    {"stimulus: half a cycle", OF_P, 1, 1, 1, 2, P_BYTES, SHEET_WRONG_STIMULUS, 0},
    {"stimulus: a cycle and a half", OF_P, 3, 3, 1, 4, P_BYTES, SHEET_WRONG_STIMULUS, 0},
    {"stimulus: 65,535 bytes for two leaves", OF_P, 65535, 65535, 1, 65534, P_BYTES, SHEET_WRONG_STIMULUS, 0},
    {"stimulus: 65,536 bytes for two leaves", OF_P, 65536, 65536, 1, 65536, P_BYTES, SHEET_WRONG_STIMULUS, 0},

    /* Code 9, at the first byte above its leaf's count. 3 is allowed for every second byte of P, 4 for none. */
    {"input: the first byte", OF_T, 3, 0, 3, 3, T_BYTES, SHEET_WRONG_INPUT, 0},
    {"input: the second of three", OF_T, 3, 1, 255, 3, T_BYTES, SHEET_WRONG_INPUT, 1},
    {"input: the last byte", OF_T, 3, 2, 3, 3, T_BYTES, SHEET_WRONG_INPUT, 2},
    {"input: the last of 65,535 bytes", OF_T, 65535, 65534, 3, 65535, T_BYTES, SHEET_WRONG_INPUT, 65534},
    {"input: 3 for the first leaf", OF_P, 6, 2, 3, 6, P_BYTES, SHEET_WRONG_INPUT, 2},
    {"input: 3 from a second leaf on", OF_P, 6, 1, 3, 6, P_BYTES, SHEET_WRONG_INPUT, 2},
    {"input: 4 for the second leaf", OF_P, 6, 3, 4, 6, P_BYTES, SHEET_WRONG_INPUT, 3},

    /* Code 10, at the length needed: a leaf for each cycle of T, two for P. */
    {"output: none", OF_T, 3, 3, 1, 0, T_BYTES, SHEET_WRONG_OUTPUT_LENGTH, 3},
    {"output: one short", OF_T, 3, 3, 1, 2, T_BYTES, SHEET_WRONG_OUTPUT_LENGTH, 3},
    {"output: one long", OF_T, 3, 3, 1, 4, T_BYTES, SHEET_WRONG_OUTPUT_LENGTH, 3},
    {"output: 64 times as long", OF_T, 65535, 65535, 1, 64 * 65535, T_BYTES, SHEET_WRONG_OUTPUT_LENGTH, 65535},
    {"output: a leaf for each cycle of two", OF_P, 6, 6, 1, 3, P_BYTES, SHEET_WRONG_OUTPUT_LENGTH, 6},
    {"output: a cycle more", OF_P, 6, 6, 1, 8, P_BYTES, SHEET_WRONG_OUTPUT_LENGTH, 6},
    /* An empty stimulus is of no cycles, and needs an output slice of no bytes. */
    {"output: a byte for no cycles", OF_T, 0, 0, 1, 1, T_BYTES, SHEET_WRONG_OUTPUT_LENGTH, 0},
    {"output: a cycle's leaves for no cycles", OF_P, 0, 0, 1, 2, P_BYTES, SHEET_WRONG_OUTPUT_LENGTH, 0},
    {"output: the longest for no cycles", OF_T, 0, 0, 1, SHEET_LONGEST_OUTPUT, T_BYTES, SHEET_WRONG_OUTPUT_LENGTH, 0},

    /* Code 11, at the sheet's length. */
    {"next: none", OF_T, 3, 3, 1, 3, 0, SHEET_WRONG_NEXT_LENGTH, T_BYTES},
    {"next: one short", OF_T, 3, 3, 1, 3, T_BYTES - 1, SHEET_WRONG_NEXT_LENGTH, T_BYTES},
    {"next: one long", OF_T, 3, 3, 1, 3, T_BYTES + 1, SHEET_WRONG_NEXT_LENGTH, T_BYTES},
    {"next: a record short", OF_T, 3, 3, 1, 3, T_BYTES - RECORD_BYTES, SHEET_WRONG_NEXT_LENGTH, T_BYTES},
    {"next: as long as the longest sheet", OF_P, 4, 4, 1, 4, SHEET_LONGEST, SHEET_WRONG_NEXT_LENGTH, P_BYTES},
    {"next: none for no cycles", OF_T, 0, 0, 1, 0, 0, SHEET_WRONG_NEXT_LENGTH, T_BYTES},
    {"next: one short for no cycles", OF_P, 0, 0, 1, 0, P_BYTES - 1, SHEET_WRONG_NEXT_LENGTH, P_BYTES},
    {"next: one long for no cycles", OF_T, 0, 0, 1, 0, T_BYTES + 1, SHEET_WRONG_NEXT_LENGTH, T_BYTES},

    /* The lowest number first. */
    {"8 before 9", OF_P, 3, 0, 255, 2, P_BYTES, SHEET_WRONG_STIMULUS, 0},
    {"8 before 10", OF_P, 1, 1, 1, 1, P_BYTES, SHEET_WRONG_STIMULUS, 0},
    {"8 before 11", OF_P, 5, 5, 1, 4, 0, SHEET_WRONG_STIMULUS, 0},
    {"8 before 9, 10 and 11", OF_P, 3, 1, 255, 1, P_BYTES - 1, SHEET_WRONG_STIMULUS, 0},
    {"8 for length before 9, 10 and 11", OF_T, 65536, 7, 255, 1, T_BYTES - 1, SHEET_WRONG_STIMULUS, 0},
    {"9 before 10", OF_T, 3, 2, 3, 2, T_BYTES, SHEET_WRONG_INPUT, 2},
    {"9 before 11", OF_T, 3, 1, 3, 3, T_BYTES + 1, SHEET_WRONG_INPUT, 1},
    {"9 before 10 and 11", OF_P, 6, 5, 4, 0, 0, SHEET_WRONG_INPUT, 5},
    {"10 before 11", OF_T, 3, 3, 1, 2, T_BYTES - 1, SHEET_WRONG_OUTPUT_LENGTH, 3},
    {"10 before 11, both none", OF_P, 6, 6, 1, 0, 0, SHEET_WRONG_OUTPUT_LENGTH, 6},
    {"10 before 11, no cycles", OF_P, 0, 0, 1, 2, 0, SHEET_WRONG_OUTPUT_LENGTH, 0},
};

static void refused_runs(void)
{
    static struct draft draft;
    static uint8_t sheet[MOST_BYTES], stim[SHEET_LONGEST_STIMULUS + 1];
    for (size_t k = 0; k < sizeof runs / sizeof *runs; k++) {
        const struct refused_run *one = &runs[k];
        if (one->sheet == OF_T)
            draft_take(&draft, sheet_t, T_RECORDS);
        else
            draft_take(&draft, sheet_p, P_RECORDS);
        size_t length = draft_write(&draft, sheet);
        memset(stim, 1, sizeof stim);
        memset(stim + one->from, one->byte, one->stim_length - one->from);
        struct run_call call = {sheet, length, stim, one->stim_length, one->out_length, one->next_length};
        expect_refused(one->name, &call, one->code, one->place);
    }
}

TESTS(refused_runs, SMALL_STACK)
