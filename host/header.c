/* What the header says by itself, without a call. */
#include <stdio.h>
#include <string.h>

#include "draft.h"
#include "guard.h"
#include "sheet.h"
#include "suite.h"

/*
 * Codes and places are taken apart, 0 has two names, and each code has its own sentence; that of 0 is true of a translation too. The
 * limits fit each other, and so do the three forms of the version.
 */
static void header(void)
{
    uint64_t result = (uint64_t)SHEET_ILL_TYPED << 32 | 4095;
    tally(sheet_code_of(result) == 7 && sheet_place_of(result) == 4095, "sheet.h", "a result taken apart");
    tally(SHEET_DONE == 0 && SHEET_ACCEPTED == 0, "sheet.h", "a name of code 0");
    tally(strstr(sheet_sentence(SHEET_DONE), "accepted") == NULL, "sheet.h", "the sentence of code 0 says that a sheet is accepted");
    tally(SHEET_LONGEST == SHEET_MOST_RECORDS * RECORD_BYTES, "sheet.h", "the longest sheet has another number of records");
    tally(SHEET_LONGEST_OUTPUT == SHEET_LONGEST_STIMULUS * SHEET_MOST_LEAVES, "sheet.h", "the longest output has other leaves");
    char version[16];
    int number = SHEET_VERSION_NUMBER;
    snprintf(version, sizeof version, "%d.%d.%d", number / 10000, number / 100 % 100, number % 100);
    tally(strcmp(version, SHEET_VERSION) == 0, "sheet.h", "the version as text is not the version as a number");
    /*
     * What is no code has the sentence that no call returns it. The codes that have another are printed,
     * and tools/check-calls compares them with the header's.
     */
    const char *none = sheet_sentence(UINT32_MAX);
    printf("sentences:");
    for (uint32_t one = 0; one < 256; one++) {
        if (strcmp(sheet_sentence(one), none) == 0)
            continue;
        printf(" %u", (unsigned)one);
        for (uint32_t other = 0; other < one; other++)
            tally(strcmp(sheet_sentence(one), sheet_sentence(other)) != 0, "sheet.h", "two codes with one sentence");
    }
    puts("");
}

TESTS_ONCE(header)
