/*
 * A small host that replays a record: whether the outputs in a file are those that the sheet in
 * another makes for the stimulus in a third.
 *
 *     replay SHEET STIMULUS RECORD [NEXT]
 *
 * prints `agrees N`, N being the cycles done, and writes the sheet after the last cycle to NEXT, if
 * that is named; or prints `cycle C leaf L`, the first cycle whose outputs differ and its lowest
 * differing leaf, from 0; or `refused CODE at PLACE`, with a sentence for people on standard error.
 * Where the record does not agree, nothing is written. Status 0: it agrees; 1: refused; 2: not
 * called with three or four files; 3: it differs; 4: NEXT cannot be written.
 */
#include <stdio.h>

#include "read_file.h"
#include "sheet.h"

/*
 * One byte more than the longest of each: a longer file is refused for its length, whatever
 * follows.
 */
static uint8_t sheet[SHEET_LONGEST + 1], stimulus[SHEET_LONGEST_STIMULUS + 1];
static uint8_t recorded[SHEET_LONGEST_OUTPUT + 1], next[SHEET_LONGEST + 1];

static int refuse(uint32_t code, uint32_t place)
{
    printf("refused %lu at %lu\n", (unsigned long)code, (unsigned long)place);
    fprintf(stderr, "%s\n", sheet_sentence(code));
    return 1;
}

static int write_file(const char *name, const uint8_t *bytes, size_t length)
{
    FILE *file = fopen(name, "wb");
    if (file == NULL)
        return 0;
    int whole = fwrite(bytes, 1, length, file) == length;
    return fclose(file) == 0 && whole;
}

int main(int count, char **words)
{
    size_t length = 0, stimulus_length = 0, recorded_length = 0;
    if (count != 4 && count != 5) {
        const char *name = count > 0 ? words[0] : "replay";
        fprintf(stderr, "usage: %s SHEET STIMULUS RECORD [NEXT]\n", name);
        return 2;
    }
    if (!read_file(words[1], sheet, sizeof sheet, &length))
        return refuse(SHEET_NO_FILE, 1);
    if (!read_file(words[2], stimulus, sizeof stimulus, &stimulus_length))
        return refuse(SHEET_NO_FILE, 2);
    if (!read_file(words[3], recorded, sizeof recorded, &recorded_length))
        return refuse(SHEET_NO_FILE, 3);

    struct sheet_replayed replayed = sheet_replay(sheet, length, stimulus, stimulus_length,
                                                  recorded, recorded_length, next, length);
    if (sheet_code_of(replayed.result) != SHEET_DONE)
        return refuse(sheet_code_of(replayed.result), sheet_place_of(replayed.result));
    if (replayed.differs) {
        printf("cycle %lu leaf %lu\n", (unsigned long)replayed.cycle, (unsigned long)replayed.leaf);
        return 3;
    }
    printf("agrees %lu\n", (unsigned long)replayed.cycle);
    if (count == 5 && !write_file(words[4], next, length)) {
        fprintf(stderr, "%s cannot be written.\n", words[4]);
        return 4;
    }
    return 0;
}
