/*
 * Replays that are refused: the codes of the sheet, 8 and 9, 17 for the record's length, and 11. A
 * record of another length is refused before a next slice of another length, and this before
 * anything is compared.
 */
#include <string.h>

#include "cases.h"
#include "pressing.h"
#include "replaying.h"
#include "suite.h"

enum { W_BYTES = W_RECORDS * RECORD_BYTES, F_BYTES = F_RECORDS * RECORD_BYTES };

/* T has one leaf in and out, W three and three, F one in and two out. */
enum sheet_of_replay { OF_T, OF_W, OF_F, AND_NO_MORE };

static const struct {
    const uint16_t (*records)[WORDS];
    size_t count;
} sheets[AND_NO_MORE] = {{sheet_t, T_RECORDS}, {sheet_w, W_RECORDS}, {sheet_f, F_RECORDS}};

static struct draft draft;
static uint8_t sheet[MOST_BYTES], stim[SHEET_LONGEST_STIMULUS + 1];
static uint8_t recorded[SHEET_LONGEST_OUTPUT + 1];

static size_t take_sheet(enum sheet_of_replay of)
{
    draft_take(&draft, sheets[of].records, sheets[of].count);
    return draft_write(&draft, sheet);
}

struct refused_replay {
    const char *name;
    enum sheet_of_replay sheet;
    /* The stimulus: bytes of 1, and from a place on another one. */
    size_t stim_length, from;
    uint8_t byte;
    size_t recorded_length, next_length;
    uint32_t code, place;
};

static const struct refused_replay refused[] = {
    /* Code 8, place 0. 65,535 bytes are whole cycles of W, 65,536 are too many for T. */
    {"replay: over 65,535 bytes", OF_T, 65536, 65536, 1, 65536, T_BYTES, SHEET_WRONG_STIMULUS, 0},
    {"replay: a third of a cycle", OF_W, 1, 1, 1, 3, W_BYTES, SHEET_WRONG_STIMULUS, 0},
    {"replay: a cycle and two thirds", OF_W, 5, 5, 1, 3, W_BYTES, SHEET_WRONG_STIMULUS, 0},
    {"replay: 65,534 bytes for three leaves", OF_W, 65534, 65534, 1, 65532, W_BYTES,
     SHEET_WRONG_STIMULUS, 0},

    /* Code 9, at the first byte above its leaf's count, through the whole stimulus. */
    {"replay: the first byte", OF_T, 3, 0, 3, 3, T_BYTES, SHEET_WRONG_INPUT, 0},
    {"replay: the last byte", OF_T, 3, 2, 255, 3, T_BYTES, SHEET_WRONG_INPUT, 2},
    {"replay: the last of 65,535 bytes", OF_T, 65535, 65534, 3, 65535, T_BYTES, SHEET_WRONG_INPUT,
     65534},
    {"replay: 8 for the seven of the second cycle", OF_W, 6, 4, 8, 6, W_BYTES, SHEET_WRONG_INPUT,
     4},
    {"replay: 7 from the second cycle on", OF_W, 6, 3, 7, 6, W_BYTES, SHEET_WRONG_INPUT, 3},

    /* Code 17, at the length needed: the cycles times the output's leaves. */
    {"record: none", OF_T, 3, 3, 1, 0, T_BYTES, SHEET_WRONG_RECORDED_LENGTH, 3},
    {"record: one short", OF_T, 3, 3, 1, 2, T_BYTES, SHEET_WRONG_RECORDED_LENGTH, 3},
    {"record: one long", OF_T, 3, 3, 1, 4, T_BYTES, SHEET_WRONG_RECORDED_LENGTH, 3},
    {"record: the longest and a byte more", OF_T, 65535, 65535, 1, SHEET_LONGEST_OUTPUT + 1,
     T_BYTES, SHEET_WRONG_RECORDED_LENGTH, 65535},
    {"record: a cycle short", OF_W, 6, 6, 1, 3, W_BYTES, SHEET_WRONG_RECORDED_LENGTH, 6},
    {"record: a cycle more", OF_W, 6, 6, 1, 9, W_BYTES, SHEET_WRONG_RECORDED_LENGTH, 6},
    {"record: a byte for each cycle of three", OF_W, 6, 6, 1, 2, W_BYTES,
     SHEET_WRONG_RECORDED_LENGTH, 6},
    {"record: as long as the stimulus", OF_F, 3, 3, 1, 3, F_BYTES, SHEET_WRONG_RECORDED_LENGTH, 6},
    {"record: as long as the sheet", OF_F, 3, 3, 1, F_BYTES, F_BYTES, SHEET_WRONG_RECORDED_LENGTH,
     6},
    {"record: a byte for no cycles", OF_T, 0, 0, 1, 1, T_BYTES, SHEET_WRONG_RECORDED_LENGTH, 0},
    {"record: a cycle for no cycles", OF_W, 0, 0, 1, 3, W_BYTES, SHEET_WRONG_RECORDED_LENGTH, 0},

    /* Code 11, at the sheet's length. */
    {"next after a record: none", OF_T, 3, 3, 1, 3, 0, SHEET_WRONG_NEXT_LENGTH, T_BYTES},
    {"next after a record: one short", OF_T, 3, 3, 1, 3, T_BYTES - 1, SHEET_WRONG_NEXT_LENGTH,
     T_BYTES},
    {"next after a record: one long", OF_W, 6, 6, 1, 6, W_BYTES + 1, SHEET_WRONG_NEXT_LENGTH,
     W_BYTES},
    {"next after a record: the longest", OF_F, 3, 3, 1, 6, SHEET_LONGEST, SHEET_WRONG_NEXT_LENGTH,
     F_BYTES},
    {"next after a record: none for no cycles", OF_T, 0, 0, 1, 0, 0, SHEET_WRONG_NEXT_LENGTH,
     T_BYTES},

    /* The first in the order 8, 9, 17, 11. */
    {"replay: 8 before 9", OF_W, 4, 0, 255, 3, W_BYTES, SHEET_WRONG_STIMULUS, 0},
    {"replay: 8 before 17", OF_W, 1, 1, 1, 1, W_BYTES, SHEET_WRONG_STIMULUS, 0},
    {"replay: 8 before 11", OF_W, 5, 5, 1, 3, 0, SHEET_WRONG_STIMULUS, 0},
    {"replay: 8 before 9, 17 and 11", OF_T, 65536, 7, 255, 1, 1, SHEET_WRONG_STIMULUS, 0},
    {"replay: 9 before 17", OF_T, 3, 2, 3, 2, T_BYTES, SHEET_WRONG_INPUT, 2},
    {"replay: 9 before 17, no record", OF_F, 3, 1, 3, 0, F_BYTES, SHEET_WRONG_INPUT, 1},
    {"replay: 9 before 11", OF_T, 3, 1, 3, 3, T_BYTES + 1, SHEET_WRONG_INPUT, 1},
    {"replay: 9 before 17 and 11", OF_W, 6, 4, 8, 0, 0, SHEET_WRONG_INPUT, 4},
    {"replay: 17 before 11", OF_T, 3, 3, 1, 2, T_BYTES - 1, SHEET_WRONG_RECORDED_LENGTH, 3},
    {"replay: 17 before 11, both none", OF_F, 3, 3, 1, 0, 0, SHEET_WRONG_RECORDED_LENGTH, 6},
    {"replay: 17 before 11, no cycles", OF_W, 0, 0, 1, 3, 0, SHEET_WRONG_RECORDED_LENGTH, 0},
};

/* Whatever is recorded. */
static void refused_lengths(void)
{
    static const uint8_t bytes[] = {0, 1, 255};
    for (size_t k = 0; k < sizeof refused / sizeof *refused; k++) {
        const struct refused_replay *one = &refused[k];
        size_t length = take_sheet(one->sheet);
        memset(stim, 1, sizeof stim);
        memset(stim + one->from, one->byte, one->stim_length - one->from);
        struct replay_call call = {sheet,    length,               stim, one->stim_length,
                                   recorded, one->recorded_length, one->next_length};
        for (size_t b = 0; b < sizeof bytes; b++) {
            memset(recorded, bytes[b], one->recorded_length);
            expect_replay_refused(one->name, &call, one->code, one->place);
        }
    }
}

/* On T, 1 2 1: a record that agrees, and one that differs, with a next slice of another length. */
static void refused_next(void)
{
    static const uint8_t inputs[] = {1, 2, 1}, outputs[] = {2, 1, 1}, others[] = {1, 2, 2};
    static const size_t lengths[] = {0, 1, T_BYTES - 12, T_BYTES - 1, T_BYTES + 1, SHEET_LONGEST};
    size_t length = take_sheet(OF_T);
    for (size_t k = 0; k < sizeof lengths / sizeof *lengths; k++) {
        struct replay_call call = {sheet, length, inputs, 3, outputs, 3, lengths[k]};
        expect_replay_refused("an agreeing record and another next slice", &call,
                              SHEET_WRONG_NEXT_LENGTH, T_BYTES);
        call.recorded = others;
        expect_replay_refused("a differing record and another next slice", &call,
                              SHEET_WRONG_NEXT_LENGTH, T_BYTES);
    }
    struct replay_call call = {sheet, length, inputs, 3, others, 3, T_BYTES};
    expect_differs("a differing record and a next slice as long as the sheet", &call, 0, 0);
}

/* The sheet is refused, with this stimulus, record and next slice and with others. */
static void expect_sheet_refused(const char *name, size_t length, uint32_t code, uint32_t place)
{
    static const uint8_t inputs[] = {1, 2, 1, 255}, outputs[] = {2, 1, 1, 255};
    struct replay_call call = {sheet, length, inputs, 3, outputs, 3, length};
    expect_replay_refused(name, &call, code, place);
    call = (struct replay_call){sheet, length, inputs, 4, outputs, 4, 5};
    expect_replay_refused(name, &call, code, place);
    call = (struct replay_call){sheet, length, inputs, 0, outputs, 0, length};
    expect_replay_refused(name, &call, code, place);
}

/* T with one word changed. */
struct changed_t {
    const char *name;
    uint16_t record;
    enum word word;
    uint16_t value;
    uint32_t code, place;
};

static const struct changed_t changed[] = {
    {"replay: the header's kind", 0, KIND, 2, SHEET_WRONG_HEADER, 0},
    {"replay: a leaf of 256", 4, A, 256, SHEET_WRONG_RECORD, 4},
    /* Name 15 is named by no word then, and 16 by two. */
    {"replay: an else branch that is the body", 5, C, 16, SHEET_WRONG_NAMING, 15},
    /* Two names are in scope at 6. */
    {"replay: a name out of scope", 6, A, 2, SHEET_ILL_TYPED, 6},
};

/* Codes 2 to 4 and 7 by T, 1 and 2 by its length, and 1, 5, 6 and 7 by sheets past a limit. */
static void refused_sheets(void)
{
    for (size_t k = 0; k < sizeof changed / sizeof *changed; k++) {
        draft_take(&draft, sheet_t, T_RECORDS);
        draft.words[changed[k].record][changed[k].word] = changed[k].value;
        size_t length = draft_write(&draft, sheet);
        expect_sheet_refused(changed[k].name, length, changed[k].code, changed[k].place);
    }
    take_sheet(OF_T);
    for (size_t length = 0; length < T_BYTES; length++) {
        int whole = length > 0 && length % RECORD_BYTES == 0;
        expect_sheet_refused("replay: T cut off", length,
                             whole ? SHEET_WRONG_HEADER : SHEET_WRONG_LENGTH, 0);
    }
    for (size_t k = 0; k < limit_count; k++) {
        const struct limit_case *one = &limit_cases[k];
        size_t length = limit_sheet(one, sheet);
        if (one->code != SHEET_ACCEPTED)
            expect_sheet_refused(one->name, length, one->code, one->place);
    }
}

TESTS(refused_lengths, SMALL_STACK)
TESTS(refused_next, SMALL_STACK)
TESTS(refused_sheets, SMALL_STACK)
