/*
 * Which alternatives fire: words worked out by hand, and every refusal. The slices lie against unreadable pages, that of the words
 * aligned to 2; the sheet lies on pages that cannot be written while the call is made.
 */
#include <string.h>

#include "cases.h"
#include "guard.h"
#include "measure.h"
#include "one_cycle.h"
#include "sheet.h"
#include "suite.h"

enum { MOST_LEAVES = 64, P_RECORDS = 17, F_RECORDS = 23 };

/* The code for a slice that has not one word for each record. */
enum { WRONG_LENGTH = 16 };

/*
 * P: the input is a pair of bits, and IF 3 tests it by four alternatives: (1,1) at 7, (2,whole) at 10, (whole,2) at 13 and the
 * whole pair at 16.
 */
static const uint16_t sheet_p[P_RECORDS][WORDS] = {
    {1, 1, 2, 3, 17}, {16, 2, 2},    {17, 0, 1, 1}, {39, 0, 4, 5, 6, 7}, {33},          {33},       {33},
    {50, 10, 8, 9},   {49, 0, 1, 1}, {49, 0, 1, 1}, {50, 13, 11, 12},    {49, 0, 1, 2}, {48, 0, 1}, {50, 16, 14, 15},
    {48, 0, 1},       {49, 0, 1, 2}, {48, 0, 2}};

/*
 * F: LET REC x = (IF x's second part is 2|1 THEN 1 ELSE 1, the input) IN IF x is (1,whole)|whole THEN x ELSE x. In the first round
 * x is undefined and IF 5 is undecided, with branches that agree; x settles at 1 and the input. IF 5 tests by 8 and 9, IF 15 by 19
 * and 22.
 */
static const uint16_t sheet_f[F_RECORDS][WORDS] = {
    {1, 1, 1, 3, 23}, {16, 2, 2}, {17, 0, 1, 1}, {38, 0, 2, 4, 15}, {34, 0, 5, 14}, {39, 0, 6, 10, 12, 8}, {36, 0, 7}, {33},
    {49, 9, 1, 2}, {49, 0, 1, 1}, {32, 0, 1, 11}, {64, 0, 1}, {32, 0, 1, 13}, {64, 0, 1}, {33, 0, 1}, {39, 0, 16, 17, 18, 19},
    {33}, {33}, {33}, {50, 22, 20, 21}, {49, 0, 1, 1}, {48, 0, 1}, {48, 0, 2}};

static uint8_t sheet[MOST_BYTES], stim[SHEET_LONGEST_STIMULUS + 1];
static size_t length;

static void take(const uint16_t (*records)[WORDS], size_t count)
{
    static struct draft draft;
    draft_take(&draft, records, count);
    length = draft_write(&draft, sheet);
}

/* The call with its words as bytes. */
static uint64_t fired_bytes(const uint8_t *of, size_t of_length, const uint8_t *input, size_t inputs, uint8_t *words, size_t bytes)
{
    tally((uintptr_t)words % _Alignof(uint16_t) == 0, "firings", "the slice is not aligned");
    return sheet_fired(of, of_length, input, inputs, (uint16_t *)(void *)words, bytes / sizeof(uint16_t));
}

static struct one_cycle lent(size_t inputs, size_t words)
{
    return (struct one_cycle){fired_bytes, sheet, length, stim, inputs, words * sizeof(uint16_t)};
}

/* An IF and the alternative that fires; 0 where none does. */
struct fires {
    uint16_t choice, alternative;
};

/* The words of these two IFs, and 0 elsewhere. */
static void tells(const char *name, const uint8_t *input, size_t inputs, struct fires one, struct fires other)
{
    static uint16_t words[MOST_RECORDS];
    memset(words, 0, sizeof words);
    words[one.choice] = one.alternative;
    words[other.choice] = other.alternative;
    memcpy(stim, input, inputs);
    struct one_cycle call = lent(inputs, length / RECORD_BYTES);
    expect_one_cycle(name, &call, (const uint8_t *)words);
}

/* T: IF 5 tests the input by 7, constructor 1, and IF 8 what the delay holds by 10, constructor 2. */
static void of_t(void)
{
    take(sheet_t, T_RECORDS);
    for (uint8_t held = 0; held <= 2; held++)
        for (uint8_t input = 0; input <= 2; input++) {
            sheet[4 * RECORD_BYTES + 2 * A] = held;
            tells("T's alternatives", &input, 1, (struct fires){5, input == 1 ? 7 : 0}, (struct fires){8, held == 2 ? 10 : 0});
        }
}

/* Which alternative of P's IF fires on a pair. */
static void of_pair(const char *name, uint8_t first, uint8_t second, uint16_t alternative)
{
    tells(name, (uint8_t[]){first, second}, 2, (struct fires){3, alternative}, (struct fires){3, alternative});
}

static void of_chains(void)
{
    take(sheet_p, P_RECORDS);
    of_pair("the first alternative", 1, 1, 7);
    of_pair("the second, also the third and the fourth say yes", 2, 2, 10);
    of_pair("the third alternative", 1, 2, 13);
    of_pair("the third after an undecided one", 0, 2, 13);
    of_pair("the second, the third undecided", 2, 0, 10);
    of_pair("the whole pair, on undefined", 0, 0, 16);
    of_pair("the whole pair, after undecided ones", 1, 0, 16);
    of_pair("the whole pair, after one undecided", 0, 1, 16);
    /* Without 16 the chain ends at 13. */
    static struct draft draft;
    draft_take(&draft, sheet_p, P_RECORDS - 1);
    draft.words[13][NEXT] = 0;
    draft_end(&draft);
    length = draft_write(&draft, sheet);
    of_pair("none, undecided", 0, 0, 0);
    of_pair("none, undecided and no", 1, 0, 0);
    of_pair("none, undecided twice and no", 0, 1, 0);
    of_pair("the second, also the third says yes", 2, 2, 10);
}

/* F's IFs are told of at the settled value. */
static void of_feedback(void)
{
    take(sheet_f, F_RECORDS);
    tells("a feedback on 2", (uint8_t[]){2}, 1, (struct fires){5, 8}, (struct fires){15, 19});
    tells("a feedback on 1", (uint8_t[]){1}, 1, (struct fires){5, 9}, (struct fires){15, 19});
    tells("a feedback on nothing", (uint8_t[]){0}, 1, (struct fires){5, 0}, (struct fires){15, 19});
}

struct refused_firing {
    const char *name;
    const uint16_t (*records)[WORDS];
    size_t count;
    /* The stimulus: bytes of 1, and from a place on another one. */
    size_t stim_length, from;
    uint8_t byte;
    size_t words;
    uint32_t code, place;
};

static const struct refused_firing refused[] = {
    /* Code 8, place 0: not exactly one cycle. */
    {"firings: no cycle", sheet_t, T_RECORDS, 0, 0, 1, 17, SHEET_WRONG_STIMULUS, 0},
    {"firings: two cycles", sheet_t, T_RECORDS, 2, 2, 1, 17, SHEET_WRONG_STIMULUS, 0},
    {"firings: 65,535 cycles", sheet_t, T_RECORDS, 65535, 65535, 1, 17, SHEET_WRONG_STIMULUS, 0},
    {"firings: 65,536 bytes", sheet_t, T_RECORDS, 65536, 65536, 1, 17, SHEET_WRONG_STIMULUS, 0},
    {"firings: half a cycle", sheet_p, P_RECORDS, 1, 1, 1, 17, SHEET_WRONG_STIMULUS, 0},
    {"firings: a cycle and a half", sheet_p, P_RECORDS, 3, 3, 1, 17, SHEET_WRONG_STIMULUS, 0},

    /* Code 9, at the first byte above its leaf's count. */
    {"firings: the only byte", sheet_t, T_RECORDS, 1, 0, 3, 17, SHEET_WRONG_INPUT, 0},
    {"firings: the second byte of two", sheet_p, P_RECORDS, 2, 1, 255, 17, SHEET_WRONG_INPUT, 1},

    /* Code 16, at the words needed. */
    {"firings: no words", sheet_t, T_RECORDS, 1, 1, 1, 0, WRONG_LENGTH, 17},
    {"firings: one short", sheet_t, T_RECORDS, 1, 1, 1, 16, WRONG_LENGTH, 17},
    {"firings: one long", sheet_t, T_RECORDS, 1, 1, 1, 18, WRONG_LENGTH, 17},
    {"firings: as many words as bytes are needed", sheet_t, T_RECORDS, 1, 1, 1, 34, WRONG_LENGTH, 17},
    {"firings: as many words as the sheet has bytes", sheet_f, F_RECORDS, 1, 1, 1, 23 * 12, WRONG_LENGTH, 23},
    {"firings: as many words as it has words", sheet_f, F_RECORDS, 1, 1, 1, 23 * 6, WRONG_LENGTH, 23},

    /* The lowest number first. */
    {"firings: 8 before 9", sheet_p, P_RECORDS, 4, 0, 255, 17, SHEET_WRONG_STIMULUS, 0},
    {"firings: 8 before 16", sheet_t, T_RECORDS, 0, 0, 1, 0, SHEET_WRONG_STIMULUS, 0},
    {"firings: 9 before 16", sheet_t, T_RECORDS, 1, 0, 3, 16, SHEET_WRONG_INPUT, 0},
};

static void refused_calls(void)
{
    for (size_t k = 0; k < sizeof refused / sizeof *refused; k++) {
        const struct refused_firing *one = &refused[k];
        take(one->records, one->count);
        memset(stim, 1, one->from);
        memset(stim + one->from, one->byte, one->stim_length - one->from);
        struct one_cycle call = lent(one->stim_length, one->words);
        expect_one_cycle_refused(one->name, &call, one->code, one->place);
    }
}

static uint16_t word_of(size_t record, enum word word)
{
    const uint8_t *at = sheet + record * RECORD_BYTES + 2 * word;
    return (uint16_t)(at[0] | at[1] << 8);
}

/* Only IFs are told of, and of each an alternative of its chain. */
static void only_alternatives(const char *name, const uint8_t *slice)
{
    for (size_t record = 0; record < length / RECORD_BYTES; record++) {
        uint16_t told = 0;
        memcpy(&told, slice + record * sizeof told, sizeof told);
        size_t pattern = word_of(record, KIND) == IF ? word_of(record, D) : 0;
        while (pattern != 0 && pattern != told)
            pattern = word_of(pattern, NEXT);
        if (told != pattern)
            tally(0, name, "a word that is no alternative of an IF");
    }
}

/* An accepted sheet at a limit: exactly one length of input is a cycle. */
static void of_limit(const char *name)
{
    size_t cycles = 0;
    for (size_t inputs = 0; inputs <= MOST_LEAVES; inputs++) {
        struct one_cycle call = lent(inputs, length / RECORD_BYTES);
        struct one_cycle_answer answer = guarded_one_cycle(name, &call);
        if (answer.result == 0) {
            cycles++;
            only_alternatives(name, answer.slice);
        } else {
            tally(answer.result == (uint64_t)SHEET_WRONG_STIMULUS << 32 && answer.untouched, name, "neither 0 nor 8");
        }
    }
    tally(cycles == 1, name, "not one length of input is a cycle");
}

/* Every sheet at a limit gets its verdict. */
static void of_limits(void)
{
    memset(stim, 1, MOST_LEAVES);
    for (size_t k = 0; k < limit_count; k++) {
        const struct limit_case *one = &limit_cases[k];
        length = limit_sheet(one, sheet);
        struct one_cycle empty = lent(0, 1);
        if (one->code != SHEET_ACCEPTED)
            expect_one_cycle_refused(one->name, &empty, one->code, one->place);
        else
            of_limit(one->name);
    }
}

/* T cut off or with zeros after it, with a stimulus and a slice that are wrong too. */
static void of_lengths(void)
{
    static const size_t lengths[] = {0, 1, 11, 12, T_BYTES - 12, T_BYTES - 1, T_BYTES + 12, SHEET_LONGEST, MOST_BYTES};
    take(sheet_t, T_RECORDS);
    memset(sheet + T_BYTES, 0, sizeof sheet - T_BYTES);
    for (size_t k = 0; k < sizeof lengths / sizeof *lengths; k++) {
        length = lengths[k];
        int wrong = length < RECORD_BYTES || length > SHEET_LONGEST || length % RECORD_BYTES != 0;
        struct one_cycle call = lent(0, 5);
        expect_one_cycle_refused("firings of T with another length", &call, wrong ? SHEET_WRONG_LENGTH : SHEET_WRONG_HEADER, 0);
    }
}

static void firings(void)
{
    of_t();
    of_chains();
    of_feedback();
    refused_calls();
    of_limits();
    of_lengths();
}

/* The call with one leaf of input, or 64. */
static void once(void)
{
    for (size_t inputs = 1; inputs <= 64; inputs += 63)
        sheet_fired(at_limit.sheet, at_limit.length, at_limit.stim, inputs, at_limit.words, at_limit.length / RECORD_BYTES);
}

static void stack_need(void)
{
    measure_on_limits("sheet_fired", once, SHEET_FIRED_STACK);
}

TESTS(firings, SMALL_STACK)
TESTS_ONCE(stack_need)
