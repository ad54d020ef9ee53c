/* Texts and their records, worked out by hand from docs/SHEETS.md, Text; and slices of every kind of length. */
#include <string.h>

#include "cases.h"
#include "guard.h"
#include "made_text.h"
#include "sheet.h"
#include "suite.h"

#define TWO "TYPE bit = hi | lo IN TYPE two = (bit, bit) IN INPUT two "

/* And one of 65 leaves, h: record 8. */
#define LEAVES DOUBLED "TYPE h = (g, a) IN "

enum { T_TEXT_RECORDS = 17, SHOWN_RECORDS = 18 };

/* A text and all its records, up to one of kind 0. */
struct layout {
    const char *name, *text;
    uint16_t records[SHOWN_RECORDS][WORDS];
};

static const struct layout layouts[] = {
    {"text: T",
     BIT "(LET INIT ?bit REC q = (DELAY (lo, (IF input MATCHES hi THEN (IF q MATCHES lo THEN hi ELSE lo) ELSE q))) IN q)",
     {{1, 1, 1, 2, 17}, {16, 0, 2}, {38, 0, 1, 3, 16}, {40, 0, 1, 4, 5}, {64, 0, 2}, {39, 0, 6, 7, 14, 15}, {33, 0, 1},
      {39, 0, 8, 9, 11, 13}, {33}, {32, 0, 1, 10}, {64, 0, 1}, {32, 0, 1, 12}, {64, 0, 2}, {49, 0, 1, 2}, {33}, {49, 0, 1, 1}, {33}}},
    {"text: the input", BIT "input", {{1, 1, 1, 2, 3}, {16, 0, 2}, {33}}},
    {"text: types in their order", "TYPE a = b IN TYPE c = d | e | f IN INPUT c (IF input MATCHES f THEN b ELSE b)",
     {{1, 1, 2, 3, 10}, {16, 2, 1}, {16, 0, 3}, {39, 0, 4, 5, 7, 9}, {33}, {32, 0, 1, 6}, {64, 0, 1}, {32, 0, 1, 8}, {64, 0, 1},
      {49, 0, 2, 3}}},
    {"text: LET and parts", TWO "(LET x = input[1] IN (x, hi)[2])",
     {{1, 1, 2, 3, 11}, {16, 2, 2}, {17, 0, 1, 1}, {37, 0, 4, 6}, {35, 0, 5}, {33}, {36, 0, 7}, {34, 0, 8, 9}, {33}, {32, 0, 1, 10},
      {64, 0, 1}}},
    {"text: parts of parts", TWO "input[1][2][2]",
     {{1, 1, 2, 3, 7}, {16, 2, 2}, {17, 0, 1, 1}, {36, 0, 4}, {36, 0, 5}, {35, 0, 6}, {33}}},
    {"text: names by distance", BIT "(LET x = hi IN (LET INIT ?bit REC y = (LET x = y IN x) IN ((x, y), input)[1][1]))",
     {{1, 1, 1, 2, 16}, {16, 0, 2}, {37, 0, 3, 5}, {32, 0, 1, 4}, {64, 0, 1}, {38, 0, 1, 6, 9}, {37, 0, 7, 8}, {33}, {33}, {35, 0, 10},
      {35, 0, 11}, {34, 0, 12, 15}, {34, 0, 13, 14}, {33, 0, 1}, {33}, {33, 0, 2}}},
    {"text: the nearest name", BIT "(LET x = hi IN (LET y = x IN (LET x = y IN (x, y))))",
     {{1, 1, 1, 2, 12}, {16, 0, 2}, {37, 0, 3, 5}, {32, 0, 1, 4}, {64, 0, 1}, {37, 0, 6, 7}, {33}, {37, 0, 8, 9}, {33},
      {34, 0, 10, 11}, {33}, {33, 0, 1}}},
    {"text: chains in a pair pattern", TWO "(IF input MATCHES (hi|lo, bit|lo)|two THEN input ELSE input)",
     {{1, 1, 2, 3, 13}, {16, 2, 2}, {17, 0, 1, 1}, {39, 0, 4, 5, 6, 7}, {33}, {33}, {33}, {50, 12, 8, 10}, {49, 9, 1, 1}, {49, 0, 1, 2},
      {48, 11, 1}, {49, 0, 1, 2}, {48, 0, 2}}},
    {"text: a pair pattern in another",
     "TYPE bit = hi | lo IN TYPE two = (bit, bit) IN TYPE three = (two, bit) IN INPUT three "
     "(IF input MATCHES ((hi, lo) | two, hi) THEN hi ELSE ?bit)",
     {{1, 1, 3, 4, 16}, {16, 2, 2}, {17, 3, 1, 1}, {17, 0, 2, 1}, {39, 0, 5, 6, 8, 10}, {33}, {32, 0, 1, 7}, {64, 0, 1}, {32, 0, 1, 9},
      {64}, {50, 0, 11, 15}, {50, 14, 12, 13}, {49, 0, 1, 1}, {49, 0, 1, 2}, {48, 0, 2}, {49, 0, 1, 1}}},
    {"text: a constant pair", TWO "(DELAY ((hi, ?bit), input))",
     {{1, 1, 2, 3, 7}, {16, 2, 2}, {17, 0, 1, 1}, {40, 0, 2, 4, 6}, {64, 5, 1}, {64}, {33}}},
    {"text: an undefined pair", TWO "?two", {{1, 1, 2, 3, 6}, {16, 2, 2}, {17, 0, 1, 1}, {32, 0, 2, 4}, {64, 5}, {64}}},
    {"text: the first declared pair type",
     "TYPE bit = hi | lo IN TYPE two = (bit, bit) IN TYPE pair = (bit, bit) IN INPUT pair "
     "((DELAY ((hi, lo), input)), (DELAY (?pair, input)))",
     {{1, 1, 3, 4, 13}, {16, 2, 2}, {17, 3, 1, 1}, {17, 0, 1, 1}, {34, 0, 5, 9}, {40, 0, 2, 6, 8}, {64, 7, 1}, {64, 0, 2}, {33},
      {40, 0, 3, 10, 12}, {64, 11}, {64}, {33}}},
    {"text: a pair is no constant but in a DELAY", TWO "(hi, lo)",
     {{1, 1, 2, 3, 8}, {16, 2, 2}, {17, 0, 1, 1}, {34, 0, 4, 6}, {32, 0, 1, 5}, {64, 0, 1}, {32, 0, 1, 7}, {64, 0, 2}}},
};

static size_t records_of(const struct layout *one, uint8_t *bytes)
{
    static struct draft draft;
    size_t count = 0;
    while (count < SHOWN_RECORDS && one->records[count][KIND] != 0)
        count++;
    draft_take(&draft, one->records, count);
    return draft_write(&draft, bytes);
}

static struct translation lent_text(const char *text, size_t sheet_length)
{
    return (struct translation){(const uint8_t *)text, strlen(text), sheet_length};
}

/* Each text into slices of every length up to some more than it needs. */
static void written_out(void)
{
    static uint8_t sheet[SHOWN_RECORDS * RECORD_BYTES];
    for (size_t k = 0; k < sizeof layouts / sizeof *layouts; k++) {
        const struct layout *one = &layouts[k];
        size_t length = records_of(one, sheet);
        for (size_t lent = 0; lent <= length + 30; lent++) {
            struct translation call = lent_text(one->text, lent);
            if (lent < length)
                expect_text_refused(one->name, &call, SHEET_NO_ROOM, (uint32_t)length);
            else
                expect_translated(one->name, &call, sheet, length);
        }
        struct translation longest = lent_text(one->text, MOST_SLICE);
        expect_translated(one->name, &longest, sheet, length);
    }
}

/* T as a text runs as T: on 1 2 1 it gives 2 1 1, and its delay is back at 2. */
static void t_runs(void)
{
    static uint8_t sheet[T_TEXT_RECORDS * RECORD_BYTES];
    static const uint8_t stim[] = {1, 2, 1}, out[] = {2, 1, 1};
    size_t length = records_of(&layouts[0], sheet);
    expect_run("run of T's text", &(struct run_call){sheet, length, stim, 3, 3, length}, 3, out, sheet);
}

/* Undefined constants: as many leaves as their type has, 64 at most, each by itself. */
static void undefined_leaves(void)
{
    static const struct {
        const char *name, *text;
        size_t records;
    } cases[] = {
        {"text: 32 leaves", LEAVES "INPUT a ?f", 9 + 33},
        {"text: 64 leaves", LEAVES "INPUT a ?g", 9 + 65},
        {"text: 65 leaves", LEAVES "INPUT a ?h", 9 + 65},
        {"text: 65 leaves held", LEAVES "INPUT a (DELAY (?h, input))", 9 + 1 + 64 + 1},
        {"text: 130 leaves", LEAVES "TYPE i = (h, h) IN INPUT a ?i", 10 + 65},
        {"text: two times 64 leaves held", LEAVES "TYPE i = (g, g) IN INPUT a (DELAY ((?g, ?g), input))", 10 + 1 + 128 + 1},
        {"text: two times 65 leaves held", LEAVES "TYPE i = (h, h) IN INPUT a (DELAY ((?h, ?h), input))", 10 + 1 + 128 + 1},
        {"text: 64 leaves and one held", LEAVES "INPUT a (DELAY ((?g, x), input))", 9 + 1 + 65 + 1},
        {"text: two times 64 leaves", LEAVES "INPUT a (?g, ?h)", 9 + 1 + 65 + 65},
    };
    for (size_t k = 0; k < sizeof cases / sizeof *cases; k++) {
        size_t length = cases[k].records * RECORD_BYTES;
        struct translation lent = lent_text(cases[k].text, length), shorter = lent_text(cases[k].text, length - 1);
        expect_length(cases[k].name, &lent, length);
        expect_text_refused(cases[k].name, &shorter, SHEET_NO_ROOM, (uint32_t)length);
    }
}

/* What the check refuses is translated all the same: the sheet is refused there, with this code at this record. */
static void left_to_the_check(void)
{
    static const struct {
        const char *name, *text;
        uint32_t code, place;
    } cases[] = {
        {"text: 65 leaves, checked", LEAVES "INPUT a ?h", SHEET_WRONG_TYPE, 8},
        {"text: two leaves, checked", "TYPE a = x IN TYPE b = (a, a) IN INPUT a ?b", SHEET_ACCEPTED, 2},
        {"text: a repeated pair type", "TYPE a = x IN TYPE b = (a, a) IN TYPE c = (a, a) IN INPUT a x", SHEET_WRONG_TYPE, 3},
        {"text: branches of two types", TWO "(IF input[1] MATCHES hi THEN hi ELSE input)", SHEET_ILL_TYPED, 3},
        {"text: the part of a bit", BIT "input[1]", SHEET_ILL_TYPED, 2},
        {"text: a pair without a type", BIT "(hi, lo)", SHEET_ILL_TYPED, 2},
        {"text: a feedback of another type", TWO "(LET INIT ?bit REC x = (x, x) IN x)", SHEET_ILL_TYPED, 3},
        {"text: a pattern of another type", TWO "(IF input MATCHES hi THEN hi ELSE lo)", SHEET_ILL_TYPED, 3},
        {"text: four feedbacks",
         BIT "(LET INIT ?bit REC a = (LET INIT ?bit REC b = (LET INIT ?bit REC c = (LET INIT ?bit REC d = d IN d) IN c) IN b) IN a)",
         SHEET_TOO_DEEP, 6},
    };
    for (size_t k = 0; k < sizeof cases / sizeof *cases; k++) {
        static uint8_t sheet[MOST_BYTES];
        struct translation lent = lent_text(cases[k].text, SHEET_LONGEST);
        struct translated answer = guarded_translate(cases[k].name, &lent);
        size_t length = sheet_place_of(answer.result);
        tally(sheet_code_of(answer.result) == SHEET_DONE, cases[k].name, "the text is refused");
        memcpy(sheet, answer.sheet, length);
        expect(cases[k].name, sheet, length, cases[k].code, cases[k].place);
    }
}

static void text_layouts(void)
{
    written_out();
    t_runs();
    undefined_leaves();
    left_to_the_check();
}

TESTS(text_layouts, TRANSLATION_STACK)
