/* The longest, the deepest and the widest texts, and damaged ones. */
#include <string.h>

#include "draft.h"
#include "guard.h"
#include "made_text.h"
#include "sheet.h"
#include "suite.h"

#define T BIT "(LET INIT ?bit REC q = (DELAY (lo, (IF input MATCHES hi THEN (IF q MATCHES lo THEN hi ELSE lo) ELSE q))) IN q)"

static uint8_t sheet[MOST_BYTES];

static void refused(const char *name, size_t sheet_length, uint32_t code, size_t place)
{
    struct translation call = lent_made(sheet_length);
    expect_text_refused(name, &call, code, (uint32_t)place);
}

static void of_length(const char *name, size_t sheet_length, size_t needed)
{
    struct translation call = lent_made(sheet_length);
    expect_length(name, &call, needed);
}

/* 65,535 bytes are a text, one more is not; a fault is told where it is, and at byte 65,535 at the latest. */
static void lengths(void)
{
    static const char blanks[] = {' ', '\n'};
    for (size_t k = 0; k < 2; k++) {
        text_begin(T);
        text_pad(SHEET_LONGEST_TEXT, blanks[k]);
        of_length("text of 65,535 bytes", 17 * RECORD_BYTES, 17 * RECORD_BYTES);
        text_pad(SHEET_LONGEST_TEXT + 1, blanks[k]);
        refused("text of 65,536 bytes", 17 * RECORD_BYTES, SHEET_WRONG_TEXT, 65535);
        text_pad(MOST_TEXT, blanks[k]);
        refused("text of 80,000 bytes", 0, SHEET_WRONG_TEXT, 65535);
    }
    text_begin("");
    text_pad(SHEET_LONGEST_TEXT - strlen(T), ' ');
    text_add(T);
    of_length("text after blanks, of 65,535 bytes", 300, 17 * RECORD_BYTES);
    text_pad(SHEET_LONGEST_TEXT + 1, ' ');
    refused("text after blanks, of 65,536 bytes", 300, SHEET_WRONG_TEXT, 65535);
    text_begin("");
    text_pad(SHEET_LONGEST_TEXT + 1 - strlen(T), ' ');
    text_add(T);
    refused("text whose last bracket is byte 65,535", 300, SHEET_WRONG_TEXT, 65535);
    made.length--;
    refused("text that ends before its last bracket", 300, SHEET_WRONG_TEXT, 65535);
    static const size_t faults[][2] = {{200, 200}, {65533, 65533}, {65534, 65534}, {65535, 65535}, {65536, 65535}, {70000, 65535}};
    for (size_t k = 0; k < sizeof faults / sizeof *faults; k++) {
        text_begin(T);
        text_pad(MOST_TEXT, ' ');
        made.bytes[faults[k][0]] = '*';
        refused("long text with a fault", 300, SHEET_WRONG_TEXT, faults[k][1]);
        made.length = faults[k][0] + 1;
        refused("text that ends with a fault", 300, SHEET_WRONG_TEXT, faults[k][1]);
    }
}

/* Brackets that are not closed, or can be no more, are no fault before the text's end. */
static void open_brackets(void)
{
    static const char *const begun[] = {BIT, BIT "(IF hi MATCHES ", BIT "(DELAY (", BIT "(LET x = "};
    for (size_t k = 0; k < sizeof begun / sizeof *begun; k++) {
        text_begin(begun[k]);
        text_pad(SHEET_LONGEST_TEXT - 1, '(');
        refused("brackets up to byte 65,534", 5, SHEET_WRONG_TEXT, 65534);
        text_pad(SHEET_LONGEST_TEXT, '(');
        refused("brackets up to byte 65,535", 5, SHEET_WRONG_TEXT, 65535);
        text_pad(SHEET_LONGEST_TEXT + 1, '(');
        refused("brackets up to byte 65,536", 5, SHEET_WRONG_TEXT, 65535);
        size_t brackets = made.length - strlen(begun[k]);
        text_add_times("(", SHEET_LONGEST_TEXT - brackets);
        refused("65,535 open brackets", 5, SHEET_WRONG_TEXT, 65535);
        made.bytes[65000] = ')';
        refused("65,535 open brackets and a closed one", 5, SHEET_WRONG_TEXT, 65000);
    }
    text_begin("");
    text_pad(SHEET_LONGEST_TEXT, '(');
    refused("nothing but brackets", 5, SHEET_WRONG_TEXT, 0);
}

/* Pairs in the first parts of pairs, so many. */
static void begin_pairs_inside(size_t pairs)
{
    text_begin(BIT);
    text_add_times("(", pairs);
    text_add("hi");
    text_add_times(",hi)", pairs);
}

/* Their records: the pairs, outermost first, the innermost constant, then the second parts, innermost first. */
static size_t pairs_inside(size_t pairs)
{
    static struct draft draft;
    draft_begin(&draft);
    uint16_t type = draft_part(&draft, 0, NEXT, FLAT_TYPE), inner = 0;
    draft.words[type][A] = 2;
    draft.words[0][A] = type;
    for (size_t k = 0; k < pairs; k++)
        inner = draft_part(&draft, inner, k == 0 ? B : A, PAIR);
    for (size_t k = 0; k <= pairs; k++) {
        uint16_t whole = (uint16_t)(k == 0 ? inner : inner + 1 - k);
        uint16_t constant = draft_part(&draft, whole, k == 0 ? A : B, CONSTANT);
        draft.words[constant][A] = type;
        draft.words[draft_part(&draft, constant, B, LEAF)][A] = 1;
    }
    draft_end(&draft);
    return draft_write(&draft, sheet);
}

/* Up to 4,096 records in a slice that is long enough; more are refused whatever its length. */
static void records(void)
{
    /* A header, a type, 3 records a pair, and a constant with its leaf. */
    begin_pairs_inside(1364);
    struct translation whole = lent_made(SHEET_LONGEST), longer = lent_made(MOST_SLICE);
    size_t needed = pairs_inside(1364);
    tally(needed == SHEET_LONGEST, "pairs of 4,096 records", "the test has another number of records");
    expect_translated("pairs of 4,096 records", &whole, sheet, needed);
    expect_translated("pairs of 4,096 records in a longer slice", &longer, sheet, needed);
    refused("pairs of 4,096 records in a slice short of a byte", SHEET_LONGEST - 1, SHEET_NO_ROOM, 49152);
    refused("pairs of 4,096 records in no slice", 0, SHEET_NO_ROOM, 49152);
    begin_pairs_inside(1365);
    refused("pairs of 4,099 records", MOST_SLICE, SHEET_NO_ROOM, 49188);
    begin_pairs_inside(13000);
    refused("13,000 pairs", MOST_SLICE, SHEET_NO_ROOM, 12 * (4 + 3 * 13000));

    /* 65 records for three bytes, and one for each pair. */
    text_begin(DOUBLED "INPUT a ");
    text_add_times("(?g,", 13000);
    text_add("?g");
    text_add_times(")", 13000);
    refused("13,001 constants of 64 leaves", MOST_SLICE, SHEET_NO_ROOM, 12 * (8 + 66 * 13000 + 65));
}

/* A header, a type, an IF with three names, and a record for each alternative. */
static void alternatives(void)
{
    static const size_t counts[] = {4090, 4091, 10000, 20000};
    for (size_t k = 0; k < sizeof counts / sizeof *counts; k++) {
        size_t needed = (6 + counts[k]) * RECORD_BYTES;
        text_begin(BIT "(IF input MATCHES hi");
        text_add_times("|lo", counts[k] - 1);
        text_add(" THEN input ELSE input)");
        if (needed <= SHEET_LONGEST) {
            of_length("alternatives", needed, needed);
            of_length("alternatives in a longer slice", MOST_SLICE, needed);
            refused("alternatives in a slice short of a byte", needed - 1, SHEET_NO_ROOM, needed);
        } else {
            refused("too many alternatives", MOST_SLICE, SHEET_NO_ROOM, needed);
            refused("too many alternatives in no slice", 0, SHEET_NO_ROOM, needed);
        }
    }
}

/*
 * Depth is the check's: of 64 pairs the innermost constant, record 66, lies too deep; of 63 the innermost pair, record 64, has no
 * type.
 */
static void depths(void)
{
    static const struct {
        size_t pairs;
        uint32_t code, place;
    } cases[] = {{64, SHEET_TOO_DEEP, 66}, {63, SHEET_ILL_TYPED, 64}};
    for (size_t k = 0; k < sizeof cases / sizeof *cases; k++) {
        begin_pairs_inside(cases[k].pairs);
        size_t needed = pairs_inside(cases[k].pairs);
        struct translation call = lent_made(needed);
        expect_translated("text of some depth", &call, sheet, needed);
        expect("text of some depth", sheet, needed, cases[k].code, cases[k].place);
    }
}

/* Over 255 constructors of one type: the count is a word, and the check refuses it. */
static void many_constructors(void)
{
    static const size_t counts[] = {255, 256, 300, 12000};
    for (size_t k = 0; k < sizeof counts / sizeof *counts; k++) {
        uint16_t count = (uint16_t)counts[k], constant[][WORDS] = {{1, 1, 1, 2, 4}, {16, 0, count}, {32, 0, 1, 3}, {64, 0, count}};
        static struct draft draft;
        draft_take(&draft, (const uint16_t(*)[WORDS])constant, 4);
        size_t needed = draft_write(&draft, sheet);
        text_begin("TYPE type = ");
        for (size_t number = 0; number < counts[k]; number++) {
            text_add(number == 0 ? "" : "|");
            text_add_name(number, 4);
        }
        text_add(" IN INPUT type ");
        text_add_name(counts[k] - 1, 4);
        struct translation call = lent_made(100);
        expect_translated("many constructors", &call, sheet, needed);
        expect("many constructors", sheet, needed, counts[k] <= 255 ? SHEET_ACCEPTED : SHEET_WRONG_RECORD, 1);
        /* Twice the same name, the last one. */
        text_begin("TYPE type = ");
        size_t place = made.length;
        for (size_t number = 0; number <= counts[k]; number++) {
            text_add(number == 0 ? "" : "|");
            place = made.length;
            text_add_name(number % counts[k], 4);
        }
        text_add(" IN INPUT type hi");
        refused("many constructors, the first one twice", 100, SHEET_WRONG_NAME, place);
    }
}

/* Every byte of T's text set to others: a refusal within the text, or a sheet of whole records. */
static void damaged(void)
{
    static const char values[] = " \n()[]?,=|12qhINT*\t\xff";
    text_begin(T);
    for (size_t at = 0; at < made.length; at++) {
        uint8_t kept = made.bytes[at];
        for (size_t k = 0; k < sizeof values; k++) {
            made.bytes[at] = (uint8_t)values[k];
            struct translation call = lent_made(300);
            struct translated answer = guarded_translate("T's text with a byte changed", &call);
            uint32_t code = sheet_code_of(answer.result), place = sheet_place_of(answer.result);
            int within = (code == SHEET_WRONG_TEXT && place <= made.length) || (code == SHEET_WRONG_NAME && place < made.length);
            int whole = code == SHEET_DONE && place % RECORD_BYTES == 0 && 36 <= place && place <= 300;
            tally((within && answer.untouched) || whole, "T's text with a byte changed", "an answer that no text of this length has");
        }
        made.bytes[at] = kept;
    }
}

static void texts(void)
{
    lengths();
    open_brackets();
    records();
    alternatives();
    depths();
    many_constructors();
    damaged();
}

TESTS(texts, TRANSLATION_STACK)
