/*
 * Values carried from an old sheet into a new one, worked out by hand, and refused calls. A comment says why the next slice, the
 * code and the place are these.
 */
#include <string.h>

#include "cases.h"
#include "guard.h"
#include "measure.h"
#include "sheet.h"
#include "suite.h"

enum { MOST_WRITTEN = 13, MOST_HELD = 3 };

struct written_sheet {
    size_t count;
    uint16_t records[MOST_WRITTEN][WORDS];
};

/* A delay, record 2, of a flat type of so many constructors; its leaf is record 3. */
#define ONE(constructors, label, value) \
    {5, {{1, 1, 1, 2, 5}, {16, 0, constructors}, {40, 0, 1, 3, 4, label}, {64, 0, value}, {33}}}

/* Two delays, records 5 and 8, of two constructors; their leaves are 6 and 9. Of the pair types 2 and 3 one is not used. */
#define TWO(label, value, other_label, other_value) \
    {11, {{1, 1, 1, 4, 11}, {16, 2, 2}, {17, 3, 1, 1}, {17, 0, 1, 2}, {34, 0, 5, 8}, {40, 0, 1, 6, 7, label}, {64, 0, value}, \
          {33}, {40, 0, 1, 9, 10, other_label}, {64, 0, other_value}, {33}}}

/* Three delays, records 3, 7 and 10, with these labels. */
#define ROW(first, second, third) \
    {13, {{1, 1, 1, 2, 13}, {16, 0, 2}, {37, 0, 3, 6}, {40, 0, 1, 4, 5, first}, {64, 0, 1}, {33}, {37, 0, 7, 10}, \
          {40, 0, 1, 8, 9, second}, {64, 0, 1}, {33}, {40, 0, 1, 11, 12, third}, {64, 0, 1}, {33}}}

/*
 * A delay of three leaves, records 8 to 10, with label 9 and a type of these: 3 is ((bit, bit), bit), 4 is (bit, (bit, bit)) and 6
 * is ((bit, bit), flat of three).
 */
#define TREE(type, first, second, third) \
    {12, {{1, 1, type, 7, 12}, {16, 2, 2}, {17, 3, 1, 1}, {17, 4, 2, 1}, {17, 5, 1, 2}, {16, 6, 3}, {17, 0, 2, 5}, \
          {40, 0, type, 8, 11, 9}, {64, 9, first}, {64, 10, second}, {64, 0, third}, {33}}}

struct held {
    uint16_t leaf, value;
};

struct carry_case {
    const char *name;
    struct written_sheet old, new;
    /* The leaves of the new sheet that change. */
    size_t held_count;
    struct held held[MOST_HELD];
};

static const struct carry_case cases[] = {
    {"carry: one label", ONE(2, 5, 1), ONE(2, 5, 2), 1, {{3, 1}}},
    {"carry: an undefined value", ONE(2, 5, 0), ONE(2, 5, 2), 1, {{3, 0}}},
    {"carry: the greatest label", ONE(255, 65535, 255), ONE(255, 65535, 2), 1, {{3, 255}}},
    {"carry: another label", ONE(2, 5, 1), ONE(2, 6, 2), 0, {{0}}},
    /* 5 + 256 has the low byte of 5. */
    {"carry: another high byte", ONE(2, 261, 1), ONE(2, 5, 2), 0, {{0}}},
    {"carry: no label in either sheet", ONE(2, 0, 1), ONE(2, 0, 2), 0, {{0}}},
    {"carry: no label in the new sheet", ONE(2, 5, 1), ONE(2, 0, 2), 0, {{0}}},
    {"carry: no label in the old sheet", ONE(2, 0, 1), ONE(2, 5, 2), 0, {{0}}},
    /* 5 holds 1 and 6 holds 0; the new sheet has them the other way round. */
    {"carry: labels exchanged", TWO(5, 1, 6, 0), TWO(6, 2, 5, 2), 2, {{6, 0}, {9, 1}}},
    {"carry: one of two", TWO(5, 1, 6, 0), TWO(7, 2, 6, 2), 1, {{9, 0}}},
    {"carry: 0 twice in both sheets", TWO(0, 1, 0, 1), TWO(0, 2, 0, 2), 0, {{0}}},
    {"carry: from two into one", TWO(5, 1, 6, 0), ONE(2, 6, 2), 1, {{3, 0}}},
    {"carry: from one into two", ONE(2, 6, 1), TWO(5, 2, 6, 2), 1, {{9, 1}}},

    /* Shapes. A flat type of another count, smaller or greater, though the value would fit. */
    {"carry: a count more", ONE(2, 5, 1), ONE(3, 5, 2), 0, {{0}}},
    {"carry: a count less", ONE(3, 5, 1), ONE(2, 5, 2), 0, {{0}}},
    {"carry: three leaves", TREE(3, 1, 2, 0), TREE(3, 2, 0, 1), 3, {{8, 1}, {9, 2}, {10, 0}}},
    /* The same three flat types in other pairs. */
    {"carry: pairs in other places", TREE(3, 1, 2, 0), TREE(4, 2, 0, 1), 0, {{0}}},
    {"carry: one leaf's count", TREE(3, 1, 2, 0), TREE(6, 2, 0, 1), 0, {{0}}},
    {"carry: a third leaf of three", TREE(6, 1, 2, 3), TREE(6, 2, 0, 1), 3, {{8, 1}, {9, 2}, {10, 3}}},
    {"carry: a flat for a pair", ONE(2, 9, 1), TREE(3, 2, 0, 1), 0, {{0}}},
    {"carry: a pair for a flat", TREE(3, 1, 2, 0), ONE(2, 9, 2), 0, {{0}}},
    {"carry: from three into one", ROW(1, 2, 5), ONE(2, 5, 2), 1, {{3, 1}}},
};

/* What is wrong with a sheet TWO: a word, or bytes cut off. */
struct fault {
    const char *name;
    uint16_t record;
    enum word word;
    uint16_t value;
    size_t cut;
    uint32_t code, place;
};

enum { ONE_BYTES = 5 * RECORD_BYTES, TWO_BYTES = 11 * RECORD_BYTES, ROW_BYTES = 13 * RECORD_BYTES };

static const struct fault faults[] = {
    {"carry: no bytes", 0, KIND, 1, TWO_BYTES, SHEET_WRONG_LENGTH, 0},
    {"carry: a byte short", 0, KIND, 1, 1, SHEET_WRONG_LENGTH, 0},
    /* The count of records is one more. */
    {"carry: a record short", 0, KIND, 1, RECORD_BYTES, SHEET_WRONG_HEADER, 0},
    {"carry: header", 0, D, 1, 0, SHEET_WRONG_HEADER, 0},
    /* A name has no word b, and a pair no label. */
    {"carry: record", 10, B, 1, 0, SHEET_WRONG_RECORD, 10},
    {"carry: a label at a pair", 4, D, 5, 0, SHEET_WRONG_RECORD, 4},
    /* 9 is then named by 5 and by 8, and 6 by none. */
    {"carry: naming", 5, B, 9, 0, SHEET_WRONG_NAMING, 6},
    /* 3 then has the parts of 2. */
    {"carry: type", 3, B, 1, 0, SHEET_WRONG_TYPE, 3},
    /* Only the input is in scope. */
    {"carry: typing", 7, A, 1, 0, SHEET_ILL_TYPED, 7},
};

struct refused_carry {
    const char *name;
    struct written_sheet old, new;
    size_t next_length;
    uint32_t code, place;
};

static const struct refused_carry refusals[] = {
    /* Code 19: the lowest delay whose label a lower one bears; in the old sheet first. */
    {"carry: a label twice in the old sheet", TWO(5, 1, 5, 2), ONE(2, 5, 2), ONE_BYTES, SHEET_LABEL_TWICE, 8},
    {"carry: a label twice in the new sheet", ONE(2, 5, 2), TWO(5, 1, 5, 2), TWO_BYTES, SHEET_LABEL_TWICE, 8},
    {"carry: a label twice that the other sheet lacks", ONE(2, 5, 2), TWO(6, 1, 6, 2), TWO_BYTES, SHEET_LABEL_TWICE, 8},
    {"carry: twice in both sheets", ROW(4, 9, 4), TWO(5, 1, 5, 2), TWO_BYTES, SHEET_LABEL_TWICE, 10},
    {"carry: twice in both sheets, exchanged", TWO(5, 1, 5, 2), ROW(4, 9, 4), ROW_BYTES, SHEET_LABEL_TWICE, 8},
    {"carry: first and second of three", ROW(4, 4, 9), ONE(2, 5, 2), ONE_BYTES, SHEET_LABEL_TWICE, 7},
    {"carry: second and third of three", ROW(9, 4, 4), ONE(2, 5, 2), ONE_BYTES, SHEET_LABEL_TWICE, 10},
    {"carry: three times", ROW(4, 4, 4), ONE(2, 5, 2), ONE_BYTES, SHEET_LABEL_TWICE, 7},
    {"carry: twice beside 0 twice", ROW(0, 4, 4), ONE(2, 5, 2), ONE_BYTES, SHEET_LABEL_TWICE, 10},
    {"carry: the greatest label twice", ROW(65535, 0, 65535), ONE(2, 5, 2), ONE_BYTES, SHEET_LABEL_TWICE, 10},
    {"carry: 19 before 11", ROW(4, 4, 9), ONE(2, 5, 2), 0, SHEET_LABEL_TWICE, 7},
    {"carry: 19 of the new sheet before 11", ONE(2, 5, 2), ROW(9, 4, 4), 0, SHEET_LABEL_TWICE, 10},

    /* Code 11, at the new sheet's length. */
    {"carry: next none", TWO(5, 1, 6, 1), ONE(2, 5, 2), 0, SHEET_WRONG_NEXT_LENGTH, ONE_BYTES},
    {"carry: next one short", TWO(5, 1, 6, 1), ONE(2, 5, 2), ONE_BYTES - 1, SHEET_WRONG_NEXT_LENGTH, ONE_BYTES},
    {"carry: next one long", TWO(5, 1, 6, 1), ONE(2, 5, 2), ONE_BYTES + 1, SHEET_WRONG_NEXT_LENGTH, ONE_BYTES},
    {"carry: next as long as the old sheet", TWO(5, 1, 6, 1), ONE(2, 5, 2), TWO_BYTES, SHEET_WRONG_NEXT_LENGTH, ONE_BYTES},
    {"carry: next as short as the old sheet", ONE(2, 5, 2), TWO(5, 1, 6, 1), ONE_BYTES, SHEET_WRONG_NEXT_LENGTH, TWO_BYTES},
    {"carry: next as the longest sheet", ONE(2, 5, 2), ONE(2, 5, 2), SHEET_LONGEST, SHEET_WRONG_NEXT_LENGTH, ONE_BYTES},
};

static struct draft draft;
static uint8_t old[MOST_BYTES], new[MOST_BYTES], next[MOST_BYTES];

static size_t written(const struct written_sheet *sheet, uint8_t *bytes)
{
    draft_take(&draft, sheet->records, sheet->count);
    return draft_write(&draft, bytes);
}

static void carried(const struct carry_case *one)
{
    size_t old_length = written(&one->old, old), length = written(&one->new, new);
    for (size_t h = 0; h < one->held_count; h++)
        draft.words[one->held[h].leaf][A] = one->held[h].value;
    draft_write(&draft, next);
    expect_carried(one->name, &(struct carry_call){old, old_length, new, length, length}, next);
    /* What was carried is carried again unchanged. */
    expect_carried(one->name, &(struct carry_call){old, old_length, next, length, length}, next);
}

/* Writes a sheet TWO with a fault, or whole where there is none, and gives the length that is lent. */
static size_t faulty(const struct fault *fault, uint16_t label, uint8_t *bytes)
{
    static const struct written_sheet two = TWO(5, 1, 0, 1);
    draft_take(&draft, two.records, two.count);
    draft.words[8][D] = label;
    if (fault != NULL)
        draft.words[fault->record][fault->word] = fault->value;
    return draft_write(&draft, bytes) - (fault != NULL ? fault->cut : 0);
}

/* A fault in the old sheet goes before all else, one in the new sheet before labels that stand twice and a wrong length. */
static void faults_refused(void)
{
    for (size_t k = 0; k < sizeof faults / sizeof *faults; k++) {
        const struct fault *one = &faults[k];
        size_t length = faulty(one, 5, old);
        struct carry_call of_old = {old, length, new, faulty(NULL, 6, new), TWO_BYTES};
        expect_carry_refused(one->name, &of_old, one->code, one->place);
        of_old.next_length = 0;
        expect_carry_refused(one->name, &of_old, one->code, one->place);
        for (size_t other = 0; other < sizeof faults / sizeof *faults; other++) {
            size_t other_length = faulty(&faults[other], 5, new);
            struct carry_call of_both = {old, length, new, other_length, other_length};
            expect_carry_refused(one->name, &of_both, one->code, one->place);
        }
        length = faulty(one, 6, new);
        struct carry_call of_new = {old, faulty(NULL, 6, old), new, length, length};
        expect_carry_refused(one->name, &of_new, SHEET_NEW_SHEET_REFUSED, one->code);
        of_new.old_length = faulty(NULL, 5, old);
        of_new.next_length = 1;
        expect_carry_refused(one->name, &of_new, SHEET_NEW_SHEET_REFUSED, one->code);
    }
}

/* Labels each delay with the number of its record, and fills the delays' leaves with one value. */
static void label_delays(uint8_t *bytes, size_t length, uint8_t value)
{
    for (size_t record = 1; record < length / RECORD_BYTES; record++) {
        uint8_t *words = bytes + record * RECORD_BYTES;
        if (words[0] != DELAY || words[1] != 0)
            continue;
        words[2 * D] = (uint8_t)(record & 0xff);
        words[2 * D + 1] = (uint8_t)(record >> 8);
        for (size_t leaf = words[2 * B] | words[2 * B + 1] << 8; leaf != 0;) {
            uint8_t *at = bytes + leaf * RECORD_BYTES;
            at[2 * A] = value;
            leaf = (size_t)(at[2 * NEXT] | at[2 * NEXT + 1] << 8);
        }
    }
}

size_t labelled_limit_sheet(const struct limit_case *one, uint8_t *bytes, uint8_t value)
{
    size_t length = limit_sheet(one, bytes);
    if (one->code == SHEET_ACCEPTED)
        label_delays(bytes, length, value);
    return length;
}

/*
 * Sheets at the limits, as old and as new sheet, whose delays hold 1 and 2 in every leaf: the new one becomes the old one. Where
 * one is refused the call is, in either place.
 */
static void limits_carried(void)
{
    static const struct written_sheet small = ONE(2, 65535, 1);
    for (size_t k = 0; k < limit_count; k++) {
        const struct limit_case *one = &limit_cases[k];
        size_t length = labelled_limit_sheet(one, old, 1);
        if (one->code == SHEET_ACCEPTED) {
            labelled_limit_sheet(one, new, 2);
            expect_carried(one->name, &(struct carry_call){old, length, new, length, length}, old);
            expect_carried(one->name, &(struct carry_call){new, length, old, length, length}, new);
            continue;
        }
        size_t small_length = written(&small, new);
        struct carry_call of_old = {old, length, new, small_length, small_length};
        expect_carry_refused(one->name, &of_old, one->code, one->place);
        struct carry_call of_new = {new, small_length, old, length, length};
        expect_carry_refused(one->name, &of_new, SHEET_NEW_SHEET_REFUSED, one->code);
    }
}

static void carries(void)
{
    for (size_t k = 0; k < sizeof cases / sizeof *cases; k++)
        carried(&cases[k]);
    for (size_t k = 0; k < sizeof refusals / sizeof *refusals; k++) {
        const struct refused_carry *one = &refusals[k];
        size_t old_length = written(&one->old, old), new_length = written(&one->new, new);
        struct carry_call call = {old, old_length, new, new_length, one->next_length};
        expect_carry_refused(one->name, &call, one->code, one->place);
    }
    faults_refused();
    limits_carried();
}

static void once(void)
{
    sheet_carry(at_limit.sheet, at_limit.length, at_limit.other, at_limit.length, at_limit.next, at_limit.length);
}

static void stack_need(void)
{
    measure_on_limits("sheet_carry", once, SHEET_CARRY_STACK);
}

TESTS(carries, SMALL_STACK)
TESTS_ONCE(stack_need)
