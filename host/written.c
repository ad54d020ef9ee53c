/*
 * Small sheets written out in full: each record's kind, next, a, b, c, d as far as they are not 0, from the header on. A comment
 * says why the code and the place are these.
 */
#include "cases.h"
#include "guard.h"
#include "sheet.h"
#include "suite.h"

enum { MOST_WRITTEN = 15 };

struct written_case {
    const char *name;
    size_t count;
    uint16_t records[MOST_WRITTEN][WORDS];
    uint32_t code, place;
};

static const struct written_case cases[] = {
    /* The smallest: one type, and the input as it comes. */
    {"input", 3, {{1, 1, 1, 2, 3}, {16, 0, 2}, {33}}, SHEET_ACCEPTED, 1},
    /* The header alone names no type. */
    {"header alone", 1, {{1, 0, 0, 0, 1}}, SHEET_WRONG_HEADER, 0},

    /* Code 3. Record 2, of unknown kind, and 4, whose type word names it, break the rule; here the namer is the higher. */
    {"record: type of unknown kind",
     6,
     {{1, 1, 1, 3, 6}, {16, 0, 2}, {99}, {36, 0, 4}, {32, 0, 2, 5}, {64}},
     SHEET_WRONG_RECORD,
     2},
    /* A constructor pattern asks for a flat type, and 2 is a pair type. */
    {"record: constructor of a pair type",
     8,
     {{1, 1, 2, 3, 8}, {16, 2, 2}, {17, 0, 1, 1}, {39, 0, 4, 6, 7, 5}, {33}, {49, 0, 2, 1}, {33}, {33}},
     SHEET_WRONG_RECORD,
     5},
    /* A pair type's parts have lower numbers. */
    {"record: pair type of itself", 4, {{1, 1, 1, 3, 4}, {16, 2, 2}, {17, 0, 1, 2}, {33}}, SHEET_WRONG_RECORD, 2},

    /* Code 4. The chain of types begins at 2, so 1 is in none; type words do not count as naming. */
    {"naming: type before the first", 4, {{1, 2, 1, 3, 4}, {16, 0, 2}, {16, 0, 2}, {33}}, SHEET_WRONG_NAMING, 1},
    /* Record 4 is named by both words of 3, and 5 by none. */
    {"naming: both parts one", 6, {{1, 1, 1, 3, 6}, {16, 2, 2}, {17, 0, 1, 1}, {34, 0, 4, 4}, {33}, {33}}, SHEET_WRONG_NAMING, 4},
    /* A leaf in no chain. */
    {"naming: loose leaf", 4, {{1, 1, 1, 2, 4}, {16, 0, 2}, {33}, {64}}, SHEET_WRONG_NAMING, 3},

    /* Patterns that IFs share: 2 and 4 name 9, the first of two alternatives, by their words d. */
    {"two IFs on one pattern",
     11,
     {{1, 1, 1, 2, 11}, {16, 0, 3}, {39, 0, 3, 4, 8, 9}, {33}, {39, 0, 5, 6, 7, 9}, {33}, {33}, {33}, {33}, {49, 10, 1, 1},
      {49, 0, 1, 3}},
     SHEET_ACCEPTED,
     1},
    /* 10, its second alternative, is named by 9's next and by a word d, of either IF or of both; of both, 9 is named by none. */
    {"naming: tail of a chain, by then's IF",
     11,
     {{1, 1, 1, 2, 11}, {16, 0, 3}, {39, 0, 3, 4, 8, 9}, {33}, {39, 0, 5, 6, 7, 10}, {33}, {33}, {33}, {33}, {49, 10, 1, 1},
      {49, 0, 1, 3}},
     SHEET_WRONG_NAMING,
     10},
    {"naming: tail of a chain, by the outer IF",
     11,
     {{1, 1, 1, 2, 11}, {16, 0, 3}, {39, 0, 3, 4, 8, 10}, {33}, {39, 0, 5, 6, 7, 9}, {33}, {33}, {33}, {33}, {49, 10, 1, 1},
      {49, 0, 1, 3}},
     SHEET_WRONG_NAMING,
     10},
    {"naming: tail of a chain, by both IFs",
     11,
     {{1, 1, 1, 2, 11}, {16, 0, 3}, {39, 0, 3, 4, 8, 10}, {33}, {39, 0, 5, 6, 7, 10}, {33}, {33}, {33}, {33}, {49, 10, 1, 1},
      {49, 0, 1, 3}},
     SHEET_WRONG_NAMING,
     9},
    /* 11 follows 9 and 10, the patterns of the two IFs. */
    {"naming: one alternative after two",
     12,
     {{1, 1, 1, 2, 12}, {16, 0, 3}, {39, 0, 3, 4, 8, 9}, {33}, {39, 0, 5, 6, 7, 10}, {33}, {33}, {33}, {33}, {49, 11, 1, 1},
      {49, 11, 1, 2}, {49, 0, 1, 3}},
     SHEET_WRONG_NAMING,
     11},
    /* Type 2 is (1, 1), and 10 a pair pattern that 3 and 5 share; its parts are 11 and 12. */
    {"two IFs on one pair pattern",
     13,
     {{1, 1, 2, 3, 13}, {16, 2, 2}, {17, 0, 1, 1}, {39, 0, 4, 5, 9, 10}, {33}, {39, 0, 6, 7, 8, 10}, {33}, {33}, {33}, {33},
      {50, 0, 11, 12}, {48, 0, 1}, {49, 0, 1, 2}},
     SHEET_ACCEPTED,
     2},
    /* 11 is a part of 10, and 5's word d names it too; 7 applies as well, but 4 is lower. */
    {"naming: part of a pair pattern, by an IF",
     13,
     {{1, 1, 2, 3, 13}, {16, 2, 2}, {17, 0, 1, 1}, {39, 0, 4, 5, 9, 10}, {33}, {39, 0, 6, 7, 8, 11}, {33}, {33}, {33}, {33},
      {50, 0, 11, 12}, {48, 0, 1}, {49, 0, 1, 2}},
     SHEET_WRONG_NAMING,
     11},
    /* Both parts of 10 are 11. */
    {"naming: both parts of a pair pattern one",
     12,
     {{1, 1, 2, 3, 12}, {16, 2, 2}, {17, 0, 1, 1}, {39, 0, 4, 5, 9, 10}, {33}, {39, 0, 6, 7, 8, 10}, {33}, {33}, {33}, {33},
      {50, 0, 11, 11}, {48, 0, 1}},
     SHEET_WRONG_NAMING,
     11},
    /* 12 is a part of 10 and of 11, the patterns of the two IFs. */
    {"naming: a part of two pair patterns",
     15,
     {{1, 1, 2, 3, 15}, {16, 2, 2}, {17, 0, 1, 1}, {39, 0, 4, 5, 9, 10}, {33}, {39, 0, 6, 7, 8, 11}, {33}, {33}, {33}, {33},
      {50, 0, 12, 13}, {50, 0, 12, 14}, {48, 0, 1}, {48, 0, 1}, {48, 0, 1}},
     SHEET_WRONG_NAMING,
     12},
    /* 12 is the second part of 10 and follows the first. */
    {"naming: a part that is a next",
     13,
     {{1, 1, 2, 3, 13}, {16, 2, 2}, {17, 0, 1, 1}, {39, 0, 4, 5, 9, 10}, {33}, {39, 0, 6, 7, 8, 10}, {33}, {33}, {33}, {33},
      {50, 0, 11, 12}, {48, 12, 1}, {48, 0, 1}},
     SHEET_WRONG_NAMING,
     12},
    /* What is no pattern is not shared: 6, an expression; 6, a leaf. */
    {"naming: one branch for two",
     9,
     {{1, 1, 1, 2, 9}, {16, 0, 3}, {39, 0, 3, 4, 7, 8}, {33}, {39, 0, 5, 6, 6, 8}, {33}, {33}, {33}, {49, 0, 1, 1}},
     SHEET_WRONG_NAMING,
     6},
    {"naming: one leaf for two constants",
     7,
     {{1, 1, 1, 3, 7}, {16, 2, 2}, {17, 0, 1, 1}, {34, 0, 4, 5}, {32, 0, 1, 6}, {32, 0, 1, 6}, {64}},
     SHEET_WRONG_NAMING,
     6},

    /* Code 5. 3 has the parts of 2. */
    {"type: the same pair again", 5, {{1, 1, 1, 4, 5}, {16, 2, 2}, {17, 3, 1, 1}, {17, 0, 1, 1}, {33}}, SHEET_WRONG_TYPE, 3},
    /* Other order, other parts: allowed. */
    {"pairs in both orders",
     6,
     {{1, 1, 4, 5, 6}, {16, 2, 2}, {16, 3, 2}, {17, 4, 1, 2}, {17, 0, 2, 1}, {33}},
     SHEET_ACCEPTED,
     4},
    /* 4 is lower than 5: the loose leaf. */
    {"naming and type",
     6,
     {{1, 1, 1, 4, 6}, {16, 2, 2}, {17, 3, 1, 1}, {17, 0, 1, 1}, {33}, {64}},
     SHEET_WRONG_NAMING,
     5},
    /* 5 is lower than 7: the name is out of scope too. */
    {"type and typing", 5, {{1, 1, 1, 4, 5}, {16, 2, 2}, {17, 3, 1, 1}, {17, 0, 1, 1}, {33, 0, 1}}, SHEET_WRONG_TYPE, 3},

    /* Code 7, parts and pairs. The input is flat. */
    {"typing: first part of a flat type", 4, {{1, 1, 1, 2, 4}, {16, 0, 2}, {35, 0, 3}, {33}}, SHEET_ILL_TYPED, 2},
    {"typing: second part of a flat type", 4, {{1, 1, 1, 2, 4}, {16, 0, 2}, {36, 0, 3}, {33}}, SHEET_ILL_TYPED, 2},
    {"first part", 6, {{1, 1, 3, 4, 6}, {16, 2, 2}, {16, 3, 3}, {17, 0, 1, 2}, {35, 0, 5}, {33}}, SHEET_ACCEPTED, 1},
    {"second part", 6, {{1, 1, 3, 4, 6}, {16, 2, 2}, {16, 3, 3}, {17, 0, 1, 2}, {36, 0, 5}, {33}}, SHEET_ACCEPTED, 2},
    /* No pair type is declared at all; then only one of other parts: (2, 1) where (1, 1) is needed. */
    {"typing: pair without a pair type", 5, {{1, 1, 1, 2, 5}, {16, 0, 2}, {34, 0, 3, 4}, {33}, {33}}, SHEET_ILL_TYPED, 2},
    {"typing: pair of other parts",
     7,
     {{1, 1, 1, 4, 7}, {16, 2, 2}, {16, 3, 2}, {17, 0, 2, 1}, {34, 0, 5, 6}, {33}, {33}},
     SHEET_ILL_TYPED,
     4},
    {"pair", 6, {{1, 1, 1, 3, 6}, {16, 2, 2}, {17, 0, 1, 1}, {34, 0, 4, 5}, {33}, {33}}, SHEET_ACCEPTED, 2},

    /* Leaves. Type 2 has two leaves, of two constructors each. */
    {"typing: a leaf too few", 5, {{1, 1, 1, 3, 5}, {16, 2, 2}, {17, 0, 1, 1}, {32, 0, 2, 4}, {64}}, SHEET_ILL_TYPED, 3},
    {"typing: a leaf too many",
     7,
     {{1, 1, 1, 3, 7}, {16, 2, 2}, {17, 0, 1, 1}, {32, 0, 2, 4}, {64, 5}, {64, 6}, {64}},
     SHEET_ILL_TYPED,
     3},
    {"as many leaves", 6, {{1, 1, 1, 3, 6}, {16, 2, 2}, {17, 0, 1, 1}, {32, 0, 2, 4}, {64, 5, 2}, {64, 0, 1}}, SHEET_ACCEPTED, 2},
    /* Bounds go leaf by leaf: 3 fits the second leaf of (2, 3) and not the first. */
    {"second leaf's count",
     7,
     {{1, 1, 1, 4, 7}, {16, 2, 2}, {16, 3, 3}, {17, 0, 1, 2}, {32, 0, 3, 5}, {64, 6, 2}, {64, 0, 3}},
     SHEET_ACCEPTED,
     3},
    {"typing: first leaf's count",
     7,
     {{1, 1, 1, 4, 7}, {16, 2, 2}, {16, 3, 3}, {17, 0, 1, 2}, {32, 0, 3, 5}, {64, 6, 3}, {64, 0, 3}},
     SHEET_ILL_TYPED,
     4},

    /* Types 1 and 2 have the same shape and are different records. The branches are constants of both. */
    {"typing: branches alike in shape",
     10,
     {{1, 1, 1, 3, 10}, {16, 2, 2}, {16, 0, 2}, {39, 0, 4, 6, 8, 5}, {33}, {48, 0, 1},
      {32, 0, 1, 7}, {64}, {32, 0, 2, 9}, {64}},
     SHEET_ILL_TYPED,
     3},
    /* The pattern is of type 2, the tested part of type 1; leaf 7 is above its count too, but the pattern goes before b. */
    {"typing: pattern before then",
     10,
     {{1, 1, 1, 3, 10}, {16, 2, 2}, {16, 0, 2}, {39, 0, 4, 6, 8, 5}, {33}, {48, 0, 2},
      {32, 0, 1, 7}, {64, 0, 3}, {32, 0, 1, 9}, {64}},
     SHEET_ILL_TYPED,
     3},
    /* The same with a tested part that is out of scope: a goes before the pattern. */
    {"typing: tested part before pattern",
     10,
     {{1, 1, 1, 3, 10}, {16, 2, 2}, {16, 0, 2}, {39, 0, 4, 6, 8, 5}, {33, 0, 7}, {48, 0, 2},
      {32, 0, 1, 7}, {64}, {32, 0, 1, 9}, {64}},
     SHEET_ILL_TYPED,
     4},
    /* Branches of two types, and c out of scope: the branches' types are compared after c. */
    {"typing: else before the branches' types",
     9,
     {{1, 1, 1, 3, 9}, {16, 2, 2}, {16, 0, 2}, {39, 0, 4, 6, 8, 5}, {33}, {48, 0, 1}, {32, 0, 2, 7}, {64}, {33, 0, 1}},
     SHEET_ILL_TYPED,
     8},
    /* The first alternative has type 1, the second type 2. */
    {"typing: second alternative",
     9,
     {{1, 1, 1, 3, 9}, {16, 2, 2}, {16, 0, 2}, {39, 0, 4, 7, 8, 5}, {33}, {49, 6, 1, 1}, {49, 0, 2, 1}, {33}, {33}},
     SHEET_ILL_TYPED,
     3},
    {"typing: pair pattern on a flat type",
     9,
     {{1, 1, 1, 2, 9}, {16, 0, 2}, {39, 0, 3, 7, 8, 4}, {33}, {50, 0, 5, 6}, {48, 0, 1}, {48, 0, 1}, {33}, {33}},
     SHEET_ILL_TYPED,
     2},
    /* Type 3 is (1, 2): the parts in this order, the second a chain of two. */
    {"pair pattern",
     12,
     {{1, 1, 3, 4, 12}, {16, 2, 2}, {16, 3, 3}, {17, 0, 1, 2}, {39, 0, 5, 10, 11, 6}, {33}, {50, 0, 7, 8}, {48, 0, 1},
      {49, 9, 2, 1}, {49, 0, 2, 3}, {33}, {33}},
     SHEET_ACCEPTED,
     3},
    {"typing: pair pattern, parts exchanged",
     11,
     {{1, 1, 3, 4, 11}, {16, 2, 2}, {16, 3, 3}, {17, 0, 1, 2}, {39, 0, 5, 9, 10, 6}, {33}, {50, 0, 7, 8}, {48, 0, 2},
      {48, 0, 1}, {33}, {33}},
     SHEET_ILL_TYPED,
     4},

    /* 3 tests the input, of type 1, and its then part, 5, a constant of type 2; they share a pattern. Of type 1 it is wrong for 5,
     * of type 2 for 3, which judges its pattern before its then part. */
    {"typing: shared pattern of the outer IF's type",
     12,
     {{1, 1, 1, 3, 12}, {16, 2, 2}, {16, 0, 2}, {39, 0, 4, 5, 10, 11}, {33}, {39, 0, 6, 8, 9, 11}, {32, 0, 2, 7}, {64}, {33},
      {33}, {33}, {48, 0, 1}},
     SHEET_ILL_TYPED,
     5},
    {"typing: shared pattern of the inner IF's type",
     12,
     {{1, 1, 1, 3, 12}, {16, 2, 2}, {16, 0, 2}, {39, 0, 4, 5, 10, 11}, {33}, {39, 0, 6, 8, 9, 11}, {32, 0, 2, 7}, {64}, {33},
      {33}, {33}, {48, 0, 2}},
     SHEET_ILL_TYPED,
     3},
    /* The same with 5 for the tested part of 3: both test type 2, 5 by its constant and 3 the value of 5, the input's type 1. */
    {"typing: shared pattern, an IF in the tested part",
     12,
     {{1, 1, 1, 3, 12}, {16, 2, 2}, {16, 0, 2}, {39, 0, 4, 9, 10, 11}, {39, 0, 5, 7, 8, 11}, {32, 0, 2, 6}, {64}, {33}, {33},
      {33}, {33}, {48, 0, 2}},
     SHEET_ILL_TYPED,
     3},

    /* A feedback of type 2 whose defining part, the input, has type 1: reported at the feedback, after its body. */
    {"typing: defining part of another type",
     6,
     {{1, 1, 1, 3, 6}, {16, 2, 2}, {16, 0, 2}, {38, 0, 2, 4, 5}, {33, 0, 1}, {33}},
     SHEET_ILL_TYPED,
     3},
    {"typing: body before the feedback",
     6,
     {{1, 1, 1, 3, 6}, {16, 2, 2}, {16, 0, 2}, {38, 0, 2, 4, 5}, {33, 0, 1}, {33, 0, 2}},
     SHEET_ILL_TYPED,
     5},
    /* The feedback has type 2 in itself and in its body, so the root has type 2. */
    {"feedback of itself", 6, {{1, 1, 1, 3, 6}, {16, 2, 2}, {16, 0, 2}, {38, 0, 2, 4, 5}, {33}, {33}}, SHEET_ACCEPTED, 2},
    /* A delay of type 2 on the input, of type 1. */
    {"typing: delay's part of another type",
     6,
     {{1, 1, 1, 3, 6}, {16, 2, 2}, {16, 0, 2}, {40, 0, 2, 4, 5}, {64}, {33}},
     SHEET_ILL_TYPED,
     3},
    /* A LET's name is in scope in its body and not in its defining part, where only the input is. */
    {"LET's name in its body", 5, {{1, 1, 1, 2, 5}, {16, 0, 2}, {37, 0, 3, 4}, {33}, {33, 0, 1}}, SHEET_ACCEPTED, 1},
    {"typing: LET's name in its defining part",
     5,
     {{1, 1, 1, 2, 5}, {16, 0, 2}, {37, 0, 3, 4}, {33, 0, 1}, {33}},
     SHEET_ILL_TYPED,
     3},
};

static void written_cases(void)
{
    static struct draft draft;
    static uint8_t bytes[MOST_BYTES];
    for (size_t k = 0; k < sizeof cases / sizeof *cases; k++) {
        draft_take(&draft, cases[k].records, cases[k].count);
        size_t length = draft_write(&draft, bytes);
        expect(cases[k].name, bytes, length, cases[k].code, cases[k].place);
    }
}

TESTS(written_cases, SMALL_STACK)
