/*
 * What an IF says to a pattern where leaves are undefined, by the sets of what can still happen.
 *
 * Each sheet is an IF whose branches are constants of two bits, (1,0) and (2,1), so that the counts
 * tell what it said: yes gives {1} and {1,2}, no gives {2} and {1}, undecided {1,2} and {1,2}.
 */
#include <stdio.h>
#include <stdlib.h>
#include <string.h>

#include "draft.h"
#include "estimating.h"
#include "shapes.h"
#include "suite.h"

enum said { YES, NO, UNDECIDED };
static const uint8_t counts_of[][2] = {[YES] = {1, 2}, [NO] = {1, 1}, [UNDECIDED] = {2, 2}};

/* The types: a bit, a three, two bits; a bit and a three; two bits and a three; and 64. */
enum type { BIT = 1, THREE, TWO, MIXED, DEEP, WIDE, TYPES };
static const uint16_t types[TYPES][WORDS] = {{HEADER, BIT},
                                             {FLAT_TYPE, THREE, 2},
                                             {FLAT_TYPE, TWO, 3},
                                             {PAIR_TYPE, MIXED, BIT, BIT},
                                             {PAIR_TYPE, DEEP, BIT, THREE},
                                             {PAIR_TYPE, WIDE, TWO, THREE},
                                             {FLAT_TYPE, 0, 64}};

static struct draft draft;

/* A constant as a part: of a flat type with the first leaf, of two bits with both. */
static void constant(struct place at, enum type type, uint16_t first, uint16_t second)
{
    uint16_t one = draft_part(&draft, at.namer, at.word, CONSTANT);
    draft.words[one][A] = type;
    uint16_t leaf = draft_part(&draft, one, B, LEAF);
    draft.words[leaf][A] = first;
    if (type == TWO)
        draft.words[draft_part(&draft, leaf, NEXT, LEAF)][A] = second;
}

/*
 * Adds a pattern of a type as a part: alternatives with | between them, each a number, a pair of
 * patterns in brackets, or * for the whole type. Gives what stands after it.
 */
static const char *pattern(struct place at, uint16_t type, const char *text)
{
    uint16_t one = draft_part(&draft, at.namer, at.word, WHOLE_TYPE);
    draft.words[one][A] = type;
    if (*text == '(') {
        draft.words[one][KIND] = PAIR_PATTERN;
        text = pattern((struct place){one, A}, draft.words[type][A], text + 1);
        text = pattern((struct place){one, B}, draft.words[type][B], text + 1);
    } else if (*text != '*') {
        draft.words[one][KIND] = CONSTRUCTOR;
        draft.words[one][B] = (uint16_t)atoi(text);
        text += strspn(text, "0123456789") - 1;
    }
    /* Past the bracket, the star or the last digit. */
    text++;
    return *text == '|' ? pattern((struct place){one, NEXT}, type, text + 1) : text;
}

/* The branches of an IF, and its pattern; the sheet is lent then. */
static void end_choice(uint16_t choice, enum type tested, const char *text)
{
    constant((struct place){choice, B}, TWO, 1, 0);
    constant((struct place){choice, C}, TWO, 2, 1);
    pattern((struct place){choice, D}, tested, text);
    draft_end(&draft);
    lent.length = draft_write(&draft, lent.sheet);
}

/* The IF is on the input. */
static void take_pattern(enum type input, const char *text)
{
    draft_take(&draft, types, TYPES);
    draft.words[0][A] = input;
    uint16_t choice = draft_part(&draft, 0, B, IF);
    draft_part(&draft, choice, A, NAME);
    end_choice(choice, input, text);
}

struct match {
    enum type input;
    const char *pattern;
    uint8_t leaves[3];
    enum said said;
};

static const struct match matches[] = {
    /* A constructor: undecided on an undefined leaf, which may be another too. */
    {BIT, "1", {0}, UNDECIDED},
    {BIT, "1", {1}, YES},
    {BIT, "1", {2}, NO},
    /* On a flat type the alternatives are taken together: they name all that is possible, or some,
     * or none. In a run 1|2 is undecided on 0. */
    {BIT, "1|2", {0}, YES},
    {BIT, "2|1", {0}, YES},
    {BIT, "1|2", {2}, YES},
    {BIT, "1|1", {0}, UNDECIDED},
    {BIT, "2|2", {1}, NO},
    {THREE, "1|2", {0}, UNDECIDED},
    {THREE, "1|2", {2}, YES},
    {THREE, "1|2", {3}, NO},
    {THREE, "3|1|2", {0}, YES},
    {THREE, "3|1|3", {0}, UNDECIDED},
    {THREE, "2|3|2", {1}, NO},
    /* A whole type names all, alone and among others. */
    {BIT, "*", {0}, YES},
    {BIT, "*", {2}, YES},
    {THREE, "2|*", {0}, YES},
    {THREE, "*|2", {3}, YES},

    /* A pair: no if a part says no, yes if both say yes, else undecided. */
    {TWO, "(1,1)", {0, 0}, UNDECIDED},
    {TWO, "(1,1)", {1, 0}, UNDECIDED},
    {TWO, "(1,1)", {0, 1}, UNDECIDED},
    {TWO, "(1,1)", {2, 0}, NO},
    {TWO, "(1,1)", {0, 2}, NO},
    {TWO, "(1,1)", {1, 1}, YES},
    {TWO, "(*,2)", {0, 2}, YES},
    {TWO, "(*,2)", {0, 1}, NO},
    /* A part that is a chain on a flat type is taken together. */
    {TWO, "(1|2,*)", {0, 0}, YES},
    {TWO, "(1|2,1)", {0, 0}, UNDECIDED},
    {TWO, "(1|2,1)", {0, 1}, YES},
    {TWO, "(1|2,1)", {0, 2}, NO},
    {TWO, "(1|2,2|1)", {0, 0}, YES},
    {MIXED, "(2|1,3|1)", {0, 0}, UNDECIDED},
    {MIXED, "(2|1,3|1)", {0, 3}, YES},
    {MIXED, "(2|1,3|1)", {0, 2}, NO},

    /* Alternatives on a pair: yes if one says yes, no if all say no, else undecided. They are not
     * taken together: the three of the first pattern cover all pairs, but none of them says yes. */
    {TWO, "(1,1)|(1,2)|(2,*)", {0, 0}, UNDECIDED},
    {TWO, "(1,1)|(1,2)|(2,*)", {1, 0}, UNDECIDED},
    {TWO, "(1,1)|(1,2)|(2,*)", {0, 1}, UNDECIDED},
    {TWO, "(1,1)|(1,2)|(2,*)", {2, 0}, YES},
    {TWO, "(1,1)|(1,2)|(2,*)", {1, 2}, YES},
    {TWO, "(1,1)|(2,2)", {0, 0}, UNDECIDED},
    {TWO, "(1,1)|(2,2)", {0, 2}, UNDECIDED},
    {TWO, "(1,1)|(2,2)", {1, 2}, NO},
    {TWO, "(1,1)|(1,2)", {2, 0}, NO},
    {TWO, "(1,2)|(1|2,1|2)", {0, 0}, YES},
    {MIXED, "(1,1|2)|(2,3)", {0, 0}, UNDECIDED},
    {MIXED, "(1,1|2)|(2,3)", {1, 0}, UNDECIDED},
    {MIXED, "(1,1|2)|(2,3)", {0, 3}, UNDECIDED},
    {MIXED, "(1,1|2)|(2,3)", {1, 2}, YES},
    {MIXED, "(1,1|2)|(2,3)", {1, 3}, NO},
    /* A whole type says yes at once, alone and among others. */
    {TWO, "*", {0, 0}, YES},
    {TWO, "(1,1)|*", {0, 0}, YES},
    {TWO, "*|(1,1)", {2, 2}, YES},
    {DEEP, "(*,1|2|3)", {0, 0, 0}, YES},
    {DEEP, "(*,1|2)", {0, 0, 0}, UNDECIDED},

    /* Pairs in pairs: chains of pair patterns are a part, and chains in them. */
    {DEEP, "((1|2,1),*)", {0, 1, 0}, YES},
    {DEEP, "((1|2,1),*)", {0, 0, 0}, UNDECIDED},
    {DEEP, "((1,1)|(2,2),1|2|3)", {0, 0, 0}, UNDECIDED},
    {DEEP, "((1,1)|(2,2),1|2|3)", {1, 1, 0}, YES},
    {DEEP, "((1,1)|(2,2),1|2|3)", {1, 2, 0}, NO},
    {DEEP, "((1,1)|(2,2),1|2|3)", {0, 1, 2}, UNDECIDED},
    {DEEP, "((1,*)|(2,*),3)|((1|2,2),2)", {0, 2, 2}, YES},
    {DEEP, "((1,*)|(2,*),3)|((1|2,2),2)", {0, 2, 3}, UNDECIDED},
    {DEEP, "((1,*)|(2,*),3)|((1|2,2),2)", {0, 2, 1}, NO},

    /* The last bit of a word. */
    {WIDE, "64", {0}, UNDECIDED},
    {WIDE, "64", {64}, YES},
    {WIDE, "64", {63}, NO},
    {WIDE, "1", {64}, NO},
    {WIDE, "1|*", {0}, YES},
};

static void matched_inputs(void)
{
    for (size_t k = 0; k < sizeof matches / sizeof *matches; k++) {
        const struct match *one = &matches[k];
        size_t leaves = one->input == DEEP ? 3 : one->input == TWO || one->input == MIXED ? 2 : 1;
        take_pattern(one->input, one->pattern);
        expect_estimated(one->pattern, one->leaves, leaves, counts_of[one->said], 2);
    }
}

/* The alternatives from one constructor to another, of 64: all of them, or without the last one. */
static void long_chains(void)
{
    char text[64 * 3 + 1];
    for (int last = 63; last <= 64; last++) {
        size_t length = 0;
        for (int one = 1; one <= last; one++)
            length += (size_t)sprintf(text + length, one < last ? "%d|" : "%d", one);
        take_pattern(WIDE, text);
        enum said undefined = last == 64 ? YES : UNDECIDED, at_last = last == 64 ? YES : NO;
        expect_estimated("a long chain on 0", (uint8_t[]){0}, 1, counts_of[undefined], 2);
        expect_estimated("a long chain on 1", (uint8_t[]){1}, 1, counts_of[YES], 2);
        expect_estimated("a long chain on 63", (uint8_t[]){63}, 1, counts_of[YES], 2);
        expect_estimated("a long chain on 64", (uint8_t[]){64}, 1, counts_of[at_last], 2);
    }
}

/* The IF is on a three that is 1 if the input, a bit, is 1, and else 2. */
static void take_pattern_on_join(const char *text)
{
    draft_take(&draft, types, TYPES);
    draft.words[0][A] = BIT;
    uint16_t choice = draft_part(&draft, 0, B, IF);
    uint16_t join = draft_part(&draft, choice, A, IF);
    draft_part(&draft, join, A, NAME);
    constant((struct place){join, B}, THREE, 1, 0);
    constant((struct place){join, C}, THREE, 2, 0);
    pattern((struct place){join, D}, BIT, "1");
    end_choice(choice, THREE, text);
}

/* What it says on {1,2}, by an undefined bit, and on {1}. */
static const struct on_join {
    const char *pattern;
    enum said on_both, on_1;
} on_joins[] = {
    {"1|2", YES, YES}, {"2|1", YES, YES},       {"1|2|3", YES, YES},
    {"*", YES, YES},   {"1", UNDECIDED, YES},   {"2", UNDECIDED, NO},
    {"3", NO, NO},     {"1|3", UNDECIDED, YES}, {"3|2", UNDECIDED, NO},
};

static void matched_joins(void)
{
    for (size_t k = 0; k < sizeof on_joins / sizeof *on_joins; k++) {
        const struct on_join *one = &on_joins[k];
        take_pattern_on_join(one->pattern);
        expect_estimated(one->pattern, (uint8_t[]){0}, 1, counts_of[one->on_both], 2);
        expect_estimated(one->pattern, (uint8_t[]){1}, 1, counts_of[one->on_1], 2);
    }
}

static void set_matches(void)
{
    matched_inputs();
    long_chains();
    matched_joins();
}

TESTS(set_matches, SMALL_STACK)
