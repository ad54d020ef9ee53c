#include "shapes.h"

void begin(struct draft *draft)
{
    draft_begin(draft);
    draft_part(draft, 0, NEXT, FLAT_TYPE);
    draft->words[1][A] = 2;
    draft->words[0][A] = 1;
}

void begin_pairs(struct draft *draft, size_t leaves)
{
    begin(draft);
    for (uint16_t k = 1; k < leaves; k++) {
        uint16_t pair = draft_part(draft, k, NEXT, PAIR_TYPE);
        draft->words[pair][A] = k;
        draft->words[pair][B] = 1;
    }
    draft->words[0][A] = (uint16_t)leaves;
}

void fill(struct draft *draft, uint16_t last, size_t records, size_t room)
{
    while (draft->count + room < records) {
        last = draft_part(draft, last, NEXT, FLAT_TYPE);
        draft->words[last][A] = 2;
    }
}

void name(struct draft *draft, uint16_t namer, enum word word, size_t number)
{
    uint16_t at = draft_part(draft, namer, word, NAME);
    draft->words[at][A] = (uint16_t)number;
}

void leaves(struct draft *draft, uint16_t namer, enum word word, size_t count)
{
    for (size_t k = 0; k < count; k++) {
        namer = draft_part(draft, namer, word, LEAF);
        word = NEXT;
    }
}

static void whole(struct draft *draft, uint16_t namer, enum word word, uint16_t type)
{
    uint16_t pattern = draft_part(draft, namer, word, WHOLE_TYPE);
    draft->words[pattern][A] = type;
}

/* What an expression has besides its inner part. */
static void outside(struct draft *draft, uint16_t at, enum word inner)
{
    uint16_t type = draft->words[0][A];
    enum kind kind = draft->words[at][KIND];
    enum word first = kind == FEEDBACK ? B : kind == DELAY ? C : A;
    enum word last = kind == FIRST_PART ? A : kind == PAIR || kind == LET ? B : C;
    if (kind == FEEDBACK || kind == DELAY)
        draft->words[at][A] = type;
    if (kind == DELAY)
        leaves(draft, at, B, type);
    if (kind == IF)
        whole(draft, at, D, type);
    for (enum word word = first; word <= last; word++)
        if (word != inner)
            name(draft, at, word, 0);
}

struct place nested(struct draft *draft, struct place at, enum kind kind, enum word inner, size_t count)
{
    for (size_t k = 0; k < count; k++) {
        at = (struct place){draft_part(draft, at.namer, at.word, (uint16_t)kind), inner};
        outside(draft, at.namer, inner);
    }
    return at;
}

void deepest_pattern(struct draft *draft, struct place at, size_t number)
{
    at = (struct place){draft_part(draft, at.namer, at.word, IF), D};
    for (enum word part = A; part <= C; part++)
        name(draft, at.namer, part, number);
    for (size_t pairs = 0; pairs < 63; pairs++) {
        at = (struct place){draft_part(draft, at.namer, at.word, PAIR_PATTERN), A};
        whole(draft, at.namer, B, 1);
    }
    uint16_t last = draft_part(draft, at.namer, at.word, CONSTRUCTOR);
    draft->words[last][A] = 1;
    draft->words[last][B] = 2;
}

uint16_t doubled(struct draft *draft, uint16_t type, uint16_t last, size_t times)
{
    for (size_t k = 0; k < times; k++) {
        last = draft_part(draft, last, NEXT, PAIR_TYPE);
        draft->words[last][A] = draft->words[last][B] = type;
        type = last;
    }
    return last;
}

/* A leaf of a name of 64 by doubling: down the halves in which it lies. */
static void leaf_of_name(struct draft *draft, struct place at, size_t leaf, size_t number)
{
    for (size_t half = 1; half < 64; half *= 2)
        at = (struct place){draft_part(draft, at.namer, at.word, leaf & half ? SECOND_PART : FIRST_PART), A};
    name(draft, at.namer, at.word, number);
}

static void first_leaf(struct draft *draft, struct place at, struct shift shift)
{
    if (shift.first == LAST_OF_DOUBLED) {
        leaf_of_name(draft, at, 63, shift.from);
        return;
    }
    if (shift.first == LAST_OF_PAIRS)
        at = (struct place){draft_part(draft, at.namer, at.word, SECOND_PART), A};
    name(draft, at.namer, at.word, shift.from);
}

/* So many leaves from one on, in pairs of halves. */
static void shifted_from(struct draft *draft, struct place at, struct shift shift, size_t leaf, size_t count)
{
    if (count > 1) {
        uint16_t pair = draft_part(draft, at.namer, at.word, PAIR);
        shifted_from(draft, (struct place){pair, A}, shift, leaf, count / 2);
        shifted_from(draft, (struct place){pair, B}, shift, leaf + count / 2, count / 2);
    } else if (leaf > 0)
        leaf_of_name(draft, at, leaf - 1, shift.name);
    else
        first_leaf(draft, at, shift);
}

void shifted(struct draft *draft, struct place at, struct shift shift)
{
    shifted_from(draft, at, shift, 0, 64);
}
