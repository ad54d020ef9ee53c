/*
 * What can still happen: counts worked out by hand, and the stack need. A comment says the sets, in
 * braces; the counts are their sizes. An undefined leaf may be anything of its type.
 */
#include <string.h>

#include "cases.h"
#include "estimating.h"
#include "guard.h"
#include "measure.h"
#include "shapes.h"
#include "suite.h"

enum { MOST_LEAVES = 64, MOST_IN_SET = 64 };

/* Two leaves in, and one out. */
static void of_two(const char *name, uint8_t first, uint8_t second, uint8_t count)
{
    expect_estimated(name, (uint8_t[]){first, second}, 2, &count, 1);
}

/*
 * AND has the pattern (1,1), then 1, else 2. A part says yes on {1}, no on {2}, and is undecided on
 * {1,2}; the pair says no if a part does, and yes if both do.
 */
static void of_and(void)
{
    take(sheet_and, AND_RECORDS);
    /* Undecided: {1} and {2} joined. */
    of_two("possible of AND of 0 and 0", 0, 0, 2);
    of_two("possible of AND of 0 and 1", 0, 1, 2);
    of_two("possible of AND of 1 and 0", 1, 0, 2);
    /* Yes: {1}. */
    of_two("possible of AND of 1 and 1", 1, 1, 1);
    /* No, whatever the other bit is: {2}. */
    of_two("possible of AND of 2 and 0", 2, 0, 1);
    of_two("possible of AND of 0 and 2", 0, 2, 1);
    of_two("possible of AND of 1 and 2", 1, 2, 1);
    of_two("possible of AND of 2 and 1", 2, 1, 1);
    of_two("possible of AND of 2 and 2", 2, 2, 1);
    /* With 0 for the constant 1, which is {1,2} then: yes gives that, and so does joining {2}. */
    hold(6, 0);
    of_two("possible of 0, yes", 1, 1, 2);
    of_two("possible of 0 or 2", 1, 0, 2);
    of_two("possible of 2, no", 2, 0, 1);
    /* With 2 for both constants it is 2, decided or not. */
    hold(6, 2);
    for (uint8_t first = 0; first <= 2; first++)
        for (uint8_t second = 0; second <= 2; second++)
            of_two("possible where both branches agree", first, second, 1);
}

/* A bit and a three in, and all leaves of it out, in some order. */
static void of_mixed(const char *name, const uint8_t *counts, size_t outputs, uint8_t bit,
                     uint8_t three)
{
    expect_estimated(name, (uint8_t[]){bit, three}, 2, counts, outputs);
}

/* Names, pairs and their parts have the sets of what they stand for, leaf by leaf. */
static void of_parts(void)
{
    /* The input as it comes. */
    take(sheet_p, P_RECORDS);
    of_mixed("possible of an undefined input", (uint8_t[]){2, 3}, 2, 0, 0);
    of_mixed("possible of an input with an undefined bit", (uint8_t[]){2, 1}, 2, 0, 3);
    of_mixed("possible of an input with an undefined three", (uint8_t[]){1, 3}, 2, 2, 0);
    of_mixed("possible of a defined input", (uint8_t[]){1, 1}, 2, 1, 2);
    /* The second part first. */
    take(sheet_x, X_RECORDS);
    of_mixed("possible of undefined parts", (uint8_t[]){3, 2}, 2, 0, 0);
    of_mixed("possible of parts, one bit undefined", (uint8_t[]){1, 2}, 2, 0, 3);
    of_mixed("possible of parts, one three undefined", (uint8_t[]){3, 1}, 2, 2, 0);
    of_mixed("possible of defined parts", (uint8_t[]){1, 1}, 2, 1, 2);
    /* The bit by a name around another, the three by the innermost, the input by the outermost. */
    take(sheet_l, L_RECORDS);
    of_mixed("possible of LETs on 0 and 0", (uint8_t[]){2, 3, 2, 3}, 4, 0, 0);
    of_mixed("possible of LETs on 1 and 0", (uint8_t[]){1, 3, 1, 3}, 4, 1, 0);
    of_mixed("possible of LETs on 0 and 2", (uint8_t[]){2, 1, 2, 1}, 4, 0, 2);
    of_mixed("possible of LETs on 2 and 3", (uint8_t[]){1, 1, 1, 1}, 4, 2, 3);
}

/* A constant is what it says, an undefined leaf of it anything; the input does not matter. */
static void of_constants(void)
{
    take(sheet_k, K_RECORDS);
    for (uint8_t bit = 0; bit <= 2; bit++)
        for (uint8_t three = 0; three <= 3; three++)
            for (uint8_t input = 0; input <= 2; input++) {
                uint8_t counts[] = {bit == 0 ? 2 : 1, three == 0 ? 3 : 1};
                hold(K_BIT, bit);
                hold(K_THREE, three);
                expect_estimated("possible of a constant", &input, 1, counts, 2);
            }
}

/* So is what a delay holds; its part, the input, does not matter within a cycle. */
static void of_delays(void)
{
    take(sheet_d, D_RECORDS);
    for (uint8_t bit = 0; bit <= 2; bit++)
        for (uint8_t three = 0; three <= 3; three++) {
            uint8_t counts[] = {bit == 0 ? 2 : 1, three == 0 ? 3 : 1};
            hold(D_BIT, bit);
            hold(D_THREE, three);
            of_mixed("possible of a delay of nothing", counts, 2, 0, 0);
            of_mixed("possible of a delay", counts, 2, 2, 1);
        }
    /* G lets the input through where its delay holds 1. */
    take(sheet_g, G_RECORDS);
    expect_estimated("possible of 0, let through", (uint8_t[]){0}, 1, (uint8_t[]){2}, 1);
    expect_estimated("possible of 1, let through", (uint8_t[]){1}, 1, (uint8_t[]){1}, 1);
    /* It gives {2} where the delay holds 2. */
    hold(G_HOLDS, 2);
    expect_estimated("possible of 0, held back", (uint8_t[]){0}, 1, (uint8_t[]){1}, 1);
    /* The delay holds {1,2}: the input or 2. */
    hold(G_HOLDS, 0);
    expect_estimated("possible of 0 or 2", (uint8_t[]){0}, 1, (uint8_t[]){2}, 1);
    expect_estimated("possible of 1 or 2", (uint8_t[]){1}, 1, (uint8_t[]){2}, 1);
    expect_estimated("possible of 2 or 2", (uint8_t[]){2}, 1, (uint8_t[]){1}, 1);
}

/* Undecided IFs join their branches, also of other undecided IFs. */
static void of_joins(void)
{
    take(sheet_j, J_RECORDS);
    /* {1}, {2} and {3} joined: neither 1 nor the 5 that its type has. */
    of_two("possible of 1, 2 or 3", 0, 0, 3);
    of_two("possible of 1 or 2", 0, 1, 2);
    of_two("possible of 1 or 3", 0, 2, 2);
    of_two("possible of 2 or 3", 2, 0, 2);
    of_two("possible of 1 alone", 1, 0, 1);
    of_two("possible of 2 alone", 2, 1, 1);
    of_two("possible of 3 alone", 2, 2, 1);
    /* With 0 for the 3, {1,2,3,4,5}. */
    hold(15, 0);
    of_two("possible of anything", 0, 2, 5);
    of_two("possible of 1 or 2, not of anything", 0, 1, 2);
    /* The same constructor twice is one. */
    hold(15, 2);
    of_two("possible of 2 or 2", 2, 0, 1);
    of_two("possible of 1, 2 or 2", 0, 0, 2);
}

/*
 * A signal x and its inverse: {1,2} each, and since the sets do not say that they differ, the IF on
 * them is undecided and has {1,2} too, though every filling leads to 1.
 */
static void of_correlated_leaves(void)
{
    take(sheet_n, N_RECORDS);
    expect_estimated("possible of x and its inverse", (uint8_t[]){0}, 1, (uint8_t[]){2, 2, 2}, 3);
    expect_estimated("possible of 1 and its inverse", (uint8_t[]){1}, 1, (uint8_t[]){1, 1, 1}, 3);
    expect_estimated("possible of 2 and its inverse", (uint8_t[]){2}, 1, (uint8_t[]){1, 1, 1}, 3);
}

static void lend(struct draft *draft)
{
    draft_end(draft);
    lent.length = draft_write(draft, lent.sheet);
}

/* The input as it comes, so many leaves of a type with so many constructors. */
static void take_input(size_t leaves, uint16_t constructors)
{
    static struct draft draft;
    begin_pairs(&draft, leaves);
    draft.words[1][A] = constructors;
    name(&draft, 0, B, 0);
    lend(&draft);
}

/* Types of 1 to 64 constructors; on 0 a leaf may be any of them, 63 and 64 among the counts. */
static void of_wide_types(void)
{
    for (uint8_t most = 1; most <= MOST_IN_SET; most++) {
        take_input(1, most);
        expect_estimated("possible of 0 of a type", (uint8_t[]){0}, 1, &most, 1);
        expect_estimated("possible of 1 of a type", (uint8_t[]){1}, 1, (uint8_t[]){1}, 1);
        expect_estimated("possible of the last of a type", &most, 1, (uint8_t[]){1}, 1);
    }
    /* 64 leaves of 64 constructors: undefined, and every third one defined, each as another. */
    uint8_t input[MOST_LEAVES] = {0}, counts[MOST_LEAVES];
    take_input(MOST_LEAVES, MOST_IN_SET);
    memset(counts, MOST_IN_SET, sizeof counts);
    expect_estimated("possible of 64 leaves of 0", input, sizeof input, counts, sizeof counts);
    for (uint8_t leaf = 0; leaf < MOST_LEAVES; leaf += 3) {
        input[leaf] = leaf + 1;
        counts[leaf] = 1;
    }
    expect_estimated("possible of 64 leaves", input, sizeof input, counts, sizeof counts);
}

/*
 * IFs on the input, a bit, in each other's else parts, as deep as can be: 63 of them. Their then
 * parts and the innermost else part are constants of 64 constructors, from a first one on.
 */
static void take_choices(uint16_t first)
{
    static struct draft draft;
    begin(&draft);
    draft_part(&draft, 1, NEXT, FLAT_TYPE);
    draft.words[2][A] = MOST_IN_SET;
    struct place at = {0, B};
    for (uint16_t k = 0; k <= 63; k++) {
        uint16_t choice = at.namer;
        if (k < 63) {
            choice = draft_part(&draft, at.namer, at.word, IF);
            name(&draft, choice, A, 0);
            uint16_t pattern = draft_part(&draft, choice, D, CONSTRUCTOR);
            draft.words[pattern][A] = draft.words[pattern][B] = 1;
        }
        uint16_t constant = draft_part(&draft, choice, k < 63 ? B : C, CONSTANT);
        draft.words[constant][A] = 2;
        uint16_t value = first + k > MOST_IN_SET ? MOST_IN_SET : first + k;
        draft.words[draft_part(&draft, constant, B, LEAF)][A] = value;
        at = (struct place){choice, C};
    }
    lend(&draft);
}

/* Constants 1 to 64; and 2 to 64, the last one twice: every set is joined with one more. */
static void of_deep_joins(void)
{
    take_choices(1);
    expect_estimated("possible of 64 constants", (uint8_t[]){0}, 1, (uint8_t[]){64}, 1);
    expect_estimated("possible of the first of 64", (uint8_t[]){1}, 1, (uint8_t[]){1}, 1);
    expect_estimated("possible of the last of 64", (uint8_t[]){2}, 1, (uint8_t[]){1}, 1);
    take_choices(2);
    expect_estimated("possible of 63 constants", (uint8_t[]){0}, 1, (uint8_t[]){63}, 1);
}

static void possibles(void)
{
    of_and();
    of_parts();
    of_constants();
    of_delays();
    of_joins();
    of_correlated_leaves();
    of_wide_types();
    of_deep_joins();
}

/* The call on one cycle, with one leaf or 64 in and out. */
static void once(void)
{
    for (size_t inputs = 1; inputs <= 64; inputs += 63)
        for (size_t outputs = 1; outputs <= 64; outputs += 63)
            sheet_possible(at_limit.sheet, at_limit.length, at_limit.stim, inputs, at_limit.out,
                           outputs);
}

static void stack_need(void)
{
    measure_on_limits("sheet_possible", once, SHEET_POSSIBLE_STACK);
}

TESTS(possibles, SMALL_STACK)
TESTS_ONCE(stack_need)
