/* One press away: the struct, changes worked out by hand, and the stack need. */
#include <stddef.h>
#include <string.h>

#include "cases.h"
#include "guard.h"
#include "measure.h"
#include "pressing.h"
#include "shapes.h"
#include "suite.h"

enum { MOST_LEAVES = 64 };

static void layout(void)
{
    const char *name = "struct sheet_pressed";
    tally(sizeof(struct sheet_pressed) == 32, name, "it has not 32 bytes");
    tally(offsetof(struct sheet_pressed, result) == 0, name, "result stands elsewhere");
    tally(offsetof(struct sheet_pressed, found) == 8, name, "found stands elsewhere");
    tally(offsetof(struct sheet_pressed, leaf) == 16, name, "leaf stands elsewhere");
    tally(offsetof(struct sheet_pressed, constructor) == 24, name, "constructor stands elsewhere");
}

/* Input leaf `leaf` changes to a constructor. */
struct change {
    uint8_t leaf, constructor;
};

/* Output leaf `output` is altered first by this change. */
static void finds(const char *name, const uint8_t *input, size_t inputs, size_t output,
                  struct change change)
{
    memcpy(lent.stim, input, inputs);
    struct sheet_pressed wanted = {0, 1, change.leaf, change.constructor};
    expect_pressed(name, inputs, output, wanted);
}

/* It is altered by none. */
static void finds_none(const char *name, const uint8_t *input, size_t inputs, size_t output)
{
    memcpy(lent.stim, input, inputs);
    expect_pressed(name, inputs, output, (struct sheet_pressed){0, 0, 0, 0});
}

/* T puts out what its delay holds, whatever the input is. */
static void of_t(void)
{
    take(sheet_t, T_RECORDS);
    for (uint8_t held = 0; held <= 2; held++)
        for (uint8_t input = 0; input <= 2; input++) {
            hold(T_HOLDS, held);
            finds_none("press on T", &input, 1, 0);
        }
}

/* What AND's only output leaf is altered by, first. */
static void of_pair(const char *name, uint8_t first, uint8_t second, struct change change)
{
    finds(name, (uint8_t[]){first, second}, 2, 0, change);
}

/*
 * AND puts out 2 where a bit is 2, 1 on (1,1), and 0 on the three other pairs, on which its IF is
 * undecided between 1 and 2.
 */
static void of_and(void)
{
    take(sheet_and, AND_RECORDS);
    /* From 0, which (1,0) has too; (2,0) has 2. */
    of_pair("press on AND of 0 and 0", 0, 0, (struct change){0, 2});
    /* From 0; (1,1) has 1. */
    of_pair("press on AND of 0 and 1", 0, 1, (struct change){0, 1});
    /* From 2, which (1,2) and (2,2) have too; (0,1) has 0. */
    of_pair("press on AND of 0 and 2", 0, 2, (struct change){1, 1});
    /* From 0; (2,0) has 2. */
    of_pair("press on AND of 1 and 0", 1, 0, (struct change){0, 2});
    /* From 1; (2,1) has 2. */
    of_pair("press on AND of 1 and 1", 1, 1, (struct change){0, 2});
    /* From 2, which (2,2) has too; (1,1) has 1. */
    of_pair("press on AND of 1 and 2", 1, 2, (struct change){1, 1});
    /* From 2; (1,0) has 0. */
    of_pair("press on AND of 2 and 0", 2, 0, (struct change){0, 1});
    /* From 2; (1,1) has 1. */
    of_pair("press on AND of 2 and 1", 2, 1, (struct change){0, 1});
    /* From 2, which (1,2) and (2,1) have too. */
    finds_none("press on AND of 2 and 2", (uint8_t[]){2, 2}, 2, 0);
    /* With 1 for both constants it puts out 1 on every pair, also where the IF is undecided. */
    hold(8, 1);
    for (uint8_t first = 0; first <= 2; first++)
        for (uint8_t second = 0; second <= 2; second++)
            finds_none("press where both branches agree", (uint8_t[]){first, second}, 2, 0);
}

/* G goes by what its delay holds. */
static void of_held_values(void)
{
    /* It puts out the input. */
    take(sheet_g, G_RECORDS);
    finds("press on 0, let through", (uint8_t[]){0}, 1, 0, (struct change){0, 1});
    finds("press on 1, let through", (uint8_t[]){1}, 1, 0, (struct change){0, 2});
    finds("press on 2, let through", (uint8_t[]){2}, 1, 0, (struct change){0, 1});
    /* It puts out 2. */
    hold(G_HOLDS, 2);
    for (uint8_t input = 0; input <= 2; input++)
        finds_none("press on what is not let through", &input, 1, 0);
    /* It puts out 2 where the input is 2, and else 0. */
    hold(G_HOLDS, 0);
    finds("press from 0 on 0", (uint8_t[]){0}, 1, 0, (struct change){0, 2});
    finds("press from 0 on 1", (uint8_t[]){1}, 1, 0, (struct change){0, 2});
    finds("press to 0", (uint8_t[]){2}, 1, 0, (struct change){0, 1});
}

/* Of several output leaves each is by itself. */
static void of_output_leaves(void)
{
    take(sheet_p, P_RECORDS);
    finds("press on a bit of 0", (uint8_t[]){0, 3}, 2, 0, (struct change){0, 1});
    finds("press on a bit of 1", (uint8_t[]){1, 3}, 2, 0, (struct change){0, 2});
    finds("press on a bit of 2", (uint8_t[]){2, 3}, 2, 0, (struct change){0, 1});
    finds("press on a three of 0", (uint8_t[]){2, 0}, 2, 1, (struct change){1, 1});
    finds("press on a three of 1", (uint8_t[]){2, 1}, 2, 1, (struct change){1, 2});
    finds("press on a three of 2", (uint8_t[]){2, 2}, 2, 1, (struct change){1, 1});
    finds("press on a three of 3", (uint8_t[]){2, 3}, 2, 1, (struct change){1, 1});
    take(sheet_s, S_RECORDS);
    for (uint8_t bit = 0; bit <= 2; bit++) {
        struct change other = {0, bit == 1 ? 2 : 1};
        /* The IF is undecided on 0, and says no on all but 5. */
        finds("press on a seven of 0", (uint8_t[]){bit, 0}, 2, 0, (struct change){1, 1});
        finds("press on a seven of 1", (uint8_t[]){bit, 1}, 2, 0, (struct change){1, 5});
        finds("press on a seven of 4", (uint8_t[]){bit, 4}, 2, 0, (struct change){1, 5});
        finds("press on a seven of 5", (uint8_t[]){bit, 5}, 2, 0, (struct change){1, 1});
        finds("press on a seven of 7", (uint8_t[]){bit, 7}, 2, 0, (struct change){1, 5});
        finds("press on the bit beside it", (uint8_t[]){bit, 5}, 2, 1, other);
    }
    take(sheet_f, F_RECORDS);
    for (uint8_t input = 0; input <= 2; input++) {
        struct change other = {0, input == 1 ? 2 : 1};
        finds_none("press on a delay in a feedback", &input, 1, 0);
        finds("press on an input in a feedback", &input, 1, 1, other);
    }
}

/*
 * The input has 64 leaves of 255 constructors. The output is an IF on the last of them with the
 * pattern 255; the constant of its then branch is given, that of its else branch is 1.
 */
static void take_widest(uint8_t then_value)
{
    static struct draft draft;
    begin_pairs(&draft, MOST_LEAVES);
    draft.words[1][A] = 255;
    uint16_t choice = draft_part(&draft, 0, B, IF);
    name(&draft, draft_part(&draft, choice, A, SECOND_PART), A, 0);
    for (enum word part = B; part <= C; part++) {
        uint16_t constant = draft_part(&draft, choice, part, CONSTANT);
        draft.words[constant][A] = 1;
        uint16_t leaf = draft_part(&draft, constant, B, LEAF);
        draft.words[leaf][A] = part == B ? then_value : 1;
    }
    uint16_t pattern = draft_part(&draft, choice, D, CONSTRUCTOR);
    draft.words[pattern][A] = 1;
    draft.words[pattern][B] = 255;
    draft_end(&draft);
    lent.length = draft_write(&draft, lent.sheet);
}

/* The last of 64 leaves, the last of 255 constructors, and 16,320 changes without one found. */
static void of_widest(void)
{
    uint8_t input[MOST_LEAVES];
    take_widest(255);
    memset(input, 1, sizeof input);
    finds("press on 64 leaves of 1", input, sizeof input, 0, (struct change){63, 255});
    memset(input, 0, sizeof input);
    finds("press on 64 leaves of 0", input, sizeof input, 0, (struct change){63, 1});
    memset(input, 255, sizeof input);
    finds("press on 64 leaves of 255", input, sizeof input, 0, (struct change){63, 1});
    take_widest(1);
    memset(input, 0, sizeof input);
    finds_none("press on 64 leaves on which nothing hangs", input, sizeof input, 0);
}

static void presses(void)
{
    layout();
    of_t();
    of_and();
    of_held_values();
    of_output_leaves();
    of_widest();
}

/* The call on the first output leaf, with one leaf or 64 in. */
static void once(void)
{
    for (size_t inputs = 1; inputs <= 64; inputs += 63)
        sheet_press(at_limit.sheet, at_limit.length, at_limit.stim, inputs, 0);
}

static void stack_need(void)
{
    measure_on_limits("sheet_press", once, SHEET_PRESS_STACK);
}

TESTS(presses, SMALL_STACK)
TESTS_ONCE(stack_need)
