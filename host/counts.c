/* Counts: the struct, counters worked out by hand, and inputs up to the most that are counted. */
#include <stddef.h>

#include "cases.h"
#include "counting.h"
#include "guard.h"
#include "shapes.h"
#include "suite.h"

static struct draft draft;

static void layout(void)
{
    const char *name = "struct sheet_counts";
    struct sheet_counts counts;
    tally(sizeof counts == 1032, name, "it has not 1,032 bytes");
    tally(offsetof(struct sheet_counts, result) == 0, name, "result stands elsewhere");
    tally(offsetof(struct sheet_counts, counters) == 8, name, "the counters stand elsewhere");
    tally(sizeof counts.counters == VALUES * sizeof(uint32_t), name, "there are not 256 counters");
    tally(SHEET_MOST_INPUTS == 65536, name, "another number of inputs is the most");
}

/* T puts out what its delay holds, on both inputs. */
static void of_t(void)
{
    take(sheet_t, T_RECORDS);
    hold(T_HOLDS, 0);
    expect_counted("count on T, holding 0", 0, 2, (uint32_t[]){2}, 1);
    hold(T_HOLDS, 1);
    expect_counted("count on T, holding 1", 0, 2, (uint32_t[]){0, 2}, 2);
    hold(T_HOLDS, 2);
    expect_counted("count on T, holding 2", 0, 2, (uint32_t[]){0, 0, 2}, 3);
}

static void of_and(void)
{
    take(sheet_and, AND_RECORDS);
    /* 1 on (1,1), and 2 on the three others. The five pairs with a 0 in them are not counted. */
    expect_counted("count on AND", 0, 4, (uint32_t[]){0, 1, 3}, 3);
    /* The else branch is undefined: 0 on the three others. */
    hold(8, 0);
    expect_counted("count on AND, else undefined", 0, 4, (uint32_t[]){3, 1}, 2);
    /* Both branches are 1. */
    hold(8, 1);
    expect_counted("count where both branches agree", 0, 4, (uint32_t[]){0, 4}, 2);
}

/* G goes by what its delay holds. */
static void of_held_values(void)
{
    /* It puts out the input. */
    take(sheet_g, G_RECORDS);
    expect_counted("count of what is let through", 0, 2, (uint32_t[]){0, 1, 1}, 3);
    /* It puts out 2. */
    hold(G_HOLDS, 2);
    expect_counted("count of what is not let through", 0, 2, (uint32_t[]){0, 0, 2}, 3);
    /* It puts out 2 where the input is 2, and else 0. */
    hold(G_HOLDS, 0);
    expect_counted("count where nothing is held", 0, 2, (uint32_t[]){1, 0, 1}, 3);
}

/* Of several output leaves each is by itself. */
static void of_output_leaves(void)
{
    /* Each bit with three values of the three, each three with two of the bit. */
    take(sheet_p, P_RECORDS);
    expect_counted("count on the bit of P", 0, 6, (uint32_t[]){0, 3, 3}, 3);
    expect_counted("count on the three of P", 1, 6, (uint32_t[]){0, 2, 2, 2}, 4);
    /* The seven is 5 with two values of the bit, and another with twelve. */
    take(sheet_s, S_RECORDS);
    expect_counted("count on S, a seven of 5", 0, 14, (uint32_t[]){0, 2, 12}, 3);
    expect_counted("count on the bit beside it", 1, 14, (uint32_t[]){0, 7, 7}, 3);
    take(sheet_f, F_RECORDS);
    expect_counted("count on a delay in a feedback", 0, 2, (uint32_t[]){0, 2}, 2);
    expect_counted("count on an input in a feedback", 1, 2, (uint32_t[]){0, 1, 1}, 3);
    hold(F_HOLDS, 0);
    expect_counted("count on an undefined delay", 0, 2, (uint32_t[]){2}, 1);
}

/* The last counter: a type of 255 constructors, put out as it comes in. */
static void of_255(void)
{
    uint32_t one_each[VALUES];
    begin(&draft);
    draft.words[1][A] = 255;
    name(&draft, 0, B, 0);
    draft_end(&draft);
    lent.length = draft_write(&draft, lent.sheet);
    for (size_t value = 0; value < VALUES; value++)
        one_each[value] = value > 0;
    expect_counted("count on 255 constructors", 0, 255, one_each, VALUES);
}

static void counts_by_hand(void)
{
    layout();
    of_t();
    of_and();
    of_held_values();
    of_output_leaves();
    of_255();
}

/* The input has so many leaves of a type with so many constructors, and is put out as it comes. */
static void take_alike(size_t leaves, uint16_t constructors)
{
    begin_pairs(&draft, leaves);
    draft.words[1][A] = constructors;
    name(&draft, 0, B, 0);
    draft_end(&draft);
    lent.length = draft_write(&draft, lent.sheet);
}

/* Each value from 1 to the constructor count of the leaf is given by equally many inputs. */
static void expect_alike(const char *name, size_t leaf, uint32_t constructors, uint32_t each)
{
    uint32_t counters[VALUES] = {0};
    for (size_t value = 1; value <= constructors; value++)
        counters[value] = each;
    expect_counted(name, leaf, constructors * each, counters, VALUES);
}

/* Products up to 65,536 pass. */
static void products(void)
{
    take_alike(64, 1);
    expect_alike("count on 64 leaves of 1, the first", 0, 1, 1);
    expect_alike("count on 64 leaves of 1, the last", 63, 1, 1);
    take_alike(16, 2);
    expect_alike("count on 16 bits, the first", 0, 2, 32768);
    expect_alike("count on 16 bits, the last", 15, 2, 32768);
    take_alike(8, 4);
    expect_alike("count on 4^8, the fourth", 3, 4, 16384);
    take_alike(4, 16);
    expect_alike("count on 16^4, the first", 0, 16, 4096);
    expect_alike("count on 16^4, the last", 3, 16, 4096);
    take_alike(2, 255);
    expect_alike("count on 255^2, the first", 0, 255, 255);
    expect_alike("count on 255^2, the second", 1, 255, 255);
    take_alike(10, 3);
    expect_alike("count on 3^10, the sixth", 5, 3, 19683);
}

TESTS(counts_by_hand, SMALL_STACK)
TESTS(products, SMALL_STACK)
