#include "suite.h"

#include <stdio.h>

#include "guard.h"

static struct tests *first, **end = &first;

void suite_enter(struct tests *tests)
{
    *end = tests;
    end = &tests->next;
}

void suite_run(void)
{
    for (const struct tests *one = first; one != NULL; one = one->next) {
        size_t before = tally_count();
        one->work();
        if (one->stack > 0)
            on_stack(one->stack, one->work);
        size_t made = tally_count() - before;
        printf("tests: %s %s made %zu", one->file, one->name, made);
        if (one->stack > 0)
            printf(", half of them on a stack of %zu bytes", one->stack);
        puts("");
        tally(made > 0, one->name, "no test was made");
    }
    tally(first != NULL, "tests", "no file brings any");
}
