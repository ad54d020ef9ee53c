#include "measure.h"

#include <stdio.h>
#include <string.h>

#include "cases.h"
#include "guard.h"
#include "stack.h"

struct at_limit at_limit;

void tell_stack(const char *call, size_t most, const char *worst, size_t figure)
{
    printf("stack: %s used at most %zu bytes (%s); sheet.h says %zu\n", call, most, worst, figure);
    tally(most <= figure, call, "the call uses more stack than sheet.h says");
    tally(most >= figure / 2, call, "the call never uses half of the stack that sheet.h says");
}

void measure_on_limits(const char *call, void (*once)(void), size_t figure)
{
    size_t most = 0;
    const char *worst = "";
    memset(at_limit.stim, 1, sizeof at_limit.stim);
    for (size_t k = 0; k < limit_count; k++) {
        at_limit.length = labelled_limit_sheet(&limit_cases[k], at_limit.sheet, 1);
        labelled_limit_sheet(&limit_cases[k], at_limit.other, 2);
        size_t used = stack_used(SMALL_STACK, once);
        if (used > most) {
            most = used;
            worst = limit_cases[k].name;
        }
    }
    tell_stack(call, most, worst, figure);
}
