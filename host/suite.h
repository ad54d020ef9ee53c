/* The tests of this folder. Each file brings its own: no list names them. */
#ifndef SUITE_H
#define SUITE_H

#include <stddef.h>

#include "stack.h"

struct tests {
    const char *file, *name;
    void (*work)(void);
    size_t stack;
    struct tests *next;
};

/* Called by the two macros below, before main. */
void suite_enter(struct tests *tests);

/* Makes all tests, and says of each group how many there were. A group that makes none has failed. */
void suite_run(void);

/*
 * At the end of a file: the tests of a function, made on the program's own stack and again on one of so
 * many bytes.
 */
#define TESTS(function, bytes)                                                    \
    __attribute__((constructor)) static void enter_##function(void)               \
    {                                                                             \
        static struct tests one = {__FILE__, #function, function, (bytes), NULL}; \
        suite_enter(&one);                                                        \
    }

/* The same for what is done once, on the program's own stack. */
#define TESTS_ONCE(function) TESTS(function, 0)

#endif
