/*
 * Calls on damaged sheets. Each file of the folder damaged/ brings a call: no list names them. Every
 * slice that a call is lent is a block of its own and of its exact length, for valgrind.
 */
#ifndef DAMAGED_H
#define DAMAGED_H

#include <stddef.h>
#include <stdint.h>

struct damaged {
    const char *file;
    /*
     * Makes the call on a sheet, of which the check gives this verdict, and says how many answers
     * do not go with the verdict.
     */
    size_t (*work)(const uint8_t *sheet, size_t length, uint64_t verdict);
    struct damaged *next;
};

/* Called by the macro below, before main. */
void damaged_enter(struct damaged *one);

/* At the end of a file: its call is made on every sheet. */
#define DAMAGED(function)                                       \
    __attribute__((constructor)) static void enter_call(void)   \
    {                                                           \
        static struct damaged one = {__FILE__, function, NULL}; \
        damaged_enter(&one);                                    \
    }

/* A block that holds nothing; free frees it. */
uint8_t *block(size_t length);

/* Looks at each byte that a call filled, so that valgrind tells of one that was never written. */
void look_at(const uint8_t *bytes, size_t length);

#endif
