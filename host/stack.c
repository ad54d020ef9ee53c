#define _DEFAULT_SOURCE /* MAP_ANONYMOUS */

#include "stack.h"

#include <pthread.h>
#include <stdint.h>
#include <stdio.h>
#include <stdlib.h>
#include <string.h>
#include <sys/mman.h>
#include <unistd.h>

#include "guard.h"

/* Left between the frame that makes the measured call and the filled part, for the frames that fill and look. */
enum { GAP = 512 };

/* The stack of the thread that works, after its unreadable page. */
static uint8_t *stack;

static void run(size_t bytes, void *(*work)(void *), void *argument)
{
    pthread_t thread;
    pthread_attr_t attributes;
    size_t page = (size_t)sysconf(_SC_PAGESIZE);
    uint8_t *pages = mmap(NULL, bytes + page, PROT_READ | PROT_WRITE, MAP_PRIVATE | MAP_ANONYMOUS, -1, 0);
    if (pages == MAP_FAILED || mprotect(pages, page, PROT_NONE) != 0) {
        perror("a stack");
        exit(1);
    }
    stack = pages + page;
    if (pthread_attr_init(&attributes) != 0 || pthread_attr_setstack(&attributes, stack, bytes) != 0 ||
        pthread_create(&thread, &attributes, work, argument) != 0 || pthread_join(thread, NULL) != 0) {
        fprintf(stderr, "no thread with a stack of %zu bytes\n", bytes);
        exit(1);
    }
    pthread_attr_destroy(&attributes);
    munmap(pages, bytes + page);
}

static void *plain_work(void *argument)
{
    void (**work)(void) = argument;
    guard_thread();
    (*work)();
    return NULL;
}

void on_stack(size_t bytes, void (*work)(void))
{
    run(bytes, plain_work, &work);
}

struct measured {
    void (*call)(void);
    uint8_t pattern;
    size_t used;
};

/* Fills the stack below this frame, makes the call, and looks for the lowest byte that changed. */
static void *measured_call(void *argument)
{
    struct measured *measured = argument;
    volatile uint8_t here = 0;
    size_t above = (size_t)((uintptr_t)&here - (uintptr_t)stack), lowest = 0;
    memset(stack, measured->pattern, above - GAP);
    measured->call();
    while (lowest < above - GAP && stack[lowest] == measured->pattern)
        lowest++;
    measured->used = above - lowest;
    return NULL;
}

size_t stack_used(size_t bytes, void (*call)(void))
{
    size_t most = 0;
    /* A byte that happens to be written with one pattern shows with the other. */
    static const uint8_t patterns[] = {0xa5, 0x5a};
    for (size_t k = 0; k < sizeof patterns; k++) {
        struct measured measured = {call, patterns[k], 0};
        run(bytes, measured_call, &measured);
        most = measured.used > most ? measured.used : most;
    }
    return most;
}
