/*
 * A plain interpreter of sheets, as one writes it in C from docs/SHEETS.md without proving it. The
 * records are decoded once (decode.c). An expression is then evaluated by a function that calls
 * itself, and gives back a pointer to the value where it lies; only pairs, feedbacks, delays and
 * undecided IFs make bytes.
 */
#include "interpreter.h"

#include <stdbool.h>
#include <string.h>

#include "decoded.h"

enum match { NO, YES, UNDECIDED };

static const uint8_t *environment[MOST_NAMES];

/* One leaf is the common case, and too short for a call of memcpy. */
static inline void copy(uint8_t *to, const uint8_t *from, int leaves)
{
    if (leaves == 1)
        *to = *from;
    else
        memcpy(to, from, (size_t)leaves);
}

static inline bool same(const uint8_t *one, const uint8_t *other, int leaves)
{
    return leaves == 1 ? *one == *other : memcmp(one, other, (size_t)leaves) == 0;
}

static enum match matches(const struct pattern *pattern, const uint8_t *value)
{
    enum match found = NO;
    for (; pattern != NULL; pattern = pattern->other) {
        enum match one = YES;
        if (pattern->kind == CONSTRUCTOR) {
            one = *value == 0 ? UNDECIDED : *value == pattern->constructor ? YES : NO;
        } else if (pattern->kind == PAIR_PATTERN) {
            one = matches(pattern->a, value);
            if (one != NO) {
                enum match two = matches(pattern->b, value + pattern->first_leaves);
                if (two != YES)
                    one = two;
            }
        }
        if (one == YES)
            return YES;
        if (one == UNDECIDED)
            found = UNDECIDED;
    }
    return found;
}

/* What an undecided IF gives: each leaf on which both branches agree. */
static const uint8_t *agreed(uint8_t *to, const uint8_t *one, const uint8_t *other, int leaves)
{
    for (int leaf = 0; leaf < leaves; leaf++)
        to[leaf] = one[leaf] == other[leaf] ? one[leaf] : 0;
    return to;
}

/*
 * The value, which stands until the expression is evaluated again. A feedback evaluates its part
 * once more at the settled value, so the delays in it are left with their next values from there.
 */
static const uint8_t *evaluate(struct expression *e)
{
    for (;;) {
        const uint8_t *value, *other;
        switch (e->kind) {
        case CONSTANT:
            return e->bytes;
        case NAME:
            return environment[e->place];
        case PAIR:
            copy(e->bytes, evaluate(e->a), e->a->leaves);
            copy(e->bytes + e->a->leaves, evaluate(e->b), e->b->leaves);
            return e->bytes;
        case FIRST:
        case SECOND:
            return evaluate(e->a) + e->place;
        case LET:
            environment[e->place] = evaluate(e->a);
            e = e->b;
            break;
        case FEEDBACK:
            memset(e->bytes, 0, (size_t)e->b->leaves);
            environment[e->place] = e->bytes;
            while (value = evaluate(e->b), !same(value, e->bytes, e->b->leaves))
                memmove(e->bytes, value, (size_t)e->b->leaves);
            e = e->c;
            break;
        case IF:
            value = evaluate(e->b);
            other = evaluate(e->c);
            switch (matches(e->pattern, evaluate(e->a))) {
            case YES:
                return value;
            case NO:
                return other;
            default:
                return agreed(e->bytes, value, other, e->leaves);
            }
        default: /* DELAY */
            copy(e->next, evaluate(e->c), e->leaves);
            return e->bytes;
        }
    }
}

static void advance(const struct decoded *of)
{
    for (size_t i = 0; i < of->delay_count; i++) {
        struct expression *e = of->delays[i];
        uint8_t *held = e->bytes;
        e->bytes = e->next;
        e->next = held;
    }
}

struct interpreted interpreter_run(const uint8_t *sheet, size_t sheet_length, const uint8_t *stim,
                                   size_t stim_length, uint8_t *out, uint8_t *next)
{
    const struct decoded *of = decode(sheet);
    size_t leaves = (size_t)of->root->leaves, cycles = stim_length / of->input;

    for (size_t cycle = 0; cycle < cycles; cycle++) {
        environment[0] = stim + cycle * of->input;
        memcpy(out + cycle * leaves, evaluate(of->root), leaves);
        advance(of);
    }

    memcpy(next, sheet, sheet_length);
    for (size_t i = 0; i < of->delay_count; i++) {
        const uint8_t *held = of->delays[i]->bytes;
        for (uint16_t leaf = of->delays[i]->leaf; leaf != 0; leaf = word_of(sheet, leaf, 1))
            next[12 * leaf + 4] = *held++;
    }
    return (struct interpreted){of->output, leaves, cycles};
}
