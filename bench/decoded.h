/* A sheet, decoded once: names are places, parts are pointers and constants bytes. */
#ifndef DECODED_H
#define DECODED_H

#include <stddef.h>
#include <stdint.h>

enum {
    FLAT_TYPE = 16,
    PAIR_TYPE = 17,
    CONSTANT = 32,
    NAME,
    PAIR,
    FIRST,
    SECOND,
    LET,
    FEEDBACK,
    IF,
    DELAY,
    WHOLE = 48,
    CONSTRUCTOR,
    PAIR_PATTERN,
};

enum { MOST_RECORDS = 4096, MOST_LEAVES = 64, MOST_NAMES = 64 };

struct pattern {
    int kind;
    int constructor;                     /* of CONSTRUCTOR */
    int first_leaves;                    /* of PAIR_PATTERN */
    const struct pattern *a, *b, *other; /* parts, and the next alternative */
};

struct expression {
    int kind;
    int leaves;
    int place;      /* NAME, LET, FEEDBACK: in the environment. FIRST, SECOND: in the pair */
    uint8_t *bytes; /* CONSTANT, PAIR, FEEDBACK, IF: the value. DELAY: what it holds */
    uint8_t *next;  /* DELAY: what it holds next */
    struct expression *a, *b, *c;
    const struct pattern *pattern;
    uint16_t leaf;  /* DELAY: the record of its first leaf */
};

struct decoded {
    struct expression *root;
    struct expression *delays[MOST_RECORDS];
    size_t delay_count;
    size_t input;    /* leaves */
    uint16_t output; /* record of the type */
};

/* What the last call decoded, valid until the next one. */
const struct decoded *decode(const uint8_t *sheet);

/* Word `number` of a record: 0 is the kind, 1 next, 2 to 5 are a to d. */
static inline uint16_t word_of(const uint8_t *sheet, size_t record, size_t number)
{
    const uint8_t *at = sheet + 12 * record + 2 * number;
    return (uint16_t)(at[0] | at[1] << 8);
}

#endif
