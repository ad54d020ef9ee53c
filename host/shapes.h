/* Parts of sheets at the limits. */
#ifndef SHAPES_H
#define SHAPES_H

#include "draft.h"

/* A header, and at 1 a flat type of two constructors, which is the input's. */
void begin(struct draft *draft);

/* Adds pair types so that record k has k leaves, up to a last one, which becomes the input's type. */
void begin_pairs(struct draft *draft, size_t leaves);

/* Adds flat types after a last one until only `room` records are left of a number. */
void fill(struct draft *draft, uint16_t last, size_t records, size_t room);

/* A name as a part, by its number. */
void name(struct draft *draft, uint16_t namer, enum word word, size_t number);

/* Leaves of 0 as a part, so many. */
void leaves(struct draft *draft, uint16_t namer, enum word word, size_t count);

/* Where an expression belongs: the record that names it, and the word. */
struct place {
    uint16_t namer;
    enum word word;
};

/*
 * Expressions of one kind in each other, so many; gives the place of the innermost part. What they have besides their inner
 * part is the innermost name, the input's type, its whole pattern, and as many leaves of 0 as its record's number: for flat
 * inputs of type 1 and for `begin_pairs`.
 */
struct place nested(struct draft *draft, struct place at, enum kind kind, enum word inner, size_t count);

/*
 * An IF with one name for its three parts, of 64 leaves by `begin_pairs`. Its pattern is a pair pattern for each of the 63 pair
 * types, whole types, and at last constructor 2 for the first leaf.
 */
void deepest_pattern(struct draft *draft, struct place at, size_t number);

/* Adds so many pair types after a last one, each of twice the type before, the first of twice the given one. Gives the last. */
uint16_t doubled(struct draft *draft, uint16_t type, uint16_t last, size_t times);

/* A leaf: the name itself, which is flat; the last one of a name of `begin_pairs`; or the last one of 64 by doubling. */
enum last_leaf { LAST_OF_FLAT, LAST_OF_PAIRS, LAST_OF_DOUBLED };

/* The leaves of a name of 64 by doubling, each one place later; the first is a leaf of another name. */
struct shift {
    size_t name, from;
    enum last_leaf first;
};
void shifted(struct draft *draft, struct place at, struct shift shift);

#endif
