/* A text that is made piece by piece. */
#ifndef MADE_TEXT_H
#define MADE_TEXT_H

#include <stddef.h>
#include <stdint.h>

#include "translation.h"

/* A type of two constructors, which is the input's. */
#define BIT "TYPE bit = hi | lo IN INPUT bit "

/* Types of 1, 2, 4, .. 64 leaves, a to g: records 1 to 7. */
#define DOUBLED                                                                                                    \
    "TYPE a = x IN TYPE b = (a, a) IN TYPE c = (b, b) IN TYPE d = (c, c) IN TYPE e = (d, d) IN TYPE f = (e, e) IN " \
    "TYPE g = (f, f) IN "

/* The text that is being made. */
struct made_text {
    uint8_t bytes[MOST_TEXT];
    size_t length;
};
extern struct made_text made;

void text_begin(const char *words);
void text_add(const char *words);
void text_add_times(const char *words, size_t times);

/* Adds a name made from a number, in so many letters. */
void text_add_name(size_t number, size_t letters);

/* Adds one byte again and again, up to a length. */
void text_pad(size_t bytes, char byte);

/* What a translation of it is lent. */
struct translation lent_made(size_t sheet_length);

#endif
