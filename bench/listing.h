/* The listing of a run, written to the standard output at once, and files read whole. */
#ifndef LISTING_H
#define LISTING_H

#include <stdint.h>
#include <stdio.h>
#include <stdlib.h>

static inline size_t read_whole(const char *name, uint8_t *to, size_t most)
{
    FILE *file = fopen(name, "rb");
    if (file == NULL) {
        perror(name);
        exit(1);
    }
    size_t length = fread(to, 1, most, file);
    fclose(file);
    return length;
}

static inline char *put_number(char *at, unsigned number)
{
    char digits[10], *first = digits + sizeof digits;
    do
        *--first = (char)('0' + number % 10);
    while ((number /= 10) != 0);
    while (first < digits + sizeof digits)
        *at++ = *first++;
    return at;
}

static inline void print_listing(size_t type, const uint8_t *out, size_t cycles, size_t leaves)
{
    char *text = (char *)malloc(64 + cycles * (8 + 4 * leaves)), *at = text;
    if (text == NULL)
        exit(1);
    at += sprintf(at, "type %zu\n", type);
    for (size_t cycle = 0; cycle < cycles; cycle++) {
        at = put_number(at, (unsigned)cycle);
        *at++ = ':';
        for (size_t leaf = 0; leaf < leaves; leaf++) {
            *at++ = ' ';
            at = put_number(at, *out++);
        }
        *at++ = '\n';
    }
    at += sprintf(at, "cycles %zu\n", cycles);
    fwrite(text, 1, (size_t)(at - text), stdout);
    free(text);
}

#endif
