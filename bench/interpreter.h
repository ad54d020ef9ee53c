/* A plain interpreter of sheets in C, to compare times with: see README.md. */
#ifndef INTERPRETER_H
#define INTERPRETER_H

#include <stddef.h>
#include <stdint.h>

struct interpreted {
    size_t type;   /* the record of the output's type */
    size_t leaves; /* of the output */
    size_t cycles;
};

/*
 * Runs a sheet that sheet_check accepts on a stimulus that is well formed for it. `out` has room
 * for all cycles, `next` for the sheet. Nothing is checked: any other sheet does harm.
 */
struct interpreted interpreter_run(const uint8_t *sheet, size_t sheet_length, const uint8_t *stim,
                                   size_t stim_length, uint8_t *out, uint8_t *next);

#endif
