/* Sheets that several files of tests use: T, and those at the limits. */
#ifndef CASES_H
#define CASES_H

#include "draft.h"

/* Sheet T of docs/SHEETS.md. */
enum { T_RECORDS = 17, T_BYTES = T_RECORDS * RECORD_BYTES };
extern const uint16_t sheet_t[T_RECORDS][WORDS];

/* What a run of a sheet at a limit gives in each cycle. The input is flat or has as many leaves as the output, if not said. */
enum answer {
    /* The sheet is refused. */
    NO_RUN,
    INPUT,
    UNDEFINED,
    /* The output is flat. */
    FIRST_LEAF,
    /* Each leaf of the output is the input's last one. */
    EACH_LEAF,
    /* The input of so many cycles before as there are delays; of two delays the one with the lower number holds the older
     * one, or the newer one. */
    DELAYED_INSIDE,
    DELAYED_IN_A_ROW
};

/* Sheets at a limit of docs/SHEETS.md and just past it, among them the deepest and the longest. */
struct limit_case {
    const char *name;
    void (*build)(struct draft *draft, const struct limit_case *one);
    /* How many: records, leaves, or how deep. */
    size_t size;
    /* For sheets of one kind of expression in itself: the kind, and the word that names the inner one. */
    enum kind kind;
    enum word inner;
    uint32_t code, place;
    enum answer answer;
};
extern const struct limit_case limit_cases[];
extern const size_t limit_count;

/* Writes the sheet of a case and gives its length. */
size_t limit_sheet(const struct limit_case *one, uint8_t *bytes);

/* The same with a label at each delay and one value in all leaves of delays, where the sheet is accepted. */
size_t labelled_limit_sheet(const struct limit_case *one, uint8_t *bytes, uint8_t value);

#endif
