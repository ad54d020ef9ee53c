#include "estimating.h"

#include <string.h>

#include "one_cycle.h"

const uint16_t sheet_x[X_RECORDS][WORDS] = {
    {1, 1, 3, 5, 10}, {16, 2, 2}, {16, 3, 3}, {17, 4, 1, 2}, {17, 0, 2, 1},
    {34, 0, 6, 8},    {36, 0, 7}, {33},       {35, 0, 9},    {33}};

const uint16_t sheet_l[L_RECORDS][WORDS] = {{1, 1, 3, 6, 17},
                                            {16, 2, 2},
                                            {16, 3, 3},
                                            {17, 4, 1, 2},
                                            {17, 5, 2, 3},
                                            {17, 0, 1, 4},
                                            {37, 0, 7, 9},
                                            {35, 0, 8},
                                            {33},
                                            {37, 0, 10, 12},
                                            {36, 0, 11},
                                            {33, 0, 1},
                                            {34, 0, 13, 14},
                                            {33, 0, 1},
                                            {34, 0, 15, 16},
                                            {33},
                                            {33, 0, 2}};

const uint16_t sheet_n[N_RECORDS][WORDS] = {
    /* The types: a bit, two of them, and two and one. */
    {1, 1, 1, 4, 30},
    {16, 2, 2},
    {17, 3, 1, 1},
    {17, 0, 2, 1},
    /* The inverse. */
    {37, 0, 5, 12},
    {39, 0, 6, 7, 9, 11},
    {33},
    {32, 0, 1, 8},
    {64, 0, 2},
    {32, 0, 1, 10},
    {64, 0, 1},
    {49, 0, 1, 1},
    /* The input and its inverse, beside whether they differ. */
    {34, 0, 13, 16},
    {34, 0, 14, 15},
    {33, 0, 1},
    {33},
    {39, 0, 17, 20, 22, 24},
    {34, 0, 18, 19},
    {33, 0, 1},
    {33},
    {32, 0, 1, 21},
    {64, 0, 1},
    {32, 0, 1, 23},
    {64, 0, 2},
    /* The pattern (1,2)|(2,1). */
    {50, 27, 25, 26},
    {49, 0, 1, 1},
    {49, 0, 1, 2},
    {50, 0, 28, 29},
    {49, 0, 1, 2},
    {49, 0, 1, 1}};

const uint16_t sheet_j[J_RECORDS][WORDS] = {
    {1, 1, 3, 4, 18}, {16, 2, 2},    {16, 3, 5},     {17, 0, 1, 1}, {39, 0, 5, 7, 9, 17},
    {35, 0, 6},       {33},          {32, 0, 2, 8},  {64, 0, 1},    {39, 0, 10, 12, 14, 16},
    {36, 0, 11},      {33},          {32, 0, 2, 13}, {64, 0, 2},    {32, 0, 2, 15},
    {64, 0, 3},       {49, 0, 1, 1}, {49, 0, 1, 1}};

const uint16_t sheet_k[K_RECORDS][WORDS] = {{1, 1, 1, 4, 7}, {16, 2, 2}, {16, 3, 3}, {17, 0, 1, 2},
                                            {32, 0, 3, 5},   {64, 6, 1}, {64, 0, 3}};

const uint16_t sheet_d[D_RECORDS][WORDS] = {{1, 1, 3, 4, 8},  {16, 2, 2}, {16, 3, 3}, {17, 0, 1, 2},
                                            {40, 0, 3, 5, 7}, {64, 6, 2}, {64, 0, 3}, {33}};

static struct one_cycle lent_call(size_t inputs, size_t outputs)
{
    return (struct one_cycle){sheet_possible, lent.sheet, lent.length, lent.stim, inputs, outputs};
}

void expect_estimated(const char *name, const uint8_t *input, size_t inputs, const uint8_t *counts,
                      size_t outputs)
{
    memmove(lent.stim, input, inputs);
    struct one_cycle call = lent_call(inputs, outputs);
    expect_one_cycle(name, &call, counts);
}

void expect_estimate_refused(const char *name, size_t inputs, size_t outputs, uint32_t code,
                             uint32_t place)
{
    struct one_cycle call = lent_call(inputs, outputs);
    expect_one_cycle_refused(name, &call, code, place);
}
