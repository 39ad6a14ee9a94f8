/* A column worked by C and by Arb: q at ages 0 to 120 in year n, counted from the start. */
#ifndef COLUMN_H
#define COLUMN_H
#include "compilers.h"
#include "params.h"

/* The grid in plain C: ends[2x] and ends[2x + 1], and the verdict on a column by the figures of these ends; -1 where a cell is
   steep. */
typedef int column_in_c(const params *p, unsigned n, const uint64_t *entries, uint64_t *ends);
column_in_c column_by_gcc, column_by_clang;

/* The same values by ball arithmetic at 64 bits. */
void column_by_arb(const params *p, unsigned n, double *middles);
#endif
