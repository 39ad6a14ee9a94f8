/* Life expectancies worked by C and by Arb, annuities, survival to a day and expectancies of couples by C, at one age, or two, in
   year n, counted from the start. */
#ifndef EXPECTANCY_H
#define EXPECTANCY_H
#include "compilers.h"
#include "params.h"

enum kind { COHORT, PERIOD };

/* The oldest age of the table; its probability serves past it. */
enum { OLDEST = COLUMN - 1 };

/* The years from year n on, to the last of the table. */
static inline int years_on(unsigned n) { return TABLE_YEARS + 1 - (int)n; }

/* The grid of the papers in plain C: the two ends; returns 0 where a needed cell is steep. */
typedef int expectancy_in_c(const params *p, enum kind kind, int age, unsigned n, uint64_t *ends);
expectancy_in_c expectancy_by_gcc, expectancy_by_clang;

/* The same of an annuity at a rate in units of 10^-6. */
typedef int annuity_in_c(const params *p, enum kind kind, int age, unsigned n, unsigned rate, uint64_t *ends);
annuity_in_c annuity_by_gcc, annuity_by_clang;

/* The same of survival to a day along the cohort: whole years, and then days of a year that has so many. */
typedef int day_in_c(const params *p, int age, unsigned n, int whole, unsigned days, unsigned of, uint64_t *ends);
day_in_c day_by_gcc, day_by_clang;

/* The same of the expectancy of a couple, two lives with a set and an age each and one start year, along the cohort. */
enum status { JOINT_LIFE, LAST_SURVIVOR };
typedef int couple_in_c(const params *p, const params *other, enum status status, int age, int other_age, unsigned n,
    uint64_t *ends);
couple_in_c couple_by_gcc, couple_by_clang;

/* An expectancy by ball arithmetic at 64 bits: the middle, in years. */
double expectancy_by_arb(const params *p, enum kind kind, int age, unsigned n);
#endif
