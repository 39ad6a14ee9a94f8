/* A parameter set, as the benchmarks of figures take it. */
#ifndef PARAMS_H
#define PARAMS_H
#include <stddef.h>
#include <stdint.h>

#define AGES 91
#define COLUMN 121
#define FIRST_CLOSED 80
#define CLOSED 11

/* The years of a quote and of the table, counted from the start year. */
#define QUOTE_YEARS 51
#define TABLE_YEARS 171

typedef struct {
    int lilee; /* whether it is of the table LILEE, or of AG2014 */
    int64_t a, theta, period, kappa, start, c;
    int64_t level[AGES], slope[AGES], alpha[AGES], beta[AGES];
} params;

/* Parameters of the sizes that a fit gives, of AG2014 and, with a later start and a constant, of the table LILEE. */
void realistic(params *p);
void later(params *p);

/* Writes the set's sheet and returns its length. */
size_t sheet_of(const params *p, char *text);

/* Whether a middle, as a plain number, lies between two ends in units of which one has so many, but for the last digits of a
   double. */
static inline int between(const uint64_t *ends, double units, double middle) {
    return (double)ends[0] <= units * middle + 1 && units * middle - 1 <= (double)ends[1];
}
#endif
