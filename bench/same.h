/* What the library's quotes have to do with ends that plain C works: the C works the coarse grid alone, and where its ends leave
   the figure open the library's are those of the fine grid. */
#ifndef SAME_H
#define SAME_H
#include <stdint.h>
#include <string.h>

#include "kulfizan.h"

/* The steps of figures, in units of 10^-9. */
#define CHANCE_STEP 10000ull
#define EXPECTANCY_STEP 10000000ull
#define PRICE_STEP 100000000ull

/* An end rounded half up to a step. */
static inline uint64_t half_up(uint64_t end, uint64_t step) { return (end + step / 2) / step; }

/* Whether a quote is worked on the fine grid too. */
static inline int again(const uint64_t *quote) { return quote[4] == KULFIZAN_FINE_UNIT; }

/* Whether a quote is the one of ends in units of 10^-9: it has these, or is worked again where they leave its figure open. */
static inline int same(const uint64_t *quote, const uint64_t *ends, uint64_t step) {
    if (half_up(ends[0], step) != half_up(ends[1], step)) return again(quote);
    return quote[4] == KULFIZAN_COARSE_UNIT && memcmp(quote, ends, 2 * sizeof *ends) == 0;
}
#endif
