/* A plain reader of the parameter sheet, for comparison. */
#include <stddef.h>
#include <stdint.h>

#include "compilers.h"

#define AGES 91

struct sheet {
    int lilee; /* whether it is of the table LILEE, or of AG2014 */
    char sex;
    int64_t a, theta, period, kappa, start, c;
    int64_t level[AGES], slope[AGES], alpha[AGES], beta[AGES];
};

/* The refusal's number: 1 torn, 2 off scale, 0 where nothing is refused. A refused reading gives AG2014 with its start year, sex M
   and every other number 0. */
typedef int sheet_in_c(const uint8_t *bytes, size_t len, struct sheet *out);
sheet_in_c sheet_by_gcc, sheet_by_clang;
