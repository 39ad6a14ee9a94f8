/* A column by Arb. */
#include "cell_arb.h"
#include "column.h"

static double death(const arb_t force, arb_t q) {
    arb_neg(q, force);
    arb_expm1(q, q, BITS);
    arb_neg(q, q);
    return middle_of(q);
}

void column_by_arb(const params *p, unsigned n, double *middles) {
    arb_year y;
    arb_t m, t, u;
    year_init(&y, p, n);
    arb_init(m), arb_init(t), arb_init(u);
    for (int x = 0; x < AGES; x++) {
        young_force(m, u, &y, p, x, t);
        middles[x] = death(u, t);
        if (x >= FIRST_CLOSED) fit(&y, x, m, u, t);
    }
    for (int x = AGES; x < COLUMN; x++) {
        old_force(u, &y, x, t);
        middles[x] = death(u, t);
    }
    arb_clear(m), arb_clear(t), arb_clear(u);
    year_clear(&y);
}
