/* An expectancy by Arb, along the same path as in C. */
#include "cell_arb.h"
#include "expectancy.h"

double expectancy_by_arb(const params *p, enum kind kind, int age, unsigned n) {
    arb_year y;
    arb_t m, t, u, factor, alive, total, forces[CLOSED];
    year_init(&y, p, n);
    arb_init(m), arb_init(t), arb_init(u), arb_init(factor), arb_init(alive), arb_init(total);
    for (int i = 0; i < CLOSED; i++) arb_init(forces[i]);
    arb_one(alive);
    arb_set_d(total, 0.5);
    for (int s = 0; s < years_on(n); s++) {
        const int x = age + s < OLDEST ? age + s : OLDEST;
        if (kind == PERIOD ? s == 0 : x >= AGES)
            for (int i = 0; i < CLOSED; i++) {
                young_force(m, forces[i], &y, p, FIRST_CLOSED + i, t);
                fit(&y, FIRST_CLOSED + i, m, forces[i], t);
            }
        if (kind == COHORT || age + s <= OLDEST) {
            if (x >= AGES)
                old_force(u, &y, x, t);
            else if (x >= FIRST_CLOSED && kind == PERIOD)
                arb_set(u, forces[x - FIRST_CLOSED]);
            else
                young_force(m, u, &y, p, x, t);
            arb_neg(u, u);
            arb_exp(factor, u, BITS);
        }
        arb_mul(alive, alive, factor, BITS);
        arb_add(total, total, alive, BITS);
        if (kind == COHORT) {
            arb_add(y.period, y.period, y.theta, BITS);
            next_kappa(&y);
        }
    }
    double middle = middle_of(total);
    for (int i = 0; i < CLOSED; i++) arb_clear(forces[i]);
    arb_clear(m), arb_clear(t), arb_clear(u), arb_clear(factor), arb_clear(alive), arb_clear(total);
    year_clear(&y);
    return middle;
}
