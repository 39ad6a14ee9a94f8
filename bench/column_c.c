/* A column on the grid in plain C. */
#include "column.h"
#include "grid.h"
#include "same.h"

/* The ends of q, and the verdict on the ages so far and on its entry. */
static int put_death(ends force, uint64_t entry, int verdict, uint64_t *out) {
    ends s = exp_between(force);
    out[0] = UNIT - s.upper;
    out[1] = UNIT - s.lower;
    uint64_t steps = half_up(out[0], CHANCE_STEP);
    if (steps != half_up(out[1], CHANCE_STEP)) return verdict == KULFIZAN_WRONG ? KULFIZAN_WRONG : KULFIZAN_OPEN;
    return steps == entry ? verdict : KULFIZAN_WRONG;
}

int COMPILED(column)(const params *p, unsigned n, const uint64_t *entries, uint64_t *out) {
    int64_t period = period_in(p, n);
    pair kappa = kappa_in(p, n), fitted[CLOSED];
    int verdict = KULFIZAN_RIGHT;
    for (int x = 0; x < AGES; x++) {
        pair m = log_force(p, x, period, kappa);
        if (steep(m)) return -1;
        ends u = young_force(m);
        if (x >= FIRST_CLOSED) fitted[x - FIRST_CLOSED] = fit(m, u);
        verdict = put_death(u, entries[x], verdict, out + 2 * x);
    }
    for (int x = AGES; x < COLUMN; x++) verdict = put_death(old_force(fitted, x), entries[x], verdict, out + 2 * x);
    return verdict;
}
