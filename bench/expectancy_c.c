/* An expectancy, an annuity, survival to a day and the expectancy of a couple on the grid in plain C: only the cells of the path,
   and the eleven H of a year where an age above 90 needs them. A cohort steps K and kappa along; a period path works its closure
   once, and takes the forces from 80 to 90 from it. Past 120 the cell of age 120 serves: of a cohort in each year, of a period
   once. The two lives of a couple are walked side by side. */
#include "expectancy.h"
#include "grid.h"

typedef struct {
    ends force[CLOSED];
    pair fitted[CLOSED];
} closure;

static int close_year(const params *p, int64_t period, pair kappa, closure *c) {
    for (int i = 0; i < CLOSED; i++) {
        pair m = log_force(p, FIRST_CLOSED + i, period, kappa);
        if (steep(m)) return 0;
        c->force[i] = young_force(m);
        c->fitted[i] = fit(m, c->force[i]);
    }
    return 1;
}

/* Where a path stands: K and kappa of its year, the closure of the last year that needed one, the last factor and the survival
   so far. */
typedef struct {
    int64_t period;
    pair kappa;
    closure c;
    ends factor, alive;
} place;

static int begin(const params *p, enum kind kind, unsigned n, place *at) {
    at->period = period_in(p, n);
    at->kappa = kappa_in(p, n);
    at->alive.lower = at->alive.upper = UNIT;
    return kind == COHORT || close_year(p, at->period, at->kappa, &at->c);
}

/* The force at age x of the table. */
static inline int work_force(const params *p, enum kind kind, int x, place *at, ends *force) {
    if (x >= AGES) {
        if (kind == COHORT && !close_year(p, at->period, at->kappa, &at->c)) return 0;
        *force = old_force(at->c.fitted, x);
    } else if (x >= FIRST_CLOSED && kind == PERIOD) {
        *force = at->c.force[x - FIRST_CLOSED];
    } else {
        pair m = log_force(p, x, at->period, at->kappa);
        if (steep(m)) return 0;
        *force = young_force(m);
    }
    return 1;
}

/* The factor at age x of the table. */
static inline int work_factor(const params *p, enum kind kind, int x, place *at) {
    ends force;
    if (!work_force(p, kind, x, at, &force)) return 0;
    at->factor = exp_between(force);
    return 1;
}

static inline void take_factor(place *at) {
    at->alive.lower = at->alive.lower * at->factor.lower / UNIT;
    at->alive.upper = up(at->alive.upper * at->factor.upper, UNIT);
}

/* Survives the year at age x, to the next place. */
static inline int survive(const params *p, enum kind kind, int x, place *at) {
    if ((kind == COHORT || x <= OLDEST) && !work_factor(p, kind, x < OLDEST ? x : OLDEST, at)) return 0;
    take_factor(at);
    if (kind == COHORT) {
        at->period += p->theta;
        at->kappa = next_kappa(p, at->kappa);
    }
    return 1;
}

int COMPILED(expectancy)(const params *p, enum kind kind, int age, unsigned n, uint64_t *out) {
    place at;
    if (!begin(p, kind, n, &at)) return 0;
    out[0] = out[1] = UNIT / 2;
    for (int x = age; x < age + years_on(n); x++) {
        if (!survive(p, kind, x, &at)) return 0;
        out[0] += at.alive.lower;
        out[1] += at.alive.upper;
    }
    return 1;
}

int COMPILED(annuity)(const params *p, enum kind kind, int age, unsigned n, unsigned rate, uint64_t *out) {
    place at;
    ends discount = {UNIT, UNIT};
    const uint64_t divisor = MILLION + rate;
    out[0] = out[1] = UNIT;
    if (!begin(p, kind, n, &at)) return 0;
    for (int x = age; x < age + years_on(n); x++) {
        if (!survive(p, kind, x, &at)) return 0;
        discount.lower = discount.lower * MILLION / divisor;
        discount.upper = up(discount.upper * MILLION, divisor);
        out[0] += discount.lower * at.alive.lower / UNIT;
        out[1] += up(discount.upper * at.alive.upper, UNIT);
    }
    return 1;
}

/* Survives some days of the year at age x, which has so many. */
static inline int survive_part(const params *p, int x, unsigned days, unsigned of, place *at) {
    ends force;
    if (!work_force(p, COHORT, x, at, &force)) return 0;
    ends part = {force.lower * days / of, up(force.upper * days, of)};
    at->factor = exp_between(part);
    take_factor(at);
    return 1;
}

int COMPILED(day)(const params *p, int age, unsigned n, int whole, unsigned days, unsigned of, uint64_t *out) {
    place at;
    begin(p, COHORT, n, &at);
    for (int x = age; x < age + whole; x++)
        if (!survive(p, COHORT, x, &at)) return 0;
    if (days > 0 && !survive_part(p, age + whole, days, of, &at)) return 0;
    out[0] = at.alive.lower;
    out[1] = at.alive.upper;
    return 1;
}

static inline ends against(ends chance) {
    ends r = {UNIT - chance.upper, UNIT - chance.lower};
    return r;
}

/* The chance that both live, or 1 less the product of the two death chances. */
static inline ends status_chance(enum status status, ends one, ends other) {
    if (status == LAST_SURVIVOR) one = against(one), other = against(other);
    ends both = {one.lower * other.lower / UNIT, up(one.upper * other.upper, UNIT)};
    return status == LAST_SURVIVOR ? against(both) : both;
}

int COMPILED(couple)(const params *p, const params *other, enum status status, int age, int other_age, unsigned n,
    uint64_t *out) {
    place one, two;
    begin(p, COHORT, n, &one);
    begin(other, COHORT, n, &two);
    out[0] = out[1] = UNIT / 2;
    for (int s = 0; s < years_on(n); s++) {
        if (!survive(p, COHORT, age + s, &one) || !survive(other, COHORT, other_age + s, &two)) return 0;
        ends chance = status_chance(status, one.alive, two.alive);
        out[0] += chance.lower;
        out[1] += chance.upper;
    }
    return 1;
}
