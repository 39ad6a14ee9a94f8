/* A cell by Arb's ball arithmetic at 64 bits: the exact formulas, with that library's own error bounds. */
#ifndef CELL_ARB_H
#define CELL_ARB_H
#include <arb.h>

#include "params.h"

#define BITS 64

/* The series in a year: K, its yearly step, kappa, its yearly factor and its constant; and the eleven H of the closure. */
typedef struct {
    arb_t period, theta, kappa, a, c, fitted[CLOSED];
} arb_year;

static inline void scaled(arb_t r, int64_t v, ulong unit) {
    arb_set_si(r, v);
    arb_div_ui(r, r, unit, BITS);
}

static inline void next_kappa(arb_year *y) {
    arb_mul(y->kappa, y->kappa, y->a, BITS);
    arb_add(y->kappa, y->kappa, y->c, BITS);
}

static inline void year_init(arb_year *y, const params *p, unsigned n) {
    arb_init(y->period), arb_init(y->theta), arb_init(y->kappa), arb_init(y->a), arb_init(y->c);
    for (int i = 0; i < CLOSED; i++) arb_init(y->fitted[i]);
    scaled(y->period, p->period + (int64_t)n * p->theta, 1000000000);
    scaled(y->theta, p->theta, 1000000000);
    scaled(y->a, p->a, 100000000);
    scaled(y->c, p->c, 1000000000);
    scaled(y->kappa, p->kappa, 1000000000);
    if (p->c == 0) {
        arb_t power;
        arb_init(power);
        arb_pow_ui(power, y->a, n, BITS);
        arb_mul(y->kappa, y->kappa, power, BITS);
        arb_clear(power);
        return;
    }
    for (unsigned i = 0; i < n; i++) next_kappa(y);
}

static inline void year_clear(arb_year *y) {
    arb_clear(y->period), arb_clear(y->theta), arb_clear(y->kappa), arb_clear(y->a), arb_clear(y->c);
    for (int i = 0; i < CLOSED; i++) arb_clear(y->fitted[i]);
}

/* The log force m and the force u at an age to 90; t is room. */
static inline void young_force(arb_t m, arb_t u, const arb_year *y, const params *p, int x, arb_t t) {
    scaled(m, p->level[x] + p->alpha[x], 1000000000);
    scaled(t, p->slope[x], 100000000);
    arb_addmul(m, t, y->period, BITS);
    scaled(t, p->beta[x], 100000000);
    arb_addmul(m, t, y->kappa, BITS);
    arb_exp(u, m, BITS);
}

/* H of the closure at an age from 80 to 90. */
static inline void fit(arb_year *y, int x, const arb_t m, const arb_t u, arb_t t) {
    arb_neg(t, u);
    arb_log1p(t, t, BITS);
    arb_sub(y->fitted[x - FIRST_CLOSED], m, t, BITS);
}

/* The force at an age above 90. */
static inline void old_force(arb_t u, const arb_year *y, int x, arb_t t) {
    arb_zero(t);
    for (int i = 0; i < CLOSED; i++) arb_addmul_si(t, y->fitted[i], 10 + (i - 5) * (x - 85), BITS);
    arb_div_ui(t, t, 110, BITS);
    arb_neg(t, t);
    arb_exp(t, t, BITS);
    arb_add_ui(t, t, 1, BITS);
    arb_inv(u, t, BITS);
}

static inline double middle_of(const arb_t r) { return arf_get_d(arb_midref(r), ARF_RND_NEAR); }
#endif
