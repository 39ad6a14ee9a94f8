/* The grid of paper 01, with the half steps of paper 02, E4, and its constant of kappa, in plain C, for comparison of speed: same
   terms, same roundings, no proofs. The functions with long sums are not marked inline: gcc's code is slower by a tenth where it
   inlines them everywhere. Sums stop where their terms have run out, as the library's do: the logarithm from a lower power of 0
   and an upper one of at most 1 on, from where what is left is a count; the exponential holds each upper end less one, from term
   1 on, which is f, and stops where both are 0. */
#ifndef GRID_H
#define GRID_H
#include "params.h"

#define UNIT 1000000000ull
#define STEP 500000000ull
#define RATE 100000000ll
#define MILLION 1000000ull

/* The whole parts of 10^9·e^-(n/2). */
static const uint64_t whole_parts[42] = {
    1000000000, 606530659, 367879441, 223130160, 135335283, 82084998, 49787068, 30197383, 18315638, 11108996,
    6737946, 4086771, 2478752, 1503439, 911881, 553084, 335462, 203468, 123409, 74851, 45399, 27536, 16701,
    10130, 6144, 3726, 2260, 1370, 831, 504, 305, 185, 112, 68, 41, 25, 15, 9, 5, 3, 2, 1};

typedef struct { int64_t lower, upper; } pair;
typedef struct { uint64_t lower, upper; } ends;

static inline uint64_t up(uint64_t n, uint64_t d) { return (n + (d - 1)) / d; }

/* Multiples of d, within which n lies, are added and taken from the quotient, so that no sign is tested. */
#define AWAY UINT64_C(6000000000000000000)

static inline int64_t floor_div(int64_t n, uint64_t d) { return (int64_t)(((uint64_t)n + AWAY / d * d) / d - AWAY / d); }

static inline int64_t ceil_div(int64_t n, uint64_t d) { return (int64_t)(((uint64_t)n + AWAY / d * d + (d - 1)) / d - AWAY / d); }

static uint64_t exp_lower(uint64_t z) {
    if (z >= 21 * UNIT) return 0;
    uint64_t f = z % STEP, n = z / STEP, low = f, less = f - 1, evens = UNIT, odds = f, k = 2;
    if (f == 0) return whole_parts[n];
    for (; k < 14; k += 2) {
        uint64_t even = low * f / (k * UNIT);
        low = even * f / ((k + 1) * UNIT);
        less = ((less * f + (f - 1)) / (k * UNIT) * f + (f - 1)) / ((k + 1) * UNIT);
        evens += even;
        odds += less;
        if (less + low == 0) break;
    }
    return (evens - (odds + 6)) * whole_parts[n] / UNIT;
}

static uint64_t exp_upper(uint64_t z) {
    if (z >= 21 * UNIT) return 1;
    uint64_t f = z % STEP, n = z / STEP, low = f, less = f - 1, evens = UNIT, odds = f, k = 2;
    if (f == 0) return n == 0 ? UNIT : whole_parts[n] + 1;
    for (; k < 12; k += 2) {
        uint64_t even = (less * f + (f - 1)) / (k * UNIT);
        low = low * f / (k * UNIT) * f / ((k + 1) * UNIT);
        less = (even * f + (f - 1)) / ((k + 1) * UNIT);
        evens += even;
        odds += low;
        if (less + low == 0) break;
    }
    if (k == 12) evens += (less * f + (f - 1)) / (12 * UNIT);
    uint64_t sum = evens + 6 - odds;
    if (sum > UNIT) sum = UNIT;
    return n == 0 ? sum : up(sum * (whole_parts[n] + 1), UNIT);
}

static inline ends exp_between(ends z) {
    ends r = {exp_lower(z.upper), exp_upper(z.lower)};
    return r;
}

static inline pair log_force(const params *p, int x, int64_t period, pair kappa) {
    int64_t fixed = p->level[x] + p->alpha[x], trend = p->slope[x] * period, b = p->beta[x];
    int64_t least = b < 0 ? b * kappa.upper : b * kappa.lower, most = b < 0 ? b * kappa.lower : b * kappa.upper;
    pair r = {fixed + floor_div(trend + least, RATE), fixed + ceil_div(trend + most, RATE)};
    return r;
}

/* A power over its place, both below 2^32, where a division takes less time. */
static inline uint64_t over(uint64_t power, uint64_t place) { return (uint32_t)power / (uint32_t)place; }

/* -ln(1 - u), both ends in one loop, from the second power on: the first is u, and halves take no division. */
static ends log_between(ends u) {
    ends power = {u.lower * u.lower / UNIT, up(u.upper * u.upper, UNIT)};
    ends sum = {u.lower + power.lower / 2, u.upper + (power.upper + 1) / 2};
    for (uint64_t k = 3; k <= 28; k++) {
        power.lower = u.lower * power.lower / UNIT;
        power.upper = up(u.upper * power.upper, UNIT);
        sum.lower += over(power.lower, k);
        sum.upper += over(power.upper + (k - 1), k);
        if (power.upper + 2 * power.lower < 2) {
            sum.upper += power.upper * (29 - k);
            return sum;
        }
    }
    sum.upper += up(2 * up(u.upper * power.upper, UNIT), 29);
    return sum;
}

static uint64_t logistic_lower(int64_t g) {
    if (g >= 0) return UNIT * UNIT / (UNIT + exp_upper((uint64_t)g));
    uint64_t e = exp_lower((uint64_t)-g);
    return e * UNIT / (UNIT + e);
}

static uint64_t logistic_upper(int64_t g) {
    if (g >= 0) return up(UNIT * UNIT, UNIT + exp_lower((uint64_t)g));
    uint64_t e = exp_upper((uint64_t)-g);
    return up(e * UNIT, UNIT + e);
}

/* K in year n, counted from the start. */
static inline int64_t period_in(const params *p, unsigned n) { return p->period + (int64_t)n * p->theta; }

static inline pair next_kappa(const params *p, pair kappa) {
    int64_t least = p->a < 0 ? p->a * kappa.upper : p->a * kappa.lower;
    int64_t most = p->a < 0 ? p->a * kappa.lower : p->a * kappa.upper;
    pair r = {floor_div(least, RATE) + p->c, ceil_div(most, RATE) + p->c};
    return r;
}

static inline pair kappa_in(const params *p, unsigned n) {
    pair kappa = {p->kappa, p->kappa};
    for (unsigned i = 0; i < n; i++) kappa = next_kappa(p, kappa);
    return kappa;
}

static inline int steep(pair m) { return m.lower < -30000000000ll || m.upper > -700000000ll; }

/* The force at ages to 90, of a log force that is not steep. */
static inline ends young_force(pair m) {
    ends z = {(uint64_t)-m.upper, (uint64_t)-m.lower};
    return exp_between(z);
}

/* H of the closure. */
static inline pair fit(pair m, ends u) {
    ends log = log_between(u);
    pair r = {m.lower + (int64_t)log.lower, m.upper + (int64_t)log.upper};
    return r;
}

/* The force at an age above 90, of the eleven H of its year. */
static inline ends old_force(const pair *fitted, int x) {
    int64_t least = 0, most = 0;
    for (int i = 0; i < CLOSED; i++) {
        int64_t w = 10 + (int64_t)(i - 5) * (x - 85);
        least += w < 0 ? w * fitted[i].upper : w * fitted[i].lower;
        most += w < 0 ? w * fitted[i].lower : w * fitted[i].upper;
    }
    ends r = {logistic_lower(floor_div(least, 110)), logistic_upper(ceil_div(most, 110))};
    return r;
}
#endif
