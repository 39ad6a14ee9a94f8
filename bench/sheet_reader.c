/* A plain reader of the parameter sheet: one pass over the bytes, then the limits. */
#include "sheet_reader.h"

#include <stdbool.h>
#include <string.h>

#define FIRST_START 2013
#define LAST_START 2033
#define TABLE_YEARS 171
#define RATE 100000000
#define MOST_KAPPA 50000000000

struct cursor {
    const uint8_t *at, *end;
};

static bool take(struct cursor *c, const char *text) {
    size_t n = strlen(text);
    if ((size_t)(c->end - c->at) < n || memcmp(c->at, text, n) != 0)
        return false;
    c->at += n;
    return true;
}

static bool digit(const struct cursor *c) {
    return c->at < c->end && '0' <= *c->at && *c->at <= '9';
}

/* An optional minus and 1 to 15 digits, with no leading zero except 0 alone, and no -0. */
static bool take_number(struct cursor *c, int64_t *out) {
    bool minus = take(c, "-");
    if (!digit(c))
        return false;
    if (*c->at == '0') {
        c->at++;
        *out = 0;
        return !minus && !digit(c);
    }
    int64_t n = 0;
    int digits = 0;
    while (digit(c)) {
        if (++digits > 15)
            return false;
        n = 10 * n + (*c->at++ - '0');
    }
    *out = minus ? -n : n;
    return true;
}

static bool take_line(struct cursor *c, const char *name, const char *age, int64_t *out) {
    return take(c, name) && take(c, age) && take(c, "=") && take_number(c, out) && take(c, "\n");
}

static bool take_ages(struct cursor *c, struct sheet *s) {
    for (int x = 0; x < AGES; x++) {
        char age[3] = {0};
        if (x < 10) {
            age[0] = (char)('0' + x);
        } else {
            age[0] = (char)('0' + x / 10);
            age[1] = (char)('0' + x % 10);
        }
        if (!take_line(c, "A.", age, &s->level[x]) || !take_line(c, "B.", age, &s->slope[x])
            || !take_line(c, "al.", age, &s->alpha[x]) || !take_line(c, "be.", age, &s->beta[x]))
            return false;
    }
    return true;
}

/* The first line and the key of the second, and of AG2014 what its sheet does not say. */
static bool take_table(struct cursor *c, struct sheet *s) {
    s->lilee = 0, s->start = FIRST_START, s->c = 0;
    if (take(c, "table=AG2014\nsex="))
        return true;
    s->lilee = 1;
    return take(c, "table=LILEE\nsex=");
}

static bool take_sheet(struct cursor *c, struct sheet *s) {
    if (!take_table(c, s))
        return false;
    if (take(c, "M\n"))
        s->sex = 'M';
    else if (take(c, "F\n"))
        s->sex = 'F';
    else
        return false;
    return take_line(c, "a", "", &s->a) && take_line(c, "theta", "", &s->theta) && take_line(c, "K", "", &s->period)
        && take_line(c, "k", "", &s->kappa)
        && (!s->lilee || (take_line(c, "start", "", &s->start) && take_line(c, "c", "", &s->c))) && take_ages(c, s)
        && c->at == c->end;
}

static bool within(int64_t v, int64_t limit) {
    return -limit <= v && v <= limit;
}

static int64_t floor_div(int64_t n, int64_t d) { return n < 0 ? -1 - (-1 - n) / d : n / d; }

static int64_t ceil_div(int64_t n, int64_t d) { return n > 0 ? 1 + (n - 1) / d : n / d; }

/* Kappa's ends in all years, with numbers that are within their sizes. With no constant they never leave k's limit. */
static bool kappa_in_limits(const struct sheet *s) {
    int64_t lower = s->kappa, upper = s->kappa;
    for (int n = 0; n < TABLE_YEARS; n++) {
        int64_t least = s->a < 0 ? s->a * upper : s->a * lower, most = s->a < 0 ? s->a * lower : s->a * upper;
        lower = floor_div(least, RATE) + s->c;
        upper = ceil_div(most, RATE) + s->c;
        if (!within(lower, MOST_KAPPA) || !within(upper, MOST_KAPPA))
            return false;
    }
    return true;
}

static bool in_limits(const struct sheet *s) {
    if (s->lilee && (s->start < FIRST_START || s->start > LAST_START || !within(s->c, 10000000000)))
        return false;
    if (!within(s->a, 100000000) || !within(s->theta, 10000000000) || !within(s->period, 500000000000)
        || !within(s->period + TABLE_YEARS * s->theta, 500000000000) || !within(s->kappa, MOST_KAPPA))
        return false;
    for (int x = 0; x < AGES; x++)
        if (!within(s->level[x], 40000000000) || !within(s->slope[x], 10000000) || !within(s->alpha[x], 40000000000)
            || !within(s->beta[x], 10000000))
            return false;
    return !s->lilee || kappa_in_limits(s);
}

static int refused(int no, struct sheet *out) {
    memset(out, 0, sizeof *out);
    out->sex = 'M';
    out->start = FIRST_START;
    return no;
}

int COMPILED(sheet)(const uint8_t *bytes, size_t len, struct sheet *out) {
    struct cursor c = {bytes, bytes + len};
    if (len > 65536 || !take_sheet(&c, out))
        return refused(1, out);
    return in_limits(out) ? 0 : refused(2, out);
}
