/* The sets that the benchmarks of figures work, and their sheets. */
#include "params.h"

#include <stdio.h>

void realistic(params *p) {
    p->lilee = 0, p->start = 2013, p->c = 0;
    p->a = 96000000, p->theta = -2100000000, p->period = -9000000000, p->kappa = 4000000000;
    for (int x = 0; x < AGES; x++) {
        p->level[x] = -8500000000ll + 83000000ll * x + 1234567ll * (x % 7);
        p->slope[x] = 1100000 + 7001 * (x % 11);
        p->alpha[x] = 21000000ll * (x % 5) - 40000000;
        p->beta[x] = 400000 - 31000 * (x % 13);
    }
}

void later(params *p) {
    realistic(p);
    p->lilee = 1, p->start = 2027, p->c = -123456789;
}

size_t sheet_of(const params *p, char *text) {
    char *at = text;
    at += sprintf(at, "table=%s\nsex=M\na=%lld\ntheta=%lld\nK=%lld\nk=%lld\n", p->lilee ? "LILEE" : "AG2014", (long long)p->a,
        (long long)p->theta, (long long)p->period, (long long)p->kappa);
    if (p->lilee) at += sprintf(at, "start=%lld\nc=%lld\n", (long long)p->start, (long long)p->c);
    for (int x = 0; x < AGES; x++)
        at += sprintf(at, "A.%d=%lld\nB.%d=%lld\nal.%d=%lld\nbe.%d=%lld\n", x, (long long)p->level[x], x,
            (long long)p->slope[x], x, (long long)p->alpha[x], x, (long long)p->beta[x]);
    return (size_t)(at - text);
}
