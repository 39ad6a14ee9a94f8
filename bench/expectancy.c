/* Times life expectancies in one year by kulfizan_quote, by the same grid in C and by Arb, in turns in one run, on one set:
   cohort ones at all ages, a period one at 65 and a cohort one at 65; and what factors past 120 cost, along the cohort and in
   one year. The library's ends are compared with the C's first, also on a set of the table LILEE, and Arb's middles must lie
   between them; the C works the coarse grid alone, and no expectancy that is timed is worked again. The library reads the sheet in
   each call: as many calls with an age past the last, which read it too and are then refused, are timed in the same turns and
   taken off. */
#include <stdio.h>

#include "expectancy.h"
#include "same.h"
#include "timing.h"

/* Years, counted from the start: of AG2014 2014, 2020 and 2064. */
enum { FIRST_YEAR = 1, YEAR = 7, LAST_YEAR = QUOTE_YEARS };

/* What is timed: the expectancies of some ages in year n, some times over in a turn; short turns are taken more often. */
typedef struct {
    const char *name;
    enum kind kind;
    int first, count, times, turns;
    unsigned n;
} load;

#define EXPECTANCY_ROW(by) NAMED(expectancy, by),
static expectancy_in_c *const in_c[] = {EACH_COMPILER(EXPECTANCY_ROW)};
static const int compilers = sizeof in_c / sizeof in_c[0];

static params set;
static char sheet[65536];
static size_t length;
static uint64_t ours[COLUMN][KULFIZAN_QUOTE_LENGTH], theirs[2 * COLUMN];
static double middles[COLUMN];
static load work;

/* The quote of an expectancy by the library; the refusal's number, or 0. */
static int library(enum kind kind, int age, unsigned n, uint64_t *quote) {
    static const char *const words[] = {[COHORT] = "ecoh", [PERIOD] = "eper"};
    return kulfizan_quote((const uint8_t *)sheet, length, (const uint8_t *)words[kind], 4, age, set.start + n, 0, quote,
        KULFIZAN_QUOTE_LENGTH);
}

static void by_library(int which) {
    (void)which;
    for (int i = 0; i < work.times; i++)
        for (int x = 0; x < work.count; x++) library(work.kind, work.first + x, work.n, ours[x]);
}

static void by_reading(int which) {
    (void)which;
    for (int i = 0; i < work.times * work.count; i++) library(work.kind, COLUMN, work.n, ours[0]);
}

static void by_c(int which) {
    for (int i = 0; i < work.times; i++)
        for (int x = 0; x < work.count; x++) in_c[which](&set, work.kind, work.first + x, work.n, theirs + 2 * x);
}

static void by_arb(int which) {
    (void)which;
    for (int i = 0; i < work.times; i++)
        for (int x = 0; x < work.count; x++) middles[x] = expectancy_by_arb(&set, work.kind, work.first + x, work.n);
}

/* Whether the expectancies of all ages in year n are the same by all. */
static int agree(enum kind kind, unsigned n) {
    if (library(kind, COLUMN, n, ours[0]) != KULFIZAN_NO_SUCH_AGE) return 0;
    for (int x = 0; x < COLUMN; x++) {
        if (library(kind, x, n, ours[x]) != KULFIZAN_ACCEPTED) return 0;
        for (int i = 0; i < compilers; i++)
            if (!in_c[i](&set, kind, x, n, theirs + 2 * x) || !same(ours[x], theirs + 2 * x, EXPECTANCY_STEP)) return 0;
        if (!between(ours[x], again(ours[x]) ? 1e13 : 1e9, expectancy_by_arb(&set, kind, x, n))) return 0;
    }
    return 1;
}

/* Makes a set the one that is worked, and tells whether all its expectancies of three years are the same by all. */
static int all_agree(void (*make)(params *)) {
    static const unsigned years[] = {FIRST_YEAR, YEAR, LAST_YEAR};
    make(&set);
    length = sheet_of(&set, sheet);
    for (int i = 0; i < 3; i++)
        if (!agree(COHORT, years[i]) || !agree(PERIOD, years[i])) {
            printf("the expectancies of %d differ\n", (int)set.start + (int)years[i]);
            return 0;
        }
    return 1;
}

#define EXPECTANCY_RUNNER(by) {"grid in C, " #by, by_c, 0, 0},
enum { LIBRARY, ARB, FIRST_C, MOST_RUNNERS = FIRST_C + 3 };
enum { MEAN, COHORT_65, PERIOD_65, COHORT_91, COHORT_120, LONGEST, SHORTEST, LOADS };
static runner all[] = {{"proved library", by_library, 0, 0}, {"Arb at 64 bits", by_arb, 0, 0},
    EACH_COMPILER(EXPECTANCY_RUNNER) {"reading taken off", by_reading, 0, 0}};
static const int runners = sizeof all / sizeof all[0];

/* Each runner's time for an expectancy of the load, the library's without reading; the faster C's is given. */
static double time_load(const load *l, double *took) {
    const int reading = runners - 1;
    work = *l;
    take_turns(all, runners, l->turns);
    for (int x = 0; x < l->count; x++)
        if (library(l->kind, l->first + x, l->n, ours[x]) != KULFIZAN_ACCEPTED || again(ours[x]))
            printf("%s is worked again at %d\n", l->name, l->first + x);
    all[LIBRARY].best -= all[reading].best;
    for (int i = 0; i < runners; i++) took[i] = all[i].best / (l->count * l->times);
    return fastest(all + FIRST_C, compilers) / (l->count * l->times);
}

int main(void) {
    const load loads[LOADS] = {{"cohort, mean", COHORT, 0, COLUMN, 1, 40, YEAR},
        {"cohort at 65", COHORT, 65, 1, 20, 200, YEAR}, {"period at 65", PERIOD, 65, 1, 20, 1000, YEAR},
        {"cohort at 91", COHORT, 91, 1, 20, 100, YEAR}, {"cohort at 120", COHORT, OLDEST, 1, 20, 100, YEAR},
        {"120 in 2014", PERIOD, OLDEST, 1, 20, 1000, FIRST_YEAR}, {"120 in 2064", PERIOD, OLDEST, 1, 20, 1000, LAST_YEAR}};
    double took[LOADS][MOST_RUNNERS], best_c[LOADS];
    if (!all_agree(later) || !all_agree(realistic)) return 1;
    for (int i = 0; i < compilers; i++) all[FIRST_C + i].which = i;
    for (int l = 0; l < LOADS; l++) best_c[l] = time_load(loads + l, took[l]);
    printf("%-17s", "us an expectancy");
    for (int l = 0; l < LOADS; l++) printf(" %13s", loads[l].name);
    for (int i = 0; i < runners; i++) {
        printf("\n%-17s", all[i].name);
        for (int l = 0; l < LOADS; l++) printf(" %13.2f", 1e6 * took[l][i]);
    }
    printf("\ncohort, mean: library / faster C %.2f (at most 1.10, goal 1.00); Arb / library %.2f (at least 10.00)\n",
        took[MEAN][LIBRARY] / best_c[MEAN], took[MEAN][ARB] / took[MEAN][LIBRARY]);
    printf("at 65, library: period / cohort %.2f (below 0.20)\n", took[PERIOD_65][LIBRARY] / took[COHORT_65][LIBRARY]);
    printf("cohort, all %d factors past 120 / from 91 on: library %.2f, faster C %.2f\n", years_on(YEAR),
        took[COHORT_120][LIBRARY] / took[COHORT_91][LIBRARY], best_c[COHORT_120] / best_c[COHORT_91]);
    printf("period at 120, %d factors / %d: library %.2f, faster C %.2f\n", years_on(FIRST_YEAR), years_on(LAST_YEAR),
        took[LONGEST][LIBRARY] / took[SHORTEST][LIBRARY], best_c[LONGEST] / best_c[SHORTEST]);
    return 0;
}
