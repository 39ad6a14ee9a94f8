/* Times annuities at 3% in one year by kulfizan_annuity and by the same grid in C, beside the expectancies of the same ages by
   kulfizan_quote, in turns in one run, on one set: cohort and period ones at all ages, and at 65. The library's ends are
   compared with the C's first, at several rates, also on a set of the table LILEE. The library reads the sheet in each call: as
   many calls with an age past the last, which read it too and are then refused, are timed in the same turns and taken off. */
#include <stdio.h>

#include "expectancy.h"
#include "same.h"
#include "timing.h"

/* The year that is timed, counted from the start: of AG2014 2020. */
enum { YEAR = 7, RATE_TIMED = 30000, LOADS = 4 };

/* What is timed: the annuities or expectancies of some ages, some times over in a turn; short turns are taken more often. */
typedef struct {
    const char *name;
    enum kind kind;
    int first, count, times, turns;
} load;

#define ANNUITY_ROW(by) NAMED(annuity, by),
static annuity_in_c *const in_c[] = {EACH_COMPILER(ANNUITY_ROW)};
static const int compilers = sizeof in_c / sizeof in_c[0];

static params set;
static char sheet[65536];
static size_t length;
static uint64_t quotes[KULFIZAN_QUOTE_LENGTH], theirs[2];
static load work;

/* The library's quote of an annuity in year n, and of an expectancy; the refusal's number, or 0. */
static int annuity(enum kind kind, int age, unsigned n, int64_t rate) {
    static const char *const words[] = {[COHORT] = "acoh", [PERIOD] = "aper"};
    return kulfizan_annuity((const uint8_t *)sheet, length, (const uint8_t *)words[kind], 4, age, set.start + n, 0, rate, quotes,
        KULFIZAN_QUOTE_LENGTH);
}

static int expectancy(enum kind kind, int age, unsigned n) {
    static const char *const words[] = {[COHORT] = "ecoh", [PERIOD] = "eper"};
    return kulfizan_quote((const uint8_t *)sheet, length, (const uint8_t *)words[kind], 4, age, set.start + n, 0, quotes,
        KULFIZAN_QUOTE_LENGTH);
}

/* The work of the load by the library; with `past` at an age past the last, so that the sheet is read alone. */
static void by_annuities(int past) {
    for (int i = 0; i < work.times; i++)
        for (int x = 0; x < work.count; x++) annuity(work.kind, past ? COLUMN : work.first + x, YEAR, RATE_TIMED);
}

static void by_expectancies(int past) {
    for (int i = 0; i < work.times; i++)
        for (int x = 0; x < work.count; x++) expectancy(work.kind, past ? COLUMN : work.first + x, YEAR);
}

static void by_c(int which) {
    for (int i = 0; i < work.times; i++)
        for (int x = 0; x < work.count; x++) in_c[which](&set, work.kind, work.first + x, YEAR, RATE_TIMED, theirs);
}

/* Whether the annuities of all ages in year n are the same by all, and refused past the last age and the highest rate. */
static int agree(enum kind kind, unsigned n, unsigned rate) {
    if (annuity(kind, COLUMN, n, rate) != KULFIZAN_NO_SUCH_AGE) return 0;
    if (expectancy(kind, COLUMN, n) != KULFIZAN_NO_SUCH_AGE) return 0;
    if (annuity(kind, 0, n, KULFIZAN_HIGHEST_RATE + 1) != KULFIZAN_NO_SUCH_RATE) return 0;
    for (int x = 0; x < COLUMN; x++) {
        if (annuity(kind, x, n, rate) != KULFIZAN_ACCEPTED) return 0;
        for (int i = 0; i < compilers; i++) {
            if (!in_c[i](&set, kind, x, n, rate, theirs)) return 0;
            if (!same(quotes, theirs, PRICE_STEP)) return 0;
        }
    }
    return 1;
}

/* Makes a set the one that is worked, and tells whether its annuities are the same by all. */
static int all_agree(void (*make)(params *)) {
    static const unsigned years[] = {1, YEAR, QUOTE_YEARS}, rates[] = {0, 1, RATE_TIMED, KULFIZAN_HIGHEST_RATE};
    make(&set);
    length = sheet_of(&set, sheet);
    for (int y = 0; y < 3; y++)
        for (int r = 0; r < 4; r++)
            if (!agree(COHORT, years[y], rates[r]) || !agree(PERIOD, years[y], rates[r])) return 0;
    return 1;
}

#define ANNUITY_RUNNER(by) {"annuity in C, " #by, by_c, 0, 0},
enum { ANNUITY, EXPECTANCY, READ_ANNUITY, READ_EXPECTANCY, FIRST_C, MOST_RUNNERS = FIRST_C + 2 };
static runner all[] = {{"annuity", by_annuities, 0, 0}, {"expectancy", by_expectancies, 0, 0},
    {"reading taken off", by_annuities, 1, 0}, {"reading taken off", by_expectancies, 1, 0}, EACH_COMPILER(ANNUITY_RUNNER)};
static const int runners = sizeof all / sizeof all[0];

/* Each runner's time for a quote of the load, the library's without reading; the faster C's is given. */
static double time_load(const load *l, double *took) {
    work = *l;
    take_turns(all, runners, l->turns);
    all[ANNUITY].best -= all[READ_ANNUITY].best;
    all[EXPECTANCY].best -= all[READ_EXPECTANCY].best;
    for (int i = 0; i < runners; i++) took[i] = all[i].best / (l->count * l->times);
    return fastest(all + FIRST_C, compilers) / (l->count * l->times);
}

int main(void) {
    const load loads[LOADS] = {{"cohort, mean", COHORT, 0, COLUMN, 1, 40}, {"cohort at 65", COHORT, 65, 1, 20, 200},
        {"period, mean", PERIOD, 0, COLUMN, 1, 200}, {"period at 65", PERIOD, 65, 1, 20, 1000}};
    double took[LOADS][MOST_RUNNERS], best_c[LOADS];
    if (!all_agree(later) || !all_agree(realistic)) {
        puts("the annuities differ");
        return 1;
    }
    for (int i = 0; i < compilers; i++) all[FIRST_C + i].which = i;
    for (int l = 0; l < LOADS; l++) best_c[l] = time_load(loads + l, took[l]);
    printf("%-22s", "us a quote");
    for (int l = 0; l < LOADS; l++) printf(" %13s", loads[l].name);
    for (int i = 0; i < runners; i++) {
        printf("\n%-22s", all[i].name);
        for (int l = 0; l < LOADS; l++) printf(" %13.2f", 1e6 * took[l][i]);
    }
    printf("\n%-22s", "annuity / expectancy");
    for (int l = 0; l < LOADS; l++) printf(" %13.2f", took[l][ANNUITY] / took[l][EXPECTANCY]);
    printf(" (at most 1.20)\n%-22s", "annuity / faster C");
    for (int l = 0; l < LOADS; l++) printf(" %13.2f", took[l][ANNUITY] / best_c[l]);
    puts("");
    return 0;
}
