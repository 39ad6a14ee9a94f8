/* Times survival to a day by kulfizan_day and by the same grid in C, beside the cohort's survival over as many years by
   kulfizan_quote, the last of them whole, so that both work the same cells, in turns in one run, on one set. The library's ends
   are compared with the C's first, on several days of each year of a life, and on 1 January with the cohort's, also on a set of
   the table LILEE. The library reads the sheet in each call: as many calls with an age past the last, which read it too and are
   then refused, are timed in the same turns and taken off. */
#include <stdio.h>
#include <string.h>

#include "expectancy.h"
#include "same.h"
#include "timing.h"

/* The year that is timed, counted from the start: of AG2014 2020. */
enum { YEAR = 7, MIDYEAR = 701, LOADS = 4 };

/* What is timed: survival at some ages to the middle of the year in which an age is held, some times over in a turn; short turns
   are taken more often. */
typedef struct {
    const char *name;
    int first, count, held, times, turns;
} load;

#define DAY_ROW(by) NAMED(day, by),
static day_in_c *const in_c[] = {EACH_COMPILER(DAY_ROW)};
static const int compilers = sizeof in_c / sizeof in_c[0];

static params set;
static char sheet[65536];
static size_t length;
static uint64_t quotes[KULFIZAN_QUOTE_LENGTH], theirs[2];
static load work;

/* The library's survival from year n to a date MMDD after some whole years, and over a span; the refusal's number, or 0. */
static int day(int age, unsigned n, int whole, int date) {
    return kulfizan_day((const uint8_t *)sheet, length, age, set.start + n, (set.start + n + whole) * 10000 + date, quotes,
        KULFIZAN_QUOTE_LENGTH);
}

static int cohort(int age, unsigned n, int span) {
    return kulfizan_quote((const uint8_t *)sheet, length, (const uint8_t *)"coh", 3, age, set.start + n, span, quotes,
        KULFIZAN_QUOTE_LENGTH);
}

/* The days of a year, and those of it before a date MMDD. */
static unsigned days_of(int year) { return year % 4 == 0 && (year % 100 != 0 || year % 400 == 0) ? 366 : 365; }

static unsigned days_before(int year, int date) {
    static const unsigned before[] = {0, 0, 31, 59, 90, 120, 151, 181, 212, 243, 273, 304, 334};
    return before[date / 100] + (date > 300 ? days_of(year) - 365 : 0) + (unsigned)(date % 100) - 1;
}

static int by_one_c(int which, int age, unsigned n, int whole, int date) {
    const int year = (int)set.start + (int)n + whole;
    return in_c[which](&set, age, n, whole, days_before(year, date), days_of(year), theirs);
}

/* The work of the load by the library; with `past` at an age past the last, so that the sheet is read alone. */
static void by_days(int past) {
    for (int i = 0; i < work.times; i++)
        for (int x = work.first; x < work.first + work.count; x++) day(past ? COLUMN : x, YEAR, work.held - x, MIDYEAR);
}

static void by_cohorts(int past) {
    for (int i = 0; i < work.times; i++)
        for (int x = work.first; x < work.first + work.count; x++) cohort(past ? COLUMN : x, YEAR, work.held - x + 1);
}

static void by_c(int which) {
    for (int i = 0; i < work.times; i++)
        for (int x = work.first; x < work.first + work.count; x++) by_one_c(which, x, YEAR, work.held - x, MIDYEAR);
}

/* Whether survival to a date is the same by all. */
static int agree(int age, unsigned n, int whole, int date) {
    uint64_t ours[KULFIZAN_QUOTE_LENGTH];
    if (day(age, n, whole, date) != KULFIZAN_ACCEPTED) return 0;
    memcpy(ours, quotes, sizeof ours);
    for (int i = 0; i < compilers; i++)
        if (!by_one_c(i, age, n, whole, date) || !same(ours, theirs, CHANCE_STEP)) return 0;
    if (date != 101) return 1;
    return cohort(age, n, whole) == KULFIZAN_ACCEPTED && memcmp(ours, quotes, sizeof ours) == 0;
}

/* Makes a set the one that is worked, and tells whether its survivals are the same by all; 2100 has no 29 February. */
static int all_agree(void (*make)(params *)) {
    static const unsigned years[] = {1, YEAR, QUOTE_YEARS};
    static const int ages[] = {0, 65, 89, 120}, dates[] = {101, 102, 228, 301, MIDYEAR, 1231};
    make(&set);
    length = sheet_of(&set, sheet);
    if (day(COLUMN, YEAR, 0, MIDYEAR) != KULFIZAN_NO_SUCH_AGE || cohort(COLUMN, YEAR, 0) != KULFIZAN_NO_SUCH_AGE) return 0;
    if (day(30, YEAR, 2100 - (int)set.start - YEAR, 229) != KULFIZAN_NO_SUCH_DATE) return 0;
    for (int y = 0; y < 3; y++)
        for (int a = 0; a < 4; a++)
            for (int whole = 0; whole <= OLDEST - ages[a]; whole++)
                for (int d = 0; d < 6; d++)
                    if (!agree(ages[a], years[y], whole, dates[d])) return 0;
    return 1;
}

#define DAY_RUNNER(by) {"day in C, " #by, by_c, 0, 0},
enum { DAY, COHORT_SPAN, READ_DAY, READ_COHORT, FIRST_C, MOST_RUNNERS = FIRST_C + 2 };
static runner all[] = {{"day", by_days, 0, 0}, {"cohort, last year whole", by_cohorts, 0, 0},
    {"reading taken off", by_days, 1, 0}, {"reading taken off", by_cohorts, 1, 0}, EACH_COMPILER(DAY_RUNNER)};
static const int runners = sizeof all / sizeof all[0];

/* Each runner's time for a quote of the load, the library's without reading; the faster C's is given. */
static double time_load(const load *l, double *took) {
    work = *l;
    take_turns(all, runners, l->turns);
    all[DAY].best -= all[READ_DAY].best;
    all[COHORT_SPAN].best -= all[READ_COHORT].best;
    for (int i = 0; i < runners; i++) took[i] = all[i].best / (l->count * l->times);
    return fastest(all + FIRST_C, compilers) / (l->count * l->times);
}

int main(void) {
    const load loads[LOADS] = {{"to 120, mean", 0, COLUMN, OLDEST, 1, 60}, {"65 to 120", 65, 1, OLDEST, 20, 200},
        {"65 to 85", 65, 1, 85, 50, 1000}, {"30 to 90", 30, 1, 90, 20, 1000}};
    double took[LOADS][MOST_RUNNERS], best_c[LOADS];
    if (!all_agree(later) || !all_agree(realistic)) {
        puts("the survivals differ");
        return 1;
    }
    for (int i = 0; i < compilers; i++) all[FIRST_C + i].which = i;
    for (int l = 0; l < LOADS; l++) best_c[l] = time_load(loads + l, took[l]);
    printf("%-23s", "us a quote");
    for (int l = 0; l < LOADS; l++) printf(" %13s", loads[l].name);
    for (int i = 0; i < runners; i++) {
        printf("\n%-23s", all[i].name);
        for (int l = 0; l < LOADS; l++) printf(" %13.2f", 1e6 * took[l][i]);
    }
    printf("\n%-23s", "day / cohort");
    for (int l = 0; l < LOADS; l++) printf(" %13.2f", took[l][DAY] / took[l][COHORT_SPAN]);
    printf(" (at most 1.10)\n%-23s", "day / faster C");
    for (int l = 0; l < LOADS; l++) printf(" %13.2f", took[l][DAY] / best_c[l]);
    puts("");
    return 0;
}
