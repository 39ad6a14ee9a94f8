/* Times the year in which the period expectancy at 65 reaches a target by kulfizan_target, beside the 51 period expectancies at
   65 by kulfizan_quote, one of each quote year, and by the same grid in C, in turns in one run, on one set: a target that the
   first year reaches, one that a year in the middle does, and one that none does. The library's answers are compared first with
   those that the C's coarse ends tell, at all ages, and at targets about the ends of some years, also on a set of the table
   LILEE. None of the expectancies that are timed is worked again. The library reads the sheet in each call, for a target once and
   for the quotes 51 times: as many calls with an age past the last, which read it too and are then refused, are timed in the same
   turns and taken off. */
#include <stdio.h>

#include "expectancy.h"
#include "same.h"
#include "timing.h"

enum { AGE = 65, TURNS = 1000, LOADS = 3 };

/* A target that is timed. */
typedef struct {
    const char *name;
    int64_t target;
} load;

#define EXPECTANCY_ROW(by) NAMED(expectancy, by),
static expectancy_in_c *const in_c[] = {EACH_COMPILER(EXPECTANCY_ROW)};
static const int compilers = sizeof in_c / sizeof in_c[0];

static params set;
static char sheet[65536];
static size_t length;
static uint64_t quote[KULFIZAN_QUOTE_LENGTH], theirs[QUOTE_YEARS][2], found;
static int64_t year, target;

/* The library's answer, and its expectancy in year n; the refusal's number, or 0. */
static int sought(int age, int64_t aim) {
    return kulfizan_target((const uint8_t *)sheet, length, age, aim, &found, &year);
}

static int expectancy(int age, int n) {
    return kulfizan_quote((const uint8_t *)sheet, length, (const uint8_t *)"eper", 4, age, set.start + n, 0, quote,
        KULFIZAN_QUOTE_LENGTH);
}

/* The work by the library; with `past` at an age past the last, so that the sheet is read alone. */
static void by_target(int past) { sought(past ? COLUMN : AGE, target); }

static void by_expectancies(int past) {
    for (int n = 1; n <= QUOTE_YEARS; n++) expectancy(past ? COLUMN : AGE, n);
}

static void by_c(int which) {
    for (int n = 1; n <= QUOTE_YEARS; n++) in_c[which](&set, PERIOD, AGE, n, theirs[n - 1]);
}

/* Whether the library's answer is the one that the ends of the 51 years tell. */
static int told(int age, int64_t aim) {
    if (sought(age, aim) != KULFIZAN_ACCEPTED) return 0;
    for (int n = 1; n <= QUOTE_YEARS; n++) {
        const uint64_t *ends = theirs[n - 1];
        if ((int64_t)ends[1] < aim) continue;
        return (int64_t)ends[0] < aim ? found == KULFIZAN_YEAR_OPEN : found == KULFIZAN_YEAR_NAMED && year == set.start + n;
    }
    return found == KULFIZAN_YEAR_NONE;
}

/* Whether the expectancies of an age are the same by all, and the targets about their ends are told by them. */
static int agree(int age) {
    for (int i = 0; i < compilers; i++)
        for (int n = 1; n <= QUOTE_YEARS; n++)
            if (!in_c[i](&set, PERIOD, age, n, theirs[n - 1]) || expectancy(age, n) != KULFIZAN_ACCEPTED ||
                !same(quote, theirs[n - 1], EXPECTANCY_STEP))
                return 0;
    for (int n = 1; n <= QUOTE_YEARS; n += 25)
        for (int by = -1; by <= 1; by++)
            if (!told(age, (int64_t)theirs[n - 1][0] + by) || !told(age, (int64_t)theirs[n - 1][1] + by)) return 0;
    return told(age, -1) && told(age, INT64_MAX);
}

/* Makes a set the one that is worked, and tells whether its answers are those of the ends, and refused past the last age. */
static int all_agree(void (*make)(params *)) {
    make(&set);
    length = sheet_of(&set, sheet);
    for (int age = 0; age < COLUMN; age++)
        if (!agree(age)) return 0;
    return sought(COLUMN, 0) == KULFIZAN_NO_SUCH_AGE && expectancy(COLUMN, 1) == KULFIZAN_NO_SUCH_AGE;
}

#define EXPECTANCIES_RUNNER(by) {"51 expectancies in C, " #by, by_c, 0, 0},
enum { TARGET, EXPECTANCIES, READ_ONCE, READ_EACH, FIRST_C, MOST_RUNNERS = FIRST_C + 2 };
static runner all[] = {{"a target, whole calls", by_target, 0, 0}, {"51 eper, whole calls", by_expectancies, 0, 0},
    {"reading the sheet", by_target, 1, 0}, {"reading it 51 times", by_expectancies, 1, 0}, EACH_COMPILER(EXPECTANCIES_RUNNER)};
static const int runners = sizeof all / sizeof all[0];

/* A line of figures, one for each load. */
static void row(const char *name, const double *figures, const char *form, const char *end) {
    printf("%-27s", name);
    for (int l = 0; l < LOADS; l++) printf(form, figures[l]);
    puts(end);
}

int main(void) {
    double took[MOST_RUNNERS][LOADS], worked[LOADS], beside[LOADS], ratio[LOADS], whole[LOADS], c[LOADS];
    if (!all_agree(later) || !all_agree(realistic)) {
        puts("the years of targets differ");
        return 1;
    }
    for (int n = 1; n <= QUOTE_YEARS; n++)
        if (expectancy(AGE, n) != KULFIZAN_ACCEPTED || again(quote)) printf("the expectancy of year %d is worked again\n", n);
    for (int i = FIRST_C; i < runners; i++) all[i].which = i - FIRST_C;
    by_c(0);
    const load loads[LOADS] = {{"first year", (int64_t)theirs[0][0]}, {"26th year", (int64_t)theirs[25][0]},
        {"none", (int64_t)theirs[QUOTE_YEARS - 1][1] + 1}};
    for (int l = 0; l < LOADS; l++) {
        target = loads[l].target;
        take_turns(all, runners, TURNS);
        for (int i = 0; i < runners; i++) took[i][l] = 1e6 * all[i].best;
        worked[l] = took[TARGET][l] - took[READ_ONCE][l];
        beside[l] = took[EXPECTANCIES][l] - took[READ_EACH][l];
        ratio[l] = worked[l] / beside[l];
        whole[l] = took[TARGET][l] / took[EXPECTANCIES][l];
        c[l] = worked[l] / (1e6 * fastest(all + FIRST_C, compilers));
    }
    printf("%-27s", "us, at 65, reached in the");
    for (int l = 0; l < LOADS; l++) printf(" %13s", loads[l].name);
    puts("");
    for (int i = 0; i < runners; i++) row(all[i].name, took[i], " %13.2f", "");
    row("a target, reading off", worked, " %13.2f", "");
    row("51 eper, reading off", beside, " %13.2f", "");
    row("target / 51, reading off", ratio, " %13.3f", " (at most 1.05)");
    row("target / 51, whole calls", whole, " %13.3f", "");
    row("target / faster C", c, " %13.3f", "");
    return 0;
}
