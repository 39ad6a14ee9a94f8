/* Times expectancies of couples in one year by kulfizan_couple and by the same grid in C, beside the expectancy of one life of
   the same age by kulfizan_quote, in turns in one run, on two sets: both lives of one age, at all ages, and at 65. The library's
   ends are compared with the C's first, also at two ages and on sets of the table LILEE. The C works the coarse grid alone: an age
   of which a quote is worked again is not timed. The library reads both sheets in each call: as many calls with ages past the last,
   which read them too and are then refused, are timed in the same turns and taken off. */
#include <stdio.h>
#include <string.h>

#include "expectancy.h"
#include "same.h"
#include "timing.h"

/* The year that is timed, counted from the start: of AG2014 2020. */
enum { YEAR = 7, LOADS = 2 };

/* What is timed: the expectancies of some ages, each age in turns of its own, which are short, so that a turn is seldom
   interrupted, and some times over in a turn. */
typedef struct {
    const char *name;
    int first, count, times, turns;
} load;

#define COUPLE_ROW(by) NAMED(couple, by),
static couple_in_c *const in_c[] = {EACH_COMPILER(COUPLE_ROW)};
static const int compilers = sizeof in_c / sizeof in_c[0];

static params set, other;
static char sheet[65536], other_sheet[65536];
static size_t length, other_length;
static uint64_t quotes[KULFIZAN_QUOTE_LENGTH], theirs[2];
static int age, times;

/* The library's quote of a couple in year n, and of one life; the refusal's number, or 0. */
static int couple(enum status status, int x, int other_x, unsigned n) {
    static const char *const words[] = {[JOINT_LIFE] = "ejoint", [LAST_SURVIVOR] = "elast"};
    return kulfizan_couple((const uint8_t *)sheet, length, (const uint8_t *)other_sheet, other_length,
        (const uint8_t *)words[status], strlen(words[status]), x, other_x, set.start + n, 0, quotes, KULFIZAN_QUOTE_LENGTH);
}

static int single(int x, unsigned n) {
    return kulfizan_quote((const uint8_t *)sheet, length, (const uint8_t *)"ecoh", 4, x, set.start + n, 0, quotes,
        KULFIZAN_QUOTE_LENGTH);
}

/* The work of an age by the library, and at ages past the last, so that the sheets are read alone. */
static void by_couples(int status) {
    for (int i = 0; i < times; i++) couple((enum status)status, age, age, YEAR);
}

static void by_singles(int past) {
    for (int i = 0; i < times; i++) single(past ? COLUMN : age, YEAR);
}

static void by_reading(int status) {
    for (int i = 0; i < times; i++) couple((enum status)status, COLUMN, COLUMN, YEAR);
}

/* The work by a compiler's C, of which the first half of the numbers are joint lives. */
static void by_c(int which) {
    const enum status status = which < compilers ? JOINT_LIFE : LAST_SURVIVOR;
    for (int i = 0; i < times; i++) in_c[which % compilers](&set, &other, status, age, age, YEAR, theirs);
}

/* Whether the expectancies of two ages in year n are the same by all. */
static int agree(enum status status, int x, int other_x, unsigned n) {
    if (couple(status, x, other_x, n) != KULFIZAN_ACCEPTED) return 0;
    for (int i = 0; i < compilers; i++)
        if (!in_c[i](&set, &other, status, x, other_x, n, theirs) || !same(quotes, theirs, EXPECTANCY_STEP)) return 0;
    return 1;
}

/* Makes two sets those that are worked, the second with another level and trend, and tells whether their expectancies are the
   same by all, and refused past the last age. */
static int all_agree(void (*make)(params *)) {
    static const unsigned years[] = {1, YEAR, QUOTE_YEARS};
    make(&set);
    other = set;
    other.theta -= 123456789;
    for (int x = 0; x < AGES; x++) other.level[x] -= 150000000 + 1234567 * (x % 3);
    length = sheet_of(&set, sheet);
    other_length = sheet_of(&other, other_sheet);
    for (int status = JOINT_LIFE; status <= LAST_SURVIVOR; status++) {
        if (couple(status, COLUMN, COLUMN, YEAR) != KULFIZAN_NO_SUCH_AGE) return 0;
        for (int y = 0; y < 3; y++)
            for (int x = 0; x < COLUMN; x++)
                if (!agree(status, x, x, years[y]) || !agree(status, x, OLDEST - x, years[y])) return 0;
    }
    return single(COLUMN, YEAR) == KULFIZAN_NO_SUCH_AGE && single(65, YEAR) == KULFIZAN_ACCEPTED;
}

#define JOINT_RUNNER(by) {"ejoint in C, " #by, by_c, 0, 0},
#define LAST_RUNNER(by) {"elast in C, " #by, by_c, 0, 0},
enum { JOINT, LAST, SINGLE, READ_COUPLE, READ_SINGLE, FIRST_C, MOST_RUNNERS = FIRST_C + 4 };
static runner all[] = {{"ejoint", by_couples, JOINT_LIFE, 0}, {"elast", by_couples, LAST_SURVIVOR, 0},
    {"ecoh of one life", by_singles, 0, 0}, {"reading both taken off", by_reading, JOINT_LIFE, 0},
    {"reading one taken off", by_singles, 1, 0}, EACH_COMPILER(JOINT_RUNNER) EACH_COMPILER(LAST_RUNNER)};
static const int runners = sizeof all / sizeof all[0];

/* Whether a quote of the age that is timed is worked again. */
static int worked_again(void) {
    int found = 0;
    for (int status = JOINT_LIFE; status <= LAST_SURVIVOR; status++) {
        couple((enum status)status, age, age, YEAR);
        found |= again(quotes);
    }
    single(age, YEAR);
    return found | again(quotes);
}

/* Each runner's mean time for a quote of the load, the library's without reading; the faster C's of each status are given. */
static void time_load(const load *l, double *took, double *best_c) {
    double sums[MOST_RUNNERS] = {0};
    int count = 0;
    times = l->times;
    for (age = l->first; age < l->first + l->count; age++) {
        if (worked_again()) continue;
        take_turns(all, runners, l->turns);
        for (int i = 0; i < runners; i++) sums[i] += all[i].best;
        count++;
    }
    sums[JOINT] -= sums[READ_COUPLE];
    sums[LAST] -= sums[READ_COUPLE];
    sums[SINGLE] -= sums[READ_SINGLE];
    for (int i = 0; i < runners; i++) took[i] = all[i].best = sums[i] / (count * l->times);
    for (int s = 0; s < 2; s++) best_c[s] = fastest(all + FIRST_C + s * compilers, compilers);
}

int main(void) {
    const load loads[LOADS] = {{"mean", 0, COLUMN, 4, 16}, {"at 65", 65, 1, 4, 1000}};
    double took[LOADS][MOST_RUNNERS], best_c[LOADS][2];
    if (!all_agree(later) || !all_agree(realistic)) {
        puts("the expectancies of couples differ");
        return 1;
    }
    for (int i = FIRST_C; i < runners; i++) all[i].which = i - FIRST_C;
    for (int l = 0; l < LOADS; l++) time_load(loads + l, took[l], best_c[l]);
    printf("%-22s", "us a quote");
    for (int l = 0; l < LOADS; l++) printf(" %13s", loads[l].name);
    for (int i = 0; i < runners; i++) {
        printf("\n%-22s", all[i].name);
        for (int l = 0; l < LOADS; l++) printf(" %13.2f", 1e6 * took[l][i]);
    }
    printf("\n%-22s", "ejoint / ecoh");
    for (int l = 0; l < LOADS; l++) printf(" %13.2f", took[l][JOINT] / took[l][SINGLE]);
    printf(" (at most 2.20)\n%-22s", "elast / ecoh");
    for (int l = 0; l < LOADS; l++) printf(" %13.2f", took[l][LAST] / took[l][SINGLE]);
    printf("\n%-22s", "ejoint / faster C");
    for (int l = 0; l < LOADS; l++) printf(" %13.2f", took[l][JOINT] / best_c[l][0]);
    printf("\n%-22s", "elast / faster C");
    for (int l = 0; l < LOADS; l++) printf(" %13.2f", took[l][LAST] / best_c[l][1]);
    puts("");
    return 0;
}
