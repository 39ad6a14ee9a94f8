/* Times a whole column judged, q at 121 ages in one year, by kulfizan_verdict and by the same grid in C, beside its values by
   Arb, in turns in one run, on one set. The library's ends are compared with the C's first, also on a set of the table LILEE, and
   Arb's middles must lie between them; the verdicts on each year's column, and on the same with one entry changed, must be the
   same. The C works the coarse grid alone: a year in which it leaves a figure open, which the library works again, is compared and
   not timed. The library reads the sheet and the column in each call: as many calls with a year before the first, which read both
   too and are then refused, are timed in the same turns and taken off. */
#include <inttypes.h>
#include <stdio.h>

#include "column.h"
#include "same.h"
#include "timing.h"

enum { TURNS = 200, YEARS = QUOTE_YEARS, LONGEST_ENTRY = 20, CHANGED_AGE = 65 };

#define COLUMN_ROW(by) NAMED(column, by),
static column_in_c *const in_c[] = {EACH_COMPILER(COLUMN_ROW)};
static const int compilers = sizeof in_c / sizeof in_c[0];

/* A published column: its steps by age, and its text. */
typedef struct {
    uint64_t entries[COLUMN];
    char text[COLUMN * LONGEST_ENTRY];
    size_t length;
} column;

static params set;
static char sheet[65536];
static size_t length;
static column columns[YEARS + 1];
static uint64_t ours[COLUMN][KULFIZAN_QUOTE_LENGTH], theirs[2 * COLUMN];
static double middles[COLUMN];
/* The years that are timed, counted from the start. */
static unsigned timed[YEARS];
static int years;

/* The verdict by the library in year n, or -1 and the refusal's number under it. */
static int judged(unsigned n, const column *c) {
    uint64_t verdict = 0;
    int no = kulfizan_verdict((const uint8_t *)sheet, length, set.start + n, (const uint8_t *)c->text, c->length, &verdict);
    return no == KULFIZAN_ACCEPTED ? (int)verdict : -1 - no;
}

static void by_library(int which) {
    (void)which;
    for (int i = 0; i < years; i++) judged(timed[i], columns + timed[i]);
}

static void by_reading(int which) {
    (void)which;
    for (int i = 0; i < years; i++) judged(0, columns + timed[i]);
}

static void by_c(int which) {
    for (int i = 0; i < years; i++) in_c[which](&set, timed[i], columns[timed[i]].entries, theirs);
}

static void by_arb(int which) {
    (void)which;
    for (int i = 0; i < years; i++) column_by_arb(&set, timed[i], middles);
}

static void put_text(column *c) {
    char *at = c->text;
    for (int x = 0; x < COLUMN; x++)
        at += sprintf(at, "age=%d q=%" PRIu64 ".%05" PRIu64 "\n", x, c->entries[x] / 100000, c->entries[x] % 100000);
    c->length = (size_t)(at - c->text);
}

/* The quotes of year n by the library, and the column of their figures; returns how many are worked again, or -1 where one is
   refused or open. */
static int work_column(unsigned n, column *c) {
    int worked_again = 0;
    for (int x = 0; x < COLUMN; x++) {
        if (kulfizan_quote((const uint8_t *)sheet, length, (const uint8_t *)"q", 1, x, set.start + n, 0, ours[x],
                KULFIZAN_QUOTE_LENGTH) != KULFIZAN_ACCEPTED || !ours[x][2])
            return -1;
        c->entries[x] = ours[x][3];
        worked_again += again(ours[x]);
    }
    put_text(c);
    return worked_again;
}

/* Whether a column has a verdict by the library, and one by the C, whose ends are the library's. */
static int verdicts(unsigned n, const column *c, int verdict, int by_coarse) {
    if (judged(n, c) != verdict) return 0;
    for (int i = 0; i < compilers; i++) {
        if (in_c[i](&set, n, c->entries, theirs) != by_coarse) return 0;
        for (int x = 0; x < COLUMN; x++)
            if (!same(ours[x], theirs + 2 * x, CHANCE_STEP)) return 0;
    }
    return 1;
}

/* Whether the column of year n is the same by all; it is timed where no figure is worked again. */
static int agree(unsigned n) {
    static column other;
    int worked_again = work_column(n, columns + n);
    if (worked_again < 0 || !verdicts(n, columns + n, KULFIZAN_RIGHT, worked_again ? KULFIZAN_OPEN : KULFIZAN_RIGHT)) return 0;
    if (judged(0, columns + n) != -1 - KULFIZAN_NO_SUCH_YEAR) return 0;
    other = columns[n];
    other.entries[CHANGED_AGE] ^= 1;
    put_text(&other);
    if (!again(ours[CHANGED_AGE]) && !verdicts(n, &other, KULFIZAN_WRONG, KULFIZAN_WRONG)) return 0;
    column_by_arb(&set, n, middles);
    for (int x = 0; x < COLUMN; x++)
        if (!between(ours[x], again(ours[x]) ? 1e13 : 1e9, middles[x])) return 0;
    if (!worked_again) timed[years++] = n;
    return 1;
}

#define COLUMN_RUNNER(by) {"grid in C, " #by, by_c, 0, 0},
enum { LIBRARY, ARB, FIRST_C };
static runner all[] = {{"proved library", by_library, 0, 0}, {"Arb at 64 bits", by_arb, 0, 0},
    EACH_COMPILER(COLUMN_RUNNER) {"reading taken off", by_reading, 0, 0}};
static const int runners = sizeof all / sizeof all[0];

/* Makes a set the one that is worked, and tells whether all its columns are the same by all. */
static int all_agree(void (*make)(params *)) {
    make(&set);
    length = sheet_of(&set, sheet);
    years = 0;
    for (unsigned n = 1; n <= YEARS; n++)
        if (!agree(n)) {
            printf("the columns of %d differ\n", (int)set.start + (int)n);
            return 0;
        }
    return 1;
}

int main(void) {
    if (!all_agree(later) || !all_agree(realistic)) return 1;
    for (int i = 0; i < compilers; i++) all[FIRST_C + i].which = i;
    take_turns(all, runners, TURNS);
    all[LIBRARY].best -= all[runners - 1].best;
    for (int i = 0; i < runners; i++) printf("%-17s %8.2f us a column\n", all[i].name, 1e6 * all[i].best / years);
    printf("%d of %d years, in which no figure is worked again\n", years, YEARS);
    printf("library / faster C %.2f (at most 1.20, goal 1.00); Arb / library %.2f (at least 4.00)\n",
        all[LIBRARY].best / fastest(all + FIRST_C, compilers), all[ARB].best / all[LIBRARY].best);
    return 0;
}
