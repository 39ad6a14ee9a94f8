/* beside OLD NEW: an earlier library beside this one, each as a shared library: what is worked on the coarse grid alone, timed in
   turns in one run, on one set. An earlier library whose quotes have four numbers is lent five places too. Quotes, and years of
   columns, that this library works again are left out. The libraries read the sheet in each call: calls that read it too and are
   then refused are timed in the same turns and taken off. */
#include <dlfcn.h>
#include <inttypes.h>
#include <stdio.h>
#include <string.h>

#include "params.h"
#include "same.h"
#include "timing.h"

enum { YEAR = 7, AGE = 65, RATE_TIMED = 30000, RUN_QUERIES = 600, LONGEST_ENTRY = 20, LIBRARIES = 2 };

/* The calls of a library that are timed. */
typedef struct {
    __typeof__(&kulfizan_quote) quote;
    __typeof__(&kulfizan_annuity) annuity;
    __typeof__(&kulfizan_day) day;
    __typeof__(&kulfizan_couple) couple;
    __typeof__(&kulfizan_target) target;
    __typeof__(&kulfizan_verdict) verdict;
    __typeof__(&kulfizan_run) run;
    __typeof__(&kulfizan_read) read;
} library;

static library libraries[LIBRARIES];
static params set;
static uint8_t sheet[65536], input[65536], output[KULFIZAN_RUN_ROOM(65536)];
static size_t length, input_length;
static uint64_t quote[KULFIZAN_QUOTE_LENGTH], number;
static char columns[QUOTE_YEARS + 1][COLUMN * LONGEST_ENTRY];
static size_t column_lengths[QUOTE_YEARS + 1];
static const library *by;

static int load(const char *name, library *into) {
    void *found = dlopen(name, RTLD_NOW | RTLD_LOCAL);
    if (!found) {
        puts(dlerror());
        return 0;
    }
    void **const calls[] = {(void **)&into->quote, (void **)&into->annuity, (void **)&into->day, (void **)&into->couple,
        (void **)&into->target, (void **)&into->verdict, (void **)&into->run, (void **)&into->read};
    static const char *const names[] = {"kulfizan_quote", "kulfizan_annuity", "kulfizan_day", "kulfizan_couple", "kulfizan_target",
        "kulfizan_verdict", "kulfizan_run", "kulfizan_read"};
    for (size_t i = 0; i < sizeof calls / sizeof *calls; i++)
        if (!(*calls[i] = dlsym(found, names[i]))) return 0;
    return 1;
}

static int quoted(const char *kind, int64_t age, unsigned n, int64_t span) {
    return by->quote(sheet, length, (const uint8_t *)kind, strlen(kind), age, set.start + n, span, quote, KULFIZAN_QUOTE_LENGTH);
}

/* Whether this library works a quote again. */
static int is_again(const char *kind, int64_t age, unsigned n, int64_t span) {
    by = libraries + 1;
    return quoted(kind, age, n, span) != KULFIZAN_ACCEPTED || again(quote);
}

/* What is timed, by the library that is chosen; with `past` what reads the sheets and is then refused. */
static void cohorts(int past) {
    for (int x = 0; x < COLUMN; x++) quoted("ecoh", past ? COLUMN : x, YEAR, 0);
}
static void cohort(int past) { quoted("ecoh", past ? COLUMN : AGE, YEAR, 0); }
static void period(int past) { quoted("eper", past ? COLUMN : AGE, YEAR, 0); }
static void survival(int past) { quoted("coh", past ? COLUMN : AGE, YEAR, 20); }
static void deaths(int past) {
    for (int x = 0; x < COLUMN; x++) quoted("q", past ? COLUMN : x, YEAR, 0);
}
static void annuity(int past) {
    by->annuity(sheet, length, (const uint8_t *)"acoh", 4, past ? COLUMN : AGE, set.start + YEAR, 0, RATE_TIMED, quote,
        KULFIZAN_QUOTE_LENGTH);
}
static void day(int past) {
    by->day(sheet, length, past ? COLUMN : AGE, set.start + YEAR, (set.start + YEAR + 20) * 10000 + 701, quote,
        KULFIZAN_QUOTE_LENGTH);
}
static void couple(int past) {
    by->couple(sheet, length, sheet, length, (const uint8_t *)"elast", 5, past ? COLUMN : AGE, past ? COLUMN : AGE,
        set.start + YEAR, 0, quote, KULFIZAN_QUOTE_LENGTH);
}
static void target(int past) {
    int64_t year;
    by->target(sheet, length, past ? COLUMN : AGE, INT64_MAX, &number, &year);
}
static void column(int past) {
    for (unsigned n = 1; n <= QUOTE_YEARS; n++)
        if (column_lengths[n])
            by->verdict(sheet, length, past ? set.start : set.start + n, (const uint8_t *)columns[n], column_lengths[n], &number);
}
static void run(int past) { by->run(input, past ? length : input_length, 0, output, sizeof output, &number); }
static void reading(int past) {
    static int64_t values[KULFIZAN_SET_LENGTH];
    by->read(sheet, past ? 0 : length, values, KULFIZAN_SET_LENGTH);
}

typedef struct {
    const char *name;
    void (*work)(int past);
    int times, turns;
} load_of;

static const load_of loads[] = {{"cohort expectancies, all ages", cohorts, 1, 60}, {"cohort expectancy at 65", cohort, 20, 300},
    {"period expectancy at 65", period, 20, 1000}, {"cohort survival, 65 to 85", survival, 40, 1000},
    {"q, all ages alone", deaths, 1, 1000}, {"cohort annuity at 65", annuity, 20, 300},
    {"survival to a day, 65 to 85", day, 40, 1000}, {"couple's last survivor at 65", couple, 10, 300},
    {"year of a target at 65", target, 1, 600}, {"columns judged", column, 1, 300}, {"a run of queries", run, 1, 60},
    {"a sheet read", reading, 100, 300}};
static const load_of *work;

/* The two libraries' work and reading, as runners: the number's last bit is `past`, the one before it the library. */
static void turn(int which) {
    by = libraries + which / 2;
    for (int i = 0; i < work->times; i++) work->work(which % 2);
}

/* Puts down the columns of the years in which no figure is worked again, and how many there are. */
static int make_columns(void) {
    int count = 0;
    for (unsigned n = 1; n <= QUOTE_YEARS; n++) {
        char *at = columns[n];
        int worked_again = 0;
        for (int x = 0; x < COLUMN; x++) {
            worked_again |= is_again("q", x, n, 0);
            at += sprintf(at, "age=%d q=%" PRIu64 ".%05" PRIu64 "\n", x, quote[3] / 100000, quote[3] % 100000);
        }
        column_lengths[n] = worked_again ? 0 : (size_t)(at - columns[n]);
        count += !worked_again;
    }
    return count;
}

/* The sheet and queries of four kinds that are not worked again. */
static void make_input(void) {
    static const char *const kinds[] = {"q", "coh", "ecoh", "eper"};
    memcpy(input, sheet, length);
    input_length = length;
    for (int i = 0; i < RUN_QUERIES; i++) {
        const char *kind = kinds[i % 4];
        int age = i * 37 % COLUMN, span = i % 4 == 1 ? (COLUMN - age) / 2 : 0;
        unsigned n = 1 + (unsigned)(i * 7 % QUOTE_YEARS);
        if (!is_again(kind, age, n, span))
            input_length += (size_t)sprintf((char *)input + input_length, "kind=%s age=%d year=%d span=%d\n", kind, age,
                (int)set.start + (int)n, span);
    }
}

int main(int count, char **names) {
    if (count != 3 || !load(names[1], libraries) || !load(names[2], libraries + 1)) {
        puts("usage: beside OLD NEW, two shared libraries");
        return 1;
    }
    realistic(&set);
    length = sheet_of(&set, (char *)sheet);
    for (int x = 0; x < COLUMN; x++)
        if (is_again("ecoh", x, YEAR, 0)) printf("the expectancy at %d is worked again\n", x);
    printf("%d years of columns\n", make_columns());
    make_input();
    printf("%-30s %12s %12s %10s (at most 1.05)\n", "us, reading taken off", "earlier", "now", "now / then");
    for (size_t i = 0; i < sizeof loads / sizeof *loads; i++) {
        runner all[] = {{"", turn, 0, 0}, {"", turn, 2, 0}, {"", turn, 1, 0}, {"", turn, 3, 0}};
        work = loads + i;
        take_turns(all, 4, work->turns);
        double then = (all[0].best - all[2].best) / work->times, now_takes = (all[1].best - all[3].best) / work->times;
        printf("%-30s %12.2f %12.2f %10.3f\n", work->name, 1e6 * then, 1e6 * now_takes, now_takes / then);
    }
    return 0;
}
