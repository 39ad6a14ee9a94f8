/* fine SHEET...: what working again costs, by kulfizan_quote on the cohort expectancies of each sheet, at every age and in every
   quote year. Those whose quote names the fine unit are worked on both grids, and are timed in turns beside the one of the same
   age a year on or back, which is worked on the coarse grid alone: what they take more is the fine part. The whole list is timed
   too. The library reads the sheet in each call: calls with an age past the last, which read it too and are then refused, are
   timed in the same turns and taken off. */
#include <stdio.h>

#include "params.h"
#include "same.h"
#include "timing.h"

enum { TIMES = 10, TURNS = 60, PASSES = 4, MOST_FINE = 1000 };

/* A quote by its age and its year. */
typedef struct {
    int age;
    int64_t year;
} cell;

static uint8_t sheet[KULFIZAN_LONGEST_SHEET + 1];
static size_t length;
static int64_t first_year;
static uint64_t quote[KULFIZAN_QUOTE_LENGTH];
static cell again_at[MOST_FINE], beside[MOST_FINE];
/* Which of them is timed. */
static int place;

static int expectancy(int age, int64_t year) {
    return kulfizan_quote(sheet, length, (const uint8_t *)"ecoh", 4, age, year, 0, quote, KULFIZAN_QUOTE_LENGTH);
}

static int is_again(int age, int64_t year) { return expectancy(age, year) == KULFIZAN_ACCEPTED && again(quote); }

/* Reads a sheet and its first quote year. */
static int read_sheet(const char *name) {
    static int64_t set[KULFIZAN_SET_LENGTH];
    FILE *file = fopen(name, "rb");
    length = file ? fread(sheet, 1, sizeof sheet, file) : 0;
    if (file) fclose(file);
    if (kulfizan_read(sheet, length, set, KULFIZAN_SET_LENGTH) != KULFIZAN_ACCEPTED) return 0;
    first_year = set[6] + 1;
    return 1;
}

/* The cells that are worked again, each with one of its age that is not, in the first year on or back. */
static int search(void) {
    int count = 0;
    for (int age = 0; age < COLUMN; age++)
        for (int n = 0; n < QUOTE_YEARS && count < MOST_FINE; n++) {
            if (!is_again(age, first_year + n)) continue;
            int near = n + 1 < QUOTE_YEARS ? n + 1 : n - 1;
            if (is_again(age, first_year + near)) continue;
            again_at[count] = (cell){age, first_year + n};
            beside[count++] = (cell){age, first_year + near};
        }
    return count;
}

/* The whole list. */
static void by_list(int which) {
    (void)which;
    for (int age = 0; age < COLUMN; age++)
        for (int n = 0; n < QUOTE_YEARS; n++) expectancy(age, first_year + n);
}

/* A cell that is worked again, the one beside it, and its sheet read alone. */
enum { AGAIN, COARSE, READING, RUNNERS };

static void by_cell(int which) {
    const cell *at = which == AGAIN ? again_at + place : beside + place;
    for (int i = 0; i < TIMES; i++) expectancy(which == READING ? COLUMN : at->age, at->year);
}

/* The times of a sheet's coarse and fine parts and of its list, added up. */
static int time_sheet(const char *name, double *coarse, double *fine, double *list, int *count) {
    runner cells[RUNNERS] = {{"", by_cell, AGAIN, 0}, {"", by_cell, COARSE, 0}, {"", by_cell, READING, 0}};
    runner whole = {"", by_list, 0, 0};
    double own_coarse = 0, own_fine = 0, reading = 0;
    if (!read_sheet(name)) return 0;
    int found = search();
    for (place = 0; place < found; place++) {
        take_turns(cells, RUNNERS, TURNS);
        own_coarse += (cells[COARSE].best - cells[READING].best) / TIMES;
        own_fine += (cells[AGAIN].best - cells[COARSE].best) / TIMES;
        reading = cells[READING].best / TIMES;
    }
    take_turns(&whole, 1, PASSES);
    double own_list = whole.best - reading * COLUMN * QUOTE_YEARS;
    printf("%-28s %3d of %d worked again: coarse %7.2f us, fine part %8.2f us; list %8.2f ms, of which fine %.2f%%\n", name, found,
        COLUMN * QUOTE_YEARS, 1e6 * own_coarse / found, 1e6 * own_fine / found, 1e3 * own_list, 1e2 * own_fine / own_list);
    *coarse += own_coarse, *fine += own_fine, *list += own_list, *count += found;
    return found > 0;
}

int main(int count, char **names) {
    double coarse = 0, fine = 0, list = 0;
    int found = 0;
    for (int i = 1; i < count; i++)
        if (!time_sheet(names[i], &coarse, &fine, &list, &found)) {
            printf("%s is refused, or nothing of it is worked again\n", names[i]);
            return 1;
        }
    printf("%d cohort expectancies worked again: fine part / coarse %.2f (at most 7.00); fine work's share of the lists %.2f%%\n",
        found, fine / coarse, 1e2 * fine / list);
    return 0;
}
