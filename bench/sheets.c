/* The time to read 400 different valid sheets of each table, by kulfizan_read and by a plain reader in C, and to add up their bytes
   as words, turn by turn in one run. First all must read the same sets, and refuse the same damaged sheets with the same number. */
#include <stdio.h>
#include <stdlib.h>
#include <string.h>

#include "draw.h"
#include "kulfizan.h"
#include "sheet_reader.h"
#include "timing.h"
#include "word_sum.h"

#define SHEETS 400
#define TURNS 50

enum { AG2014, LILEE, TABLES };
static const char *const words[TABLES] = {"AG2014", "LILEE"};

/* The sheets of a table, and the sum of the words of each. */
static struct {
    uint8_t text[SHEETS][KULFIZAN_LONGEST_SHEET + 1];
    size_t length[SHEETS];
    uint64_t sum[SHEETS];
} all_of[TABLES];

static int64_t ours[KULFIZAN_SET_LENGTH];
static struct sheet theirs;

static int64_t either_side(int64_t most) {
    return draw(1) ? draw(most) : -draw(most);
}

static void put_line(int table, int i, const char *key, int64_t v) {
    char *end = (char *)all_of[table].text[i] + all_of[table].length[i];
    all_of[table].length[i] += (size_t)sprintf(end, "%s=%lld\n", key, (long long)v);
}

static void put_age_line(int table, int i, const char *name, int age, int64_t most) {
    char key[16];
    sprintf(key, "%s.%d", name, age);
    put_line(table, i, key, either_side(most));
}

/* Of LILEE kappa and its constant are such that kappa is within its limit in all years, whatever a is. */
static void make_sheet(int table, int i) {
    const char sex = i % 2 ? 'F' : 'M';
    all_of[table].length[i] = (size_t)sprintf((char *)all_of[table].text[i], "table=%s\nsex=%c\n", words[table], sex);
    put_line(table, i, "a", either_side(100000000));
    put_line(table, i, "theta", either_side(1000000000));
    put_line(table, i, "K", either_side(300000000000));
    put_line(table, i, "k", either_side(table == LILEE ? 25000000000 : 50000000000));
    if (table == LILEE) {
        put_line(table, i, "start", 2013 + draw(20));
        put_line(table, i, "c", either_side(140000000));
    }
    for (int x = 0; x < AGES; x++) {
        put_age_line(table, i, "A", x, 40000000000);
        put_age_line(table, i, "B", x, 10000000);
        put_age_line(table, i, "al", x, 40000000000);
        put_age_line(table, i, "be", x, 10000000);
    }
}

/* The sum that word_sum gives, made byte by byte. */
static uint64_t sum_of(int table, int i) {
    size_t length = all_of[table].length[i], whole = length - length % 8;
    uint64_t out = 0;
    for (size_t at = 0; at < length; at++)
        out += (uint64_t)all_of[table].text[i][at] << (at < whole ? 8 * (at % 8) : 0);
    return out;
}

#define READER_ROW(by) NAMED(sheet, by),
#define SUM_ROW(by) NAMED(word_sum, by),
static sheet_in_c *const in_c[] = {EACH_COMPILER(READER_ROW)};
static word_sum_in_c *const sum_in_c[] = {EACH_COMPILER(SUM_ROW)};
static const int compilers = sizeof in_c / sizeof in_c[0];

static int library_no(int table, int i, size_t len) {
    return kulfizan_read(all_of[table].text[i], len, ours, KULFIZAN_SET_LENGTH);
}

static int plain_no(int by, int table, int i, size_t len) {
    return in_c[by](all_of[table].text[i], len, &theirs);
}

/* A refused sheet ends the run. */
static void none_refused(int refused) {
    if (refused) {
        puts("a valid sheet was refused");
        exit(1);
    }
}

/* What a runner does is told by its number: the compiler, and then the table. */
static int runner_of(int by, int table) { return by * TABLES + table; }

static void by_library(int which) {
    int refused = 0, table = which % TABLES;
    for (int i = 0; i < SHEETS; i++)
        refused += library_no(table, i, all_of[table].length[i]);
    none_refused(refused);
}

static void by_c(int which) {
    int refused = 0, table = which % TABLES;
    for (int i = 0; i < SHEETS; i++)
        refused += plain_no(which / TABLES, table, i, all_of[table].length[i]);
    none_refused(refused);
}

/* Another sum than the one made beforehand ends the run. */
static void by_words(int which) {
    int differ = 0, table = which % TABLES;
    for (int i = 0; i < SHEETS; i++)
        differ += sum_in_c[which / TABLES](all_of[table].text[i], all_of[table].length[i]) != all_of[table].sum[i];
    if (differ) {
        puts("the sums differ");
        exit(1);
    }
}

/* Whether the library's numbers and the C's set are the same. */
static int same_set(void) {
    const int64_t head[] = {theirs.lilee, theirs.sex == 'F', theirs.a, theirs.theta, theirs.period, theirs.kappa, theirs.start,
        theirs.c};
    const int64_t *at = ours + sizeof head / sizeof head[0];
    int same = memcmp(ours, head, sizeof head) == 0;
    for (int x = 0; x < AGES; x++, at += 4)
        same = same && at[0] == theirs.level[x] && at[1] == theirs.slope[x] && at[2] == theirs.alpha[x]
            && at[3] == theirs.beta[x];
    return same;
}

/* All read the same sets. */
static void compare_sets(int table) {
    for (int i = 0; i < SHEETS; i++)
        for (int by = 0; by < compilers; by++) {
            size_t length = all_of[table].length[i];
            none_refused(library_no(table, i, length) + plain_no(by, table, i, length));
            if (!same_set()) {
                puts("the sets differ");
                exit(1);
            }
        }
}

/* All refuse the same damaged sheets with the same number: a digit changed, a byte cut. Some are damaged in their first lines. */
static void compare_damaged(int table) {
    for (int i = 0; i < SHEETS; i++) {
        size_t length = all_of[table].length[i], at = (size_t)draw((i % 4 ? (int64_t)length : 100) - 1);
        uint8_t *byte = all_of[table].text[i] + at, kept = *byte;
        *byte = (uint8_t)('0' + draw(9));
        int no = library_no(table, i, length), same = library_no(table, i, at) == KULFIZAN_TORN;
        for (int by = 0; by < compilers; by++)
            same = same && plain_no(by, table, i, length) == no && plain_no(by, table, i, at) == KULFIZAN_TORN;
        *byte = kept;
        if (!same) {
            puts("the readers differ");
            exit(1);
        }
    }
}

#define READER_RUNNER(by) {"plain C, " #by, by_c, 0, 0}, {"plain C, " #by ", LILEE", by_c, 0, 0},
#define SUM_RUNNER(by) {"word sum, " #by, by_words, 0, 0}, {"word sum, " #by ", LILEE", by_words, 0, 0},
static runner all[] = {{"proved library", by_library, 0, 0}, {"proved library, LILEE", by_library, 0, 0},
    EACH_COMPILER(READER_RUNNER) EACH_COMPILER(SUM_RUNNER)};
static const int runners = sizeof all / sizeof all[0];

/* The time of the fastest compiler's runner for a table, from a first one on. */
static double fastest_of(int first, int table) {
    double best = all[first + table].best;
    for (int by = 1; by < compilers; by++)
        if (all[first + runner_of(by, table)].best < best) best = all[first + runner_of(by, table)].best;
    return best;
}

int main(void) {
    const int readers = TABLES, sums = readers + compilers * TABLES;
    for (int table = 0; table < TABLES; table++) {
        for (int i = 0; i < SHEETS; i++) {
            make_sheet(table, i);
            all_of[table].sum[i] = sum_of(table, i);
        }
        compare_sets(table);
        compare_damaged(table);
        all[table].which = table;
        for (int by = 0; by < compilers; by++)
            all[readers + runner_of(by, table)].which = all[sums + runner_of(by, table)].which = runner_of(by, table);
    }
    take_turns(all, runners, TURNS);
    for (int i = 0; i < runners; i++)
        printf("%-22s %8.2f us a sheet, %.0f sheets a second\n", all[i].name, 1e6 * all[i].best / SHEETS, SHEETS / all[i].best);
    for (int table = 0; table < TABLES; table++) {
        printf("%d sheets of %s, the best of %d turns: library / faster C at -O3 %.2f (goal: below 1.00)\n", SHEETS, words[table],
            TURNS, all[table].best / fastest_of(readers, table));
        printf("library / adding up the same bytes as words %.2f (goal: at most 4)\n", all[table].best / fastest_of(sums, table));
    }
    printf("library, LILEE / AG2014 %.2f\n", all[LILEE].best / all[AG2014].best);
    return 0;
}
