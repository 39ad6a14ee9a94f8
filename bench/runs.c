/* runs QUOTES INPUT OUTPUT: times 1,000 queries of all kinds over one sheet, in turns in one run: by the program QUOTES, from
   the file INPUT to the file OUTPUT, which are written and compared here; by kulfizan_run; and by kulfizan_quote, or
   kulfizan_annuity, for each query alone. The last reads the sheet in each call: as many calls with an age past the last, which
   read it too and are then refused, are timed in the same turns and taken off. The outputs must be the same, and each figure
   that of its quote. */
#include <fcntl.h>
#include <inttypes.h>
#include <spawn.h>
#include <stdio.h>
#include <stdlib.h>
#include <string.h>
#include <sys/wait.h>

#include "draw.h"
#include "kulfizan.h"
#include "params.h"
#include "timing.h"

enum { TURNS = 80, QUERIES = 1000, KINDS = 7, MOST_INPUT = 65536, LONGEST_LINE = KULFIZAN_RUN_ROOM(0) };

/* A kind: its word, how many years it has, whether it has spans, whether it has rates, and the decimals of its figure. */
typedef struct {
    const char *word;
    int years, spans, rates, decimals;
} kind;

static const kind kinds[KINDS] = {{"q", TABLE_YEARS, 0, 0, 5}, {"coh", QUOTE_YEARS, 1, 0, 5}, {"per", QUOTE_YEARS, 1, 0, 5},
    {"ecoh", QUOTE_YEARS, 0, 0, 2}, {"eper", QUOTE_YEARS, 0, 0, 2}, {"acoh", QUOTE_YEARS, 0, 1, 1},
    {"aper", QUOTE_YEARS, 0, 1, 1}};

typedef struct {
    const kind *kind;
    int age, year, span, rate;
} query;

static params set;
static query queries[QUERIES];
static char input[MOST_INPUT + LONGEST_LINE];
static size_t sheet_length, input_length;
static uint8_t printed[KULFIZAN_RUN_ROOM(MOST_INPUT)];
static uint64_t printed_length;
static char **arguments;

extern char **environ;

static void stop(const char *why) {
    puts(why);
    exit(1);
}

static query drawn(void) {
    const kind *k = kinds + draw(KINDS - 1);
    int age = (int)draw(COLUMN - 1), year = (int)set.start + 1 + (int)draw(k->years - 1);
    query q = {k, age, year, k->spans ? (int)draw(COLUMN - age) : 0, k->rates ? (int)draw(KULFIZAN_HIGHEST_RATE) : 0};
    return q;
}

static size_t put_query(const query *q, char *text) {
    int length = sprintf(text, "kind=%s age=%d year=%d span=%d", q->kind->word, q->age, q->year, q->span);
    return (size_t)(q->kind->rates ? length + sprintf(text + length, " rate=%d", q->rate) : length);
}

/* The sheet and the queries as one input, in its file too. */
static void make_input(const char *name) {
    realistic(&set);
    sheet_length = input_length = sheet_of(&set, input);
    for (int i = 0; i < QUERIES; i++) {
        queries[i] = drawn();
        input_length += put_query(queries + i, input + input_length);
        input[input_length++] = '\n';
        if (input_length > MOST_INPUT) stop("the input is too long");
    }
    FILE *file = fopen(name, "wb");
    if (file == NULL || fwrite(input, 1, input_length, file) != input_length || fclose(file) != 0)
        stop("the input is not written");
}

/* The program, from its start to its end. */
static void by_program(int which) {
    posix_spawn_file_actions_t files;
    char *const words[] = {arguments[1], NULL};
    pid_t child;
    int status, spawned;
    (void)which;
    posix_spawn_file_actions_init(&files);
    posix_spawn_file_actions_addopen(&files, 0, arguments[2], O_RDONLY, 0);
    posix_spawn_file_actions_addopen(&files, 1, arguments[3], O_WRONLY | O_CREAT | O_TRUNC, 0644);
    spawned = posix_spawn(&child, arguments[1], &files, NULL, words, environ);
    if (spawned != 0 || waitpid(child, &status, 0) != child || status != 0) stop("the program failed");
    posix_spawn_file_actions_destroy(&files);
}

static void by_run(int which) {
    (void)which;
    if (kulfizan_run((const uint8_t *)input, input_length, 0, printed, sizeof printed, &printed_length) != KULFIZAN_ACCEPTED)
        stop("the run is refused");
}

static int quoted(const query *q, int age, uint64_t *quote) {
    const uint8_t *sheet = (const uint8_t *)input, *word = (const uint8_t *)q->kind->word;
    size_t length = strlen(q->kind->word);
    if (q->kind->rates)
        return kulfizan_annuity(sheet, sheet_length, word, length, age, q->year, q->span, q->rate, quote,
            KULFIZAN_QUOTE_LENGTH);
    return kulfizan_quote(sheet, sheet_length, word, length, age, q->year, q->span, quote, KULFIZAN_QUOTE_LENGTH);
}

static void by_quotes(int which) {
    uint64_t quote[KULFIZAN_QUOTE_LENGTH];
    (void)which;
    for (int i = 0; i < QUERIES; i++)
        if (quoted(queries + i, queries[i].age, quote) != KULFIZAN_ACCEPTED) stop("a query is refused");
}

static void by_reading(int which) {
    uint64_t quote[KULFIZAN_QUOTE_LENGTH];
    (void)which;
    for (int i = 0; i < QUERIES; i++)
        if (quoted(queries + i, COLUMN, quote) != KULFIZAN_NO_SUCH_AGE) stop("no age past the last is refused");
}

/* Writes the line of a query and its quote. */
static size_t put_answer(const query *q, char *text) {
    uint64_t quote[KULFIZAN_QUOTE_LENGTH];
    if (quoted(q, q->age, quote) != KULFIZAN_ACCEPTED) stop("a query is refused");
    size_t length = put_query(q, text);
    if (quote[2] == 0) return length + (size_t)sprintf(text + length, " fig=open\n");
    uint64_t one = 1;
    for (int i = 0; i < q->kind->decimals; i++) one *= 10;
    return length + (size_t)sprintf(text + length, " fig=%" PRIu64 ".%0*" PRIu64 "\n", quote[3] / one, q->kind->decimals,
        quote[3] % one);
}

/* What the run printed is what the quotes give and what stands in the program's file. */
static void compare(void) {
    static char text[sizeof printed];
    size_t length = 0;
    for (int i = 0; i < QUERIES; i++) length += put_answer(queries + i, text + length);
    if (length != printed_length || memcmp(text, printed, length) != 0) stop("a figure differs from its quote");
    FILE *file = fopen(arguments[3], "rb");
    if (file == NULL || fread(text, 1, sizeof text, file) != printed_length || memcmp(text, printed, printed_length) != 0)
        stop("the program's output differs from the run's");
    fclose(file);
}

int main(int count, char **words) {
    enum { PROGRAM, RUN, QUOTES, READING, RUNNERS };
    runner all[RUNNERS] = {{"program quotes", by_program, 0, 0}, {"kulfizan_run", by_run, 0, 0},
        {"quotes alone", by_quotes, 0, 0}, {"reading taken off", by_reading, 0, 0}};
    if (count != 4) stop("usage: runs QUOTES INPUT OUTPUT");
    arguments = words;
    make_input(words[2]);
    take_turns(all, RUNNERS, TURNS);
    compare();
    all[QUOTES].best -= all[READING].best;
    for (int i = 0; i < RUNNERS; i++)
        printf("%-17s %8.2f ms, %.0f a second\n", all[i].name, 1e3 * all[i].best, QUERIES / all[i].best);
    printf("%d queries, %zu bytes, the best of %d turns: program / quotes alone %.2f (at most 1.10), run / quotes alone %.2f\n",
        QUERIES, input_length, TURNS, all[PROGRAM].best / all[QUOTES].best, all[RUN].best / all[QUOTES].best);
    return 0;
}
