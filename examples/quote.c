/* quote SHEET [RATE]: the life expectancy at 65 in 2015 of the cohort, by the parameters of a sheet; with a rate, in units of
   10^-6, the price of 1 a year for life instead, the first paid at once. Prints its two ends, with as many decimals as their unit
   has, and its figure, or the refusal's number. `make examples` builds it. */
#include <errno.h>
#include <inttypes.h>
#include <stdio.h>
#include <stdlib.h>
#include "kulfizan.h"

#define AGE 65
#define YEAR 2015
#define EXPECTANCY_DECIMALS 2
#define PRICE_DECIMALS 1

/* A file of more bytes than the longest sheet is torn, however many there are. */
static uint8_t sheet[KULFIZAN_LONGEST_SHEET + 1];

/* A number of units, or of steps, with its decimals. */
static void print_decimal(const char *name, uint64_t number, int decimals)
{
    uint64_t one = 1;
    for (int i = 0; i < decimals; i++)
        one *= 10;
    printf("%s%" PRIu64 ".%0*" PRIu64 "\n", name, number / one, decimals, number % one);
}

/* The number that a word is, and whether it is one of 64 bits. */
static int number(const char *word, int64_t *value)
{
    char *end;
    errno = 0;
    *value = strtoll(word, &end, 10);
    return errno == 0 && end != word && *end == '\0';
}

int main(int argc, char **argv)
{
    static const uint8_t expectancy[] = {'e', 'c', 'o', 'h'}, annuity[] = {'a', 'c', 'o', 'h'};
    uint64_t quote[KULFIZAN_QUOTE_LENGTH];
    int64_t rate;
    int asked = argc == 2 || (argc == 3 && number(argv[2], &rate));
    FILE *file = asked ? fopen(argv[1], "rb") : NULL;
    if (file == NULL) {
        fprintf(stderr, "usage: quote SHEET [RATE], a file that can be read and a whole number\n");
        return 2;
    }
    size_t length = fread(sheet, 1, sizeof sheet, file);
    int failed = ferror(file);
    fclose(file);
    if (failed) {
        fprintf(stderr, "quote: %s: not read to its end\n", argv[1]);
        return 2;
    }
    uint8_t no;
    if (argc == 2)
        no = kulfizan_quote(sheet, length, expectancy, sizeof expectancy, AGE, YEAR, 0, quote, KULFIZAN_QUOTE_LENGTH);
    else
        no = kulfizan_annuity(sheet, length, annuity, sizeof annuity, AGE, YEAR, 0, rate, quote, KULFIZAN_QUOTE_LENGTH);
    if (no != KULFIZAN_ACCEPTED) {
        printf("no=%d\n", no);
        return 1;
    }
    print_decimal("lower ", quote[0], (int)quote[4]);
    print_decimal("upper ", quote[1], (int)quote[4]);
    if (quote[2] == 1)
        print_decimal("fig=", quote[3], argc == 2 ? EXPECTANCY_DECIMALS : PRICE_DECIMALS);
    else
        printf("fig=open\n");
    return 0;
}
