/* dates SHEET AGE YEAR: reads numbers of 64 bits from standard input, and writes for each the byte that kulfizan_day gives with it
   as the date. tests/test_dates.py builds it over the library. */
#include <stdio.h>
#include <stdlib.h>
#include "kulfizan.h"

enum { BLOCK = 4096 };

static uint8_t sheet[KULFIZAN_LONGEST_SHEET];

int main(int argc, char **argv)
{
    FILE *file = argc == 4 ? fopen(argv[1], "rb") : NULL;
    if (file == NULL)
        return 2;
    size_t length = fread(sheet, 1, sizeof sheet, file), count;
    fclose(file);
    const int64_t age = atoll(argv[2]), year = atoll(argv[3]);
    static int64_t dates[BLOCK];
    static uint8_t numbers[BLOCK];
    uint64_t quote[KULFIZAN_QUOTE_LENGTH];
    while ((count = fread(dates, sizeof *dates, BLOCK, stdin)) > 0) {
        for (size_t i = 0; i < count; i++)
            numbers[i] = kulfizan_day(sheet, length, age, year, dates[i], quote, KULFIZAN_QUOTE_LENGTH);
        if (fwrite(numbers, 1, count, stdout) != count)
            return 1;
    }
    return 0;
}
