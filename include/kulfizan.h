/* Kulfizan for C: the AG2014 table, or a later fit of the same model, with the parameters of a sheet. A sheet read and written, a
   query of it answered, an annuity of it priced, survival to a day by it, a query of a couple's two sheets answered, the year found
   in which an expectancy reaches a target, a published column checked by a sheet, and the whole run of an input. `make lib` writes
   libkulfizan.a and libkulfizan.so into target/lib.

   A set is 372 numbers: the table (0 for AG2014, 1 for LILEE), the sex (0 for M, 1 for F), a, theta, K, k, the start year, the
   constant c, and then for ages 0 to 90 A, B, alpha, beta, in the sheet's units. A set of AG2014 has the start year 2013 and c 0;
   one of LILEE has a start year from 2013 to 2033. Years count from the start: queries take those from start + 1 to start + 51, q
   and columns those to start + 171.

   Earlier the list had 369 numbers: the sex, a, theta, K, k and those of the ages. A program that holds such lists makes room for
   KULFIZAN_SET_LENGTH numbers, puts a 0 before the sex and 2013 and 0 after k, and finds the sex at place 1, a, theta, K and k at
   2 to 5, and the ages' numbers from place 8 on. A list of 369 numbers is torn to the writer and short to the reader. The calls
   that take a sheet's bytes are as they were; a buffer for any sheet has KULFIZAN_LONGEST_SHEET bytes, 45 more than before.

   A quote is five numbers: the lower end and the upper end, between which the exact value lies; 1 where the figure is printed and
   0 where it is open; the figure's number of steps, 0 where it is open; and the unit of the ends, 9 for 10^-9 or 13 for 10^-13. The
   step is 0.00001 for a chance, 0.01 for an expectancy and 0.1 for a price. A quote is worked in units of 10^-9, and where these
   ends leave its figure open it is worked again in units of 10^-13: the ends and the figure are then those. Ends in units of 10^-13
   lie at most ten times as many units apart as those of 10^-9 may, a thousandth as far. Where a call is refused no number is
   written, and the unit is that of 10^-9.

   Earlier a quote had four numbers, without the unit, and expectancies had steps of 0.1. A program that was compiled against that
   lends four places, which are short now: it makes room for KULFIZAN_QUOTE_LENGTH numbers, takes the ends in the unit that the
   fifth names, and counts the steps of an expectancy, one life's or a couple's, as hundredths. A figure can be open as before, but
   seldom is. A run wants no more room than before, and its lines with ends name their unit. The soname is libkulfizan.so.2, so that
   a program that was linked with the earlier library does not load this one.

   A call gives 0, or the number of its refusal and then leaves everything that it is lent as it was. The lowest number
   that applies is given, where 8 comes after 5 and before 6, 9 after 2 and before 4, 10 after 4 and before 5, and 11 after 2 and
   before 3. Of a couple each number is tried on the first life, then on the second, before the next number.

   The caller sees to it that no pointer is null, also where its length is 0; that each points to as many elements as its
   length says; and that nothing that is written overlaps anything else that is lent. Nothing else is asked: each call
   answers every input.

   Threads: the library has no state of its own, neither static nor by thread, and allocates nothing, so that any calls may run at
   once, also over the same sheet, as long as nothing that one of them writes is lent to another. Stack: a call needs less than
   64 kB; measured on x86-64, read and write need some 18 kB, a query or a target 48, a couple 54, a verdict 61, a run 57, where
   they work both grids. */
#ifndef KULFIZAN_H
#define KULFIZAN_H

#include <stddef.h>
#include <stdint.h>

#define KULFIZAN_SET_LENGTH 372
#define KULFIZAN_QUOTE_LENGTH 5

/* No sheet that is written, and none that is accepted, has more bytes. */
#define KULFIZAN_LONGEST_SHEET 8528

/* No longer input is read. */
#define KULFIZAN_LONGEST_INPUT 65536

/* The room that a run of n bytes of input wants. */
#define KULFIZAN_RUN_ROOM(n) (5 * (size_t)(n) + 159)

/* The highest rate of an annuity, in units of 10^-6. */
#define KULFIZAN_HIGHEST_RATE 200000

/* The units of a quote's ends, as its fifth number names them: 10^-9, and 10^-13 where the coarser ends leave the figure open. */
#define KULFIZAN_COARSE_UNIT 9
#define KULFIZAN_FINE_UNIT 13

/* The refusals, and none. */
enum kulfizan_refusal {
    KULFIZAN_ACCEPTED = 0,
    KULFIZAN_TORN = 1,          /* a sheet, the kind's word or the list of numbers breaks its form */
    KULFIZAN_OFF_SCALE = 2,     /* a parameter, or K + 171*theta, is past its size, or kappa in some year from the start to
                                   start + 171; the start year is outside 2013 to 2033; a set of AG2014 has another start than
                                   2013 or another c than 0 */
    KULFIZAN_NO_SUCH_AGE = 3,   /* an age is outside 0 to 120 */
    KULFIZAN_NO_SUCH_YEAR = 4,  /* the year is outside the kind's range, which counts from the set's start year */
    KULFIZAN_NO_SUCH_SPAN = 5,  /* the span is outside 0 to 121 - age; for q, expectancies and annuities, not 0; a date is
                                   outside its term */
    KULFIZAN_STEEP = 6,         /* a needed cell's log force leaves its range */
    KULFIZAN_SHORT = 7,         /* what is lent has too little room */
    KULFIZAN_NO_SUCH_RATE = 8,  /* the rate is outside 0 to 200,000 */
    KULFIZAN_TORN_COLUMN = 9,   /* the column breaks its form */
    KULFIZAN_NO_SUCH_DATE = 10, /* the date is no day YYYYMMDD by the Gregorian rule, from the year 1000 to 9999 */
    KULFIZAN_STARTS_DIFFER = 11 /* the sheets of a couple have different start years */
};

/* The verdicts on a column. */
enum kulfizan_column_verdict {
    KULFIZAN_RIGHT = 0, /* every entry is the exact value, rounded */
    KULFIZAN_WRONG = 1, /* some entry isn't */
    KULFIZAN_OPEN = 2   /* some figure is open here, and no other differs */
};

/* What is found of a target. */
enum kulfizan_target_found {
    KULFIZAN_YEAR_NAMED = 0, /* the earliest year whose exact expectancy is at least the target */
    KULFIZAN_YEAR_OPEN = 1,  /* the target is above the lower end of the first year whose upper end is at or above it */
    KULFIZAN_YEAR_NONE = 2   /* no year's exact expectancy is at least the target */
};

#ifdef __cplusplus
extern "C" {
#endif

/* Reads a sheet of either table into the first 372 numbers; those after them keep their values. A sheet of AG2014 gives the table
   0, the start year 2013 and c 0. Torn where the sheet has more than 65,536 bytes or breaks its form, off scale, and short where
   there are fewer than 372 numbers. */
uint8_t kulfizan_read(const uint8_t *sheet, size_t sheet_length, int64_t *values, size_t values_length);

/* Writes the one sheet of a set's numbers, of its table, into the buffer, and its length; bytes after the sheet keep their values.
   Torn where there are not exactly 372 numbers, or the first or the second is neither 0 nor 1, off scale, and short where the
   buffer can't take the sheet. */
uint8_t kulfizan_write(const int64_t *values, size_t values_length, uint8_t *buffer, size_t buffer_length,
                       uint64_t *length);

/* Answers one query of a sheet. The kind is one of the words q, coh, per, ecoh and eper, with no byte after it. The year is one
   from start + 1 to start + 51, for q to start + 171: for AG2014 2014 to 2064, and to 2184. The first five numbers of the quote
   are then the lower end, the upper end, 1 where the figure is printed and 0 where it is open, the figure's number of steps (of
   0.00001, for an expectancy 0.01), 0 where it is open, and the unit of the ends, 9 or 13; numbers after them keep their values.
   Torn where the sheet or the kind is, off scale, no such age, year or span, steep, and short where there are fewer than five
   numbers. */
uint8_t kulfizan_quote(const uint8_t *sheet, size_t sheet_length, const uint8_t *kind, size_t kind_length, int64_t age,
                       int64_t year, int64_t span, uint64_t *quote, size_t quote_length);

/* Prices one annuity of a sheet: 1 paid now and on each 1 January while alive. The kind is one of the words acoh and aper,
   with no byte after it, the year one from start + 1 to start + 51, and the rate is in units of 10^-6. The quote is as above, in
   steps of 0.1. Torn where the sheet or the kind is, off scale, no such age, year, span or rate, steep, and short where there are
   fewer than five numbers. */
uint8_t kulfizan_annuity(const uint8_t *sheet, size_t sheet_length, const uint8_t *kind, size_t kind_length, int64_t age,
                         int64_t year, int64_t span, int64_t rate, uint64_t *quote, size_t quote_length);

/* Survival to a day of one life of a sheet, along the cohort, from 1 January of the year, one from start + 1 to start + 51. The
   date is the number YYYYMMDD, from that day to 31 December of the year in which age 120 is held. The quote is as above, in steps
   of 0.00001. Torn where the sheet is, off scale, no such age or year, no such date, no such span where it is a day outside that
   term, steep, and short where there are fewer than five numbers. */
uint8_t kulfizan_day(const uint8_t *sheet, size_t sheet_length, int64_t age, int64_t year, int64_t date, uint64_t *quote,
                     size_t quote_length);

/* Answers one query of a couple: two independent lives, each with its own sheet and age, along the cohort. The two sheets may be
   the same one. The kind is one of the words joint and last, the chances that both live and that at least one lives after the
   span, and ejoint and elast, the expectancies of these two states, with no byte after it. The sheets have one start year, and the
   year is one from start + 1 to start + 51; the span is one from 0 to 121 less the higher of the two ages, and 0 for ejoint and
   elast. The quote is as above, in steps of 0.00001, for ejoint and elast 0.01. Torn where a sheet or the kind is, off scale,
   starts differ, no such age, year or span, steep, and short where there are fewer than five numbers. Where the first sheet is off
   scale and the second torn, torn is given. */
uint8_t kulfizan_couple(const uint8_t *sheet, size_t sheet_length, const uint8_t *other_sheet, size_t other_sheet_length,
                        const uint8_t *kind, size_t kind_length, int64_t age, int64_t other_age, int64_t year, int64_t span,
                        uint64_t *quote, size_t quote_length);

/* Finds the year in which the period expectancy at an age reaches a target, any number, in units of 10^-9: of the 51 quote years,
   start + 1 to start + 51, the first whose upper end is at or above the target. The ends are those in units of 10^-9, also of a
   year whose quote is worked again. Where the lower end is too, `found` is then 0 and the year is named: it is the earliest whose
   exact expectancy is at least the target. Else `found` is 1, for open, also where a later year is certain. Where no upper end is,
   `found` is 2, for none: no year's exact expectancy is at least the target. The year is 0 where none is named. Torn where the
   sheet is, off scale, no such age, and steep where a cell that any of the 51 years needs leaves its range, also where an earlier
   year would answer. */
uint8_t kulfizan_target(const uint8_t *sheet, size_t sheet_length, int64_t age, int64_t target, uint64_t *found, int64_t *year);

/* Checks a column of q for one year that somebody published: 121 lines `age=0 q=0.00312`, each ended by a line feed, upward from
   age 0 to 120; in any other order it is torn. The verdict is wrong where some age with a printed figure here has another entry;
   else open, where some age's figure is open here; else right. The figures are those that kulfizan_quote gives. Torn where the
   sheet is, off scale, torn column, no such year where it is none of those of q, start + 1 to start + 171, and steep. */
uint8_t kulfizan_verdict(const uint8_t *sheet, size_t sheet_length, int64_t year, const uint8_t *column,
                         size_t column_length, uint64_t *verdict);

/* Writes the whole run of an input into the buffer, and its length; bytes after the output keep their values. The input is
   a sheet of either table and then query lines, as the programs take it from standard input; with `ends` 0 the output is what
   the program `quotes` prints, with any other number what `ends` prints. A refused sheet and a refused query are lines of the
   output. Short where the buffer has fewer than KULFIZAN_RUN_ROOM(input_length) bytes, and no other refusal. */
uint8_t kulfizan_run(const uint8_t *input, size_t input_length, uint8_t ends, uint8_t *buffer, size_t buffer_length,
                     uint64_t *length);

#ifdef __cplusplus
}
#endif

#endif
