"""The verdict on a column of q that somebody else published, written from paper 02, E3 and E10.

A column is 121 lines `age=0 q=0.00312`, each ended by a line feed, upward from age 0 to 120, and nothing else. It is wrong
where it differs from a printed figure, else open where a figure is open, else right; figures are those of a quote, so that an
open one is worked again. Refusals are those of the sheet, then 9 for a torn column, and then those of q.
"""
import functools
import re

from quotes import OLDEST, OPEN, Quotes
from reader import NUMBER, params_of, read

RIGHT, WRONG = "right", "wrong"
VERDICTS = (RIGHT, WRONG, OPEN)
TORN_COLUMN = 9
AGES = range(OLDEST + 1)
ENTRY = re.compile(rb"age=(%b) q=([0-9])\.([0-9]{5})" % NUMBER.pattern)


def entries_of(column):
    """The numbers of steps that a column has, from age 0 to 120, or None where it is torn."""
    *lines, rest = column.split(b"\n")
    got = [ENTRY.fullmatch(line) for line in lines]
    if rest or not all(got) or [int(one[1]) for one in got] != [*AGES]:
        return None
    return [int(one[2] + one[3]) for one in got]


class Columns:
    """The verdicts over one sheet, with the figures of a year worked once."""

    def __init__(self, sheet):
        self.no, given = read(sheet)
        self.quotes = None if self.no else Quotes(params_of(given))
        self.figures = functools.cache(self.figures)

    def figures(self, year):
        """The refusal of a year, 0 where it is accepted, and its figures at ages 0 to 120."""
        queries = [("q", age, year, 0) for age in AGES]
        no = next(filter(None, (self.quotes.refusal(*query) for query in queries)), 0)
        return (no, None) if no else (0, [self.quotes.quote(*query).steps for query in queries])

    def verdict(self, year, column):
        """The refusal of a column, 0 where it is accepted, and the verdict on it."""
        if self.no:
            return self.no, None
        entries = entries_of(column)
        if entries is None:
            return TORN_COLUMN, None
        no, figures = self.figures(year)
        if no:
            return no, None
        if any(shown not in (OPEN, entries[age]) for age, shown in enumerate(figures)):
            return 0, WRONG
        return 0, OPEN if OPEN in figures else RIGHT


columns_of = functools.lru_cache(200)(Columns)
