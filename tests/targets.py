"""The year in which the period expectancy at an age reaches a target, written from paper 02, E9: its refusals, the answer by the
coarse ends of the 51 quote years, and the earliest year by the exact values. The expectancies are those of `eper` in quotes.py."""
import functools

from quotes import Quotes, years_of

PERIOD = "eper"
OPEN, NONE = "open", "none"


class Targets:
    """The answers over the quotes of one set, each expectancy worked once."""

    def __init__(self, quotes: Quotes):
        first, last, _ = years_of(quotes.start)
        self.quotes, self.years = quotes, range(first, last + 1)
        self.refusal, self.ends, self.values = map(functools.cache, (self.refusal, self.ends, self.values))

    def refusal(self, age):
        """The first number of an expectancy that applies in some year, or 0: 2 and 3 apply in all of them, 6 in any."""
        return next(filter(None, (self.quotes.refusal(PERIOD, age, year, 0) for year in self.years)), 0)

    def ends(self, age):
        """The two coarse ends at an accepted age, year by year."""
        return [self.quotes.ends(PERIOD, age, year, 0) for year in self.years]

    def values(self, age):
        """The exact values, in units."""
        return [self.quotes.value(PERIOD, age, year, 0) for year in self.years]

    def found(self, age, target):
        """Of an accepted age, the first year whose upper end reaches the target, open where its lower end does not, or none."""
        for year, (lower, upper) in zip(self.years, self.ends(age)):
            if upper >= target:
                return year if lower >= target else OPEN
        return NONE

    def exact_year(self, age, target):
        """The earliest year whose exact value is at least the target, or none."""
        return next((year for year, value in zip(self.years, self.values(age)) if value >= target), NONE)

    def answer(self, age, target):
        """The refusal, 0 where there is none, and the year, open or none."""
        no = self.refusal(age)
        return (no, None) if no else (0, self.found(age, target))
