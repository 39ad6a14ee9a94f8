"""What a report shows: the cells that are asked of each sheet, and the rows of their answers."""
import os
from typing import Callable, Iterable, Iterator, List, NamedTuple

from .lists import Row, rows
from .pictures import OLDEST, Curve
from .selections import Selection
from .sheets import Sheet

LISTED = ["ecoh", "eper", "acoh"]
ALL_AGES = list(range(OLDEST + 1))
LAST_AGE = OLDEST + 1
Q_EVERY, MOST_CURVES = 30, 9


class Asked(NamedTuple):
    """The ages, years and rate of the list, the years of the table of q, and the ages and the year of the survival curves."""
    ages: List[int]
    years: List[int]
    rate: int
    q_years: List[int]
    curve_ages: List[int]
    curve_year: int

    def listed(self) -> Selection:
        """The cells of the list."""
        return Selection(LISTED, self.ages, self.years, [self.rate])

    def q_listed(self) -> Selection:
        """The cells of the table of q."""
        return Selection(["q"], self.ages, self.q_years)

    def curve(self, age: int) -> Selection:
        """The cells of a survival curve: every span that there is."""
        return Selection(["coh"], [age], [self.curve_year], [], list(range(LAST_AGE + 1 - age)))

    def whole(self, sheet: Sheet) -> List[Selection]:
        """All cells of the kinds that are looked through."""
        quoted = [Selection([kind], ALL_AGES, list(sheet.years), [self.rate]) for kind in LISTED]
        return [Selection(["q"], ALL_AGES, list(sheet.q_years)), *quoted]

    def count(self, sheet: Sheet) -> int:
        """How many cells are asked of a sheet."""
        every = [self.listed(), self.q_listed(), *map(self.curve, self.curve_ages), *self.whole(sheet)]
        return sum(selection.count() for selection in every)


def shared(ranges: Iterable[range]) -> List[int]:
    """The years that all have."""
    return sorted(set.intersection(*map(set, ranges)))


def spread(numbers: List[int], most: int) -> List[int]:
    """At most so many of some numbers, as evenly as it goes, the first and the last among them."""
    if len(numbers) <= most:
        return numbers
    return [numbers[place * (len(numbers) - 1) // (most - 1)] for place in range(most)]


def asked_for(ages: List[int], years: List[int], rate: int, sheets: List[Sheet]) -> Asked:
    """What is shown for a choice of ages, years and a rate. Curves begin in the first of the years that all the sheets have."""
    common, q_years = (shared(ranges) for ranges in ((sheet.years for sheet in sheets), (sheet.q_years for sheet in sheets)))
    curve_ages = spread([age for age in ages if age < LAST_AGE], MOST_CURVES)
    curve_year = next((year for year in years if year in common), common[0])
    return Asked(ages, years, rate, q_years[:-1:Q_EVERY] + q_years[-1:], curve_ages, curve_year)


class Found:
    """A sheet with its rows: those of the list, of the table of q and, by age, of survival, and by kind all that there are."""

    def __init__(self, path: str, sheet: Sheet, asked: Asked, see: Callable[[Row], Row]) -> None:
        def take(selection: Selection) -> List[Row]:
            return [see(row) for row in rows(sheet, selection)]

        self.file, self.sheet = os.path.basename(path), sheet
        self.name = "standard input" if path == "-" else self.file
        self.listed, self.q_listed = take(asked.listed()), take(asked.q_listed())
        self.survivals = {age: take(asked.curve(age)) for age in asked.curve_ages}
        self.whole = {selection.kinds[0]: take(selection) for selection in asked.whole(sheet)}

    def curves(self, place: int) -> Iterator[Curve]:
        """The curves that are not refused, for the first or the second sheet."""
        for age, found in self.survivals.items():
            if not any(row.no for row in found):
                yield Curve(place, age, [row.finely()[0] for row in found])
