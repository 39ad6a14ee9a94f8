"""The cells of a set: K, kappa and the log force in units of 10^-9, the coarse grid's, which alone tells what is steep: to point at
what the library refuses.

Nothing here decides: the library does, and this says which number or which cell it means. Each step is rounded outward, so that a
value has two ends.
"""
import datetime
from typing import Any, Dict, Iterable, Iterator, List, NamedTuple, Optional, Tuple

from .units import AGES, FIRST_START, LAST_START, UNITS, text, unit_of

YEARS = 171
OLDEST, CLOSURE = 120, range(80, 91)
RATE = 10**8
LOWEST, HIGHEST = -30 * 10**9, -7 * 10**8
Ends = Tuple[int, int]


class Cell(NamedTuple):
    """A cell out of range: its age, its year, and the two ends of its log force in units of 10^-9."""
    age: int
    year: int
    ends: Ends

    def told(self) -> str:
        """The cell in words."""
        lower, upper = (text(end, 9) for end in self.ends)
        between = f"is {lower}" if lower == upper else f"lies between {lower} and {upper}"
        return f"age {self.age} in {self.year}: its log force {between}, and -30 to -0.7 is wanted"


def products(factor: int, ends: Ends) -> Ends:
    """The least and the greatest product of a factor with a number between the ends."""
    both = factor * ends[0], factor * ends[1]
    return min(both), max(both)


def kappas(a: int, k: int, c: int) -> List[Ends]:
    """Kappa's ends from the start year to 171 years after it."""
    out = [(k, k)]
    for _ in range(YEARS):
        least, greatest = products(a, out[-1])
        out.append((least // RATE + c, -(-greatest // RATE) + c))
    return out


def off_scale(values: Dict[str, int]) -> Iterator[Tuple[str, str, str]]:
    """What is past its size in a set by its keys: the key, what it is and what is wanted."""
    for key, value in values.items():
        unit = unit_of(key)
        if key == "start":
            if not FIRST_START <= value <= LAST_START:
                yield key, str(value), f"a year from {FIRST_START} to {LAST_START}"
        elif abs(value) > unit.limit:
            size = text(unit.limit, unit.decimals)
            yield key, f"{value}, that is {text(value, unit.decimals)}", f"at most {unit.limit} either side of 0, that is {size}"
    last, most = values["K"] + YEARS * values["theta"], UNITS["K"].limit
    if abs(values["K"]) <= most and abs(values["theta"]) <= UNITS["theta"].limit and abs(last) > most:
        yield "theta", f"K + 171*theta = {text(last, 9)}", f"at most {text(most, 9)} either side of 0"
    if all(abs(values.get(key, 0)) <= UNITS[key].limit for key in ("a", "k", "c")):
        start, c = values.get("start", FIRST_START), values.get("c", 0)
        for number, ends in enumerate(kappas(values["a"], values["k"], c)):
            if max(map(abs, ends)) > UNITS["k"].limit:
                what = f"kappa in {start + number} at {text(max(ends, key=abs), 9)}"
                yield "k", what, f"at most {text(UNITS['k'].limit, 9)} either side of 0 in every year to {start + YEARS}"
                return


class Grid:
    """The log forces of a sheet."""

    def __init__(self, sheet: Any) -> None:
        self.sheet = sheet
        self.kappas = kappas(sheet.a, sheet.k, sheet.c)

    def log_force(self, age: int, year: int) -> Ends:
        """The two ends of the log force at an age to 90."""
        sheet, number = self.sheet, year - self.sheet.start
        least, greatest = products(sheet.beta[age], self.kappas[number])
        base, fixed = sheet.level[age] + sheet.alpha[age], sheet.slope[age] * (sheet.K + number * sheet.theta)
        return base + (fixed + least) // RATE, base - (-(fixed + greatest) // RATE)

    def steep(self, age: int, year: int) -> Optional[Cell]:
        """The first cell out of range that a cell needs: its own or, above 90, those of 80 to 90 in its year."""
        for needed in (age,) if age in AGES else CLOSURE:
            ends = self.log_force(needed, year)
            if ends[0] < LOWEST or ends[1] > HIGHEST:
                return Cell(needed, year, ends)
        return None

    def first_steep(self, cells: Iterable[Tuple[int, int]]) -> Optional[Cell]:
        """The first cell out of range that any of these needs, in their order."""
        return next(filter(None, (self.steep(*cell) for cell in cells)), None)

    def steep_cells(self) -> Iterator[Cell]:
        """All cells out of range, at ages to 90, year by year."""
        cells = ((age, year) for year in self.sheet.q_years for age in AGES)
        return filter(None, (self.steep(*cell) for cell in cells))


def path(start: int, kind: str, age: int, year: int, term: int) -> Iterator[Tuple[int, int]]:
    """The cells of an accepted query, by age and year; the term is a span, or for `day` a date YYYYMMDD."""
    if kind == "day":
        day = datetime.date(term // 10_000, term // 100 % 100, term % 100)
        count = day.year - year + (day != datetime.date(day.year, 1, 1))
    else:
        count = {"q": 1, "coh": term, "per": term}.get(kind, start + YEARS + 1 - year)
    step = kind in ("coh", "ecoh", "acoh", "day")
    return ((min(age + passed, OLDEST), year + step * passed) for passed in range(count))
