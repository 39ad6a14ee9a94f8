"""Quotes of all eight kinds, written from paper 01 and, for annuities, lives past 120, survival to a day and finer working, paper
02: their refusals, their ends on each grid, their figures, and their exact values to many digits. A query is a kind, an age, a
year and a span, and for an annuity a rate; survival to a day has a date, a number YYYYMMDD, in the span's place. The years count
from the start year of the set. The calendar is that of Python's datetime."""
import collections
import datetime
from decimal import Decimal
from functools import cache, cached_property

import exact
from grid import COARSE, FINE, START, UNIT, down, in_range, up
from reader import YEARS, in_limits, set_from

SURVIVALS, EXPECTANCIES, ANNUITIES = ("coh", "per"), ("ecoh", "eper"), ("acoh", "aper")
DAY = "day"
SUMS = EXPECTANCIES + ANNUITIES
CHANCES = SURVIVALS + (DAY,)
COHORT = ("coh", "ecoh", "acoh", DAY)
UNRATED = ("q",) + SURVIVALS + EXPECTANCIES
KINDS = UNRATED + ANNUITIES + (DAY,)
OFF_SCALE, NO_AGE, NO_YEAR, NO_SPAN, STEEP, NO_RATE, NO_DATE = 2, 3, 4, 5, 6, 8, 10
OLDEST, LAST_FITTED, CLOSURE = 120, 90, range(80, 91)
QUOTE_YEARS = 51
RATE_UNIT, MOST_RATE = 10**6, 200_000
FIRST_DATED, LAST_DATED = 1000, 9999
OPEN = "open"

# The two ends in units of 10^-unit, and the number of steps that both round to, or open.
Quote = collections.namedtuple("Quote", "lower upper unit steps")


def years_of(start):
    """The first and the last year of a quote, and the last year of the table, of sets with a start year."""
    return start + 1, start + QUOTE_YEARS, start + YEARS


# Those of AG2014.
FIRST_YEAR, LAST_YEAR, LAST_CELL = years_of(START)


def decimals(kind):
    """A figure's: two for expectancies (E11), one for annuities, else five."""
    return 2 if kind in EXPECTANCIES else 1 if kind in ANNUITIES else 5


def step(kind, grid=COARSE):
    """A figure's step, in a grid's units."""
    return grid.unit // 10 ** decimals(kind)


def day_of(date):
    """The day of a number YYYYMMDD, or None where it is none."""
    year, (month, day) = date // 10**4, divmod(date % 10**4, 100)
    if not FIRST_DATED <= year <= LAST_DATED:
        return None
    try:
        return datetime.date(year, month, day)
    except ValueError:
        return None


def number_of(day):
    """The number YYYYMMDD of a day."""
    return day.year * 10**4 + day.month * 100 + day.day


def part_year(day):
    """The days since 1 January, and how many the day's year has."""
    new_year, last = datetime.date(day.year, 1, 1), datetime.date(day.year, 12, 31)
    return (day - new_year).days, (last - new_year).days + 1


def term(age, year):
    """The first and the last day to which survival is asked: the last is in the year in which age 120 is held."""
    return datetime.date(year, 1, 1), datetime.date(year + OLDEST - age, 12, 31)


# How many times as many units fine ends may be apart: a thousandth as far.
WIDER = {COARSE.digits: 1, FINE.digits: 10}


def width(unit, kind, age, year, span, *_):
    """How far apart the ends may be, in units of 10^-unit; those of survival to a day by the age held on it."""
    held = age + day_of(span).year - year if kind == DAY else age
    last = 100 if held <= LAST_FITTED else 600
    most = last if kind == "q" else 10_000_000 if kind in SUMS else 30_000 + last if kind == DAY else 30_000
    return most * WIDER[unit]


def factors_from(start, year):
    """How many factors an expectancy or an annuity of a year has, whatever the age: to the last year of the table."""
    return years_of(start)[2] + 1 - year


def path_to(age, year, day):
    """The cells of survival to a day: a cohort's of the whole years, and of the last, where days of it have passed, with these
    and how many it has."""
    whole, (days, of) = day.year - year, part_year(day)
    last = [(age + whole, year + whole, days, of)] if days else []
    return [(age + s, year + s) for s in range(whole)] + last


def path(start, kind, age, year, span):
    """The cells, (age, year), whose p or q an accepted quote is made of, and for a part year its days and how many the year
    has. The probability of age 120, in the year reached, serves all older ages; expectancies and annuities have a factor for
    each year to the last of the table, period ones as many."""
    if kind == DAY:
        return path_to(age, year, day_of(span))
    count = span if kind in SURVIVALS else 1 if kind == "q" else factors_from(start, year)
    on = 1 if kind in COHORT else 0
    return [(min(age + s, OLDEST), year + on * s) for s in range(count)]


def rounded(value, kind, grid=COARSE):
    """A value in a grid's units, rounded half up to a number of steps."""
    size = step(kind, grid)
    return int((value + size // 2) // size)


def figure(ends, kind, grid=COARSE):
    """The number of steps that both ends round to, or open."""
    lower, upper = (rounded(end, kind, grid) for end in ends)
    return lower if lower == upper else OPEN


def quoted(ends_on, kind):
    """The quote of a kind's step by its ends on each grid: those of the fine one where the coarse ones leave it open (E11)."""
    for grid in (COARSE, FINE):
        ends = ends_on(grid)
        steps = figure(ends, kind, grid)
        if steps != OPEN:
            break
    return Quote(*ends, grid.digits, steps)


def in_units(value, unit):
    """An exact value, in units of 10^-9, in those of 10^-unit."""
    return value * 10 ** (unit - COARSE.digits)


def grid_price(grid, factors, rate):
    """The ends of 1 paid now and after each factor: discount and survival start at 1 and take a step a year, outward, and each
    payment is their product, outward."""
    discount = alive = total = (grid.unit, grid.unit)
    for factor in factors:
        discount = down(discount[0] * RATE_UNIT, RATE_UNIT + rate), up(discount[1] * RATE_UNIT, RATE_UNIT + rate)
        alive = grid.times(alive, factor)
        payment = grid.times(discount, alive)
        total = total[0] + payment[0], total[1] + payment[1]
    return total


def grid_ends(grid, kind, factors, rate=None):
    """The ends of a quote of a kind from those of its factors."""
    if kind == "q":
        return grid.against(*factors)
    if kind in ANNUITIES:
        return grid_price(grid, factors, rate)
    alive, total = (grid.unit, grid.unit), (grid.unit // 2, grid.unit // 2)
    for factor in factors:
        alive = grid.times(alive, factor)
        total = total[0] + alive[0], total[1] + alive[1]
    return alive if kind in CHANCES else total


def exact_price(factors, rate):
    """The same with nothing rounded, from the last payment backward."""
    total = Decimal(1)
    for p in reversed(factors):
        total = 1 + total * p * RATE_UNIT / (RATE_UNIT + rate)
    return total


def exact_value(kind, factors, rate=None):
    """The exact value of a quote of a kind from its factors, in units of 10^-9."""
    if kind == "q":
        return (1 - factors[0]) * UNIT
    if kind in ANNUITIES:
        return exact_price(factors, rate) * UNIT
    alive, total = Decimal(1), Decimal(1) / 2
    for p in factors:
        alive *= p
        total += alive
    return (alive if kind in CHANCES else total) * UNIT


class Cells:
    """The p of a set's cells, of a year or a part of one, in some arithmetic, each worked once: kappa once a year, the closure's
    fit once a year, and only the cells that are asked for."""

    def __init__(self, params):
        self.params, self.start = params, params["start"]
        self.m, self.force, self.fitted, self.p = map(cache, (self.m, self.force, self.fitted, self.p))

    def force(self, age, year):
        if age <= LAST_FITTED:
            return self.arithmetic.young_force(self.m(age, year))
        return self.arithmetic.old_force(age, self.fitted(year))

    def passed(self, age, year, part):
        """The exponent of a year, or of a part of one."""
        force = self.force(age, year)
        return self.arithmetic.part_of(force, *part) if part else force

    def fitted(self, year):
        return [self.arithmetic.inverse_logistic(self.m(y, year), self.force(y, year)) for y in CLOSURE]


class GridCells(Cells):
    """The p of cells on a grid, as pairs of ends."""

    def __init__(self, params, grid):
        super().__init__(params)
        self.grid = self.arithmetic = grid
        self.steep = cache(self.steep)

    @cached_property
    def kappas(self):
        return self.grid.kappas(self.params, YEARS)

    def m(self, age, year):
        period = self.params["K"] + (year - self.start) * self.params["theta"]
        return self.grid.log_force(self.params, age, period, self.kappas[year - self.start])

    def p(self, age, year, *part):
        return self.grid.exp_between(self.passed(age, year, part))

    def steep(self, age, year, *_):
        """Whether a needed cell's log force is out of range, which the coarse grid tells."""
        return not all(in_range(self.m(y, year)) for y in (CLOSURE if age > LAST_FITTED else [age]))


class ExactCells(Cells):
    arithmetic = exact

    def __init__(self, params):
        super().__init__(params)
        self.kappas = exact.kappas(params, YEARS)

    def m(self, age, year):
        return exact.log_force(self.params, age, year, self.kappas[year - self.start])

    def p(self, age, year, *part):
        return exact.survival(self.passed(age, year, part))


class Quotes:
    """The quotes of one set."""

    def __init__(self, params):
        self.start, self.in_limits = params["start"], in_limits(set_from(params))
        if self.in_limits:
            self.on = {grid: GridCells(params, grid) for grid in (COARSE, FINE)}
            self.coarse, self.exact = self.on[COARSE], ExactCells(params)

    def refusal(self, kind, age, year, span, rate=None):
        """The lowest number of the paper's table that applies, where 8 comes after 5 and before 6, and 10 after 4 and before
        5, or 0."""
        if not self.in_limits:
            return OFF_SCALE
        if not 0 <= age <= OLDEST:
            return NO_AGE
        first_year, last_year, last_cell = years_of(self.start)
        if not first_year <= year <= (last_cell if kind == "q" else last_year):
            return NO_YEAR
        if kind == DAY:
            day, (first, last) = day_of(span), term(age, year)
            if day is None:
                return NO_DATE
            if not first <= day <= last:
                return NO_SPAN
        elif not 0 <= span <= (OLDEST + 1 - age if kind in SURVIVALS else 0):
            return NO_SPAN
        if kind in ANNUITIES and not 0 <= rate <= MOST_RATE:
            return NO_RATE
        return STEEP if any(self.coarse.steep(*cell) for cell in path(self.start, kind, age, year, span)) else 0

    def ends(self, kind, age, year, span, rate=None, grid=COARSE):
        """The two ends of an accepted quote on a grid."""
        return grid_ends(grid, kind, [self.on[grid].p(*cell) for cell in path(self.start, kind, age, year, span)], rate)

    def quote(self, *query):
        """The quote of an accepted query."""
        return quoted(lambda grid: self.ends(*query, grid=grid), query[0])

    def value(self, kind, age, year, span, rate=None):
        """The exact value of an accepted quote, in units of 10^-9."""
        return exact_value(kind, [self.exact.p(*cell) for cell in path(self.start, kind, age, year, span)], rate)
