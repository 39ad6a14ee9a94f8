"""Quotes of couples, written from paper 02, E8: two lives, each with its own set and age, and one common year, along the cohort.
Their refusals, their ends on each grid, and their exact values to many digits. A query is a kind, two ages, a year and a span; the
lives are the single ones of quotes.py."""
from decimal import Decimal

from grid import COARSE, UNIT
from quotes import NO_AGE, NO_SPAN, NO_YEAR, OFF_SCALE, STEEP, WIDER, path, quoted

JOINT, LAST, JOINT_YEARS, LAST_YEARS = "joint", "last", "ejoint", "elast"
COUPLES = (JOINT, LAST, JOINT_YEARS, LAST_YEARS)
# The kind of a single life with a couple's step, spans and path.
SINGLE = {JOINT: "coh", LAST: "coh", JOINT_YEARS: "ecoh", LAST_YEARS: "ecoh"}
STARTS_DIFFER = 11
ORDER = (OFF_SCALE, STARTS_DIFFER, NO_AGE, NO_YEAR, NO_SPAN, STEEP)


def widest(unit, kind):
    """How far apart the ends may be, in units of 10^-unit: twice as far as those of one life."""
    return (60_000 if kind in (JOINT, LAST) else 20_000_000) * WIDER[unit]


def alive(grid, kind, one, other):
    """The ends of the chance that both live, or at least one, from those of each: the latter is 1 less the product of the two
    death chances."""
    if kind in (JOINT, JOINT_YEARS):
        return grid.times(one, other)
    return grid.against(grid.times(grid.against(one), grid.against(other)))


def exact_alive(kind, one, other):
    """The same with nothing rounded."""
    return one * other if kind in (JOINT, JOINT_YEARS) else 1 - (1 - one) * (1 - other)


def survivals(grid, factors):
    """The ends of survival over no year, one and so on."""
    out = [(grid.unit, grid.unit)]
    for factor in factors:
        out.append(grid.times(out[-1], factor))
    return out


def exact_survivals(factors):
    out = [Decimal(1)]
    for factor in factors:
        out.append(out[-1] * factor)
    return out


def grid_ends(grid, kind, factors):
    """The ends of a quote of a kind from those of the factors of each life."""
    chances = [alive(grid, kind, one, other) for one, other in zip(*(survivals(grid, life) for life in factors))]
    if kind in (JOINT, LAST):
        return chances[-1]
    return tuple(grid.unit // 2 + sum(chance[i] for chance in chances[1:]) for i in (0, 1))


def exact_value(kind, factors):
    """The same with nothing rounded, in units of 10^-9."""
    chances = [exact_alive(kind, one, other) for one, other in zip(*map(exact_survivals, factors))]
    return (chances[-1] if kind in (JOINT, LAST) else Decimal(1) / 2 + sum(chances[1:])) * UNIT


class Couple:
    """The quotes of two lives, each of them the quotes of its set."""

    def __init__(self, first, second):
        self.lives = first, second

    def singles(self, kind, ages, year, span):
        """The query of each single life."""
        return [(life, (SINGLE[kind], age, year, span)) for life, age in zip(self.lives, ages)]

    def refusal(self, kind, age, other_age, year, span):
        """The first number that applies to either life, or 0; 11 is of both."""
        found = {life.refusal(*query) for life, query in self.singles(kind, (age, other_age), year, span)}
        if self.lives[0].start != self.lives[1].start:
            found.add(STARTS_DIFFER)
        return next((no for no in ORDER if no in found), 0)

    def cells(self, kind, ages, year, span):
        """Each life with the cells of its path."""
        return [(life, path(life.start, *query)) for life, query in self.singles(kind, ages, year, span)]

    def ends(self, kind, age, other_age, year, span, grid=COARSE):
        """The two ends of an accepted quote on a grid."""
        cells = self.cells(kind, (age, other_age), year, span)
        return grid_ends(grid, kind, [[life.on[grid].p(*cell) for cell in along] for life, along in cells])

    def quote(self, *query):
        """The quote of an accepted query."""
        return quoted(lambda grid: self.ends(*query, grid=grid), SINGLE[query[0]])

    def value(self, kind, age, other_age, year, span):
        """The exact value of an accepted quote, in units of 10^-9."""
        cells = self.cells(kind, (age, other_age), year, span)
        return exact_value(kind, [[life.exact.p(*cell) for cell in along] for life, along in cells])
