"""Sets with quotes beside a half step, so near that their figures are open on the coarse grid, and some on the fine one too.

A and B of one age are moved. At an age below 80 this moves one factor of a quote, in which every kind is linear, so that the
parameters of a wanted value follow from the exact values at the factors 0 and 1. Quotes that begin at ages one below the other, of
one cohort or in one calendar year, are wanted from the oldest down: what is moved for one is not needed by those before it. A
closure has many factors that move with A of an age from 80 on, and its quotes are found by secants.
"""
from decimal import Decimal
from functools import cache

import exact
from couples import SINGLE, exact_value as couple_value
from exact import NANO
from grid import HIGHEST, LOWEST, RATE, UNIT
from quotes import CLOSURE, ExactCells, exact_value, path, step

# How many B are tried: their products with K are spread between the units of A.
TRIED = 400
FITTED = 85
MARGIN = 10**6


def half_step(value, kind, up):
    """The next half step above a value, or below, in units of 10^-9."""
    size = step(kind)
    return (value - size // 2) // size * size + size // 2 + size * up


def shifted(params, age, year, by, tried=TRIED):
    """Whether A and B of an age can be moved, and are, so that its log force in a year moves by a number of units of 10^-9; A alone
    where one B is tried."""
    period = params["K"] + (year - params["start"]) * params["theta"]
    exactly = int(by * RATE)
    more = min(range(tried), key=lambda b: abs((exactly - b * period + RATE // 2) % RATE - RATE // 2))
    a, b = params["A"][age] + round(Decimal(exactly - more * period) / RATE), params["B"][age] + more
    if abs(a) > 40 * UNIT or abs(b) > 10**7:
        return False
    params["A"][age], params["B"][age] = a, b
    return True


def copied(params):
    return dict(params, A=list(params["A"]), B=list(params["B"]))


class Edges:
    """A set whose A and B are moved, with its exact p, each worked once for an A and a B."""

    def __init__(self, params):
        self.params, self.start = copied(params), params["start"]
        self.exact, self.young = ExactCells(self.params), cache(self.young)

    def log_force(self, age, year):
        return exact.log_force(self.params, age, year, self.exact.kappas[year - self.start])

    def young(self, _a, _b, age, year, *part):
        force = exact.young_force(self.log_force(age, year))
        return exact.survival(exact.part_of(force, *part) if part else force)

    def p(self, age, *when):
        if age >= CLOSURE[0]:
            return self.exact.p(age, *when)
        return self.young(self.params["A"][age], self.params["B"][age], age, *when)

    def move(self, cell, p):
        """Whether a cell can have a p, as near as whole units allow, and now has it."""
        age, year, *part = cell
        if not 0 < p < 1:
            return False
        force = -p.ln() * part[1] / part[0] if part else -p.ln()
        m = force.ln() / NANO
        return LOWEST + MARGIN < m < HIGHEST - MARGIN and shifted(self.params, age, year, m - self.log_force(age, year) / NANO)

    def place(self, query, beyond, other=None):
        """Whether a quote whose first cell is of an age below 80 can be so many units of 10^-13 beyond a half step, and now is; a
        couple's with the other life's set."""
        kind, *numbers = query
        if other:
            (age, other_age), rest, single = numbers[:2], numbers[2:], SINGLE[kind]
            cells, theirs = path(self.start, single, age, *rest), path(self.start, single, other_age, *rest)
            value_of = lambda factors: couple_value(kind, [factors, [other.p(*cell) for cell in theirs]])
        else:
            cells, rate, single = path(self.start, kind, *numbers[:3]), numbers[3:], kind
            value_of = lambda factors: exact_value(kind, factors, *rate)
        first, *later = cells
        later = [self.p(*cell) for cell in later]
        none, whole = (value_of([Decimal(p), *later]) for p in (0, 1))
        wanted = half_step(none + (whole - none) * self.p(*first), single, kind == "q") + Decimal(beyond) / 10**4
        return none != whole and self.move(first, (wanted - none) / (whole - none))


def closure_placed(params, query, beyond):
    """The set with A and B at 85 moved, so that a quote of an age above 90 is so many units of 10^-13 beyond a half step, or None:
    A alone where its cells are of more than one year."""
    kind, age, year, span, *rate = query
    cells = path(params["start"], kind, age, year, span)
    alone = len({cell[1] for cell in cells}) == 1

    def value(by):
        tried = copied(params)
        shifted(tried, FITTED, year, by, TRIED if alone else 1)
        found = ExactCells(tried)
        return exact_value(kind, [found.p(*cell) for cell in cells], *rate), tried

    a, b = Decimal(0), Decimal(10**5)
    (at_a, _), (at_b, tried) = value(a), value(b)
    wanted = half_step(at_a, kind, kind == "q") + Decimal(beyond) / 10**4
    for _ in range(6):
        if at_a == at_b:
            break
        a, b, at_a = b, b + (wanted - at_b) * (b - a) / (at_b - at_a), at_b
        if abs(b) > 10**9:
            return None
        at_b, tried = value(b)
    return tried if abs(at_b - wanted) < 100 else None
