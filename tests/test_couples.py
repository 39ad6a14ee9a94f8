"""Quotes of couples by the program `couples` and the library's call, against the second implementation in couples.py and
whole_run.py, byte for byte and number for number, and against what is known beforehand of many of them.

Pairs of flat, realistic, extreme and example sheets of both tables, with the start years 2013, 2033 and between, are asked for
all four kinds: the exact value, to 80 digits, must lie between the ends, which are at most twice as far apart as those of one
life, and round to the printed figure; the couple exchanged must have the same ends and figure. Where all ages of both lives have
one force, figures are held against plain sums. Each refusal is met on the first life alone, on the second alone, and with another
on the other life, each case by its name. Spans stand at the smaller of the two limits and one past it; some figures are searched
to be open. Then whole runs: torn lines, damaged bytes, refused sheets and inputs up to, at and past the longest. An argument is
taken as the seed.
"""
import collections
import concurrent.futures
import itertools
import random
import re
import sys
from decimal import Decimal

import c_interface
import programs
import sheets
import test_compare
import whole_run
from c_interface import QUOTE_LENGTH
from couples import COUPLES, JOINT, JOINT_YEARS, LAST, SINGLE, STARTS_DIFFER, Couple, widest
from edges import Edges
from grid import COARSE, START, UNIT, flat
from quotes import NO_AGE, NO_SPAN, NO_YEAR, OFF_SCALE, OLDEST, OPEN, STEEP, GridCells, Quotes, decimals, figure, in_units
from quotes import rounded, step, years_of
from reader import LAST_START, LONGEST, SHORT, SIZES, TORN, read
from sheets import of_lilee
from test_c_interface import PLACES, after, any_number, lent, numbers_of, raised
from test_quotes import GREATEST, LEAST, mild, moved
from test_runs import EXAMPLES, FLAT, Input, compared, complaint, damaged, from_file, piecewise, some, torn_bytes, torn_fields
from test_runs import with_value
from whole_run import figure_text

SEED = 20206562
LEAST_LINES, LEAST_CALLS = 2000, 300
BETWEEN = 2021
SORTS = ("flat", "realistic", "example", "extreme", "LILEE", START, BETWEEN, LAST_START)
CHANCES = (JOINT, LAST)
ANSWER = re.compile(rb"(.*) lo=([0-9]+) hi=([0-9]+) unit=(9|13) fig=([0-9.]+|open)")

# A life's sheet: what sort it is, its start year, its ages in the first year of quotes, each the start of a cohort, and years in
# which its cells are not steep, if there are others.
Life = collections.namedtuple("Life", "name sort start data ages years")
# Two sheets and queries of them, and of what sorts and start years the sheets are.
Pair = collections.namedtuple("Pair", "name first second queries sorts", defaults=((),))


def line_of(query):
    return b"kind=%b age=%d age2=%d year=%d span=%d\n" % (query[0].encode(), *query[1:])


def exchanged(query):
    kind, age, other_age, *rest = query
    return kind, other_age, age, *rest


def quotes_of(data):
    return whole_run.sheet_of(data).quotes


# ---- lives

def life(draw, name, sort, params, years=()):
    ages = [0, draw.randint(1, 40), draw.randint(41, 75), draw.randint(76, OLDEST - 10), OLDEST]
    return Life(name, sort, params["start"], sheets.text(params), ages, years)


def extremes(draw, start):
    """Large parameters: a set that fits the range in one year, and one with still series, which fits it in all."""
    year = draw.randint(*years_of(start)[:2])
    a = draw.choice((10**8, 10**8 - 1, -(10**8), 8 * 10**7))
    params = sheets.extreme(draw, a, year) if start == START else sheets.extreme_lilee(draw, a, start, year, 1.0)
    yield life(draw, f"extreme in {year}", "extreme", params, (year,))
    still = dict(params, theta=0, K=0, k=0, c=0)
    yield life(draw, "extreme in all years", "extreme", sheets.centred(draw, still, 0, 0, 40))


def examples(draw, *names):
    for name in names:
        params = whole_run.params_of(read((EXAMPLES / f"{name}.sheet").read_bytes())[1])
        yield life(draw, name, "example", params)


def lives(draw):
    """Sheets with each of the start years."""
    out = [life(draw, "flat", "flat", flat()), *examples(draw, "women", "men", "women-c"), *extremes(draw, START)]
    out += [life(draw, "realistic", "realistic", mild(draw)), life(draw, "from 2013", "LILEE", mild(draw, START))]
    out.append(life(draw, "flat from 2013", "LILEE", of_lilee(flat(), START, SIZES["c"])))
    out += [life(draw, f"from 2033, {i}", "LILEE", mild(draw, LAST_START)) for i in range(2)]
    out += [life(draw, "flat from 2033", "LILEE", of_lilee(flat(), LAST_START, -7)), *extremes(draw, LAST_START)]
    out += [*examples(draw, "research"), life(draw, "from 2021", "LILEE", mild(draw, BETWEEN))]
    start = draw.randint(START + 1, LAST_START - 1)
    return out + [life(draw, f"from {start}, {i}", "LILEE", mild(draw, start)) for i in range(2)]


# ---- pairs of them

def any_span(draw, kind, ages):
    most = OLDEST + 1 - max(ages)
    return draw.choice((0, 1, most, draw.randint(0, most), draw.randint(0, most))) if kind in CHANCES else 0


def usual(draw, first, second, count):
    """Queries of all kinds that break no limit, along the cohorts of both lives, in few years."""
    begun, last, _ = years_of(first.start)
    years = [begun, last, draw.randint(begun, last), *first.years, *second.years]
    out = set()
    while len(out) < count:
        year = draw.choice(years)
        ages = [min(OLDEST, draw.choice(one.ages) + year - begun) for one in (first, second)]
        for kind in COUPLES:
            out.add((kind, *ages, year, any_span(draw, kind, ages)))
            if year in first.years + second.years:
                out.add((kind, *ages, year, min(1, any_span(draw, kind, ages))))
    return sorted(out)


def same_start(draw, every):
    """Each life with itself and with two others of its start year."""
    for one in every:
        others = [other for other in every if other.start == one.start and other is not one]
        for other in (one, *draw.sample(others, min(2, len(others)))):
            sorts = {one.sort, other.sort, one.start}
            yield Pair(f"{one.name}, {other.name}", one.data, other.data, usual(draw, one, other, 56), sorts)


def other_starts(draw, every, count):
    """Lives with different start years: all is refused as 11, whatever else is wrong."""
    every = [one for one in every if one.sort != "extreme"]
    for _ in range(count):
        one = draw.choice(every)
        other = draw.choice([other for other in every if other.start != one.start])
        queries = usual(draw, one, other, 12) + draw.sample(at_limits(one.start), 12)
        yield Pair(f"{one.name}, {other.name}", one.data, other.data, queries)


AGES = (LEAST, -1, 0, 1, 90, 91, 120, 121, GREATEST)


def at_limits(start):
    """Ages, years and spans at and past every limit, and the least and greatest numbers of a line."""
    begun, last, _ = years_of(start)
    out = []
    for ages in itertools.product(AGES, AGES):
        most = OLDEST + 1 - max(ages)
        spans = sorted({span for span in (LEAST, -1, 0, 1, most - 1, most, most + 1, GREATEST) if LEAST <= span <= GREATEST})
        out += [(kind, *ages, year, span) for kind in COUPLES for year in (LEAST, start, begun, last, last + 1) for span in spans]
    return out


# ---- queries whose answer is known

def even_rows(draw, start):
    """Queries of two flat sheets, of one force and of another, with figures of plain sums, and no ends wide enough to leave them
    open. A life of the first survives a year with the chance p, of the second with r."""
    begun, last, end = years_of(start)
    p, r = [(-(Decimal(-n) / 10).exp()).exp() for n in (10, 23)]
    for year in (begun, draw.randint(begun + 1, last - 1), last):
        ages = draw.choice((0, 40, 100)), draw.choice((0, 62, 119))
        for span in (0, 1, 2, OLDEST + 1 - max(ages)):
            yield (JOINT, *ages, year, span), (p * r) ** span
            yield (LAST, *ages, year, span), 1 - (1 - p**span) * (1 - r**span)
        years = range(1, end + 2 - year)
        yield (JOINT_YEARS, *ages, year, 0), Decimal(1) / 2 + sum((p * r) ** n for n in years)
        yield ("elast", *ages, year, 0), Decimal(1) / 2 + sum(1 - (1 - p**n) * (1 - r**n) for n in years)


def even_jobs(draw):
    for start in (START, BETWEEN, LAST_START):
        one, other = (sheets.text(of_lilee(dict(flat(), A=[-(10**8) * n] * 91), start)) for n in (10, 23))
        for query, value in even_rows(draw, start):
            single = SINGLE[query[0]]
            size, shown = step(single), figure_text(rounded(value * UNIT, single), single)
            past_half = (value * UNIT / size + Decimal("0.5")) % 1
            if Decimal("0.1") < past_half < Decimal("0.9") or query[-1] == 0 and query[0] in CHANCES:
                yield shown_as, f"even from {start}", one + other, query, b" fig=" + shown.encode()


# ---- each refusal on either life

STEEP_SHEET = test_compare.STEEP
OFF = with_value("k", b"%d" % (SIZES["k"] + 1))
TORN_SHEET = FLAT.replace(b"sex=", b"Sex=", 1)
LATE = sheets.text(of_lilee(flat(), LAST_START))
LATE_STEEP = sheets.text(of_lilee(dict(flat(), A=[0] * 91), LAST_START))
LATE_OFF = sheets.text(of_lilee(flat(), LAST_START, SIZES["c"] + 1))

# A refused query: two sheets, the ages, the year and the span, the refusal that each life has by itself, and the one that is
# given.
Refused = collections.namedtuple("Refused", "name first second ages year span alone given")


def refused_sheets():
    """Refusals of the sheets, also where the other life breaks a later number."""
    for no, bad in ((TORN, TORN_SHEET), (OFF_SCALE, OFF)):
        yield Refused(f"{no} on the first alone", bad, FLAT, (65, 62), 2020, 0, (no, 0), no)
        yield Refused(f"{no} on the second alone", FLAT, bad, (65, 62), 2020, 0, (0, no), no)
        yield Refused(f"{no} on both", bad, bad, (65, 62), 2020, 0, (no, no), no)
        for other, sheet, ages, year, span in (
            (NO_AGE, FLAT, (121, 62), 2020, 0), (NO_YEAR, FLAT, (65, 62), 2065, 0), (NO_SPAN, FLAT, (120, 62), 2020, 2),
            (STEEP, STEEP_SHEET, (65, 62), 2020, None),
        ):
            yield Refused(f"{other} on the first, {no} on the second", sheet, bad, ages, year, span, (other, no), no)
            yield Refused(f"{no} on the first, {other} on the second", bad, sheet, ages[::-1], year, span, (no, other), no)
    yield Refused("1 on the first, 2 on the second", TORN_SHEET, OFF, (65, 62), 2020, 0, (TORN, OFF_SCALE), TORN)
    yield Refused("2 on the first, 1 on the second", OFF, TORN_SHEET, (65, 62), 2020, 0, (OFF_SCALE, TORN), TORN)
    yield Refused("2 on the first, and 11", LATE_OFF, FLAT, (65, 62), 2020, 0, (OFF_SCALE, 0), OFF_SCALE)
    yield Refused("2 on the second, and 11", FLAT, LATE_OFF, (65, 62), 2020, 0, (0, OFF_SCALE), OFF_SCALE)


def refused_starts():
    """11, alone and with each later number on either life."""
    for name, one, other, alone in (("the first later", LATE, FLAT, (0, 0)), ("the second later", FLAT, LATE, (0, 0))):
        yield Refused(f"11, {name}", one, other, (65, 62), 2040, 0, alone, STARTS_DIFFER)
    yield Refused("11, and 3 on the first", FLAT, LATE, (121, 62), 2040, 0, (NO_AGE, 0), STARTS_DIFFER)
    yield Refused("11, and 3 on the second", FLAT, LATE, (65, -1), 2040, 0, (0, NO_AGE), STARTS_DIFFER)
    yield Refused("11, and 4 on the first alone", FLAT, LATE, (65, 62), 2065, 0, (NO_YEAR, 0), STARTS_DIFFER)
    yield Refused("11, and 4 on the second alone", FLAT, LATE, (65, 62), 2033, 0, (0, NO_YEAR), STARTS_DIFFER)
    yield Refused("11, and 5 on both", FLAT, LATE, (65, 62), 2040, -1, (NO_SPAN, NO_SPAN), STARTS_DIFFER)
    yield Refused("11, and 6 on the first", STEEP_SHEET, LATE, (65, 62), 2040, None, (STEEP, 0), STARTS_DIFFER)
    yield Refused("11, and 6 on the second", FLAT, LATE_STEEP, (65, 62), 2040, None, (0, STEEP), STARTS_DIFFER)


def refused_numbers():
    """3 to 6, each on either life alone and with a later one on the other. The year is common and the starts are one, so that 4
    is always on both lives."""
    good, steep, year = FLAT, STEEP_SHEET, 2020
    yield Refused("3 on the first alone", good, good, (121, 62), year, 0, (NO_AGE, 0), NO_AGE)
    yield Refused("3 on the second alone", good, good, (65, 121), year, 0, (0, NO_AGE), NO_AGE)
    yield Refused("3 on both", good, good, (-1, 121), year, 0, (NO_AGE, NO_AGE), NO_AGE)
    yield Refused("3 on the first, 4 on the second", good, good, (-1, 62), 2065, 0, (NO_AGE, NO_YEAR), NO_AGE)
    yield Refused("4 on the first, 3 on the second", good, good, (65, -1), 2013, 0, (NO_YEAR, NO_AGE), NO_AGE)
    yield Refused("3 on the first, 5 on the second", good, good, (121, 62), year, -1, (NO_AGE, NO_SPAN), NO_AGE)
    yield Refused("5 on the first, 3 on the second", good, good, (65, 121), year, -1, (NO_SPAN, NO_AGE), NO_AGE)
    yield Refused("3 on the first, 6 on the second", good, steep, (121, 62), year, None, (NO_AGE, STEEP), NO_AGE)
    yield Refused("6 on the first, 3 on the second", steep, good, (65, -1), year, None, (STEEP, NO_AGE), NO_AGE)
    yield Refused("4 on both", good, good, (65, 62), 2013, 0, (NO_YEAR, NO_YEAR), NO_YEAR)
    yield Refused("4 on both, and 5 past it", good, good, (65, 62), 2065, -1, (NO_YEAR, NO_YEAR), NO_YEAR)
    yield Refused("4 on both, the first steep", steep, good, (65, 62), 2065, None, (NO_YEAR, NO_YEAR), NO_YEAR)
    yield Refused("4 on both, the second steep", good, steep, (65, 62), 2013, None, (NO_YEAR, NO_YEAR), NO_YEAR)
    yield Refused("5 on both", good, good, (65, 62), year, -1, (NO_SPAN, NO_SPAN), NO_SPAN)
    yield Refused("5 on both, both steep", steep, steep, (65, 62), year, 122, (NO_SPAN, NO_SPAN), NO_SPAN)
    yield Refused("6 on the first alone", steep, good, (65, 62), year, None, (STEEP, 0), STEEP)
    yield Refused("6 on the second alone", good, steep, (65, 62), year, None, (0, STEEP), STEEP)
    yield Refused("6 on both", steep, steep, (65, 62), year, None, (STEEP, STEEP), STEEP)


def refused_spans():
    """5 on one life alone, which a chance alone can have."""
    good, steep, year = FLAT, STEEP_SHEET, 2020
    yield Refused("5 on the first alone", good, good, (119, 62), year, 3, (NO_SPAN, 0), NO_SPAN)
    yield Refused("5 on the second alone", good, good, (65, 120), year, 2, (0, NO_SPAN), NO_SPAN)
    yield Refused("5 on the first, 6 on the second", good, steep, (119, 62), year, 3, (NO_SPAN, STEEP), NO_SPAN)
    yield Refused("6 on the first, 5 on the second", steep, good, (65, 120), year, 2, (STEEP, NO_SPAN), NO_SPAN)
    yield Refused("5 on the first, 3 on the second", good, good, (119, 121), year, 3, (NO_SPAN, NO_AGE), NO_AGE)
    yield Refused("3 on the first, 5 on the second", good, good, (121, 119), year, 3, (NO_AGE, NO_SPAN), NO_AGE)


# The cases that must be met, whatever those above are: every number on either life alone, and every two on different lives.
BY_ITSELF = (TORN, OFF_SCALE, NO_AGE, NO_SPAN, STEEP)
MUST_MEET = [f"{no} on the {which} alone" for no in BY_ITSELF for which in ("first", "second")]
MUST_MEET += [f"{one} on the first, {other} on the second" for one, other in itertools.permutations(BY_ITSELF, 2)]
MUST_MEET += [f"{one} on the first, {other} on the second" for no in (1, 2, 3) for one, other in ((no, NO_YEAR), (NO_YEAR, no))]
MUST_MEET += ["2 on the first, and 11", "2 on the second, and 11"]
MUST_MEET += [f"11, and {no} on the {which}" for no in (3, 6) for which in ("first", "second")]
MUST_MEET += ["11, and 4 on the first alone", "11, and 4 on the second alone", "11, and 5 on both", "4 on both"]
MUST_MEET += ["11, the first later", "11, the second later"]


def refused_cases():
    """Each case with a query of each kind that can have it. A span of None is one that the kind has and that needs a cell."""
    for kind in COUPLES:
        rows = [*refused_sheets(), *refused_starts(), *refused_numbers(), *(refused_spans() if kind in CHANCES else ())]
        for one in rows:
            span = (1 if kind in CHANCES else 0) if one.span is None else one.span
            yield one, (kind, *one.ages, one.year, span)


def alone(sheet, kind, age, year, span):
    """The refusal of a single life."""
    no = read(sheet)[0]
    return no or quotes_of(sheet).refusal(SINGLE[kind], age, year, span)


def not_as_said(one, query):
    """What is wrong where a case is not what its name says."""
    kind, age, other_age, year, span = query
    got = alone(one.first, kind, age, year, span), alone(one.second, kind, other_age, year, span)
    return None if got == one.alone else f"{one.name}, {query}: the lives have {got} and not {one.alone}"


def refused_line(one, query):
    """The line that a refused query's run prints: one that names a refused sheet, or the query with its number."""
    sheet = next((i for i, no in enumerate(one.alone) if no == one.given), None)
    if one.given in (TORN, OFF_SCALE):
        return b"sheet=%d no=%d\n" % (1 + sheet, one.given)
    return line_of(query)[:-1] + b" no=%d\n" % one.given


def refused_jobs():
    for one, query in refused_cases():
        yield not_as_said, one, query
        yield known_run, one.name, one.first + one.second + line_of(query), refused_line(one, query)


# ---- spans at the smaller limit, and no span

def shown_as(name, head, query, end):
    """What is wrong with the one line that is printed for a query, by how it must end, and by the second implementation."""
    data = head + line_of(query)
    status, out = programs.run("couples", data)
    start = line_of(query)[:-1] + b" "
    good = status == 0 and out.startswith(start) and out.endswith(end + b"\n") and out == whole_run.couples(data)
    return None if good else f"couples, {name}: {out!r}, not {start!r} .. {end!r}"


def known_run(name, data, want):
    """What is wrong with a run whose output is known, by the second implementation and by the program."""
    return complaint(name, "whole_run.py", want, 0, whole_run.couples(data)) or compared("couples", Input(name, data), want)


def span_jobs(draw):
    """Spans at the smaller of the two limits, and one past it, past it on either life or on both; the limit of the other life is
    no matter. No span needs no cell, steep or not, and gives 1."""
    ages = [(0, 0), (120, 120), (0, 120), (120, 0), (119, 120), (65, 64), (64, 65)]
    ages += [(draw.randint(0, OLDEST), draw.randint(0, OLDEST)) for _ in range(8)]
    for (age, other_age), kind in itertools.product(ages, CHANCES):
        most, year = min(121 - age, 121 - other_age), draw.randint(2014, 2064)
        accepted = whole_run.couples(FLAT * 2 + line_of((kind, age, other_age, year, most)))
        yield complaint, "the limit", "whole_run.py", b" fig=", 0, accepted[accepted.index(b" fig=") :][:5]
        yield shown_as, "the smaller limit", FLAT * 2, (kind, age, other_age, year, most), b""
        yield shown_as, "past it", FLAT * 2, (kind, age, other_age, year, most + 1), b" no=5"
        yield shown_as, "below 0", FLAT * 2, (kind, age, other_age, year, -1), b" no=5"
        for head in (FLAT * 2, STEEP_SHEET * 2, FLAT + STEEP_SHEET):
            line, certain = line_of((kind, age, other_age, year, 0)), b" lo=%d hi=%d unit=9 fig=1.00000\n" % (UNIT, UNIT)
            yield known_run, "no span", head + line, line[:-1] + certain
        for kind_of_years in COUPLES[2:]:
            yield shown_as, "a span of years", FLAT * 2, (kind_of_years, age, other_age, year, most), b" no=5"


def steep_beyond():
    """A sheet with one steep age is refused only where its life is asked for that age, or for one above 90 if it is fitted."""
    steep = {age: sheets.text(dict(flat(), A=[(0 if x == age else -(10**9)) for x in range(91)])) for age in (40, 85)}
    one, other = FLAT + steep[40], steep[40] + FLAT
    rows = {(one, JOINT, 40, 30, 10): b"", (one, JOINT, 40, 30, 11): b" no=6", (one, LAST, 40, 41, 50): b"",
            (other, JOINT, 30, 40, 10): b"", (other, LAST, 30, 40, 11): b" no=6", (other, LAST, 41, 40, 50): b"",
            (one, JOINT_YEARS, 40, 41, 0): b"", (one, JOINT_YEARS, 41, 40, 0): b" no=6", (other, "elast", 40, 41, 0): b" no=6"}
    at_85 = FLAT + steep[85]
    rows |= {(at_85, JOINT, 90, 86, 5): b"", (at_85, JOINT, 90, 86, 6): b" no=6", (at_85, "elast", 0, 86, 0): b" no=6"}
    for (head, kind, age, other_age, span), end in rows.items():
        yield shown_as, "steep beyond", head, (kind, age, other_age, 2020, span), end


# ---- figures searched to be open

class Moved:
    """A life with A moved at an age that is in no closure, so that its cell alone moves."""

    def __init__(self, rest, age, by):
        self.start, self.on, self.age = rest.start, {COARSE: self}, age
        self.moved, self.rest = GridCells(moved(rest.params, "A", age, by), COARSE), rest

    def p(self, *cell):
        return (self.moved if cell[0] == self.age else self.rest).p(*cell)


def searched(draw, kind, first):
    """A couple with a quote whose middle is brought to a half step by A of one life, or the other, so that it is open on the coarse
    grid."""
    size = step(SINGLE[kind])
    while True:
        params, other = mild(draw), mild(draw)
        ages, year = (draw.randint(50, 79), draw.randint(50, 79)), draw.randint(2014, 2064)
        query = (kind, *ages, year, draw.randint(1, OLDEST + 1 - max(ages)) if kind in CHANCES else 0)
        age, rest, still = ages[0 if first else 1], GridCells(params, COARSE), Quotes(other)

        def ends(by):
            one = Moved(rest, age, by)
            return Couple(*((one, still) if first else (still, one))).ends(*query)

        a, b, half = 0, 10**6, sum(ends(0)) // 2 // size * size + size // 2
        for _ in range(8):
            slope = (sum(ends(b)) - sum(ends(a))) / 2 / (b - a)
            if slope == 0 or abs((half - sum(ends(b)) / 2) / slope) > 2 * 10**9:
                break
            a, b = b, b + round((half - sum(ends(b)) / 2) / slope)
            if a == b:
                break
        changed = moved(params, "A", age, b)
        given = (Quotes(changed), still) if first else (still, Quotes(changed))
        if not Couple(*given).refusal(*query) and figure(ends(b), SINGLE[kind]) == OPEN:
            data = [sheets.text(changed), sheets.text(other)]
            return Pair(f"half step, {kind}", *(data if first else data[::-1]), [query])


def opened(draw, kind):
    """A couple with a quote that lies at a half step, by A and B of the first life, so near that the fine grid leaves it open."""
    while True:
        edges, other = Edges(mild(draw)), mild(draw)
        ages, year = (draw.randint(50, 79), draw.randint(50, 79)), draw.randint(2014, 2064)
        query = (kind, *ages, year, draw.randint(1, OLDEST + 1 - max(ages)) if kind in CHANCES else 0)
        given = Couple(Quotes(edges.params), Quotes(other)) if edges.place(query, 0, Edges(other)) else None
        if given and not given.refusal(*query) and given.quote(*query).steps == OPEN:
            return Pair(f"open, {kind}", sheets.text(edges.params), sheets.text(other), [query])


# ---- comparing

def false_words(given, query, line):
    """What the line of an accepted query says that is not true of its exact value, or not allowed."""
    got, single, value = ANSWER.fullmatch(line), SINGLE[query[0]], given.value(*query)
    lower, upper, unit = map(int, got.groups()[1:4])
    if not lower <= in_units(value, unit) <= upper:
        yield f"the exact value {value:.20f} is not between the ends"
    if got[5] != b"open" and got[5].decode() != figure_text(rounded(value, single), single):
        yield f"the exact value {value:.20f} rounds to {figure_text(rounded(value, single), single)}"
    if upper - lower > widest(unit, query[0]):
        yield f"{upper - lower} units apart"


def unlike_singles(given, query):
    """Both and at least one are together the two single lives: what is wrong where the exact values are not, to 60 digits."""
    kind, age, other_age, year, span = query
    pair = (JOINT, LAST) if kind in CHANCES else COUPLES[2:]
    both = sum(given.value(one, age, other_age, year, span) for one in pair)
    each = sum(life.value(SINGLE[kind], of, year, span) for life, of in zip(given.lives, (age, other_age)))
    return None if abs(both - each) < Decimal(10) ** -58 else f"{query}: the couple has {both:.70f}, the lives {each:.70f}"


# A figure that is printed by its coarse ends, and by its fine ones.
TOLD = ("printed", "fine")


def tally(lines, counts):
    """Counts what the second implementation says of the lines."""
    for line in lines:
        got = ANSWER.fullmatch(line)
        kind = line.partition(b" ")[0].decode().removeprefix("kind=")
        what = line.rpartition(b" ")[2].decode() if not got else "open" if got[5] == b"open" else TOLD[got[4] == b"13"]
        counts[f"{kind} {what}" if line.startswith(b"kind=") else line.decode()] += 1


def told(pair, counts):
    """What is wrong with each line of a pair's run, and of the couple's exchanged, None where nothing is."""
    head, given = pair.first + pair.second, Couple(quotes_of(pair.first), quotes_of(pair.second))
    data = head + b"".join(map(line_of, pair.queries))
    other = pair.second + pair.first + b"".join(line_of(exchanged(query)) for query in pair.queries)
    want, (status, out), (_, turned) = whole_run.couples(data), programs.run("couples", data), programs.run("couples", other)
    tally(want.splitlines(), counts)
    yield complaint(pair.name, "couples", want, status, out)
    lines = (shown.splitlines()[: len(pair.queries)] for shown in (out, want, turned))
    for query, line, wanted, back in itertools.zip_longest(pair.queries, *lines, fillvalue=b""):
        wrong = [] if line == wanted else [f"not {wanted!r}"]
        echo, echoed = (line_of(one)[:-1] for one in (query, exchanged(query)))
        if not (line.startswith(echo) and back.startswith(echoed) and line[len(echo) :] == back[len(echoed) :]):
            wrong.append(f"exchanged, {back!r}")
        if ANSWER.fullmatch(line) and ANSWER.fullmatch(wanted):
            counts.update(["exact", *(("sort", sort) for sort in pair.sorts)])
            wrong += false_words(given, query, line)
        yield f"{pair.name}: {line!r}: {'; '.join(wrong)}" if wrong else None


def pairs(draw, every):
    out = [*same_start(draw, every), *other_starts(draw, every, 12)]
    out += [searched(draw, kind, first) for kind in COUPLES for first in (True, False)] + [opened(draw, kind) for kind in COUPLES]
    for start in (START, BETWEEN, LAST_START):
        sheet = sheets.text(of_lilee(flat(), start, 3))
        out.append(Pair(f"limits from {start}", sheet, sheet, draw.sample(at_limits(start), 300)))
    return out


def pairs_found(draw, every, counts):
    found, all_pairs = [], pairs(draw, every)
    for pair in all_pairs:
        found += told(pair, counts)
        counts["lines"] += len(pair.queries)
        given = Couple(quotes_of(pair.first), quotes_of(pair.second))
        accepted = [query for query in pair.queries if not given.refusal(*query)]
        found += [unlike_singles(given, query) for query in draw.sample(accepted, min(3, len(accepted)))]
    return found, all_pairs


# ---- whole runs

def ready_lives(every):
    """Sheets with lines of queries, as the whole runs take them: the first line is soon worked, and often printed."""
    quick = line_of((JOINT, 119, 118, 2064, 1))
    lines = [line_of((kind, 100, 99, 2020, 0)) for kind in COUPLES] + [line_of((LAST, 90, 91, 2020, 20))]
    lines += [line_of((JOINT, 121, 65, 2020, 0)), line_of((JOINT_YEARS, 65, 65, 2020, 1)), line_of((LAST, 65, 65, 2065, 0))]
    names = ("flat", "women", "men")
    return [(one.data, [quick, *lines]) for name in names for one in every if one.name == name]


def torn_runs(draw, ready):
    """Lines with one field or byte wrong, lines of the other programs, and a couple's line in them."""
    torn = []
    for kind in COUPLES:
        line = line_of((kind, 119, 118, 2020, 1 if kind in CHANCES else 0))
        torn += [*torn_fields(line), *torn_bytes(draw, line)]
    torn += [b"kind=coh age=119 year=2020 span=1\n", b"kind=ecoh age=119 year=2020 span=0\n", b"kind=q age=119 year=2020 span=0\n"]
    torn += [b"kind=joint age=119 year=2020 span=1\n", b"kind=coh age=119 age2=118 year=2020 span=1\n"]
    torn += [b"kind=joint age=119 age2=118 year=2020 date=20210101\n", b"kind=ejoint age=119 age2=118 year=2020 span=0 rate=0\n"]
    torn += [b"kind=joint age2=118 age=119 year=2020 span=1\n", b"kind=joint age=119 age=118 year=2020 span=1\n"]
    draw.shuffle(torn)
    for at in range(0, len(torn), 40):
        body = [line + (draw.choice(ready[0][1]) if draw.randrange(4) == 0 else b"") for line in torn[at : at + 40]]
        yield Input(f"torn lines from {at}", FLAT * 2 + b"".join(body))
    for kind in COUPLES:
        line = line_of((kind, 119, 118, 2020, 0))
        for at in range(len(line) + 1):
            yield Input(f"ends in {line[:at]!r}", FLAT * 2 + line[:at])


def elsewhere(draw):
    """A couple's line is torn in the other programs, and names the kinds of a single life no more than they those of two."""
    lines = b"".join(line_of((kind, 65, 62, 2020, 0)) + b"kind=%b age=65 year=2020 span=0\n" % kind.encode() for kind in COUPLES)
    for name in ("quotes", "ends", "compare"):
        yield compared, name, Input("couples' lines", FLAT * (1 + (name == "compare")) + lines), b"no=1\n" * 8


def few(draw, inputs, count):
    inputs = list(inputs)
    return draw.sample(inputs, min(count, len(inputs)))


def damaged_runs(draw, ready, count):
    """A byte changed in either sheet or in the lines."""
    for i in range(count):
        (first, lines), (second, _) = draw.choice(ready), draw.choice(ready)
        data = first + second + some(draw, lines, 6)
        start, end = draw.choice(((0, len(first)), (len(first), len(first + second)), (len(first + second) - 9, len(data))))
        yield Input(f"damaged {i}", damaged(data, draw.randrange(start, end), draw))


def whole_runs(draw, every):
    """Inputs of the program: those of `compare`, with couples' lines, and its own."""
    ready = ready_lives(every)
    out = [*torn_runs(draw, ready), *damaged_runs(draw, ready, 120), *test_compare.line_feeds(ready)]
    out += few(draw, test_compare.cut_sheets(draw, ready), 120) + few(draw, test_compare.refused_sheets(draw, ready), 160)
    sizes = [one for one in test_compare.sizes(ready) if len(one.data) < 2 * LONGEST]
    return out + sizes + list(test_compare.any_bytes(draw, ready, 60))


def run_jobs(draw, every, counts):
    inputs = whole_runs(draw, every)
    for one in inputs:
        want = whole_run.couples(one.data)
        counts["no=1 alone"] += want == b"no=1\n"
        tally(want.splitlines(), counts)
        counts["longest", len(one.data)] += 1
        yield compared, "couples", one, want
    for one in draw.sample([one for one in inputs if len(one.data) < 20_000], 6):
        yield from_file, "couples", one
        yield piecewise, "couples", one, [draw.randint(1, 1000) for _ in range(9)]
    yield from elsewhere(draw)


# ---- the library

WORDS = (
    b"", b"q", b"coh", b"ecoh", b"day", b"join", b"joint ", b"joint\0", b"Joint", b"ejoin", b"ejointt", b"las", b"lasts", b"elas",
    b"e", b"last\n", b" last", b"jointlast", b"LAST", b"\xff", b"elast" * 60,
)


def wanted_quote(first, second, query):
    """The refusal of a call, and the five numbers of its quote."""
    no = min((no for no in (read(first)[0], read(second)[0]) if no), default=0)
    if no:
        return no, None
    no, quote = whole_run.couple_of(whole_run.sheet_of(first), whole_run.sheet_of(second))(query)
    return (no, None) if no else (0, numbers_of(quote))


def compare_call(count, counts, draw, module, first, second, query, given=None):
    """A query by Python's call, and by C's with places of several numbers; against its known refusal, where there is one."""
    kind, *numbers = query
    no, quoted = wanted_quote(first, second, query)
    count.take(given is None or given == no, f"{query}: the second implementation gives {no} and not {given}")
    wanted = no or (*quoted[:2], quoted[3] if quoted[2] else None, decimals(SINGLE[kind]), quoted[4])
    got = raised(module.couple, first, second, *query) or module.couple(first, second, *query)
    count.take(got == wanted, f"couple {query} gives {got} and not {wanted}")
    counts["calls"] += 1
    counts[f"call refused {no}" if no else f"call {'printed' if quoted[2] else 'open'}"] += 1
    for places in {QUOTE_LENGTH, draw.choice(PLACES)}:
        before = lent(draw, places)
        wanted = after(no, quoted, before)
        counts["call short"] += wanted[0] == SHORT
        got = c_interface.couple(module.LIBRARY, first, second, kind.encode(), *numbers, before=before)
        count.take(got == wanted, f"kulfizan_couple {query}, {places} places: {got} and not {wanted}")


def compare_words(count, draw, module):
    """A word that is no couple's kind is torn, whatever the sheets and numbers are."""
    for word in WORDS:
        first, second = draw.choice((FLAT, OFF, b"")), draw.choice((FLAT, LATE, OFF))
        before = lent(draw, draw.choice(PLACES))
        got = c_interface.couple(module.LIBRARY, first, second, word, draw.choice((65, 121)), 62, 2020, 0, before=before)
        count.take(got == (TORN, before), f"the kind {word[:20]}: {got[0]}")


def compare_far(count, draw, module):
    """Numbers of any size, by Python past 64 bits too: the refusal is that of any number out of the table."""
    for far in (GREATEST, LEAST, 2**63, -(2**63) - 1, 2**64 + 65, 2**64 + 2020, 2**64, 10**30, -(10**30)):
        rows = ((3, far, 62, 2020, 0), (3, 65, far, 2020, 0), (4, 65, 62, far, 0), (5, 65, 62, 2020, far), (3, far, far, far, far))
        for (no, *numbers), kind in itertools.product(rows, COUPLES):
            got = raised(module.couple, FLAT, FLAT, kind, *numbers)
            count.take(got == no, f"couple {kind} {numbers}: {got} and not {no}")
    for kind, age, other_age in itertools.product(COUPLES, (65.0, "65", None), (62,)):
        got = raised(module.couple, FLAT, FLAT, kind, age, other_age, 2020, 0)
        count.take(got == "TypeError", f"couple {kind} at {age!r}: {got}")
    for _ in range(60):
        query = (draw.choice(COUPLES), *(any_number(draw) for _ in range(4)))
        compare_call(count, collections.Counter(), draw, module, FLAT, FLAT, query)
    count.take("start" in str(module.Refused(STARTS_DIFFER)), "refusal 11 has no words")


def library_count(draw, all_pairs):
    count, counts, module = c_interface.Count(), collections.Counter(), c_interface.built()
    count.take(module is not None, "the library is not built")
    count.take(hasattr(module, "couple"), "the module has no call for couples")
    if count.failed:
        return count
    for pair in all_pairs:
        for query in draw.sample(pair.queries, min(6, len(pair.queries))):
            compare_call(count, counts, draw, module, pair.first, pair.second, query)
    for one, query in refused_cases():
        compare_call(count, counts, draw, module, one.first, one.second, query, one.given)
    for first, second in itertools.permutations((FLAT, b"", FLAT[:-1], FLAT * 2, FLAT.ljust(LONGEST + 1, b"\n"), OFF, LATE), 2):
        compare_call(count, counts, draw, module, first, second, (JOINT, 119, 118, 2020, 1))
    compare_words(count, draw, module)
    compare_far(count, draw, module)
    met = [f"call refused {no}" for no in (TORN, OFF_SCALE, STARTS_DIFFER, NO_AGE, NO_YEAR, NO_SPAN, STEEP)]
    for what in met + ["call printed", "call open", "call short"]:
        count.take(counts[what] > 0, f"no case of: {what}")
    count.take(counts["calls"] >= LEAST_CALLS, f"{counts['calls']} calls, not {LEAST_CALLS}")
    print(f"{counts['calls']} queries by the library's call:", *(f"{what} {counts[what]}" for what in met + ["call open"]))
    return count


# ---- all of it

REFUSALS = (STARTS_DIFFER, NO_AGE, NO_YEAR, NO_SPAN, STEEP)
RUNS_REFUSED = [f"sheet={sheet} no={no}" for sheet in (1, 2) for no in (1, 2)]


def missing(counts):
    """What should have been met and has not."""
    wanted = [f"{kind} {what}" for kind in COUPLES for what in (*TOLD, "open", *(f"no={no}" for no in REFUSALS))]
    out = [what for what in wanted + RUNS_REFUSED + ["no=1", "no=1 alone"] if not counts[what]]
    out += [f"{size} bytes" for size in (LONGEST, LONGEST + 1) if not counts["longest", size]]
    out += [f"{LEAST_LINES} lines held against exact values"] if counts["exact"] < LEAST_LINES else []
    out += [f"accepted lines of sheets, {sort}" for sort in SORTS if counts["sort", sort] < 30]
    names = {one.name for one, _ in refused_cases()}
    return out + [f"the case {name}" for name in MUST_MEET if name not in names]


def report(counts, all_pairs, jobs):
    print(f"{len(all_pairs)} pairs with {counts['lines']} lines, {counts['exact']} held against exact values; {jobs} runs and facts")
    print(f"{len(MUST_MEET)} named cases of refusals; runs refused:", *(f"{what}, {counts[what]};" for what in RUNS_REFUSED))
    for kind in COUPLES:
        print(f"{kind}:", *(f"{what} {counts[f'{kind} {what}']}" for what in (*TOLD, "open", *(f"no={no}" for no in REFUSALS))))


def main():
    seed = int(sys.argv[1]) if len(sys.argv) > 1 else SEED
    print(f"seed {seed}")
    gone = programs.missing("couples", "quotes", "ends", "compare")
    if gone:
        print(gone)
        return 1
    draw, counts = random.Random(seed), collections.Counter()
    every = lives(draw)
    found, all_pairs = pairs_found(draw, every, counts)
    jobs = [*even_jobs(draw), *refused_jobs(), *span_jobs(draw), *steep_beyond(), *run_jobs(draw, every, counts)]
    with concurrent.futures.ThreadPoolExecutor(2) as threads:
        found += threads.map(lambda job: job[0](*job[1:]), jobs)
    report(counts, all_pairs, len(jobs))
    absent = missing(counts)
    found.append(f"no case of: {', '.join(absent)}" if absent else None)
    wrong = [said for said in found if said]
    for message in wrong[:20]:
        print(message)
    library = library_count(draw, all_pairs)
    passed, failed = len(found) - len(wrong) + library.passed, len(wrong) + library.failed
    print(f"{passed} passed, {failed} failed")
    return 1 if failed else 0


if __name__ == "__main__":
    sys.exit(main())
