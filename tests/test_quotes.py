"""Every answer to a quote against a second implementation: the refusal, both ends, their unit and the figure, number for number,
and the exact value to many digits, which must lie between the ends and round to the printed figure.

It hands sheets and query lines to the program `ends`: the flat sheet, realistic and extreme ones, steep ones, refused ones, some
that are searched for a coarse end at a half step, and some whose figure the fine grid leaves open, of which tests/test_fine.py has
many. Annuities are asked at each end of the rates and past it, and at rate 0 held against the expectancy of the same age. Survival
to a day is asked at and past both ends of its term and of numbers that are no day; its own dates are tests/test_day.py.
Expectancies and annuities are asked at 120 in each year; where all ages have one force they are held against a plain sum over the
years to 2184; and some sheets have a steep cell in one year alone, which a life may reach past 120. A line has no number of more
than 15 digits, so the least and greatest numbers are those of 15 digits. An argument is taken as the seed.
"""
import collections
import concurrent.futures
import datetime
import itertools
import random
import re
import sys
from decimal import Decimal

import programs
import sheets
from whole_run import figure_text
from edges import Edges
from grid import COARSE, GRIDS, HIGHEST, LOWEST, RATE, START, UNIT, down, flat, up
from quotes import ANNUITIES, CLOSURE, COHORT, DAY, EXPECTANCIES, FIRST_YEAR, KINDS, LAST_CELL, LAST_FITTED, LAST_YEAR
from quotes import MOST_RATE, OLDEST, OPEN, RATE_UNIT, STEEP, SUMS, SURVIVALS, UNRATED, GridCells, Quotes, day_of
from quotes import grid_ends, in_units, number_of, part_year, path, rounded, step, term, width, years_of
from reader import LONGEST, SIZES, params_of, read

SEED = 20142064
LEAST, GREATEST = 1 - 10**15, 10**15 - 1
NEAR = 5
# What an accepted query is told: a figure by its coarse ends, one by its fine ends, or none.
TOLD = ("printed", "fine", OPEN)
REFUSALS = (1, 2, 3, 4, 10, 5, 8, 6)
SORTS = ("flat", "realistic", "extreme")
LEAST_ANNUITIES, LEAST_TENTHS = 3000, 3000
ANSWER = re.compile(r"lo=([0-9]+) hi=([0-9]+) unit=(9|13) fig=([0-9.]+|open)")

# A sheet, its queries (kind, age, year, span, and the rate of an annuity; the date of a day in the span's place), and what some
# of the lines must end in, whatever the second implementation says.
Case = collections.namedtuple("Case", "name data queries fixed")


def case(name, params, queries, fixed=None):
    return Case(name, sheets.text(params), queries, fixed or {})


def line_of(query):
    keys = ("age", "year", "date") if query[0] == DAY else ("age", "year", "span", "rate")
    return "".join([f"kind={query[0]}", *(f" {key}={value}" for key, value in zip(keys, query[1:])), "\n"]).encode()


# ---- queries

AGES = (LEAST, -1, 0, 1, 90, 91, 119, 120, 121, GREATEST)
YEARS = (LEAST, 2013, 2014, 2064, 2065, 2184, 2185, GREATEST)
RATES = (LEAST, -1, 0, 1, 30_000, MOST_RATE - 1, MOST_RATE, MOST_RATE + 1, GREATEST)
# Numbers that are no day, among them 29 February of years that are not leap years, and 1 January of years past four digits.
NO_DAYS = (
    LEAST, -20200101, -1, 0, 1, 2020, 202001, 9990101, 9991231, 10000100, 20200000, 20200001, 20200100, 20200132, 20200230,
    20200431, 20201301, 20209999, 20210229, 21000229, 99991232, 100000101, 202001011, 2**32 + 20200101, GREATEST,
)
ONE_DAY = datetime.timedelta(1)


def dates_near(age, year):
    """The dates at and past both ends of a term, and the first and last days that there are; those of the nearest age and year
    where these are outside the table."""
    first, last = term(max(0, min(OLDEST, age)), max(FIRST_YEAR, min(LAST_YEAR, year)))
    days = [first - ONE_DAY, first, first + ONE_DAY, last - ONE_DAY, last, last + ONE_DAY]
    return [*map(number_of, days), 10000101, 99991231]


def at_limits():
    """Ages, years, spans, rates and dates at and past every limit, and the least and greatest numbers, in all combinations, of
    which annuities and days have those nearest to the limits."""
    out = []
    for age in AGES:
        spans = (LEAST, -1, 0, 1, 120 - age, 121 - age, 122 - age, GREATEST)
        spans = sorted({span for span in spans if LEAST <= span <= GREATEST})
        out += itertools.product(UNRATED, [age], YEARS, spans)
    for age, year in itertools.product((LEAST, -1, 0, 90, 119, 120, 121), (2013, 2014, 2064, 2065, GREATEST)):
        out += [(DAY, age, year, date) for date in (*NO_DAYS, *dates_near(age, year))]
    return out + list(itertools.product(ANNUITIES, (-1, 0, 119, 120, 121), (2013, 2014, 2064, 2065), (-1, 0, 1), RATES))


def any_date(draw, age, year):
    """A date of a term."""
    first, last = term(age, year)
    day = first + draw.randint(0, (last - first).days) * ONE_DAY
    return number_of(draw.choice((first, last, day, day, day, day.replace(month=1, day=1), day.replace(month=12, day=31))))


def any_span(draw, age):
    return draw.choice((0, 1, OLDEST + 1 - age, draw.randint(0, OLDEST + 1 - age)))


def any_rate(draw, kind):
    """The end of a query of a kind: the rate of an annuity, and nothing for others."""
    return (draw.choice((0, 1, 30_000, MOST_RATE, draw.randint(0, MOST_RATE))),) if kind in ANNUITIES else ()


def any_query(draw, kind, age, year):
    """A query that breaks no limit."""
    if kind == DAY:
        return kind, age, year, any_date(draw, age, year)
    return kind, age, year, any_span(draw, age) if kind in SURVIVALS else 0, *any_rate(draw, kind)


def at_rates(draw, queries, count):
    """Some of the annuities among queries at and past each end of the rates, and what they are held against at rate 0."""
    out = []
    for kind, age, year, *_ in draw.sample([query for query in queries if query[0] in ANNUITIES], count):
        out += [(kind, age, year, 0, rate) for rate in (*RATES, draw.randint(0, MOST_RATE))]
        out.append(("e" + kind[1:], age, year, 0))
    return out


def usual(draw, years, each):
    """Queries of all kinds that break no limit, in few years and along few cohorts; expectancies and annuities at 120 too."""
    out = []
    for year in years:
        youngest = draw.randint(0, 100)
        for _ in range(each):
            age, later = draw.randint(0, OLDEST), draw.randint(0, 20)
            out.append(("q", age, draw.choice((year, draw.randint(FIRST_YEAR, LAST_CELL))), 0))
            out += [any_query(draw, kind, age, year) for kind in ("per", "eper", "aper")]
            start, begun = youngest + later, min(LAST_YEAR, year + later)
            out += [any_query(draw, kind, start, begun) for kind in COHORT]
        out += [any_query(draw, DAY, 0, year), any_query(draw, DAY, OLDEST, year)]
        out += [("ecoh", 0, year, 0), ("coh", 0, year, draw.randint(1, OLDEST + 1)), any_query(draw, "acoh", 0, year)]
        out += [any_query(draw, kind, OLDEST, year) for kind in SUMS]
    return sorted(set(out))


# ---- sheets

def fixed_cases():
    """The paper's three lines, and its edges, with what they print."""
    rows = {
        ("q", 65, 2020, 0): "fig=0.30780", ("coh", 119, 2020, 2): "fig=0.47914", ("ecoh", 120, 2064, 0): "fig=2.75",
        ("coh", 120, 2064, 0): "fig=1.00000", ("per", 120, 2014, 0): "fig=1.00000", ("coh", 120, 2064, 1): "fig=0.69220",
        ("per", 120, 2064, 1): "fig=0.69220", ("coh", 120, 2064, 2): "no=5", ("per", 120, 2064, 2): "no=5",
        ("coh", 119, 2014, 3): "no=5", ("per", 0, 2014, 122): "no=5", ("q", 121, 2014, 0): "no=3",
        ("ecoh", 121, 2014, 0): "no=3", ("acoh", 121, 2014, 0, 0): "no=3", ("q", 0, 2184, 0): "fig=0.30780",
        ("q", 0, 2185, 0): "no=4", ("ecoh", 0, 2065, 0): "no=4", ("q", 65, 2020, 1): "no=5",
        ("eper", 121, 2065, 1): "no=3", ("eper", 120, 2065, 1): "no=4",
        ("ecoh", 120, 2014, 0): "fig=2.75", ("eper", 120, 2014, 0): "fig=2.75", ("acoh", 120, 2064, 0, 0): "fig=3.2",
        ("aper", 120, 2064, 0, 0): "fig=3.2", ("acoh", 120, 2014, 0, MOST_RATE): "fig=2.4",
        (DAY, 65, 2020, 20200101): "fig=1.00000", (DAY, 119, 2020, 20210101): "fig=0.69220",
        (DAY, 119, 2020, 20211231): "fig=0.47962", (DAY, 119, 2020, 20220101): "no=5", (DAY, 0, 2064, 21850101): "no=5",
        (DAY, 0, 2064, 21841231): "fig=0.00000", (DAY, 65, 2020, 20191231): "no=5", (DAY, 65, 2020, 21000229): "no=10",
        (DAY, 65, 2065, 21000229): "no=4", (DAY, 121, 2065, 21000229): "no=3",
    }
    yield case("flat, the paper's rows", flat(), list(rows), rows)
    needy = [("q", 90, 2014, 0), ("q", 91, 2184, 0), ("coh", 0, 2064, 121), ("per", 30, 2020, 1)]
    needy += [("ecoh", 0, 2014, 0), ("eper", 91, 2014, 0), ("acoh", 119, 2064, 0, 0), ("aper", 0, 2014, 0, MOST_RATE)]
    needy += [("ecoh", 120, 2064, 0), ("eper", 120, 2014, 0), ("acoh", 120, 2064, 0, 0), ("aper", 120, 2014, 0, 30_000)]
    needy += [(DAY, 0, 2014, 20140102), (DAY, 120, 2064, 20641231), (DAY, 90, 2020, 20210101)]
    free = {("coh", 7, 2020, 0): "fig=1.00000", ("per", 120, 2064, 0): "fig=1.00000", (DAY, 7, 2020, 20200101): "fig=1.00000"}
    for a, end in ((HIGHEST, ""), (HIGHEST + 1, "no=6"), (LOWEST, ""), (LOWEST - 1, "no=6")):
        rows = dict.fromkeys(needy, end) | free | {query: "no=8" for query in refused_rates()}
        rows |= {(DAY, 0, FIRST_YEAR, date): "no=10" for date in NO_DAYS}
        yield case(f"every A {a}", dict(flat(), A=[a] * 91), list(rows), rows)


def refused_rates():
    """Annuities whose rate is refused, whatever their cells are."""
    for kind, age, rate in itertools.product(ANNUITIES, (0, 119, 120), (LEAST, -1, MOST_RATE + 1, 2**32, GREATEST)):
        yield kind, age, FIRST_YEAR, 0, rate


def refused_in_order():
    """The order of an annuity's refusals, at any rate, and of a day's, at any date."""
    rows = {query: "no=8" for query in refused_rates()}
    for kind, rate in itertools.product(ANNUITIES, RATES):
        for age, year, no in ((-1, 2013, 3), (121, 2065, 3), (120, 2065, 4), (0, 2013, 4), (120, 2064, 5), (0, 2014, 5)):
            rows |= {(kind, age, year, span, rate): f"no={no}" for span in (LEAST, -1, 1, 121 - age)}
    for age, year, no in ((-1, 2013, 3), (121, 2065, 3), (120, 2065, 4), (0, 2013, 4), (120, 2064, 10), (0, 2014, 10)):
        rows |= {(DAY, age, year, date): f"no={no}" for date in NO_DAYS}
        others = dates_near(age, year)
        rows |= {(DAY, age, year, date): f"no={5 if no == 10 else no}" for date in (others[0], *others[5:])}
    yield case("flat, refusals in order", flat(), list(rows), rows)


# Log forces of 2013, and what they rise by each year. That of 2184 is at an end of the range in two, and in two a unit past it.
YEARLY = 10**7
EVEN = (
    (-(10**9), 0), (-5 * 10**9, 0), (LOWEST, 0), (-3 * 10**9, -2 * YEARLY), (-8 * 10**9, 4 * YEARLY),
    (HIGHEST - 171 * YEARLY, YEARLY), (LOWEST + 171 * YEARLY, -YEARLY),
    (HIGHEST - 171 * YEARLY + 1, YEARLY), (LOWEST + 171 * YEARLY - 1, -YEARLY),
)


def even_sum(alive_in, kind, year, rate=0):
    """An expectancy or a price where a year has one p at all ages: a plain sum over the years to the last, of which a period
    quote takes its own each time."""
    alive, total = Decimal(1), Decimal(1)
    for now in range(year, max(alive_in) + 1):
        alive *= alive_in[now if kind in COHORT else year] * RATE_UNIT / (RATE_UNIT + rate)
        total += alive
    return (total - (Decimal(1) / 2 if kind in EXPECTANCIES else 0)) * UNIT


def even_figure(value, kind):
    """The figure of such a sum, which no grid's ends leave open where it is a thousandth or more from a half step."""
    past_half = (value / step(kind) + Decimal("0.5")) % 1
    return f"fig={figure_text(rounded(value, kind), kind)}" if Decimal("0.01") < past_half < Decimal("0.99") else ""


def even_cases(draw):
    """Such sheets, asked at 120 in each year and at any age, with the figure of that sum. A cohort reaches the cell of 2184 at
    any age, and a period quote does not."""
    for level, rise in EVEN:
        params = dict(flat(), A=[level] * 91, B=[YEARLY] * 91, theta=10 * rise)
        logs = {year: level + rise * (year - START) for year in range(FIRST_YEAR, LAST_CELL + 1)}
        alive_in = {year: (-(Decimal(log) / UNIT).exp()).exp() for year, log in logs.items()}
        asked_of = [(OLDEST, year) for year in range(FIRST_YEAR, LAST_YEAR + 1)]
        asked_of += itertools.product((0, draw.randint(1, 89), 90, 91, 119), (FIRST_YEAR, LAST_YEAR))
        steep, rows = not LOWEST <= logs[LAST_CELL] <= HIGHEST, {}
        for (age, year), kind in itertools.product(asked_of, SUMS):
            rate = any_rate(draw, kind)
            shown = even_figure(even_sum(alive_in, kind, year, *rate), kind)
            rows[kind, age, year, 0, *rate] = "no=6" if steep and kind in COHORT else shown
        yield case(f"flat, {level} and {rise} a year", params, list(rows), rows)


def limit_cases(draw):
    yield case("flat, limits", flat(), at_limits())
    steep = dict(flat(), A=[0] * 91)
    yield case("limits, all steep", steep, draw.sample(at_limits(), 400))
    yield case("no queries", flat(), [])
    queries = []
    for _ in range(100):
        kind = draw.choice(KINDS)
        queries.append((kind, *(draw.randint(LEAST, GREATEST) for _ in range(4 if kind in ANNUITIES else 3))))
        queries.append(("acoh", 65, 2020, 0, draw.randint(LEAST, GREATEST) // 10 ** draw.randrange(15)))
        queries.append((DAY, 65, 2020, draw.randint(LEAST, GREATEST) // 10 ** draw.randrange(15)))
        queries.append((DAY, 65, 2020, draw.randint(2000, 2100) * 10**4 + draw.randint(0, 1331)))
    yield case("numbers of any size", flat(), queries)


def refused_cases(draw):
    """Torn and off-scale sheets, and those at the very limit."""
    sheet = sheets.text(sheets.realistic(draw))
    queries = draw.sample(at_limits(), 12) + [("q", 65, 2020, 0), ("ecoh", 121, 2065, 1), ("coh", 0, 2014, 0)]
    queries += [("aper", 120, 2020, 0, 0), ("acoh", 65, 2020, 0, MOST_RATE + 1), (DAY, 65, 2020, 20410315), (DAY, 65, 2020, 0)]
    torn = [b"", sheet[:-1], b"\n" + sheet, sheet[: len(sheet) // 2], sheet.replace(b"sex", b"Sex")]
    torn.append(sheet.ljust(LONGEST, b"\n"))
    for i, data in enumerate(torn):
        yield Case(f"torn {i}", data, queries, {})
    for key in ("a", "theta", "K", "k", "A.0", "B.45", "al.90", "be.90"):
        name, *age = key.split(".")
        for past in (0, 1):
            params, value = flat(), draw.choice((-1, 1)) * (SIZES[name] + past)
            params[name] = [value if x == int(age[0]) else v for x, v in enumerate(params[name])] if age else value
            yield case(f"{key} = {value}", params, queries)
    for theta in (2_923_976_608, 2_923_976_609, -2_923_976_608, -2_923_976_609):
        yield case(f"theta = {theta}", dict(flat(), theta=theta), queries)


def mild(draw, *start):
    """A realistic set in whose years no cell that an expectancy needs is steep; with a start year, of the table LILEE."""
    while True:
        params = sheets.realistic_lilee(draw, *start) if start else sheets.realistic(draw)
        given, year = Quotes(params), years_of(params["start"])[0]
        if not any(given.refusal(*query) for query in (("eper", 0, year, 0), ("ecoh", 90, year, 0), ("ecoh", 0, year, 0))):
            return params


def realistic_cases(draw, count):
    """Each takes the next two of the years."""
    years = LAST_YEAR + 1 - FIRST_YEAR
    for i in range(count):
        params = mild(draw) if i % 4 else sheets.realistic(draw)
        queries = usual(draw, [FIRST_YEAR + (2 * i + on) % years for on in (0, 1)], 7)
        yield case(f"realistic {i}", params, queries + at_rates(draw, queries, 9) + draw.sample(at_limits(), 30))


def extreme_cases(draw, count):
    """Large parameters: sets that fit the range in one year, and steady ones that fit it in all."""
    for i in range(count):
        year, spread = draw.randint(FIRST_YEAR, LAST_YEAR), draw.choice((1.0, 0.3, 0.05))
        if i % 2:
            params = sheets.extreme(draw, draw.choice((10**8, -(10**8), 10**8 - 1, -5 * 10**7, 1)), year, spread)
        else:
            params = sheets.extreme(draw, draw.choice((10**8, 10**8, 10**8 - 1)), year, spread, draw.choice((40, 10**6)))
            params.update(theta=0, K=sheets.clamp(params["K"] + params["theta"] * (year - START), SIZES["K"]))
        queries = usual(draw, [year], 7)
        yield case(f"extreme {i}", params, queries + at_rates(draw, queries, 4))
    for i in range(6):
        queries = usual(draw, [draw.randint(FIRST_YEAR, LAST_YEAR)], 5)
        yield case(f"at the edge {i}", sheets.at_edge(draw, FIRST_YEAR, i % 3), queries + at_rates(draw, queries, 4))


def around(draw, age, year):
    """Queries whose last cell, or the one beyond, or one on the way, is that of an age and year."""
    out = []
    for back in {0, 1, min(age, draw.randint(2, 60))}:
        for kind, begun in (("coh", year - back), ("per", year)):
            for span in (0, back, back + 1, OLDEST + 1 - age + back, max(0, 91 - age + back), max(0, 92 - age + back)):
                out.append((kind, age - back, begun, span))
            for start in (age - back, age + 1):
                first = begun + (start - age + back) * (kind == "coh")
                out += [any_query(draw, "e" + kind, start, first), any_query(draw, "a" + kind, start, first)]
                out.append(("a" + kind, start, first, 0, draw.choice((-1, MOST_RATE + 1))))
        ends = [year * 10**4 + date for date in (101, 102, 1231)] + [(year + 1) * 10**4 + 101, year * 10**4 + 1301]
        out += [(DAY, age - back, year - back, date) for date in ends]
    out += [("q", x, y, 0) for x in {age, age + 1, 79, 80, 90, 91, 120} for y in (year, year + 1)]
    for x, span in ((91, 0), (91, 1), (120, 0), (79, 1), (79, 2)):
        out += [(kind, x, year, span) for kind in SURVIVALS]
        out += [(DAY, x, year, (year + span) * 10**4 + date) for date in (101, 102)]
    for x in {*range(117, 121), OLDEST - draw.randint(0, year - FIRST_YEAR)}:
        out += [any_query(draw, kind, x, year - OLDEST + x) for kind in ("acoh", "ecoh")] + [any_query(draw, "aper", x, year)]
    return sorted({query for query in out if query[1] >= 0})


def steep_cases(draw, count):
    """A cell steep at one age in every year, or at one age from some year on."""
    for i in range(count):
        params = mild(draw)
        age = draw.choice((draw.randint(1, 79), draw.choice((79, 80, 90)), draw.randint(80, 90)))
        year = draw.randint(FIRST_YEAR + 1, LAST_YEAR)
        edge, beyond = draw.choice(((HIGHEST, 1), (LOWEST, -1)))
        params["be"][age] = params["al"][age] = params["B"][age] = 0
        if i % 2:
            params["A"][age] = edge + draw.choice((0, 1, 1, 10**7)) * beyond
        else:
            params["B"][age] = -beyond * 10**6 if params["theta"] < 0 else beyond * 10**6
            before = params["B"][age] * (params["K"] + (year - 1 - START) * params["theta"])
            params["A"][age] = edge - (down if beyond < 0 else up)(before, RATE)
        queries = around(draw, age, year) + around(draw, age, year - 1)
        yield case(f"steep at {age}, {year}", params, sorted(set(queries)))


def steep_once(draw, year):
    """A set whose closure is steep in one year alone, and the age from 80 to 90 that makes it so: K's trend and kappa's fall
    pull that age's log force opposite ways, so that it turns in the year, a unit outside an end of the range."""
    n = year - START
    while True:
        params, age = dict(sheets.realistic(draw), a=97 * 10**6, k=10**10), draw.choice(CLOSURE)
        end, beyond = draw.choice(((HIGHEST, 1), (LOWEST, -1)))
        series = COARSE.kappas(params, LAST_CELL + 1 - START)
        params["be"][age], params["A"][age], params["al"][age] = -beyond * 10**7, 0, 0
        pull = params["be"][age] * (series[n + 1][0] - series[n - 1][0])
        params["B"][age] = -round(pull / (2 * params["theta"]))
        log = COARSE.log_force(params, age, params["K"] + n * params["theta"], series[n])
        params["A"][age] = end + beyond - log[beyond == 1]
        cells = Quotes(params).coarse
        if all(cells.steep(OLDEST, now) == (now == year) for now in range(FIRST_YEAR, LAST_CELL + 1)):
            return params, age


def needs(query, fitted, when):
    """Whether a quote needs the closure of a year, or a fitted age's cell in it."""
    kind, age, year, span = query[:4]
    if kind not in COHORT:
        return year == when and (kind in SUMS or span == OLDEST + 1 - age)
    held = age + when - year
    if kind == DAY:
        day = day_of(span)
        span = day.year - year + (part_year(day)[0] > 0)
    return held >= age and (held == fitted or held > LAST_FITTED) and (kind in SUMS or held < age + span)


def steep_once_cases(draw):
    """A closure that is steep in one year alone. A life of the age `before` reaches 120 in that year, and an older one is past
    it; full spans end there, and so do some days."""
    late = (LAST_YEAR + 1, 2100, 2121, draw.randint(2070, LAST_CELL), LAST_CELL - 1, LAST_CELL)
    for when in (FIRST_YEAR, draw.randint(FIRST_YEAR, LAST_YEAR), LAST_YEAR, *late):
        params, fitted = steep_once(draw, when)
        years = {FIRST_YEAR, draw.randint(FIRST_YEAR, LAST_YEAR), LAST_YEAR, when - 1, when, when + 1}
        queries = []
        for year in sorted(y for y in years if FIRST_YEAR <= y <= LAST_YEAR):
            before = OLDEST - when + year
            ages = {0, draw.randint(1, 119), fitted, 91, 119, OLDEST}
            ages |= {before - 1, before, before + 1, before + draw.randint(2, 60)}
            for age in sorted(x for x in ages if 0 <= x <= OLDEST):
                queries += [any_query(draw, kind, age, year) for kind in SUMS]
                queries += [(kind, age, year, OLDEST + 1 - age) for kind in SURVIVALS]
                first, last = term(age, year)
                days = [datetime.date(when, 1, 1) + by * ONE_DAY for by in (-1, 0, 1)] + [datetime.date(when, 12, 31), last]
                queries += [(DAY, age, year, number_of(day)) for day in days if first <= day <= last]
        fixed = {query: "no=6" for query in queries if needs(query, fitted, when)}
        yield case(f"steep at {fitted} in {when} alone", params, queries, fixed)


# ---- sheets whose ends are searched to lie at a half step

def moved(params, key, age, by):
    """The set with K, or with A at an age, moved."""
    if key == "K":
        return dict(params, K=params["K"] + by)
    return dict(params, A=[v + by * (x == age) for x, v in enumerate(params["A"])])


def moving(params, key, query):
    """The coarse ends of a quote over how far K, or A at its age, is moved. A of an age below 80 moves that age's cell alone, which
    is the quote's first, so that its other factors are worked once."""
    kind, age, year, span, *rate = query
    if key == "K" or age in CLOSURE:
        return lambda by: Quotes(moved(params, key, age, by)).ends(*query)
    cells, (first, *others) = GridCells(params, COARSE), path(params["start"], kind, age, year, span)
    later = [cells.p(*cell) for cell in others]
    return lambda by: grid_ends(COARSE, kind, [GridCells(moved(params, key, age, by), COARSE).p(*first), *later], *rate)


def lasting(draw, kind, age, year):
    """The span or the date of a quote that needs a cell."""
    if kind == DAY:
        first, last = term(age, year)
        return number_of(first + draw.randint(1, (last - first).days) * ONE_DAY)
    return draw.randint(1, OLDEST + 1 - age) if kind in SURVIVALS else 0


def searched(job):
    """Sheets in which a quote's coarse lower end (side 0), upper end (1) or middle (2) lies at a half step, or as near as can be on
    either side of it: by secants over K, or A at an age, and then by some tries close by. A job may have a start year."""
    kind, side, seed, *start = job
    draw = random.Random(seed)
    out = []
    while not out:
        params, long = mild(draw, *start), kind in SUMS and kind in COHORT
        first, last, _ = years_of(params["start"])
        age, year = draw.randint(40, 79 if long else 105), draw.randint(first, last)
        query = (kind, age, year, lasting(draw, kind, age, year), *any_rate(draw, kind))
        key = "A" if long or age <= 79 and kind not in SUMS and draw.randrange(2) else "K"
        ends_at, kept = moving(params, key, query), {}

        def end(by):
            if by not in kept:
                ends = ends_at(by)
                kept[by] = sum(ends) / 2 if side == 2 else ends[side]
            return kept[by]

        size = step(kind)
        half = end(0) // size * size + size // 2
        a, b = 0, 10**7
        for _ in range(8):
            slope = (end(b) - end(a)) / (b - a)
            if slope == 0 or abs((half - end(b)) / slope) > 2 * 10**9:
                break
            a, b = b, b + round((half - end(b)) / slope)
            if a == b:
                break
        if slope == 0 or abs(end(b) - half) > 200:
            continue
        stride = max(1, round(1 / abs(slope)))
        for j in range(-6, 7):
            end(b + j * stride)
        near = sorted(kept, key=lambda by: abs(kept[by] - half))
        for by in [by for by in near if kept[by] >= half][:2] + [by for by in near if kept[by] < half][:2]:
            changed = moved(params, key, age, by)
            if not Quotes(changed).refusal(*query):
                out.append(case(f"half step: {kind}, side {side}", changed, [query]))
    return out


# ---- figures that stay open

def opened(job):
    """Two sheets in which one quote lies at a half step, so near that the fine grid leaves it open. A job may have a start year."""
    kind, seed, *start = job
    draw, out = random.Random(seed), []
    age, year = draw.randint(40, 79), draw.randint(*years_of(*(start or [START]))[:2])
    query = (kind, age, year, lasting(draw, kind, age, year), *any_rate(draw, kind))
    while len(out) < 2:
        edges = Edges(mild(draw, *start))
        given = Quotes(edges.params) if edges.place(query, 0) else None
        if given and not given.refusal(*query) and given.quote(*query).steps == OPEN:
            out.append(case(f"open: {kind}", edges.params, [query]))
    return out


# ---- comparing

def steep_to_120(given, query):
    """Whether a cell of an expectancy or annuity is steep on the way to 120."""
    kind, age, year, span = query[:4]
    return any(given.coarse.steep(*cell) for cell in path(given.start, kind, age, year, span)[: OLDEST + 1 - age])


def complaints(given, no, query, line, counts):
    """What is wrong with the line of a query; the counts take what the second implementation says of it."""
    kind, age = query[:2]
    no = no or given.refusal(*query)
    if no:
        counts[f"refused {no}"] += 1
        counts["annuities refused"] += kind in ANNUITIES
        counts["steep past 120 alone"] += no == STEEP and kind in SUMS and not steep_to_120(given, query)
        if line != f"no={no}":
            yield f"not no={no}"
        return
    quote, value = given.quote(*query), given.value(*query)
    counts[f"{kind} {sort_of(quote)}"] += 1
    counts[kind, query[2]] += age == OLDEST
    size = step(kind)
    if any(min((end + size // 2) % size, -(end + size // 2) % size) <= NEAR for end in given.ends(*query)):
        counts[f"{kind} near"] += 1
    got = ANSWER.fullmatch(line)
    if not got:
        yield f"not two ends, a unit and a figure: {quote}"
        return
    lower, upper, unit = map(int, got.groups()[:3])
    if (lower, upper, unit) != quote[:3]:
        yield f"ends are not {quote[:2]} in units of 10^-{quote.unit}"
    if got[4] != figure_text(quote.steps, kind):
        yield f"figure is not {figure_text(quote.steps, kind)}"
    if not lower <= in_units(value, unit) <= upper:
        yield f"the exact value {value:.20f} is not between the ends"
    if got[4] != OPEN and got[4] != figure_text(rounded(value, kind), kind):
        yield f"the exact value {value:.20f} rounds to {figure_text(rounded(value, kind), kind)}"
    if upper - lower > width(unit, *query):
        yield f"{upper - lower} units apart"


def sort_of(quote):
    """Whether a quote is printed by its coarse ends or by its fine ones, or is open."""
    return OPEN if quote.steps == OPEN else "printed" if quote.unit == COARSE.digits else "fine"


def unlike_expectancies(asked_of, counts):
    """Which annuities at rate 0 are not, end for end in one unit, the expectancy and a half."""
    ends = {query: tuple(map(int, got.groups()[:3])) for query, line in asked_of if (got := ANSWER.fullmatch(line))}
    for (kind, age, year, _, *rate), own in ends.items():
        expectancy = ends.get((f"e{kind[1:]}", age, year, 0))
        if rate == [0] and expectancy and expectancy[2] == own[2]:
            counts["at rate 0"] += 1
            if any(own[i] != expectancy[i] + GRIDS[own[2]].step for i in (0, 1)):
                yield f"{kind} {age} {year} at rate 0: {own}, with the expectancy {expectancy}"


def groups(one, no):
    """The queries of a case in runs of the longest input; a refused sheet, which prints one line, has a run for each query."""
    out, size = [[]], len(one.data)
    for query in one.queries:
        size += len(line_of(query))
        if out[-1] and (no or size > LONGEST):
            out.append([])
            size = len(one.data) + len(line_of(query))
        out[-1].append(query)
    return out


def asked(one, no):
    """The lines that are printed for a case's queries, without their echo, and what is wrong with a run as a whole."""
    answers, wrong = [], []
    for queries in groups(one, no):
        status, out = programs.run("ends", one.data + b"".join(map(line_of, queries)))
        lines = out.decode("ascii", "replace").splitlines()
        if status or len(lines) != (1 if no else len(queries)):
            wrong.append(f"{one.name}: {len(lines)} lines for {len(queries)} queries, exit status {status}")
        for query, line in itertools.zip_longest(queries, lines[: len(queries)], fillvalue=""):
            echo = "" if no else line_of(query).decode().replace("\n", " ")
            answers.append(line[len(echo) :] if line.startswith(echo) else f"no echo: {line}")
    return answers, wrong


def compare(one):
    """Counts, how many answers and runs were compared, and what is wrong."""
    counts = collections.Counter()
    no, read_set = read(one.data)
    given = None if no else Quotes(params_of(read_set))
    answers, wrong = asked(one, no)
    for query, line in zip(one.queries, answers):
        bad = list(complaints(given, no, query, line, counts))
        if not line.endswith(one.fixed.get(query, "")):
            bad.append(f"does not end in {one.fixed[query]}")
        if bad:
            wrong.append(f"{one.name}, {' '.join(map(str, query))}: {line!r}: {', '.join(bad)}")
    wrong += [f"{one.name}, {said}" for said in unlike_expectancies(zip(one.queries, answers), counts)]
    counts[one.name.split()[0].rstrip(",")] += accepted(counts, SUMS)
    return counts, len(answers), wrong


def cases(draw, pool):
    out = list(fixed_cases()) + list(refused_in_order()) + list(even_cases(draw)) + list(limit_cases(draw))
    out += list(refused_cases(draw)) + list(realistic_cases(draw, 26)) + list(extreme_cases(draw, 40))
    out += list(steep_cases(draw, 36)) + list(steep_once_cases(draw))
    jobs = [(kind, side, draw.random()) for kind in KINDS for side in (0, 1, 2) for _ in range(3)]
    for found in pool.map(searched, jobs):
        out += found
    for found in pool.map(opened, [(kind, draw.random()) for kind in KINDS]):
        out += found
    return out


def missing(counts):
    """What the cases should have met and have not."""
    wanted = [f"{kind} {what}" for kind in KINDS for what in (*TOLD, "near")]
    wanted += [f"refused {no}" for no in REFUSALS] + ["at rate 0", "steep past 120 alone", *SORTS]
    few = [f"{LEAST_ANNUITIES} annuities"] if accepted(counts, ANNUITIES) < LEAST_ANNUITIES else []
    few += [f"{LEAST_TENTHS} expectancies and annuities"] if sum(counts[sort] for sort in SORTS) < LEAST_TENTHS else []
    at_120 = itertools.product(SUMS, range(FIRST_YEAR, LAST_YEAR + 1))
    few += [f"{kind} at 120 in {year}" for kind, year in at_120 if not counts[kind, year]]
    return [what for what in wanted if not counts[what]] + few


def accepted(counts, kinds):
    """How many quotes of some kinds were accepted, and so held against the exact value."""
    return sum(counts[f"{kind} {what}"] for kind in kinds for what in TOLD)


def report(counts, total):
    print(f"{total} quotes")
    names = ("printed by coarse ends", "printed by fine ends", "open", f"a coarse end within {NEAR} units of a half step")
    for what, name in zip((*TOLD, "near"), names):
        each = [counts[f"{kind} {what}"] for kind in KINDS]
        print(f"{name}: {sum(each)},", *(f"{kind} {count}" for kind, count in zip(KINDS, each)))
    print("refused:", *(f"no={no} {counts[f'refused {no}']}" for no in REFUSALS))
    refused, free = counts["annuities refused"], counts["at rate 0"]
    own = accepted(counts, ANNUITIES)
    print(f"annuities: {own} accepted, {free} of them held against expectancies at rate 0; {refused} refused")
    by_sort = ", ".join(f"{counts[sort]} of {sort} sheets" for sort in SORTS)
    print(f"expectancies and annuities: {accepted(counts, SUMS)} accepted, {by_sort};", end=" ")
    print(f"{counts['steep past 120 alone']} refused for a cell past 120 alone")


def main():
    seed = int(sys.argv[1]) if len(sys.argv) > 1 else SEED
    print(f"seed {seed}")
    gone = programs.missing("ends")
    if gone:
        print(gone)
        return 1
    counts, checks, wrong = collections.Counter(), 0, []
    with concurrent.futures.ProcessPoolExecutor(2) as pool:
        for found, answered, bad in pool.map(compare, cases(random.Random(seed), pool), chunksize=2):
            counts += found
            checks += answered
            wrong += bad
    report(counts, checks)
    absent = missing(counts)
    wrong += [f"no case of: {', '.join(absent)}"] if absent else []
    for message in wrong[:20]:
        print(message)
    print(f"{max(0, checks + 1 - len(wrong))} passed, {len(wrong)} failed")
    return 1 if wrong else 0


if __name__ == "__main__":
    sys.exit(main())
