"""Sheets of the table LILEE, which have a start year and a constant, by the programs and the library's calls, against the second
implementation, and against what is known beforehand of many of them.

Quotes of every kind are asked of sheets with the start years 2013, 2033 and between: the refusal, both ends and the figure are
compared, number for number, and the exact value, to many digits, must lie between the ends and round to the printed figure. Where
all ages have one force, which kappa moves, figures are also held against a plain sum over kappa's closed form. Sheets stand at
each limit and one past it, kappa's in the last year among them; some are torn. `compare` gets sheets of both tables and of
different start years, `verdict` columns of such sheets; whole runs are compared byte for byte. A set is written and read, and a
sheet read and written, through the library, over both tables. Sheets damaged at every byte are tests/test_sheets.py. An argument
is taken as the seed.
"""
import collections
import concurrent.futures
import datetime
import itertools
import random
import re
import sys
from decimal import Decimal

import c_interface
import programs
import sheets
import test_c_interface
import test_compare
import test_day
import test_quotes
import test_sheets
import test_verdict
import whole_run
from c_interface import SET_LENGTH, listed
from columns import RIGHT, TORN_COLUMN, WRONG
from grid import COARSE, HIGHEST, LILEE, LOWEST, START, UNIT, flat
from quotes import ANNUITIES, COHORT, DAY, EXPECTANCIES, KINDS, LAST_YEAR, MOST_RATE, NO_YEAR, OFF_SCALE, OLDEST, OPEN, STEEP
from quotes import SUMS, SURVIVALS, number_of, rounded, step, term, years_of
from reader import ACCEPTED, FIRST_START, LAST_START, LONGEST, SIZES, TORN, YEARS
from reader import kappa_within, lines_of, read, set_from, sheet_of, text
from sheets import of_lilee
from test_compare import Pair
from test_quotes import GREATEST, LEAST, ONE_DAY, any_rate, at_rates, case, even_figure, even_sum, line_of, mild, usual
from test_runs import FLAT, Input, compared, complaint
from whole_run import figure_text

SEED = 20332204
STARTS = (FIRST_START, LAST_START, 2014, 2021, 2032)
LEAST_QUOTES, LEAST_OF_A_START = 3000, 200
OTHER = of_lilee(flat(), LAST_START, 7)
STEEP_SHEET = sheets.text(of_lilee(dict(flat(), A=[0] * 91), 2021, 7))


def years_on(query, start):
    """A query over AG2014, as many years on as a start year is, with no more digits than a line takes."""
    kind, age, year, last, *rate = query
    by = start - START
    numbers = age, year + by, last + by * 10**4 if kind == DAY else last
    return (kind, *(max(LEAST, min(GREATEST, number)) for number in numbers), *rate)


def all_on(queries, start):
    return [years_on(query, start) for query in queries]


# ---- quotes: the flat sheet, at and past the ends of the years

def flat_rows(start):
    """Queries of the flat sheet with a start year, and what their lines end in, whatever the second implementation says."""
    first, last, end = years_of(start)
    rows = {("q", 65, start, 0): "no=4", ("q", 65, first, 0): "fig=0.30780", ("q", 65, last + 1, 0): "fig=0.30780"}
    rows |= {("q", 120, end, 0): "fig=0.30780", ("q", 120, end + 1, 0): "no=4"}
    rows |= {("coh", 119, first, 2): "fig=0.47914", ("per", 119, last, 2): "fig=0.47914", ("coh", 119, last, 3): "no=5"}
    rows |= {(kind, 120, year, 0): "fig=2.75" for kind in EXPECTANCIES for year in (first, last)}
    rows |= {(kind, 120, year, 0, 0): "fig=3.2" for kind in ANNUITIES for year in (first, last)}
    rows |= {(kind, 120, year, 0, MOST_RATE): "fig=2.4" for kind in ANNUITIES for year in (first, last)}
    for year in (start, last + 1):
        rows |= {(kind, 65, year, 0): "no=4" for kind in SURVIVALS + EXPECTANCIES}
        rows |= {(kind, 65, year, 0, 0): "no=4" for kind in ANNUITIES}
        rows |= {(DAY, 65, year, year * 10**4 + date): "no=4" for date in (101, 701, 1301)}
    days = {(0, last, 0, 101): "fig=1.00000", (119, first, 1, 101): "fig=0.69220", (119, last, 2, 101): "no=5"}
    days |= {(0, last, OLDEST, 1231): "fig=0.00000", (0, last, OLDEST + 1, 101): "no=5", (65, first, -1, 1231): "no=5"}
    days |= {(65, first, 0, 1301): "no=10", (121, first, 0, 101): "no=3"}
    return rows | {(DAY, age, year, (year + on) * 10**4 + date): said for (age, year, on, date), said in days.items()}


def flat_cases(draw):
    for start in (*STARTS, draw.randint(FIRST_START, LAST_START)):
        rows, params = flat_rows(start), of_lilee(flat(), start, draw.choice((-1, 1)) * SIZES["c"])
        others = all_on(draw.sample(test_quotes.at_limits(), 150), start)
        yield case(f"flat from {start}", params, [*rows, *others], rows)


# ---- quotes where all ages have one force, which kappa moves

# a, k, c and the log force without kappa, of which a tenth is added to it. Two are at an end of the range in the last year, and
# two a unit past it.
RISE = 10**8
EVEN = (
    (10**8, 0, RISE, -5 * 10**9), (10**8, 4 * 10**10, -2 * RISE, -6 * 10**9), (-(10**8), 0, 10**10, -3 * 10**9),
    (0, 5 * 10**10, 10**10, -4 * 10**9), (8 * 10**7, -5 * 10**10, 10**10, -8 * 10**9),
    (-8 * 10**7, 5 * 10**10, -(10**10), -4 * 10**9), (98_765_432, -4 * 10**10, 345_678_901, -6 * 10**9),
    (10**8, 0, RISE, HIGHEST - 171 * RISE // 10), (10**8, 0, -RISE, LOWEST + 171 * RISE // 10),
    (10**8, 0, RISE, HIGHEST - 171 * RISE // 10 + 1), (10**8, 0, -RISE, LOWEST + 171 * RISE // 10 - 1),
)


def kappa_in(a, k, c, n):
    """Kappa after n years, 1 or more, with nothing rounded: each constant has taken part in the products of the years after it."""
    factor = Decimal(a) / 10**8
    return k * factor**n + c * (n if factor == 1 else (1 - factor**n) / (1 - factor))


def chance_figure(value):
    """The figure of a chance, in units, that is a fifth of a step or more from a half step, so that no ends here leave it open."""
    past_half = (value / step(DAY) + Decimal("0.5")) % 1
    return f"fig={figure_text(rounded(value, DAY), DAY)}" if Decimal("0.2") < past_half < Decimal("0.8") else ""


def even_days(draw, start, logs):
    """Survival to some days, with its figure, or refused for the cell of the last day's year."""
    first, last, _ = years_of(start)
    forces = {year: (log / UNIT).exp() for year, log in logs.items()}
    rows = {}
    for age, year in ((0, last), (0, first), (OLDEST, last), (draw.randint(1, 119), draw.randint(first, last))):
        begun, end = term(age, year)
        for day in (begun, end, end.replace(month=1, day=1), begun + draw.randint(0, (end - begun).days) * ONE_DAY):
            needed = range(year, day.year + (day != datetime.date(day.year, 1, 1)))
            steep = any(not LOWEST <= logs[y] <= HIGHEST for y in needed)
            shown = "no=6" if steep else chance_figure(test_day.even_value(forces, year, day))
            rows[DAY, age, year, number_of(day)] = shown
    return rows


def even_cases(draw):
    """Such sheets, asked in the first and last years, with the figures of a plain sum. A cohort reaches the cell of the last year
    at any age, and a period quote does not."""
    for i, (a, k, c, level) in enumerate(EVEN):
        start = STARTS[i % len(STARTS)]
        first, last, end = years_of(start)
        params = of_lilee(dict(flat(), A=[level] * 91, be=[10**7] * 91, a=a, k=k), start, c)
        logs = {year: level + kappa_in(a, k, c, year - start) / 10 for year in range(first, end + 1)}
        alive_in = {year: (-(log / UNIT).exp()).exp() for year, log in logs.items()}
        steep, rows = not LOWEST <= logs[end] <= HIGHEST, even_days(draw, start, logs)
        asked_of = itertools.product((0, draw.randint(1, 90), 119, OLDEST), (first, draw.randint(first, last), last))
        for (age, year), kind in itertools.product(asked_of, SUMS):
            rate = any_rate(draw, kind)
            shown = even_figure(even_sum(alive_in, kind, year, *rate), kind)
            rows[kind, age, year, 0, *rate] = "no=6" if steep and kind in COHORT else shown
        for year in (first, last, end - 1, end):
            chance = UNIT - UNIT * alive_in[year]
            rows["q", draw.randint(0, OLDEST), year, 0] = "no=6" if steep and year == end else chance_figure(chance)
        yield case(f"even {i}, from {start}", params, list(rows), rows)


# ---- quotes of realistic and extreme sheets, and of some with an end at a half step

def realistic_cases(draw, count):
    for i in range(count):
        start = STARTS[i] if i < len(STARTS) else draw.randint(FIRST_START, LAST_START)
        params = mild(draw, start) if i % 5 else sheets.realistic_lilee(draw, start)
        queries = usual(draw, [draw.randint(2014, LAST_YEAR) for _ in range(2)], 7)
        queries += at_rates(draw, queries, 4) + draw.sample(test_quotes.at_limits(), 30)
        yield case(f"realistic {i}, from {start}", params, all_on(queries, start))


def extreme_cases(draw, count):
    """Large parameters and constants: sets that fit the range in one year, and steady ones that fit it in all."""
    for i in range(count):
        start = draw.choice(STARTS)
        first, last, _ = years_of(start)
        year, a = draw.randint(first, last), draw.choice((10**8, 10**8 - 1, -(10**8), 8 * 10**7, -5 * 10**7, 0, 1))
        params = sheets.extreme_lilee(draw, a, start, year, draw.choice((1.0, 0.3, 0.05)), draw.choice((40, 10**6)))
        if i % 2:
            params.update(theta=0, K=sheets.clamp(params["K"] + params["theta"] * (year - start), SIZES["K"]), be=[0] * 91)
        queries = usual(draw, [year - start + START], 5)
        yield case(f"extreme {i}, from {start}", params, all_on(queries, start))


# ---- sheets at each limit and one past it

MOST_K = SIZES["k"]
# a, k, c and the refusal; with k and c of the other sign it is the same. Kappa reaches its limit in the last year, sits on it, or
# passes it by one unit.
KAPPAS = (
    (10**8, MOST_K - 171, 1, 0), (10**8, MOST_K - 170, 1, 2), (10**8, 140, 292_397_660, 0), (10**8, 141, 292_397_660, 2),
    (10**8, -MOST_K, 584_795_321, 0), (10**8, -MOST_K, 584_795_322, 2), (10**8, MOST_K, 0, 0), (10**8, MOST_K, 1, 2),
    (10**8, MOST_K, -1, 0), (-(10**8), MOST_K, 0, 0), (-(10**8), MOST_K, 1, 0), (-(10**8), MOST_K, -1, 2),
    (-(10**8), 1 - MOST_K, 1, 0), (-(10**8), -MOST_K, 1, 2), (-(10**8), MOST_K, 10**10, 0),
    (-(10**8), -4 * 10**10, 10**10, 0), (-(10**8), -4 * 10**10 - 1, 10**10, 2), (8 * 10**7, MOST_K, 10**10, 0),
    (8 * 10**7 + 1, MOST_K, 10**10, 2), (8 * 10**7, MOST_K - 1, 10**10, 0), (8 * 10**7, -MOST_K, 10**10, 0),
    (8 * 10**7 - 1, MOST_K, 10**10, 0), (8 * 10**7 + 1, 0, 10**10, 2), (-8 * 10**7, -MOST_K, 10**10, 0),
    (-8 * 10**7 - 1, -MOST_K, 10**10, 2), (0, MOST_K, 10**10, 0), (0, MOST_K + 1, 0, 2),
)
# a and c with which kappa rises past its limit in the last year from the k that is one too many.
RISING = (
    (10**8, 123_456_789), (10**8 - 1, 3 * 10**8), (99 * 10**6, 6 * 10**8), (98 * 10**6, 1_040_000_000), (97_654_321, 1_196_296_290),
)


def greatest_kappa(a, c):
    """The greatest k with which kappa keeps within its limit."""
    low, high = -MOST_K, MOST_K + 1
    while high - low > 1:
        middle = (low + high) // 2
        low, high = (middle, high) if kappa_within(a, middle, c) else (low, middle)
    return low


def kappa_rows():
    """a, k, c and the refusal, of both signs."""
    rows = list(KAPPAS)
    for a, c in RISING:
        rows += [(a, greatest_kappa(a, c) + past, c, 2 * past) for past in (0, 1)]
    return rows + [(a, -k, -c, no) for a, k, c, no in rows]


def last_year_alone():
    """What is wrong where kappa, from one too many, is not past its limit in the last year alone, by a unit."""
    for a, c in RISING:
        series = COARSE.kappas({"a": a, "k": greatest_kappa(a, c) + 1, "c": c}, YEARS)
        past = [n for n, ends in enumerate(series) if max(map(abs, ends)) > MOST_K]
        if past != [YEARS] or series[-1][1] != MOST_K + 1:
            yield f"a {a} and c {c}: kappa is past its limit in {past}, {series[-1]}"


def at_limits():
    """Names, sets and the refusal of each."""
    for start in (FIRST_START - 1, LAST_START + 1, 0, -START, 10 * START, 1 - 10**15, 10**15 - 1):
        yield f"start {start}", of_lilee(flat(), start, 1), OFF_SCALE
    for start, c in itertools.product(range(FIRST_START, LAST_START + 1, 4), (SIZES["c"], -SIZES["c"], 0)):
        yield f"start {start}, c {c}", of_lilee(flat(), start, c), ACCEPTED
    for start, c in itertools.product((FIRST_START, LAST_START), (SIZES["c"] + 1, -SIZES["c"] - 1, 10**15 - 1, 1 - 10**15)):
        yield f"start {start}, c {c}", of_lilee(flat(), start, c), OFF_SCALE
    for i, (a, k, c, no) in enumerate(kappa_rows()):
        yield f"a {a}, k {k}, c {c}", of_lilee(dict(flat(), a=a, k=k), STARTS[i % len(STARTS)], c), no
    for start, (theta, no) in itertools.product((FIRST_START, LAST_START), ((2_923_976_608, 0), (2_923_976_609, OFF_SCALE))):
        for sign in (1, -1):
            yield f"start {start}, theta {sign * theta}", of_lilee(dict(flat(), theta=sign * theta), start, 1), no


def limit_cases():
    for name, params, no in at_limits():
        year = max(LEAST, min(GREATEST, params["start"] + 1))
        rows = {("q", 65, year, 0): "no=2" if no else "fig=0.30780", ("coh", 7, year, 0): "no=2" if no else "fig=1.00000"}
        yield case(name, params, list(rows), rows)


# ---- comparing quotes

def compare_quotes(one):
    """As test_quotes.compare, with the accepted quotes counted by the start year."""
    counts, answered, wrong = test_quotes.compare(one)
    no, which = read(one.data)
    if not no:
        counts["from", which.start] += test_quotes.accepted(counts, KINDS)
    return counts, answered, wrong


def quote_cases(draw, pool):
    out = list(flat_cases(draw)) + list(even_cases(draw)) + list(limit_cases())
    out += list(realistic_cases(draw, 14)) + list(extreme_cases(draw, 12))
    jobs = [(kind, i % 3, draw.random(), STARTS[i % len(STARTS)]) for i, kind in enumerate(KINDS)]
    jobs += [(kind, 2, draw.random(), draw.randint(FIRST_START, LAST_START)) for kind in KINDS]
    for found in pool.map(test_quotes.searched, jobs):
        out += found
    for found in pool.map(test_quotes.opened, [(kind, draw.random(), draw.choice(STARTS)) for kind in KINDS]):
        out += found
    return out


def missing(counts):
    """What the quotes should have met and have not."""
    wanted = [f"{kind} {what}" for kind in KINDS for what in test_quotes.TOLD]
    out = [what for what in wanted + [f"refused {no}" for no in (2, 3, 4, 10, 5, 8, 6)] if not counts[what]]
    total = test_quotes.accepted(counts, KINDS)
    out += [f"{LEAST_QUOTES} accepted quotes"] if total < LEAST_QUOTES else []
    return out + [f"quotes from {start}" for start in STARTS if counts["from", start] < LEAST_OF_A_START]


def quotes_found(draw):
    """What is wrong with each quote, None where nothing is; prints what was met."""
    counts, found = collections.Counter(), []
    with concurrent.futures.ProcessPoolExecutor(2) as pool:
        for met, answered, wrong in pool.map(compare_quotes, quote_cases(draw, pool), chunksize=2):
            counts += met
            found += wrong + [None] * max(0, answered - len(wrong))
    by_start = ", ".join(f"{counts['from', start]} from {start}" for start in STARTS)
    print(f"{len(found)} quotes, {test_quotes.accepted(counts, KINDS)} accepted: {by_start}")
    print("open:", *(f"{kind} {counts[f'{kind} open']}" for kind in KINDS))
    print("refused:", *(f"no={no} {counts[f'refused {no}']}" for no in test_quotes.REFUSALS))
    absent = missing(counts)
    return found + [f"no case of: {', '.join(absent)}" if absent else None]


# ---- torn sheets

def torn_sheets(draw):
    """Names and bytes of which none is a sheet, also with queries after them: lines of start and c missing, twice, exchanged, in
    other places or of other forms; the other table's lines; and other numbers of lines."""
    lines = lines_of(test_sheets.lilee_set(draw))
    own, (head, (start, c), ages) = lines[1:], (lines[:6], lines[6:8], lines[8:])
    other = lines_of(test_sheets.random_set(draw))
    moved = {
        "no start": [*head, c, *ages], "no c": [*head, start, *ages], "neither": [*head, *ages],
        "start twice": [*head, start, start, c, *ages], "c twice": [*head, start, c, c, *ages],
        "start for c": [*head, start, start, *ages], "c for start": [*head, c, c, *ages], "exchanged": [*head, c, start, *ages],
        "before k": [*head[:5], start, c, head[5], *ages], "after the sex": [*head[:2], start, c, *head[2:], *ages],
        "last": [*head, *ages, start, c], "around k": [*head[:5], start, head[5], c, *ages],
        "after age 0": [*head, *ages[:4], start, c, *ages[4:]], "before the sex": [head[0], start, c, *head[1:], *ages],
    }
    for key, value in ((6, start), (7, c)):
        number = value.partition(b"=")[2]
        for form in (b"Start=%b", b"start%b", b"C=%b", b"c.0=%b", b"c=%b ", b"c=+%b", b"start= %b", b"start=%b.0", b"k=%b", b"%b"):
            moved[f"{form} in line {key}"] = [*lines[:key], form % number, *lines[key + 1 :]]
        for bad in (b"", b"-0", b"02021", b"1" + b"0" * 15, b"-", b"2021\r", b"2e3"):
            moved[f"{bad} in line {key}"] = [*lines[:key], value.partition(b"=")[0] + b"=" + bad, *lines[key + 1 :]]
    for first in test_sheets.FIRST_LINES:
        moved[f"{first} over its lines"] = [first, *own] if first != lines[0] else lines[:-1]
    moved["LILEE over the other table's lines"] = [lines[0], *other[1:]]
    moved["LILEE over the other table's lines and two more"] = [lines[0], *other[1:], start, c]
    moved["AG2014 over its lines less two"] = [other[0], *own[:-2]]
    for count in (0, 1, 2, 6, 7, 8, 368, 369, 370, 371):
        moved[f"{count} lines"] = lines[:count]
    yield from ((name, text(given)) for name, given in moved.items())
    yield "no line feed after the first line", lines[0] + text(own)
    yield "the first line alone, without its line feed", lines[0]
    yield "no last line feed", text(lines)[:-1]


def torn_runs(draw):
    """Such sheets with queries after them: the run is refused, whole."""
    body = b"".join(line_of(("q", 65, 2040, 0)) for _ in range(4))
    for name, data in torn_sheets(draw):
        for rest in (body, b""):
            yield Input(name, data + rest), b"no=1\n"


# ---- whole runs

def lines_for(draw, start, count):
    """Query lines that fit a start year, and some that are refused or torn."""
    queries = usual(draw, [draw.randint(2014, LAST_YEAR)], 2) + draw.sample(test_quotes.at_limits(), 20)
    lines = [line_of(query) for query in all_on(queries, start)] + [b"\n", b"kind=q\n", b"start=2021\n", b"c=0\n", b"table=LILEE\n"]
    return b"".join(draw.choices(lines, k=count))


def own_runs(draw):
    """Sheets of the table LILEE with queries; cut, with lines twice or left out; two sheets; and sizes up to and past the
    longest."""
    start = draw.choice(STARTS)
    sheet = sheets.text(mild(draw, start))
    parts = whole_run.lines_in(sheet)
    for count in (0, 1, 2, 6, 7, 8, 9, *range(366, 373)):
        yield Input(f"{count} lines", b"".join(parts[:count]) + lines_for(draw, start, 4))
        yield Input(f"{count} lines alone", b"".join(parts[:count]))
    for i in [0, 1, 5, 6, 7, 8, 369, 370, 371, *draw.sample(range(9, 369), 10)]:
        before, after = b"".join(parts[:i]), b"".join(parts[i + 1 :])
        yield Input(f"line {i} doubled", before + parts[i] * 2 + after + lines_for(draw, start, 2))
        yield Input(f"line {i} left out", before + after + lines_for(draw, start, 2))
    others = {"two sheets": sheet * 2, "AG2014 first": FLAT + sheet, "AG2014 after": sheet + FLAT, "a blank line first": b"\n" + sheet}
    for name, data in others.items():
        yield Input(name, data + lines_for(draw, start, 3))
    for size in (LONGEST - 1, LONGEST, LONGEST + 1):
        yield Input(f"{size} bytes", (sheet + line_of(("q", 65, start + 1, 0)) * size)[:size])
        yield Input(f"{size} bytes of line feeds", sheet.ljust(size, b"\n"))
    for i in range(40):
        start = draw.choice(STARTS)
        made = draw.choice((mild, sheets.realistic_lilee))(draw, start)
        yield Input(f"from {start}, {i}", sheets.text(made) + lines_for(draw, start, draw.choice((0, 1, 5, 20))))


def run_jobs(draw):
    """Runs of `quotes` and `ends`, by the second implementation and, of torn sheets, as they are known: jobs to be called."""
    known = [(one, want) for one, want in torn_runs(draw)]
    rows = {line_of(query): said for query, said in flat_rows(LAST_START).items()}
    shown = b"".join(query[:-1] + b" " + said.encode() + b"\n" for query, said in rows.items())
    known.append((Input("flat rows", sheets.text(OTHER) + b"".join(rows)), shown))
    for one, want in known:
        yield complaint, one.name, "whole_run.py", want, 0, whole_run.quotes(one.data)
        yield compared, "quotes", one, want
    for one in own_runs(draw):
        for name, said in whole_run.ONE_SHEET.items():
            yield compared, name, one, said(one.data)


# ---- two sheets

def line_on(line, by):
    """A query line some years on."""
    line = re.sub(rb"year=(\d+)", lambda got: b"year=%d" % (int(got[1]) + by), line)
    return re.sub(rb"date=(\d+)", lambda got: b"date=%d" % (int(got[1]) + by * 10**4), line)


def compared_rows():
    """Two sheets, and what is printed after each query, whatever the second implementation says."""
    low = dict(flat(), A=[-2 * 10**9] * 91)
    for start in (FIRST_START, LAST_START):
        first, second = (sheets.text(of_lilee(params, start, c)) for params, c in ((flat(), -5), (low, SIZES["c"])))
        rows = {line_on(query, start - START): said for query, said in test_compare.APART.items()}
        told = {query: one + other + b" values=" + word + by + b" unit=9" for query, (one, other, word, by) in rows.items()}
        yield f"both from {start}", first + second, told
        if start == START:
            yield "AG2014 first", FLAT + second, told
            yield "AG2014 second", first + test_compare.LOWER, told
    late, query = sheets.text(OTHER), b"kind=q age=%d year=%d span=0"
    yield "AG2014 and from 2033", FLAT + late, {query % (65, year): b" no=4" for year in (2013, 2014, 2033, 2185, 2204)}
    yield "from 2033 and AG2014", late + FLAT, {query % (65, year): b" no=4" for year in (2013, 2014, 2033, 2185, 2204)}
    yield "steep and from 2033", test_compare.STEEP + late, {query % (65, 2020): b" no=6", query % (121, 2020): b" no=3"}
    yield "from 2033 and steep", late + test_compare.STEEP, {query % (65, 2020): b" no=4", query % (65, 2034): b" no=6"}
    yield "steep from 2021", FLAT + STEEP_SHEET, {query % (65, 2021): b" no=4", query % (65, 2022): b" no=6"}


def refused_pairs():
    """Two sheets of which one is refused, and the line of the run; a sheet's lines are as many as its own first line says."""
    late, past = sheets.text(OTHER), sheets.text(of_lilee(flat(), LAST_START + 1, 7))
    short, body = text(lines_of(set_from(OTHER))[:-2]), b"kind=q age=65 year=2040 span=0\n" * 3
    one, two = b"sheet=1 no=%d\n", b"sheet=2 no=%d\n"
    yield "too late first", past + FLAT, one % 2
    yield "too late second", FLAT + past, two % 2
    yield "too late twice", past + past, one % 2
    yield "370 lines of LILEE first", short + FLAT, one % 1
    yield "370 lines of LILEE second", FLAT + short, two % 1
    yield "370 lines of LILEE second, from 2033 first", late + short, two % 1
    yield "372 lines under AG2014 first", late.replace(b"LILEE", b"AG2014", 1) + late, one % 1
    yield "372 lines under AG2014 second", late + late.replace(b"LILEE", b"AG2014", 1), two % 1
    yield "370 lines under LILEE first", FLAT.replace(b"AG2014", b"LILEE", 1) + FLAT, one % 1
    yield "a line too few, and too late", text(lines_of(set_from(OTHER))[:-1]) + past, one % 1
    yield "too late, and torn", past + short, one % 2
    yield "one sheet of LILEE", late, two % 1
    yield "a space after LILEE", late.replace(b"LILEE", b"LILEE ", 1) + FLAT, one % 1
    yield "a space after LILEE, second", FLAT + late.replace(b"LILEE", b"LILEE ", 1), two % 1
    yield "a blank line between", late + b"\n" + late, two % 1
    yield "queries first", body + late + FLAT, one % 1


def pairs(draw):
    """Two sheets, one of each table or of different start years, with queries in years that both have."""
    for i in range(12):
        one, other = (START, draw.choice(STARTS)) if i % 2 else draw.sample(range(FIRST_START, LAST_START + 1), 2)
        first = sheets.text(mild(draw) if i % 2 else mild(draw, one))
        second = sheets.text(mild(draw, other))
        late, early = max(one, other), min(one, other)
        year = draw.randint(2014, LAST_YEAR - late + early)
        queries = all_on(test_compare.asked(draw, year, 2), late)
        both = (first, second) if i % 4 < 2 else (second, first)
        yield Pair(f"from {one} and {other}", *both, queries, None)


def compare_jobs():
    for name, data, rows in compared_rows():
        body = b"".join(query + b"\n" for query in rows)
        one, want = Input(name, data + body), b"".join(query + said + b"\n" for query, said in rows.items())
        yield complaint, name, "whole_run.py", want, 0, whole_run.compare(one.data)
        yield compared, "compare", one, want
    for name, data, want in refused_pairs():
        one = Input(name, data + b"kind=q age=65 year=2040 span=0\n" * 3)
        yield complaint, name, "whole_run.py", want, 0, whole_run.compare(one.data)
        yield compared, "compare", one, want


def pairs_found(draw):
    """What is wrong with each pair, against the second implementation and the exact values; prints what was met."""
    counts, found, checks = collections.Counter(), [], 0
    for pair in pairs(draw):
        wrong, met, lines = test_compare.told(pair)
        counts, checks, found = counts + met, checks + lines, found + (wrong or [None])
    print(f"{len(found)} pairs of sheets, {checks} lines held against exact values")
    kinds = [kind for kind in KINDS if not any(counts[f"{kind} {what}"] for what in ("below", "above", "near"))]
    return found + [f"no pair is compared in {', '.join(kinds)}" if kinds else None]


# ---- published columns

def column_cases(draw):
    """Columns of sheets in the first, the last and other years of their tables, and their refusals."""
    tables = [test_verdict.table_with(draw, (85,), OPEN, 0, draw.choice(STARTS))]
    tables.append(test_verdict.table_with(draw, (85, 40), test_verdict.FINE, 2000, draw.choice(STARTS)))
    for start in STARTS:
        sheet, (first, last, end) = sheets.text(mild(draw, start)), years_of(start)
        tables += [test_verdict.table(f"from {start}", sheet, year) for year in (first, last, end)]
    for one in filter(None, tables):
        yield from test_verdict.in_orders(draw, one)
        yield from test_verdict.nearest(draw, one)
        yield from test_verdict.around_open(draw, one)
    wrong, torn = test_verdict.with_line(7, test_verdict.line_of(7, 0)), test_verdict.with_line(7)
    for start in STARTS:
        first, last, end = years_of(start)
        sheet, good = sheets.text(of_lilee(flat(), start, 3)), test_verdict.FLAT_COLUMN
        said = {start: NO_YEAR, first: RIGHT, last: RIGHT, last + 1: RIGHT, end: RIGHT, end + 1: NO_YEAR}
        for year, known in said.items():
            yield test_verdict.Case(f"flat from {start}, {year}", sheet, year, good, known)
            yield test_verdict.Case(f"wrong from {start}, {year}", sheet, year, wrong, NO_YEAR if known == NO_YEAR else WRONG)
            yield test_verdict.Case(f"torn from {start}, {year}", sheet, year, torn, TORN_COLUMN)
        off = sheets.text(of_lilee(flat(), LAST_START + 1, 3))
        yield test_verdict.Case(f"too late, {first}", off, first, draw.choice((good, torn)), OFF_SCALE)
    for year, known in ((2021, NO_YEAR), (2022, STEEP), (2192, STEEP), (2193, NO_YEAR)):
        yield test_verdict.Case(f"steep, {year}", STEEP_SHEET, year, good, known)
    yield test_verdict.Case("371 lines", text(lines_of(set_from(OTHER))[:-1]), 2040, good, TORN)


def column_jobs(draw, cases):
    """Runs of `verdict`: the cases, and inputs whose output is known: jobs to be called."""
    for one in cases:
        yield test_verdict.run_case, one
        if one.known is not None:
            yield test_verdict.known_case, one
    late, past = sheets.text(OTHER), sheets.text(of_lilee(flat(), LAST_START + 1, 7))
    rest, good = b"year=2040\n" + test_verdict.FLAT_COLUMN, b"year=2040 verdict=right\n"
    inputs = {late + rest: good, past + rest: b"no=2\n", past + rest[1:]: b"no=1\n", late + b"\n" + rest: b"no=1\n"}
    inputs |= {late: b"no=1\n", late + b"year=2040\n": b"year=2040 no=9\n", late + b"year=2020\n": b"year=2020 no=9\n"}
    inputs |= {late.replace(b"start=2033", b"start=2040", 1) + rest: b"no=2\n", late[:-1] + rest: b"no=1\n"}
    inputs |= {data + rest: b"no=1\n" for _, data in draw.sample(list(torn_sheets(draw)), 20)}
    for i, (data, want) in enumerate(inputs.items()):
        yield complaint, f"input {i}", "whole_run.py", want, 0, whole_run.verdict(data)
        yield compared, "verdict", Input(f"input {i}", data), want


# ---- the library

def compare_trips(count, draw, library):
    """A set of each table written and read, and its sheet read and written: the same numbers and bytes."""
    for i in range(200):
        which = (test_sheets.random_set, test_sheets.lilee_set)[i % 2](draw)
        sheet, numbers, blank = sheet_of(which), listed(which), [0] * SET_LENGTH
        wrote = c_interface.write(library, numbers, bytes(len(sheet)), 0)
        count.take(wrote == (0, len(sheet), sheet), f"a set of {which.table} from {which.start} is written as another sheet")
        count.take(c_interface.read(library, wrote[2], blank) == (0, numbers), f"a set of {which.table} is read back as another")
        no, got = c_interface.read(library, sheet, blank)
        again = c_interface.write(library, got, bytes(len(sheet)), 0)
        count.take((no, again) == (0, (0, len(sheet), sheet)), f"a sheet of {which.table} is written back as another")


def compare_limits(count, library):
    """Sets at each limit and one past it, as a sheet and as numbers."""
    for name, params, no in at_limits():
        which = set_from(params)
        sheet = text(lines_of(which))
        count.take(read(sheet)[0] == no, f"{name}: the second reader gives {read(sheet)[0]} and not {no}")
        test_sheets.compare_reading(count, library, name, sheet, SET_LENGTH, no)
        test_sheets.compare_writing(count, library, name, which, 9000)
        got = c_interface.write(library, listed(which), bytes(9000), 0)[0]
        count.take(got == no, f"{name}: written as {got} and not {no}")


def refused_lists(draw):
    """Names, lists of numbers and the refusal of each."""
    one, other = listed(test_sheets.random_set(draw)), listed(test_sheets.lilee_set(draw))
    for count in (0, 1, 8, 369, 370, 371, 373, 744):
        yield f"{count} numbers", (one * 2)[:count], TORN
        yield f"{count} numbers of LILEE", (other * 2)[:count], TORN
    for at, v in itertools.product((0, 1), (2, -1, 2013, 2**32, 2**32 + 1)):
        yield f"number {at} is {v}", one[:at] + [v] + one[at + 1 :], TORN
        yield f"number {at} is {v}, and off scale", one[:at] + [v] + one[at + 1 : -1] + [10**18], TORN
    for at, v in ((6, 2014), (6, 2012), (6, 2033), (6, 0), (7, 1), (7, -1), (7, SIZES["c"])):
        yield f"AG2014, number {at} is {v}", one[:at] + [v] + one[at + 1 :], OFF_SCALE
    yield "AG2014 from 2014 with c 1", one[:6] + [2014, 1] + one[8:], OFF_SCALE
    yield "start and c exchanged", [1, 0, 0, 0, 0, 0, 5, 2021] + [0] * 364, OFF_SCALE
    yield "the list of a program that knows no table", one[1:6] + one[8:], TORN


def compare_lists(count, draw, library):
    for name, numbers, no in refused_lists(draw):
        got = c_interface.write(library, numbers, bytes(9000), 77)
        count.take(got == (no, 77, bytes(9000)), f"{name}: written as {got[:2]} and not {no}")
    for name, data in torn_sheets(draw):
        test_sheets.compare_reading(count, library, name, data, SET_LENGTH, TORN)
    for table, own in ((0, (START, 0)), (1, (2021, 5))):
        numbers = [table, 1, 0, 0, 0, 0, *own] + [0] * 364
        no, _, sheet = c_interface.write(library, numbers, bytes(9000), 0)
        first = (b"table=AG2014\nsex=F\n", b"table=LILEE\nsex=F\n")[table]
        count.take(no == 0 and sheet.startswith(first), f"the table {table} is written as {sheet[:20]}")
        count.take((b"\nstart=2021\nc=5\nA.0=0\n" in sheet) == (table == 1), f"start and c of the table {table}")


def largest_sets():
    """Sets of the table LILEE with every number at its limit, but for theta; a is such that kappa keeps within its own."""
    for sign in (1, -1):
        which = test_sheets.changed(test_sheets.edge_set(sign), "a", -SIZES["a"])
        yield which._replace(table=LILEE, start=LAST_START, c=sign * SIZES["c"])


def compare_module(count, draw, module):
    """The Python module over a sheet of LILEE: its set, quotes, days, verdicts and runs."""
    start = draw.choice(STARTS)
    params = mild(draw, start)
    sheet, values, first = sheets.text(params), listed(set_from(params)), years_of(start)[0]
    count.take(module.read(sheet) == values, "the module reads another set")
    count.take(module.write(values) == sheet, "the module writes another sheet")
    head = dict(zip(module.HEAD, values))
    wanted = {"table": 1, "sex": "MF".index(params["sex"]), **{key: params[key] for key in ("a", "theta", "K", "k", "start", "c")}}
    count.take(head == wanted, f"the first numbers are {head}")
    for largest in map(listed, largest_sets()):
        count.take(module.read(module.write(largest)) == largest, "a set at its limits is not read back")
    body = lines_for(draw, start, 12)
    for ends in (False, True):
        count.take(module.run(sheet + body, ends) == whole_run.run(sheet + body, ends), f"the module's run, ends {ends}")
    raised, steep = test_c_interface.raised, STEEP_SHEET
    for wanted, call, *given in (
        (4, module.quote, sheet, "q", 65, start), (4, module.quote, sheet, "ecoh", 65, start + 52),
        (None, module.quote, sheet, "q", 65, first), (None, module.quote, sheet, "ecoh", 65, start + 51),
        (None, module.quote, sheet, "q", 65, start + 171), (4, module.quote, sheet, "q", 65, start + 172),
        (4, module.day, sheet, 65, start, datetime.date(start, 1, 1)), (4, module.day, sheet, 65, start + 52, 0),
        (None, module.day, sheet, 65, first, datetime.date(first, 3, 15)), (6, module.quote, steep, "q", 65, 2022),
        (2, module.write, values[:6] + [LAST_START + 1] + values[7:]), (2, module.write, [0] + values[1:]),
        (1, module.write, values[1:6] + values[8:]),
    ):
        got = raised(call, *given)
        count.take(got == wanted, f"{call.__name__} {given[1:]}: {got} and not {wanted}")


def library_count(draw, cases):
    """The counts of all that the library is compared in."""
    count, module = c_interface.Count(), c_interface.built()
    count.take(module is not None, "the library is not built")
    if module:
        library, counts = module.LIBRARY, collections.Counter()
        compare_trips(count, draw, library)
        compare_limits(count, library)
        compare_lists(count, draw, library)
        for one in [*flat_cases(draw), *itertools.islice(realistic_cases(draw, 3), 3)]:
            few = one._replace(queries=draw.sample(one.queries, min(60, len(one.queries))))
            test_c_interface.compare_queries(count, counts, draw, library, few)
        test_verdict.compare_calls(count, draw, module, draw.sample(cases, 150))
        compare_module(count, draw, module)
    return count


def main():
    seed = int(sys.argv[1]) if len(sys.argv) > 1 else SEED
    print(f"seed {seed}")
    gone = programs.missing(*whole_run.PROGRAMS)
    if gone:
        print(gone)
        return 1
    draw = random.Random(seed)
    found = quotes_found(draw) + [*last_year_alone()] + pairs_found(draw)
    cases = list(column_cases(draw))
    jobs = [*run_jobs(draw), *compare_jobs(), *column_jobs(draw, cases)]
    with concurrent.futures.ThreadPoolExecutor(2) as threads:
        found += threads.map(lambda job: job[0](*job[1:]), jobs)
    print(f"{len(cases)} columns, and {len(jobs)} runs and known answers")
    wrong = [said for said in found if said]
    for message in wrong[:20]:
        print(message)
    library = library_count(draw, cases)
    passed, failed = len(found) - len(wrong) + library.passed, len(wrong) + library.failed
    print(f"{passed} passed, {failed} failed")
    return 1 if failed else 0


if __name__ == "__main__":
    sys.exit(main())
