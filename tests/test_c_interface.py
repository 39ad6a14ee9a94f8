"""The library's calls from other languages: every answer to a query of a sheet, with a rate, a date or neither, against a second
implementation, the refusal, both ends and the figure, with every number that was lent; a couple's refusals that are decided by
its sheets and its word; the year a target is reached against the library's own quotes of the 51 years; the whole run of an input,
with every byte that was lent; the Python module's own functions; the example in C; and what the archive needs from outside.

Sheets, sets and the two calls between them are tests/test_sheets.py, and which numbers are dates is tests/test_dates.py. An
argument is taken as the seed.
"""
import collections
import datetime
import itertools
import os
import pathlib
import random
import re
import shutil
import subprocess
import sys
import tempfile

import whole_run
import c_interface
import sheets
import test_quotes
from c_interface import GREATEST, LEAST, QUOTE_LENGTH, ROOT, SET_LENGTH, listed
from edges import Edges
from grid import flat
from quotes import ANNUITIES, DAY, KINDS, OPEN, UNRATED, Quotes, decimals
from reader import KEYS, LIMITS, LONGEST, OFF_SCALE, SHORT, SIZES, TORN, Set, params_of, read, set_from

SEED = 20142065
# What a run wants beside five bytes for each of its input.
RUN_ROOM = 159
PLACES = (QUOTE_LENGTH, QUOTE_LENGTH, QUOTE_LENGTH, QUOTE_LENGTH + 1, 9, QUOTE_LENGTH - 1, 2, 1, 0)


# ---- queries of sheets

AGES = (LEAST, LEAST + 1, -(2**32) + 65, -1, 0, 65, 120, 121, 2**32 + 65, GREATEST)
YEARS = (LEAST, 2013, 2014, 2064, 2065, 2184, 2185, 2**32 + 2020, GREATEST)
SPANS = (LEAST, -1, 0, 1, 2**32, 2**32 + 1, GREATEST)
DATES = (LEAST, -20200315, -1, 0, 20191231, 20200101, 20200229, 20210229, 21000229, 21041231, 99991231, 100000101)
DATES += (2**32 + 20200315, 2**63 - 2**32 + 20200315, GREATEST)
RATES = (LEAST, -(2**32) + 30_000, -1, 0, 1, 30_000, 199_999, 200_000, 200_001, 2**32, 2**32 + 30_000, GREATEST)


def any_number(draw):
    """A number of 64 bits, of any length."""
    return draw.randint(LEAST, GREATEST) >> draw.randrange(64)


def at_ends(draw):
    """Numbers at and past the limits of the table and at both ends of 64 bits, in all combinations, and any others; all rates
    where nothing else is refused, else some."""
    yield from itertools.product(UNRATED, AGES, YEARS, SPANS)
    yield from itertools.product((DAY,), AGES, YEARS, DATES)
    for query in itertools.product(ANNUITIES, AGES, YEARS, SPANS):
        yield from ((*query, rate) for rate in (RATES if query[1:] == (65, 2014, 0) else draw.sample(RATES, 2)))
    for _ in range(300):
        kind = draw.choice(KINDS)
        numbers = 4 if kind in ANNUITIES else 3
        yield (kind, *(draw.choice((65, 2020, 0, any_number(draw))) for _ in range(numbers)))
        yield (draw.choice(ANNUITIES), 65, 2020, 0, any_number(draw))
        yield DAY, 65, 2020, any_number(draw)


def cases(draw):
    """Sheets with queries: all limits, every refusal, realistic and extreme sets, and figures that are open."""
    yield test_quotes.case("64 bits", flat(), list(at_ends(draw)))
    yield from test_quotes.fixed_cases()
    yield from test_quotes.refused_in_order()
    yield from test_quotes.even_cases(draw)
    yield from test_quotes.limit_cases(draw)
    yield from test_quotes.refused_cases(draw)
    yield from test_quotes.realistic_cases(draw, 8)
    yield from test_quotes.extreme_cases(draw, 6)
    yield from test_quotes.steep_cases(draw, 4)
    yield from itertools.islice(test_quotes.steep_once_cases(draw), 4)
    for kind in KINDS:
        yield from test_quotes.searched((kind, 2, draw.random()))
        yield from test_quotes.opened((kind, draw.random()))


def answer(given, no, query):
    """The refusal of a query, and the five numbers of its quote."""
    no = no or given.refusal(*query)
    return (no, None) if no else (0, numbers_of(given.quote(*query)))


def numbers_of(quote):
    """A quote as the library has it: both ends, whether it is printed, the number of steps and the ends' unit."""
    return [quote.lower, quote.upper, *((0, 0) if quote.steps == OPEN else (1, quote.steps)), quote.unit]


def lent(draw, places):
    """Numbers to be lent, any of 64 bits."""
    return [draw.choice((0, 1, draw.getrandbits(64), 2**64 - 1)) for _ in range(places)]


def after(no, numbers, before):
    """The number of a call and the numbers after it."""
    if no or len(before) < QUOTE_LENGTH:
        return no or SHORT, before
    return 0, numbers + before[QUOTE_LENGTH:]


def compare_queries(count, counts, draw, library, one):
    no, which = read(one.data)
    given = None if no else Quotes(params_of(which))
    for query in one.queries:
        kind, *numbers = query
        refused, quoted = answer(given, no, query)
        counts[f"refused {refused}" if refused else f"{kind} {'printed' if quoted[2] else 'open'}"] += 1
        for places in {QUOTE_LENGTH, draw.choice(PLACES)}:
            before = lent(draw, places)
            wanted = after(refused, quoted, before)
            counts["short"] += wanted[0] == SHORT
            if kind == DAY:
                got = c_interface.day(library, one.data, *numbers, before=before)
            else:
                got = c_interface.quote(library, one.data, kind.encode(), *numbers, before=before)
            count.take(got == wanted, f"{one.name}, {query}, {places} places: {got} and not {wanted}")


def met(count, counts):
    """Every answer that there is was met."""
    wanted = [f"{kind} {what}" for kind in KINDS for what in ("printed", "open")]
    for what in wanted + [f"refused {no}" for no in test_quotes.REFUSALS] + ["short"]:
        count.take(counts[what] > 0, f"no case of: {what}")


# ---- words that are no kind's

def words(draw, kinds):
    """Starts of the kinds' words, the words with a byte before, after or changed, and bytes of any kind."""
    for kind in kinds:
        word = kind.encode()
        yield from (word[:i] for i in range(len(word)))
        yield from (word + bytes([b]) for b in range(256))
        yield from (bytes([b]) + word for b in range(256))
        yield from (word[:i] + bytes([b]) + word[i + 1:] for i in range(len(word)) for b in range(256))
        yield from (word + other.encode() for other in kinds)
        yield word.upper()
    for _ in range(200):
        yield draw.randbytes(draw.randrange(6))


def compare_words(count, draw, library):
    """Such a word is torn whatever the sheet, the age and the places are; so are the words of a rate without one, and the
    other way round, and `day` with either."""
    good = sheets.text(flat())
    off_scale = sheets.text(dict(flat(), a=SIZES["a"] + 1))
    for word in [DAY.encode()] * 20 + list(words(draw, KINDS)):
        for kinds, rates in ((UNRATED, ()), (ANNUITIES, (0, 30_000, 200_001))):
            if word.decode("latin-1") in kinds:
                continue
            sheet, age = draw.choice((good, good, off_scale, b"")), draw.choice((65, 65, 121, LEAST))
            before, rate = lent(draw, draw.choice(PLACES)), [draw.choice(rates)] if rates else []
            got = c_interface.quote(library, sheet, word, age, 2020, 0, *rate, before=before)
            count.take(got == (TORN, before), f"the kind {word}, rate {rate}: {got[0]}")


# ---- couples

COUPLES = ("joint", "last", "ejoint", "elast")
STARTS_DIFFER = 11


def sheets_refusal(sheet, other_sheet):
    """The refusal of a couple's two sheets of different start years: each number is tried on the first, then on the second."""
    given = read(sheet)[0], read(other_sheet)[0]
    return next((no for no in (TORN, OFF_SCALE) if no in given), STARTS_DIFFER)


def couple_sheets():
    """Good, torn and off scale sheets of 2013, and such sheets of 2014 and 2033."""
    off_scale = dict(flat(), a=SIZES["a"] + 1)
    one = [sheets.text(flat()), sheets.text(flat())[:-1], b"", sheets.text(off_scale)]
    other = [sheets.text(sheets.of_lilee(params, start)) for params in (flat(), off_scale) for start in (2014, 2033)]
    return one, other + [other[0] + b"\n", other[0][:-1], b"\n"]


def compare_couples(count, draw, module):
    """Sheets that are refused, or whose start years differ, which comes before every age, year and span, either way round; and
    words that are no couple's kind, which are torn whatever the sheets are."""
    numbers = list(itertools.product((LEAST, -1, 0, 65, 121, GREATEST), AGES, YEARS, SPANS))
    met = collections.Counter()
    for pair in itertools.product(*couple_sheets()):
        for sheet, other_sheet in (pair, pair[::-1]):
            wanted = sheets_refusal(sheet, other_sheet)
            met[wanted] += 1
            for kind, places in itertools.product(COUPLES, (*PLACES, QUOTE_LENGTH, QUOTE_LENGTH)):
                asked, before = draw.choice(numbers), lent(draw, places)
                got = c_interface.couple(module.LIBRARY, sheet, other_sheet, kind.encode(), *asked, before=before)
                count.take(got == (wanted, before), f"{kind} {asked}, {places} places: {got} and not {wanted}")
            got = raised(module.couple, sheet, bytearray(other_sheet), "ejoint", 65, 62, 2020)
            count.take(got == wanted, f"the module's couple gives {got} and not {wanted}")
    count.take(set(met) == {TORN, OFF_SCALE, STARTS_DIFFER}, f"met are {met}")
    good, late = sheets.text(flat()), sheets.text(sheets.of_lilee(flat(), 2033))
    for word in [*(kind.encode() for kind in KINDS), *words(draw, COUPLES)]:
        if word.decode("latin-1") in COUPLES:
            continue
        sheet, other_sheet = draw.choice(((good, good), (good, late), (couple_sheets()[0][3], late)))
        before = lent(draw, draw.choice(PLACES))
        got = c_interface.couple(module.LIBRARY, sheet, other_sheet, word, 65, 62, 2020, 0, before=before)
        count.take(got == (TORN, before), f"the couple's kind {word}: {got[0]}")
        got = c_interface.quote(module.LIBRARY, good, draw.choice(COUPLES).encode(), 65, 2020, 0, before=before)
        count.take(got == (TORN, before), f"a couple's kind of one life: {got[0]}")
    for far in (GREATEST + 1, 2**64 + 65, LEAST - 1):
        got = raised(module.couple, good, late, "last", far, 62, far, far)
        count.take(got == STARTS_DIFFER, f"a couple with the age {far}: {got}")
    for wrong in (65.5, "65", None):
        got = raised(module.couple, good, late, "last", 65, wrong, 2020, 20)
        count.take(got == "TypeError", f"a couple with the age {wrong}: {got}")


# ---- the year a target is reached

NAMED, NONE = "named", "none"
TARGET_AGES = (LEAST, -(2**32) + 67, -1, 121, 2**32 + 67, GREATEST)
FAR_TARGETS = (LEAST, LEAST + 1, -(2**32), -1, 0, 1, 2**32, 2**62, GREATEST - 1, GREATEST)


def target_sheets(draw):
    """Sheets of both tables whose expectancies rise, fall and stay, with a steep cell in one of the 51 years or just after them,
    at the ends of the range, and torn and off scale."""
    yield from (sheets.text(flat()), sheets.text(test_quotes.mild(draw)), sheets.text(test_quotes.mild(draw, 2033)))
    for level, rise in test_quotes.EVEN[:7]:
        yield sheets.text(dict(flat(), A=[level] * 91, B=[test_quotes.YEARLY] * 91, theta=10 * rise))
    yield from (sheets.text(test_quotes.steep_once(draw, year)[0]) for year in (2014, draw.randint(2015, 2063), 2064, 2065))
    yield sheets.text(sheets.realistic_lilee(draw, draw.randint(2013, 2033)))
    yield sheets.text(sheets.at_edge(draw, 2014, 0))
    good, off_scale = sheets.text(flat()), sheets.text(dict(flat(), a=SIZES["a"] + 1))
    yield from (b"", good[:-1], good + b"\n", off_scale, off_scale[:-1], good.ljust(LONGEST + 1, b"\n"))


def period_ends(module, sheet, age):
    """The refusal that some of the 51 quotes has, and the coarse ends of each year's."""
    no, which = read(sheet)
    first = 2014 if no else which.start + 1
    quotes = {year: raised(module.quote, sheet, "eper", age, year) for year in range(first, first + 51)}
    refused = next(filter(None, quotes.values()), 0)
    given = None if refused else Quotes(params_of(which))
    return refused, {} if refused else {year: given.ends("eper", age, year, 0) for year in quotes}


def reached(ends, target):
    """The first year whose upper end is at or above the target, where its lower end is too; else open, or none."""
    year = next((year for year, (_, upper) in ends.items() if target <= upper), None)
    return NONE if year is None else year if target <= ends[year][0] else OPEN


def targets_near(draw, ends):
    """Targets at the ends of some years, of the first and of the last, a unit beside them and between them; and far ones."""
    years = list(ends)
    chosen = [ends[year] for year in {years[0], years[1], years[-1], *draw.sample(years, 3)}]
    near = {end + by for pair in chosen for end in (*pair, sum(pair) // 2) for by in (-1, 0, 1)}
    highest = max(upper for _, upper in ends.values())
    return sorted(near | {highest, highest + 1}) + [*FAR_TARGETS, any_number(draw)]


def two_numbers(said):
    """What is found and the year, as two numbers."""
    return ((NAMED, OPEN, NONE).index(said), 0) if said in (OPEN, NONE) else (0, said)


def compare_targets(count, draw, module):
    """The call in C, with both numbers that are lent, and the module's, each against the quotes of the 51 years."""
    met = collections.Counter()
    for sheet in target_sheets(draw):
        for age in (0, 67, 90, 91, 120, draw.randint(0, 120), draw.choice(TARGET_AGES)):
            no, ends = period_ends(module, sheet, age)
            for target in draw.sample(FAR_TARGETS, 3) if no else targets_near(draw, ends):
                said = no or reached(ends, target)
                met[f"refused {said}" if no else said if said in (OPEN, NONE) else NAMED] += 1
                met["open, and a later year certain"] += said == OPEN and any(target <= lower for lower, _ in ends.values())
                met["a year after the first"] += not no and said in list(ends)[1:]
                before = *lent(draw, 1), any_number(draw)
                wanted = (no, *before) if no else (0, *two_numbers(said))
                got = c_interface.target(module.LIBRARY, sheet, age, target, *before)
                count.take(got == wanted, f"a target {target} at {age}: {got} and not {wanted}")
                got = raised(module.target_year, sheet, age, target) or module.target_year(sheet, age, target)
                count.take(got == said, f"target_year of {target} at {age}: {got} and not {said}")
    wanted = [NAMED, OPEN, NONE, "open, and a later year certain", "a year after the first"]
    for what in wanted + [f"refused {no}" for no in (TORN, OFF_SCALE, 3, 6)]:
        count.take(met[what] > 0, f"no target of: {what}")
    compare_target_module(count, module)


def compare_target_module(count, module):
    """What the module's call takes and raises beside that: any whole number, however far, is a target."""
    sheet = sheets.text(flat())
    for far in (2**63, 2**64, 2**64 + 10**9, 10**30):
        for target, wanted in ((far, NONE), (-far - 1, 2014)):
            got = module.target_year(bytearray(sheet), 67, target)
            count.take(got == wanted, f"target_year of {target}: {got} and not {wanted}")
        count.take(raised(module.target_year, sheet, far, 0) == 3, f"target_year at the age {far} is not refused")
    for wrong in (20.5, 1e30, "20", None):
        for given in ((67, wrong), (wrong, 20 * 10**9)):
            got = raised(module.target_year, sheet, *given)
            count.take(got == "TypeError", f"target_year of {given}: {got}")


# ---- the whole run

def inputs(draw):
    """Sheets with lines after them: good, torn and refused ones, many, and none; refused sheets; and inputs at the longest."""
    sheet = sheets.text(flat())
    queries = [("ecoh", 65, 2020, 0), ("q", 65, 2020, 0), ("coh", 119, 2020, 2), ("q", 121, 1, -1), ("per", 0, 2064, 122)]
    queries += [("acoh", 65, 2020, 0, 30_000), ("aper", 0, 2064, 0, 0), ("aper", 120, 2014, 0, 200_001)]
    queries += [(DAY, 65, 2020, 20410315), (DAY, 65, 2020, 21000229), (DAY, 119, 2020, 20220101)]
    lines = [test_quotes.line_of(query) for query in queries]
    good = lines[0]
    lines += [b"\n", b"kind=q\n", good[:-1] + b" \n", good[:-1] + b" rate=0\n", good.upper(), draw.randbytes(50) + b"\n"]
    yield from (b"", b"\n", sheet, sheet[:-1], b"\n" + sheet, sheets.text(dict(flat(), a=SIZES["a"] + 1)) + good)
    yield sheets.text(dict(flat(), A=[0] * 91)) + good
    for size in (LONGEST - 1, LONGEST, LONGEST + 1):
        yield (sheet + good * size)[:size]
        yield sheet.ljust(size, b"\n")
    for _ in range(60):
        given = draw.choice((sheet, sheets.text(sheets.realistic(draw))))
        data = given + b"".join(draw.choices(lines, k=draw.randrange(12)))
        yield draw.choice((data, data, data[:-1], data[draw.randrange(20):], data + good[: draw.randrange(len(good))]))


def compare_runs(count, draw, module):
    for data in inputs(draw):
        for ends in (0, draw.choice((1, 2, 128, 255))):
            wanted = whole_run.run(data, ends != 0)
            count.take(module.run(data, ends != 0) == wanted, f"a run of {len(data)} bytes gives something else")
            need = 5 * len(data) + RUN_ROOM
            for room in (need, need - 1, need + draw.randrange(1, 300), draw.randrange(need)):
                before, length = draw.randbytes(room), draw.getrandbits(64)
                got = c_interface.run(module.LIBRARY, data, ends, before, length)
                after = (SHORT, length, before) if room < need else (0, len(wanted), wanted + before[len(wanted):])
                count.take(got == after, f"a run of {len(data)} bytes, ends {ends}, room {room}: {got[:2]} and not {after[:2]}")


# ---- the Python module

def raised(call, *given):
    """The number of the refusal that a call raises, the name of another error, or None."""
    try:
        call(*given)
    except Exception as error:
        return getattr(error, "number", type(error).__name__)
    return None


def far_refusals(module, sheet, values):
    """Each number of a call past 64 bits on either side: the refusal is that of any number out of the table or past its size.
    Cut off to 64 bits, most would be good numbers."""
    for far in (GREATEST + 1, LEAST - 1, 2**64 + 65, 2**64 + 2020, 2**64, -(2**64), 2**64 + 30_000, 10**30, -(10**30)):
        yield 3, module.quote, sheet, "q", far, 2020
        yield 4, module.quote, sheet, "q", 65, far
        yield 5, module.quote, sheet, "coh", 65, 2020, far
        yield 5, module.quote, sheet, "ecoh", 65, 2020, far
        yield 8, module.quote, sheet, "acoh", 65, 2020, 0, far
        yield 3, module.quote, sheet, "aper", far, far, far, far
        yield 3, module.day, sheet, far, far, far
        yield 4, module.day, sheet, 65, far, far
        yield 10, module.day, sheet, 65, 2020, far
        yield 10, module.day, sheet, 65, 2020, far + 20200101
        yield TORN, module.quote, sheet, "ecoh", 65, 2020, 0, far
        yield from ((TORN, module.write, values[:i] + [far] + values[i + 1 :]) for i in (0, 1))
        yield TORN, module.write, values + [far]
        yield from ((2, module.write, values[:i] + [far] + values[i + 1 :]) for i in (*range(2, 12), SET_LENGTH - 1))


def compare_days(count, module, sheet, given):
    """Survival to a date, which is a number or a day."""
    for year, month, day in ((2020, 1, 1), (2041, 3, 15), (2060, 12, 31), (2020, 2, 29), (2075, 12, 31), (2076, 1, 1)):
        date = year * 10**4 + month * 100 + day
        no, numbers = answer(given, 0, (DAY, 65, 2020, date))
        wanted = no or (*numbers[:2], numbers[3] if numbers[2] else None, 5, numbers[4])
        for asked in (date, datetime.date(year, month, day)):
            got = raised(module.day, sheet, 65, 2020, asked) or module.day(sheet, 65, 2020, asked)
            count.take(got == wanted, f"day to {asked} gives {got} and not {wanted}")


def compare_module(count, draw, module):
    params = sheets.realistic(draw)
    sheet, values = sheets.text(params), listed(set_from(params))
    count.take(module.read(sheet) == values, "read gives another set")
    count.take(module.read(bytearray(sheet)) == values, "read gives another set for a bytearray")
    count.take(module.write(values) == sheet, "write gives another sheet")
    largest = listed(Set("F", tuple(0 if key == "theta" else -most for key, most in zip(KEYS, LIMITS))))
    count.take(module.read(module.write(largest)) == largest, "a set at its limits is not read back")
    given = Quotes(params)
    asked = [("q", 65, 2020, 0), ("ecoh", 65, 2020, 0), ("per", 30, 2064, 0)]
    for query in asked + [("acoh", 65, 2020, 0, 30_000), ("aper", 119, 2064, 0, 0), ("acoh", 120, 2014, 0, 200_000)]:
        no, numbers = answer(given, 0, query)
        wanted = None if no else (*numbers[:2], numbers[3] if numbers[2] else None, decimals(query[0]), numbers[4])
        got = raised(module.quote, sheet, *query) or module.quote(sheet, *query)
        count.take(got == (no or wanted), f"quote gives {got} and not {no or wanted}")
    compare_days(count, module, sheet, given)
    lower, upper, steps, *_ = module.quote(sheets.text(flat()), "ecoh", 120, 2064)
    wanted = lower + 5 * 10**8, upper + 5 * 10**8, 32, 1, 9
    count.take(steps == 275, "the flat sheet's expectancy at 120 is not 2.75")
    got = module.quote(sheets.text(flat()), "acoh", 120, 2064, rate=0)
    count.take(got == wanted, "an annuity at rate 0 is not the expectancy and a half")
    off_scale, steep = sheets.text(dict(flat(), a=SIZES["a"] + 1)), sheets.text(dict(flat(), A=[0] * 91))
    refusals = [
        (TORN, module.read, b""), (2, module.read, off_scale), (TORN, module.write, []), (TORN, module.write, values + [0]),
        (TORN, module.write, [2] + values[1:]), (TORN, module.write, [0, 2] + values[2:]),
        (2, module.write, [0, 0, GREATEST] + values[3:]),
        (TORN, module.quote, sheet, "", 65, 2020), (TORN, module.quote, sheet, "\u00e9", 65, 2020),
        (2, module.quote, off_scale, "q", 121, 2020), (3, module.quote, sheet, "q", 121, 2020),
        (3, module.quote, sheet, "q", LEAST, LEAST, LEAST), (4, module.quote, sheet, "q", 65, 2185),
        (5, module.quote, sheet, "q", 65, 2020, 1), (6, module.quote, steep, "q", 65, 2020),
        (TORN, module.quote, sheet, "acoh", 65, 2020), (TORN, module.quote, sheet, "ecoh", 65, 2020, 0, 0),
        (TORN, module.quote, off_scale, "q", 121, 2020, 0, -1), (5, module.quote, sheet, "acoh", 65, 2020, 1, -1),
        (8, module.quote, steep, "aper", 65, 2020, 0, 200_001), (6, module.quote, steep, "aper", 65, 2020, 0, 200_000),
        ("TypeError", module.quote, sheet, "acoh", 65, 2020, 0, 0.03), ("TypeError", module.quote, sheet, "q", 65.5, 2020),
        ("TypeError", module.quote, sheet, "q", 1e30, 2020), ("TypeError", module.quote, sheet, "q", "65", 2020),
        (TORN, module.quote, sheet, DAY, 65, 2020, 20410315), (TORN, module.quote, sheet, DAY, 65, 2020, 0, 0),
        (TORN, module.day, b"", 121, 2065, 0), (2, module.day, off_scale, 121, 2065, 0), (3, module.day, sheet, 121, 2065, 0),
        (4, module.day, sheet, 65, 2065, 0), (10, module.day, sheet, 65, 2020, 21000229), (10, module.day, steep, 65, 2020, -1),
        (5, module.day, steep, 65, 2020, 20760101), (5, module.day, sheet, 65, 2020, datetime.date(2019, 12, 31)),
        (5, module.day, steep, 65, 2020, datetime.date(1000, 1, 1)), (10, module.day, steep, 65, 2020, datetime.date(999, 12, 31)),
        (6, module.day, steep, 65, 2020, 20200102), (6, module.day, steep, 65, 2020, datetime.date(2020, 1, 2)),
        ("TypeError", module.day, sheet, 65, 2020, 20410315.0), ("TypeError", module.day, sheet, 65, 2020, "20410315"),
        ("TypeError", module.day, sheet, 65, 2020, None),
        *far_refusals(module, sheet, values),
    ]
    for wanted, call, *rest in refusals:
        got = raised(call, *rest)
        count.take(got == wanted, f"{call.__name__} {str(rest[-3:])[:60]}: {got} and not {wanted}")
    for no, word in ((1, "torn"), (8, "rate"), (10, "date"), (STARTS_DIFFER, "starts differ")):
        count.take(word in str(module.Refused(no)), f"refusal {no} has no words")


def compare_places(count, module):
    """The library is found by the environment, or in the package; else there is none."""
    library, script = ROOT / "target" / "lib" / "libkulfizan.so", "import kulfizan; kulfizan.LIBRARY; print(kulfizan.path())"
    with tempfile.TemporaryDirectory() as folder:
        here = pathlib.Path(folder).resolve()
        package = here / "module" / "kulfizan"
        shutil.copytree(ROOT / "python" / "kulfizan", package, ignore=shutil.ignore_patterns("__pycache__", "*.so"))

        def found(**more):
            run = [sys.executable, "-B", "-c", script]
            done = subprocess.run(run, cwd=here / "module", env={**os.environ, **more}, capture_output=True, check=False)
            return done.stdout.decode().strip() if done.returncode == 0 else "none"

        count.take(found() == "none", "a library is found where there is none")
        shutil.copy(library, here / "other.so")
        wanted = str(here / "other.so")
        count.take(found(KULFIZAN_LIBRARY=wanted) == wanted, "the library of the environment is not found")
        shutil.copy(library, package)
        count.take(found() == str(package / "libkulfizan.so"), "the library in the package is not found")
        count.take(found(KULFIZAN_LIBRARY=wanted) == wanted, "the library of the environment does not come first")
    count.take(module.path() == library, "the library of target/lib is not found")


# ---- the example in C

def shown(data, *rate):
    """What the example prints for a sheet, or a sheet and a rate, and its exit status."""
    no, which = read(data)
    no, numbers = answer(None if no else Quotes(params_of(which)), no, ("acoh" if rate else "ecoh", 65, 2015, 0, *rate))
    if no:
        return 1, f"no={no}\n"
    lower, upper, printed, steps, unit = numbers
    ends = [f"{name} {end // 10**unit}.{end % 10**unit:0{unit}}" for name, end in (("lower", lower), ("upper", upper))]
    figure = whole_run.figure_text(steps if printed else OPEN, "acoh" if rate else "ecoh")
    return 0, "\n".join([*ends, f"fig={figure}"]) + "\n"


def at_half_step(draw, query, beyond):
    """A sheet with a quote so many units of 10^-13 beyond a half step."""
    while True:
        edges = Edges(test_quotes.mild(draw))
        if edges.place(query, beyond) and not Quotes(edges.params).refusal(*query):
            return sheets.text(edges.params)


def compare_example(count, draw):
    sheet = sheets.text(flat())
    inputs = [sheet, sheets.text(sheets.realistic(draw)), sheets.text(test_quotes.mild(draw)), b"", sheet[:-1], sheet * 20]
    inputs += [sheets.text(dict(flat(), a=SIZES["a"] + 1)), sheets.text(dict(flat(), A=[0] * 91)), sheet.ljust(2**20, b"\n")]
    asked = (("ecoh", 65, 2015, 0), ("acoh", 65, 2015, 0, 30_000))
    inputs += [at_half_step(draw, query, beyond) for query in asked for beyond in (0, 10**5)]
    with tempfile.NamedTemporaryFile() as file:
        for data in inputs:
            pathlib.Path(file.name).write_bytes(data)
            for rate in ([], [30_000], [0], [-1], [200_001]):
                done = subprocess.run([c_interface.EXAMPLE, file.name, *map(str, rate)], capture_output=True, check=False)
                got, wanted = (done.returncode, done.stdout.decode()), shown(data, *rate)
                count.take(got == wanted, f"the example with the rate {rate} prints {got} and not {wanted}")
        rates = ([file.name, rate] for rate in (file.name, "", "3%", "0.03", str(2**63)))
        for words in ([], [file.name, "0", "0"], [file.name + "-none"], *rates):
            done = subprocess.run([c_interface.EXAMPLE, *words], capture_output=True, check=False)
            count.take(done.returncode == 2 and not done.stdout, f"the example with {words[1:]}")


def compare_needs(count):
    """The archive needs two functions from outside, so that a program without a C library has no more to bring."""
    done = subprocess.run(["nm", "-u", ROOT / "target" / "lib" / "libkulfizan.a"], capture_output=True, text=True, check=False)
    needs = set(re.findall(r"^ +U (\S+)$", done.stdout, re.M))
    count.take(done.returncode == 0 and needs <= {"memcpy", "memset"}, f"libkulfizan.a needs {needs}: {done.stderr}")


def main():
    seed = int(sys.argv[1]) if len(sys.argv) > 1 else SEED
    print(f"seed {seed}")
    count, draw, module = c_interface.Count(), random.Random(seed), c_interface.built()
    count.take(module is not None, "the library is not built")
    if module:
        counts = collections.Counter()
        for one in cases(draw):
            compare_queries(count, counts, draw, module.LIBRARY, one)
        met(count, counts)
        compare_words(count, draw, module.LIBRARY)
        compare_couples(count, draw, module)
        compare_targets(count, draw, module)
        compare_runs(count, draw, module)
        compare_module(count, draw, module)
        compare_places(count, module)
        compare_example(count, draw)
        compare_needs(count)
    return count.close()


if __name__ == "__main__":
    sys.exit(main())
