"""The year a target is reached, by the program `targets` and Python's call, against the second implementation in targets.py and
whole_run.py, byte for byte, and against what is known beforehand.

Example, flat, realistic and extreme sheets of both tables, and some whose expectancies fall, or rise and fall by turns, are asked
at many ages for targets at, one below and one above the ends of the first, the last and other years, between the ends, below and
above all of them, and of any size. A named year must be the earliest whose exact expectancy, to 80 digits, is at least the target,
none must mean that no year has one, and the ends of all 51 years must be those that the program `ends` prints. The lines must tell
wrong readings of the rule from the right one. Where all ages have one force, years are held against plain sums. Sheets with one
steep cell have it in the first, the last or another year, or just outside the quote years, above or below the age that is asked
for. Then whole runs: torn lines, damaged bytes, refused sheets and inputs up to, at and past the longest. An argument is taken as
the seed.
"""
import collections
import concurrent.futures
import itertools
import random
import re
import sys
from decimal import Decimal

import c_interface
import programs
import sheets
import test_compare
import whole_run
from grid import COARSE, HIGHEST, LOWEST, RATE, START, UNIT, flat
from quotes import CLOSURE, NO_AGE, OFF_SCALE, OLDEST, QUOTE_YEARS, STEEP, Quotes, in_units, years_of
from reader import LAST_START, LONGEST, SIZES, TORN
from sheets import of_lilee
from targets import NONE, OPEN, PERIOD
from test_c_interface import any_number, raised
from test_quotes import GREATEST, LEAST, YEARLY, even_sum, mild
from test_runs import EXAMPLES, FLAT, NUMBERS, Input, any_bytes, compared, complaint, cut_sheets, damaged, damaged_sheets
from test_runs import line_feeds, off_scale, padded, torn_bytes, torn_fields, with_value

SEED = 20312067
LEAST_LINES, LEAST_CALLS, LEAST_TOLD_APART = 1500, 300, 10
SORTS = ("example", "flat", "realistic", "extreme", "rising", "falling", "by turns", "steep", "LILEE")
ANSWER = re.compile(rb".* year=([0-9]+|open|none)")

# A sheet of a sort, and the ages for which it is asked beside some that every sheet is.
Case = collections.namedtuple("Case", "name sort data ages")


def line_of(query):
    return b"age=%d target=%d\n" % query


# ---- sheets

def gompertz(start=START, **series):
    """A set with log forces that rise by age from -9 to -1.35, and with some series: a trend of K and a wave of kappa."""
    params = dict(flat(), A=[-9 * 10**9 + 85 * 10**6 * x for x in range(91)], B=[10**6] * 91, be=[10**6] * 91, **series)
    return params if start == START else of_lilee(params, start)


def case(draw, name, sort, params, young=False):
    """Old ages have few cells to work, and age 0 has all."""
    ages = {draw.randint(60, 79), draw.randint(80, 90), draw.randint(91, 119), OLDEST}
    return Case(name, sort, sheets.text(params), sorted(ages | ({0, draw.randint(1, 59)} if young else {draw.randint(45, 75)})))


def examples(draw):
    for name in ("women", "men", "research"):
        one = case(draw, name, "example", flat(), young=True)
        yield one._replace(data=(EXAMPLES / f"{name}.sheet").read_bytes(), ages=sorted({65, 67, *one.ages}))


def extreme(draw, start):
    """Large parameters with still series, so that all years have the same forces."""
    params = dict(sheets.extreme(draw, 10**8, START + 1), theta=0, K=0, k=0)
    return sheets.centred(draw, params if start == START else of_lilee(params, start), 0, 0, 40)


def cases(draw):
    yield from examples(draw)
    yield case(draw, "flat", "flat", flat(), young=True)
    yield case(draw, "realistic", "realistic", mild(draw), young=True)
    yield case(draw, "realistic, another", "realistic", mild(draw))
    yield case(draw, "from 2013", "LILEE", mild(draw, START))
    yield case(draw, "from 2033", "LILEE", mild(draw, LAST_START), young=True)
    yield case(draw, "extreme", "extreme", extreme(draw, START))
    yield case(draw, "extreme from 2033", "extreme", extreme(draw, LAST_START))
    yield case(draw, "rising", "rising", gompertz(theta=-2 * 10**9))
    yield case(draw, "falling", "falling", gompertz(theta=10**9), young=True)
    yield case(draw, "falling from 2026", "falling", gompertz(2026, theta=3 * 10**8, a=10**8, k=-(10**9)))
    yield case(draw, "to and fro", "by turns", gompertz(a=-(10**8), k=10**10, theta=-(10**8)))
    yield case(draw, "to and fro, fading", "by turns", gompertz(2020, a=-94 * 10**6, k=-(10**10), theta=2 * 10**7))
    yield case(draw, "down and up", "by turns", gompertz(a=95 * 10**6, k=-3 * 10**10, theta=-6 * 10**8))
    yield case(draw, "steep at 80 in the last year", "steep", steep_cell(80, QUOTE_YEARS, HIGHEST, 1))
    yield case(draw, "steep at 79 in a year", "steep", steep_cell(79, draw.randint(2, 50), LOWEST, 1))


# ---- lines

def beside(ends):
    """At each of two ends, one below and one above, and between them."""
    return [end + by for end in ends for by in (-1, 0, 1)] + [sum(ends) // 2]


def aims(draw, given, age):
    """Targets at an accepted age."""
    ends = given.ends(age)
    years = {0, QUOTE_YEARS - 1, *draw.sample(range(QUOTE_YEARS), 2)}
    least, most = min(lower for lower, _ in ends), max(upper for _, upper in ends)
    out = {LEAST, -1, 0, 1, GREATEST, least - 1, most + 1, draw.randint(LEAST, -1), draw.randint(most, GREATEST)}
    out |= {draw.randint(least, most) for _ in range(4)} | {round(ends[0][0], -8)}
    return sorted(out.union(*(beside(ends[n]) for n in years)))


def queries_of(draw, one):
    """The lines of a sheet, in any order: also ages outside the table."""
    given, out = whole_run.targets_of(one.data), []
    for age in one.ages:
        some = (LEAST, -1, 0, 2 * UNIT, GREATEST) if given.refusal(age) else aims(draw, given, age)
        out += [(age, target) for target in some]
    out += [(age, draw.choice((0, 20 * UNIT, LEAST, GREATEST))) for age in (LEAST, -1, OLDEST + 1, GREATEST)]
    return draw.sample(out, len(out))


# ---- wrong readings of the rule, each over the years, their ends and a target

def first(years, ends, reached):
    """The first year whose ends do something, or none."""
    return next((year for year, (lower, upper) in zip(years, ends) if reached(lower, upper)), NONE)


def told_by(years, ends, upper_does, lower_does):
    """The rule with other tests of the two ends."""
    for year, (lower, upper) in zip(years, ends):
        if upper_does(upper):
            return year if lower_does(lower) else OPEN
    return NONE


def by_the_rule(years, ends, target):
    return told_by(years, ends, lambda end: end >= target, lambda end: end >= target)


def by_halving(years, ends, target):
    """A search that takes it for granted that expectancies rise."""
    low, high = 0, len(ends)
    while low < high:
        middle = (low + high) // 2
        low, high = (low, middle) if ends[middle][1] >= target else (middle + 1, high)
    return by_the_rule(years[low : low + 1], ends[low : low + 1], target)


WRONG = {
    "the first lower end": lambda years, ends, t: first(years, ends, lambda lower, _: lower >= t),
    "the last year": lambda years, ends, t: by_the_rule(years[::-1], ends[::-1], t),
    "an upper end above": lambda years, ends, t: told_by(years, ends, lambda end: end > t, lambda end: end >= t),
    "a lower end above": lambda years, ends, t: told_by(years, ends, lambda end: end >= t, lambda end: end > t),
    "open given as the year": lambda years, ends, t: first(years, ends, lambda _, upper: upper >= t),
    "the first year left out": lambda years, ends, t: by_the_rule(years[1:], ends[1:], t),
    "the last year left out": lambda years, ends, t: by_the_rule(years[:-1], ends[:-1], t),
    "a year early": lambda years, ends, t: by_the_rule([year - 1 for year in years], ends, t),
    "by halving": by_halving,
}


def told_apart(given, age, target, counts):
    """Counts what a line is a case of, and which wrong readings it tells from the rule."""
    years, ends, found = given.years, given.ends(age), given.found(age, target)
    later = ends[years.index(found) + 1 :] if found in years else []
    counts["open, and a later year certain"] += found == OPEN and any(lower >= target for lower, _ in ends)
    counts["named, and a later year below"] += any(upper < target for _, upper in later)
    counts["named, the first year"] += found == years[0]
    counts["named, the last year"] += found == years[-1]
    counts["at an end"] += any(target in pair for pair in ends)
    counts["one below an end"] += any(target + 1 in pair for pair in ends)
    counts["one above an end"] += any(target - 1 in pair for pair in ends)
    for name, reading in WRONG.items():
        counts["told apart", name] += reading(list(years), ends, target) != found


def first_names(given, age, target):
    """Whether the first year is accepted and reaches the target with both ends."""
    query = PERIOD, age, given.years[0], 0
    return not given.quotes.refusal(*query) and given.quotes.ends(*query)[0] >= target


# ---- lines against the exact values

def false_words(given, age, target, said):
    """What a line says that is not true of the exact values."""
    if min(abs(value - target) for value in given.values(age)) < Decimal(10) ** -50:
        yield "80 digits do not tell"
    exact = given.exact_year(age, target)
    if said == OPEN:
        looked_at = first(given.years, given.ends(age), lambda _, upper: upper >= target)
        if isinstance(exact, int) and exact < looked_at:
            yield f"the exact expectancy of {exact} is at least the target, before that of {looked_at}"
    elif said != str(exact):
        yield f"by the exact expectancies it is {exact}"


def told(draw, one, counts):
    """What is wrong with each line of a case's run, None where nothing is."""
    given, queries = whole_run.targets_of(one.data), queries_of(draw, one)
    data = one.data + b"".join(map(line_of, queries))
    want, (status, out) = whole_run.targets(data), programs.run("targets", data)
    yield complaint(one.name, "targets", want, status, out)
    lines = (shown.splitlines()[: len(queries)] for shown in (out, want))
    for query, line, wanted in itertools.zip_longest(queries, *lines, fillvalue=b""):
        wrong = [] if line == wanted else [f"not {wanted!r}"]
        tally([wanted], counts)
        if (got := ANSWER.fullmatch(line)) and ANSWER.fullmatch(wanted):
            counts.update(["exact", ("sort", one.sort), ("start", given.years[0] - 1)])
            told_apart(given, *query, counts)
            wrong += false_words(given, *query, got[1].decode())
        counts["steep, and the first year named"] += wanted.endswith(b" no=6") and first_names(given, *query)
        yield f"{one.name}: {line!r}: {'; '.join(wrong)}" if wrong else None
    counts["lines"] += len(queries)


def unlike_ends(one, age):
    """What is wrong where the quotes of the 51 years are not those that `ends` prints, or an exact value is not between their ends:
    the coarse ends that a target looks at are theirs, but where these leave a figure open."""
    given = whole_run.targets_of(one.data)
    quotes = [given.quotes.quote(PERIOD, age, year, 0) for year in given.years]
    asked = b"".join(b"kind=%b age=%d year=%d span=0\n" % (PERIOD.encode(), age, year) for year in given.years)
    status, out = programs.run("ends", one.data + asked)
    ends = [tuple(map(int, got)) for got in re.findall(rb"lo=([0-9]+) hi=([0-9]+) unit=(9|13) ", out)]
    if status or ends != [quote[:3] for quote in quotes]:
        return f"{one.name} at {age}: the ends are not those of `ends`"
    good = all(lower <= in_units(value, unit) <= upper for (lower, upper, unit), value in zip(ends, given.values(age)))
    good = good and all(lower <= value <= upper for (lower, upper), value in zip(given.ends(age), given.values(age)))
    return None if good else f"{one.name} at {age}: an exact value is not between its ends"


def tally(lines, counts):
    """Counts what the second implementation says of lines: an answer or a refusal, or a torn line."""
    for line in lines:
        what = line.rpartition(b" ")[2].decode()
        counts["named" if what.startswith("year=2") else what] += 1


# ---- answers that are known

def known(name, data, want):
    """What is wrong with a run whose output is known, by the second implementation and by the program."""
    return complaint(name, "whole_run.py", want, 0, whole_run.targets(data)) or compared("targets", Input(name, data), want)


def known_lines(name, sheet, rows):
    """The same of lines and what is printed after each."""
    return known, name, sheet + b"".join(map(line_of, rows)), b"".join(
        line_of(query)[:-1] + b" %b\n" % said.encode() for query, said in rows.items()
    )


# Log forces of the start year at all ages, and what they rise by each year.
EVEN = ((-(10**9), 0), (-3 * 10**9, -2 * YEARLY), (-5 * 10**9, -4 * YEARLY), (-4 * 10**9, 2 * YEARLY), (-8 * 10**9, 4 * YEARLY))
MARGIN = 10**6


def even_jobs(draw):
    """Sheets of one force a year, and the first year whose expectancy, a plain sum, is at least the target; no sum is as near to
    the target as the ends are wide."""
    for (level, rise), start in itertools.product(EVEN, (START, LAST_START)):
        params = of_lilee(dict(flat(), A=[level] * 91, B=[YEARLY] * 91, theta=10 * rise), start)
        begun, last, end = years_of(start)
        alive_in = {year: (-(Decimal(level + rise * (year - start)) / UNIT).exp()).exp() for year in range(begun, end + 1)}
        sums = {year: even_sum(alive_in, PERIOD, year) for year in range(begun, last + 1)}
        rows = {}
        for year, by, age in itertools.product((begun, draw.randint(begun, last), last), (-MARGIN, MARGIN), (70, 91, OLDEST)):
            target = int(sums[year]) + by
            if all(abs(value - target) > MARGIN // 2 for value in sums.values()):
                rows[age, target] = f"year={next((y for y in sums if sums[y] >= target), NONE)}"
        yield known_lines(f"even from {start}, {level} and {rise} a year", sheets.text(params), rows)


def steep_cell(age, n, end, beyond, start=START):
    """A set with a cell at an age in year n after the start, so many units outside an end of the range; its log force turns in that
    year, since K's trend and kappa's fall pull it opposite ways."""
    params = gompertz(start, a=97 * 10**6, k=10**10, theta=-(10**9))
    ratio, side = params["a"] / RATE, 1 if end == HIGHEST else -1
    params["be"][age] = -side * 10**7
    pull = params["be"][age] * params["k"] * (ratio ** (n + 1) - ratio ** (n - 1))
    params["B"][age], params["A"][age] = -round(pull / (2 * params["theta"])), 0
    log = COARSE.log_force(params, age, params["K"] + n * params["theta"], COARSE.kappas(params, n)[n])
    params["A"][age] = end + side * beyond - log[side == 1]
    return params


def not_as_said(params, steep):
    """What is wrong where other cells are steep, of the years from the start to one past the quotes'."""
    cells, start = Quotes(params).coarse, params["start"]
    got = [(x, y) for x in range(91) for y in range(start, start + QUOTE_YEARS + 2) if cells.steep(x, y)]
    return None if got == steep else f"{got} are steep and not {steep}"


def steep_jobs(draw):
    """One steep cell in a year: 6 at the ages that need it, also where the first year would be named, and no matter at others. Just
    outside the quote years, or at the very end of the range, it is no matter at any age."""
    middle = draw.randint(3, QUOTE_YEARS - 2)
    years = (0, 1, 2, middle, QUOTE_YEARS, QUOTE_YEARS + 1)
    places = [(draw.choice(ages), n, 1) for n in years for ages in (range(65, 80), CLOSURE)]
    places += [(0, QUOTE_YEARS, 1), (80, QUOTE_YEARS - 1, 1), (90, middle, 1), (79, 1, 1)]
    places += [(70, middle, 0), (85, QUOTE_YEARS, 0), (75, QUOTE_YEARS, 0)]
    for i, (age, n, beyond) in enumerate(places):
        end, start = (HIGHEST, LOWEST)[i % 2], (START, 2019, LAST_START)[i % 3]
        params = steep_cell(age, n, end, beyond, start)
        yield not_as_said, params, [(age, start + n)] if beyond else []
        rows = {}
        for asked in sorted({max(0, age - 1), age, age + 1, 79, 90, 91, OLDEST}):
            needs = beyond and 1 <= n <= QUOTE_YEARS and (asked <= age or age in CLOSURE)
            rows |= {(asked, target): "no=6" if needs else f"year={start + 1}" for target in (LEAST, 0)}
            rows |= {(asked, GREATEST): "no=6" if needs else "year=none"}
        yield known_lines(f"steep at {age} in year {n} from {start}", sheets.text(params), rows)


OFF = with_value("k", b"%d" % (SIZES["k"] + 1))
TORN_SHEET = FLAT.replace(b"sex=", b"Sex=", 1)
STEEP_SHEET = test_compare.STEEP
OFF_LATER = sheets.text(of_lilee(flat(), LAST_START + 1))


def refused_jobs():
    """Refusals in their order: the text, the limits, the age, a steep cell."""
    lines = b"".join(map(line_of, ((65, 0), (121, 0), (-1, GREATEST))))
    for no, sheet in ((1, TORN_SHEET), (2, OFF), (2, OFF_LATER), (1, OFF.replace(b"be.90=0", b"be.90=00")), (1, FLAT[:-1])):
        for body in (lines, b"", line_of((121, 0)), b"x\n"):
            yield known, f"a sheet refused as {no}", sheet + body, b"no=%d\n" % no
    outside = (LEAST, -1, OLDEST + 1, 2**32 + 65, GREATEST)
    for sheet, name in ((FLAT, "flat"), (STEEP_SHEET, "steep")):
        rows = {(age, target): f"no={NO_AGE}" for age in outside for target in (LEAST, -1, 0, GREATEST)}
        yield known_lines(f"no such age, {name}", sheet, rows)
    rows = {(age, target): f"no={STEEP}" for age in (0, 90, 91, OLDEST) for target in (LEAST, 0, GREATEST)}
    yield known_lines("steep in all years", STEEP_SHEET, rows)
    yield known_lines("flat", FLAT, {(65, 2 * UNIT): "year=2014", (65, 3 * UNIT): "year=none", (OLDEST, 2 * UNIT): "year=2014"})


# ---- whole runs

GOOD = b"age=110 target=2000000000"
# Lines that are torn, whatever the second implementation says.
TORN_LINES = (
    b"", b" ", b"age=110", b"target=2000000000", b"age=110 ", b"age=110 target", b"age=110 target=", b"age= target=2",
    b"age=110 target= ", b"target=2000000000 age=110", GOOD + b" ", b" " + GOOD, GOOD + b"\r", GOOD + b"\0", GOOD + b" year=2014",
    GOOD + b" span=0", GOOD + b" " + GOOD, GOOD + b"x", b"x" + GOOD, GOOD.replace(b" ", b"  "), GOOD.replace(b" ", b"\t"),
    GOOD.replace(b" ", b""), GOOD.replace(b"=", b" = "), GOOD.replace(b"=", b":"), GOOD.upper(), GOOD.title(),
    b"age=0110 target=2", b"age=110 target=02", b"age=110 target=00", b"age=110 target=-0", b"age=-0 target=2",
    b"age=110 target=-02", b"age=110 target=+2", b"age=+110 target=2", b"age=110 target=--2", b"age=110 target=2-",
    b"age=110 target=2.0", b"age=110 target=2,0", b"age=110 target=2e9", b"age=110 target=0x2", b"age=110 target=1" + b"0" * 15,
    b"age=110 target=-1" + b"0" * 15, b"age=1" + b"0" * 15 + b" target=2", b"age=110 target=" + b"9" * 400,
    b"age=110 target=9223372036854775807", b"age=110 target=-9223372036854775808", b"age=110 target=18446744073709551618",
    b"age=110 age=110 target=2", b"age=110 target=2 target=2", b"age=110 age2=110 target=2", b"kind=eper age=110 target=2",
    b"kind=eper age=110 year=2014 span=0", b"kind=q age=65 year=2020 span=0", b"kind=acoh age=65 year=2020 span=0 rate=0",
    b"kind=day age=65 year=2020 date=20410315", b"kind=joint age=119 age2=118 year=2020 span=1", b"year=2020",
    b"age=65 q=0.00796", b"age=110 year=2014 target=2", b"age=110 target=open", b"age=110 target=none", b"age=open target=2",
)


def torn_jobs():
    """Those lines, among lines that are answered; an input that ends within a line, and bytes after the last line feed."""
    line, said = GOOD + b"\n", GOOD + b" year=2014\n"
    for end in (b"\n", b"\n" + line):
        want = b"no=1\n" + (said if end != b"\n" else b"")
        yield known, "torn lines", FLAT + b"".join(torn + end for torn in TORN_LINES), want * len(TORN_LINES)
    for at in range(len(line)):
        yield known, f"ends in {line[:at]!r}", FLAT + line[:at], b"no=1\n" if at else b""
        yield known, f"{line[:at]!r} after a line", FLAT + line + line[:at], said + (b"no=1\n" if at else b"")
    whole = [b"age=110 target=" + number for number in (b"9" * 15, b"-" + b"9" * 15, b"1" + b"0" * 14, b"0", b"-1")]
    want = b"".join(b"%b year=%b\n" % row for row in zip(whole, (b"none", b"2014", b"none", b"2014", b"2014")))
    yield known, "the longest numbers", FLAT + b"\n".join(whole) + b"\n", want


def elsewhere(draw):
    """A line of this program is torn in the others."""
    lines = b"".join(map(line_of, ((65, 20 * UNIT), (121, 0), (OLDEST, -1)))) + GOOD + b"\n"
    for name, count in (("quotes", 1), ("ends", 1), ("compare", 2), ("couples", 2)):
        yield compared, name, Input("lines of targets", FLAT * count + lines), b"no=1\n" * 4


def ready_sheets(every):
    """Sheets with lines, as the whole runs take them: at high ages, which are soon worked."""
    lines = [line_of((OLDEST, aim)) for aim in (2 * UNIT, 0, GREATEST)] + [line_of((100, 2_500_000_000)), line_of((121, 0))]
    return [(one.data, lines) for one in every if one.name in ("flat", "women", "men", "from 2033")]


def torn_runs(draw):
    """Lines with one field or byte wrong, and now and then one that is answered between them."""
    line = GOOD + b"\n"
    torn = [*torn_fields(line), *torn_bytes(draw, line)] + [line.replace(b"110", number) for number in NUMBERS]
    draw.shuffle(torn)
    for at in range(0, len(torn), 60):
        body = [one + (line if draw.randrange(4) == 0 else b"") for one in torn[at : at + 60]]
        yield Input(f"torn lines from {at}", FLAT + b"".join(body))


def sizes(ready):
    """Inputs at and about the longest: few of their lines are answered."""
    (sheet, lines), refused = ready[0], line_of((121, 0))
    for size, what in itertools.product((LONGEST - 1, LONGEST, LONGEST + 1, 2 * LONGEST + 1), (refused, b"\n", b"x", b"\0")):
        for head in (sheet + b"".join(lines), OFF, b"x" + sheet, b""):
            yield Input(f"{size} bytes, {head[:9]!r}, {what!r}", padded(head, size, what))
        start, end = sheet + lines[0], b"\n" + lines[0]
        yield Input(f"{size} bytes, whole lines", padded(start, size - len(end), what) + end)


def few(draw, inputs, count):
    inputs = list(inputs)
    return draw.sample(inputs, min(count, len(inputs)))


def example_runs():
    queries = (EXAMPLES / "target.queries").read_bytes()
    for sheet in sorted(EXAMPLES.glob("*.sheet")):
        yield Input(f"{sheet.name}, target.queries", sheet.read_bytes() + queries)


def whole_runs(draw, every):
    ready = ready_sheets(every)
    out = [*example_runs(), *torn_runs(draw), *sizes(ready), *line_feeds(ready), *few(draw, cut_sheets(draw, ready), 60)]
    out += [*few(draw, damaged_sheets(draw, ready), 50), *few(draw, off_scale(draw, ready), 60), *any_bytes(draw, ready, 40)]
    for i in range(60):
        sheet, lines = draw.choice(ready)
        data = sheet + b"".join(lines)
        out.append(Input(f"damaged {i}", damaged(data, draw.randrange(len(sheet) - 9, len(data)), draw)))
    return out


def run_jobs(draw, every, counts):
    for one in whole_runs(draw, every):
        want = whole_run.targets(one.data)
        counts[f"run {want.decode().strip()}"] += want in (b"no=1\n", b"no=2\n")
        counts["longest", len(one.data)] += 1
        tally(want.splitlines(), counts)
        yield compared, "targets", one, want
    yield from elsewhere(draw)


# ---- Python's call

FAR = (2**63 - 1, 2**63, 2**64, 2**64 + 2 * UNIT, 10**30)


def called(module, sheet, age, target):
    """The refusal's number or the answer of Python's call."""
    return raised(module.target_year, sheet, age, target) or module.target_year(sheet, age, target)


def wanted_call(sheet, age, target):
    no = whole_run.sheet_of(sheet).no
    no, found = (no, None) if no else whole_run.targets_of(sheet).answer(age, target)
    return no or found


def library_count(draw, every):
    count, counts, module = c_interface.Count(), collections.Counter(), c_interface.built()
    count.take(module is not None, "the library is not built")
    count.take(hasattr(module, "target_year"), "the module has no call for targets")
    if count.failed:
        return count
    calls = [(one.data, *query) for one in every for query in few(draw, queries_of(draw, one), 25)]
    bad = (b"", FLAT[:-1], FLAT * 2, FLAT + GOOD + b"\n", FLAT.ljust(LONGEST + 1, b"\n"), TORN_SHEET, OFF, OFF_LATER, STEEP_SHEET)
    calls += [(sheet, age, target) for sheet in bad for age in (65, 121) for target in (0, GREATEST)]
    calls += [(FLAT, *query) for far in FAR for query in ((65, far), (65, -far), (far, 0), (-far, far))]
    calls += [(FLAT, 65, any_number(draw)) for _ in range(40)] + [(FLAT, any_number(draw), 2 * UNIT) for _ in range(20)]
    for one in calls:
        got, wanted = called(module, *one), wanted_call(*one)
        count.take(got == wanted and type(got) is type(wanted), f"target_year {one[1:]}: {got!r} and not {wanted!r}")
        counts[wanted if wanted in (OPEN, NONE) or wanted < 2000 else "named"] += 1
    for wrong in (65.0, "65", None):
        for numbers in ((wrong, 0), (65, wrong)):
            count.take(raised(module.target_year, FLAT, *numbers) == "TypeError", f"target_year {numbers} is no TypeError")
    for what in ("named", OPEN, NONE, TORN, OFF_SCALE, NO_AGE, STEEP):
        count.take(counts[what] > 0, f"no call that gives {what}")
    count.take(len(calls) >= LEAST_CALLS, f"{len(calls)} calls, not {LEAST_CALLS}")
    print(f"{len(calls)} calls of target_year:", *(f"{what} {number}" for what, number in counts.items()))
    return count


# ---- all of it

MET = ("open, and a later year certain", "named, and a later year below", "named, the first year", "named, the last year")
MET += ("at an end", "one below an end", "one above an end", "steep, and the first year named")
SAID = ("named", "year=open", "year=none", "no=1", "no=3", "no=6")


def missing(counts):
    """What should have been met and has not."""
    out = [what for what in (*MET, *SAID, "run no=1", "run no=2") if not counts[what]]
    out += [f"{size} bytes" for size in (LONGEST - 1, LONGEST, LONGEST + 1) if not counts["longest", size]]
    out += [f"accepted lines of sheets, {sort}" for sort in SORTS if counts["sort", sort] < 30]
    out += [f"accepted lines from {start}" for start in (START, LAST_START, 2021) if counts["start", start] < 30]
    out += [f"lines that tell apart: {name}" for name in WRONG if counts["told apart", name] < LEAST_TOLD_APART]
    return out + ([f"{LEAST_LINES} lines held against exact values"] if counts["exact"] < LEAST_LINES else [])


def report(counts, jobs):
    print(f"{counts['lines']} lines of sheets, {counts['exact']} held against exact values; {jobs} runs and facts")
    print(*(f"{what}: {counts[what]};" for what in (*SAID, "run no=1", "run no=2")))
    print(*(f"{what}: {counts[what]};" for what in MET))
    print("told apart:", *(f"{name}, {counts['told apart', name]};" for name in WRONG))


def main():
    seed = int(sys.argv[1]) if len(sys.argv) > 1 else SEED
    print(f"seed {seed}")
    gone = programs.missing("targets", "quotes", "ends", "compare", "couples")
    if gone:
        print(gone)
        return 1
    draw, counts, found = random.Random(seed), collections.Counter(), []
    every = list(cases(draw))
    for one in every:
        found += told(draw, one, counts)
        found += [unlike_ends(one, age) for age in one.ages if not whole_run.targets_of(one.data).refusal(age)]
    jobs = [*even_jobs(draw), *steep_jobs(draw), *refused_jobs(), *torn_jobs(), *run_jobs(draw, every, counts)]
    with concurrent.futures.ThreadPoolExecutor(2) as threads:
        found += threads.map(lambda job: job[0](*job[1:]), jobs)
    report(counts, len(jobs))
    absent = missing(counts)
    found.append(f"no case of: {', '.join(absent)}" if absent else None)
    wrong = [said for said in found if said]
    for message in wrong[:20]:
        print(message)
    library = library_count(draw, every)
    passed, failed = len(found) - len(wrong) + library.passed, len(wrong) + library.failed
    print(f"{passed} passed, {failed} failed")
    return 1 if failed else 0


if __name__ == "__main__":
    sys.exit(main())
