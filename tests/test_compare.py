"""The whole run of `compare`, byte for byte, against the second implementation in whole_run.py; and what it says of two values,
against the exact values to 80 digits.

It runs the program on some thousand inputs: two sheets that are whole, torn or off scale, the first, the second or both; too
few lines; torn queries; queries refused for one sheet or both; open figures on either side; ends that touch or lie one unit
apart; ends in either unit, and one in each; inputs up to, at and past the longest, in pieces. Of each compared query of some hundred
pairs of sheets, `below` and `above` must be true of the exact values, and their difference at least `least=` and at most `most=`, in
the unit that is told; `near`, at most `most=`. An argument is taken as the seed.
"""
import collections
import concurrent.futures
import itertools
import random
import re
import sys

import whole_run
import programs
import sheets
from grid import HIGHEST, flat
from quotes import COHORT, FIRST_YEAR, KINDS, LAST_YEAR, OPEN, SUMS, Quotes, in_units, rounded
from reader import KEYS, LONGEST, SIZES
from test_runs import DATED, EXAMPLES, FIXED, FLAT, LINE_ENDS, RATED, TORN_DATES, TORN_RATES, Input, closes_early, compared
from test_runs import complaint, damaged, endless, from_file, full_device, off_scale, one_of_each, padded, piecewise, pool, some
from test_runs import torn_lines, with_value
from test_quotes import any_rate, at_limits, lasting, line_of, mild, moved, moving, opened, searched, usual

SEED = 20142015
LEAST_INPUTS, LEAST_PAIRS, LEAST_TOLD = 500, 48, 400
STEEP = sheets.text(dict(flat(), A=[0] * 91))
LOWER = sheets.text(dict(flat(), A=[-2 * 10**9] * 91))
OFF = with_value("k", b"%d" % (SIZES["k"] + 1))
COMPARED = re.compile(
    rb"(kind=(\w+) .*) fig=([0-9.]+|open) fig=([0-9.]+|open) values=(?:(below|above) least=([1-9][0-9]*)|(near)) most=([0-9]+)"
    rb" unit=(9|13)"
)
# Queries, their figures with the flat sheet and with every A at −2000000000, the values in that order, and by how much.
APART = {
    b"kind=q age=65 year=2020 span=0": (b" fig=0.30780", b" fig=0.12658", b"above", b" least=181222377 most=181222403"),
    b"kind=coh age=119 year=2020 span=2": (b" fig=0.47914", b" fig=0.76287", b"below", b" least=283725976 most=283726142"),
    b"kind=ecoh age=120 year=2064 span=0": (b" fig=2.75", b" fig=7.40", b"below", b" least=4651457989 most=4651462684"),
    b"kind=acoh age=65 year=2020 span=0 rate=30000": (b" fig=3.0", b" fig=6.6", b"below", b" least=3529085938 most=3529087268"),
    b"kind=aper age=119 year=2064 span=0 rate=0": (b" fig=3.2", b" fig=7.9", b"below", b" least=4651457992 most=4651462682"),
    b"kind=eper age=120 year=2014 span=0": (b" fig=2.75", b" fig=7.40", b"below", b" least=4651458255 most=4651463471"),
    b"kind=acoh age=120 year=2014 span=0 rate=0": (b" fig=3.2", b" fig=7.9", b"below", b" least=4651458255 most=4651463471"),
    b"kind=day age=65 year=2020 date=20210701": (b" fig=0.57677", b" fig=0.81673", b"below", b" least=239957422 most=239957466"),
    b"kind=day age=119 year=2020 date=20211231": (b" fig=0.47962", b" fig=0.76315", b"below", b" least=283525720 most=283525887"),
}
EXCHANGED = {b"below": b"above", b"above": b"below"}

# Two sheets, the queries that are asked of both, and how many units lie between the ends, if searched.
Pair = collections.namedtuple("Pair", "name first second queries gap")


def text_of(pair):
    return pair.first + pair.second + b"".join(map(line_of, pair.queries))


# ---- two sheets that are read

def fixed_rows():
    """Two sheets, and what is printed after each query, whatever the second implementation says; nothing after a torn one."""
    same = {query: end for query, end in FIXED.items() if end.startswith(b" no=")}
    ones = [query for query, end in FIXED.items() if end == b" fig=1.00000"]
    same |= {query: FIXED[query] * 2 + b" values=near most=0 unit=9" for query in ones}
    yield "flat twice", FLAT * 2, same
    apart, exchanged = {}, {}
    for query, (one, other, word, by) in APART.items():
        apart[query] = one + other + b" values=" + word + by + b" unit=9"
        exchanged[query] = other + one + b" values=" + EXCHANGED[word] + by + b" unit=9"
    yield "flat, lower", FLAT + LOWER, apart
    yield "lower, flat", LOWER + FLAT, exchanged
    yield "flat, lower, torn", FLAT + LOWER, dict.fromkeys(TORN_RATES + TORN_DATES, b"")
    steep = dict.fromkeys(APART, b" no=6") | {b"kind=q age=121 year=2020 span=0": b" no=3"}
    steep |= {RATED + b" rate=200001": b" no=8", b"kind=aper age=65 year=2020 span=1 rate=-1": b" no=5"}
    steep |= {DATED + b" date=21000229": b" no=10", DATED + b" date=20760101": b" no=5"}
    steep[DATED + b" date=20200101"] = b" fig=1.00000 fig=1.00000 values=near most=0 unit=9"
    steep[b"kind=per age=120 year=2014 span=0"] = b" fig=1.00000 fig=1.00000 values=near most=0 unit=9"
    for name, data in (("flat, steep", FLAT + STEEP), ("steep, flat", STEEP + FLAT), ("steep twice", STEEP * 2)):
        yield name, data, steep


def fixed_runs():
    """Those rows as inputs, each with the output that it must give."""
    for name, data, rows in fixed_rows():
        body = b"".join(query + b"\n" for query in rows)
        yield Input(name, data + body), b"".join((query + end if end else b"no=1") + b"\n" for query, end in rows.items())


def valid(draw, ready, torn, count):
    """Any two sheets, or one twice, with queries in any number, and now and then a torn line among them."""
    for i in range(count):
        (first, lines), (second, others) = draw.choice(ready), draw.choice(ready)
        if i % 8 == 0:
            second = first
        body = [draw.choice(torn if draw.random() < 0.1 else lines + others) for _ in range(draw.choice((0, 1, 2, 10, 40)))]
        yield Input(f"valid {i}", first + second + b"".join(body))


def refused_queries(draw):
    """Every kind at and past every limit, with sheets that are steep nowhere, everywhere, or at one age."""
    at_85 = sheets.text(dict(flat(), A=[HIGHEST + (x == 85) for x in range(91)]))
    at_40 = sheets.text(dict(flat(), A=[HIGHEST + (x == 40) for x in range(91)]))
    lines = [line_of(query) for query in at_limits()]
    every = (FLAT, STEEP, at_85, at_40)
    for i, (first, second) in enumerate(itertools.product(every, every)):
        yield Input(f"limits {i}", first + second + b"".join(draw.sample(lines, 150)))
        body = usual(draw, [draw.randint(FIRST_YEAR, LAST_YEAR)], 5)
        yield Input(f"steep {i}", first + second + b"".join(map(line_of, body)))


def torn_queries(draw, ready, torn, count):
    """Torn lines, some to an input, with queries between them."""
    (first, lines), (second, _) = ready[1], ready[0]
    for i in range(count):
        body = [line + (draw.choice(lines) if draw.randrange(2) else b"") for line in draw.sample(torn, 12)]
        yield Input(f"torn queries {i}", first + second + b"".join(body))


def ends_of_input(draw, ready):
    """The input ends within a query, at each of its bytes, alone or after another query."""
    for line in draw.sample(one_of_each(ready), 2):
        before = draw.choice((b"", draw.choice(ready[0][1])))
        for at in range(len(line) + 1):
            yield Input(f"ends in {line[:at]!r}", FLAT + LOWER + before + line[:at])


def line_feeds(ready):
    """Empty lines, carriage returns, and other bytes that end no line, in the queries, a sheet or all."""
    (first, lines), (second, _) = ready[1], ready[2]
    body = b"".join(lines[:8])
    for end in LINE_ENDS:
        yield Input(f"queries end in {end!r}", first + second + body.replace(b"\n", end))
        yield Input(f"all ends in {end!r}", (first + second + body).replace(b"\n", end))
        yield Input(f"the first sheet ends in {end!r}", first.replace(b"\n", end) + second + body)
        yield Input(f"the second sheet ends in {end!r}", first + second.replace(b"\n", end) + body)


# ---- refused sheets

def cut_sheets(draw, ready):
    """The first lines of two sheets and then queries or none; a line doubled, left out, exchanged; sheets in other places."""
    (first, lines), (second, _) = ready[2], ready[1]
    parts, count = whole_run.lines_in(first + second), whole_run.SHEET_LINES
    close = [*range(3), *range(count - 3, count + 4), *range(2 * count - 4, 2 * count + 1)]
    for at in close + draw.sample(range(2 * count), 50):
        yield Input(f"{at} lines of two sheets", b"".join(parts[:at]))
        yield Input(f"{at} lines of two sheets and queries", b"".join(parts[:at]) + some(draw, lines, 3))
    for i in draw.sample(range(2 * count), 30) + [0, 1, count - 1, count, count + 1, 2 * count - 1]:
        before, after = b"".join(parts[:i]), b"".join(parts[i + 1 :])
        yield Input(f"line {i} doubled", before + parts[i] * 2 + after + lines[0])
        yield Input(f"line {i} left out", before + after + lines[0] * 2)
        yield Input(f"line {i} exchanged with the next", before + b"".join(parts[i : i + 2][::-1] + parts[i + 2 :]) + lines[0])
    body = b"".join(lines[:3])
    others = {
        "no sheet": body, "nothing": b"", "one sheet": first + body, "one sheet alone": first,
        "370 queries": first + lines[0] * 370, "queries first": body + first + second,
        "queries between": first + body + second, "three sheets": first + second + first + body,
        "a blank line first": b"\n" + first + second + body, "a blank line between": first + b"\n" + second + body,
        "a blank line after": first + second + b"\n" + body, "no line feed between": first[:-1] + second + body,
        "no line feed after": first + second[:-1] + body, "no line feed at the end": first + second[:-1],
        "no query": first + second, "no line feed after a query": first + second + body[:-1],
    }
    for name, data in others.items():
        yield Input(name, data)


def refused_sheets(draw, ready):
    """One sheet or both damaged, or off scale, in any order: the first is named, and torn comes before off scale in a sheet."""
    good, lines = ready[1]
    bad = [damaged(good, draw.randrange(len(good)), draw) for _ in range(40)]
    bad += [with_value(draw.choice(KEYS), value) for value in (b"", b"-0", b"01", b"1" * 16, b"5.0", b" 5", b"5\r")]
    bad += [sheet.data for sheet in draw.sample(list(off_scale(draw, [(FLAT, [b""])])), 30)]
    for key in draw.sample(KEYS, 12):
        size = SIZES[key.split(".")[0]]
        bad += [with_value(key, b"%d" % (sign * (size + past))) for sign in (1, -1) for past in (0, 1)]
    for i, sheet in enumerate(bad):
        other = draw.choice(bad + [OFF, good[:-1]])
        for name, data in (("first", sheet + good), ("second", good + sheet), ("either", sheet + other)):
            yield Input(f"{name} refused {i}", data + some(draw, lines, 2))
    torn = good.replace(b"sex=", b"Sex=", 1)
    for i, (one, two) in enumerate(itertools.product((good, torn, OFF, OFF.replace(b"sex=", b"Sex=", 1)), repeat=2)):
        yield Input(f"refused in order {i}", one + two + lines[0])


# ---- sizes, and any bytes

def sizes(ready):
    (_, lines), (sheet, _) = ready[0], ready[1]
    starts = {"read": FLAT + sheet, "first refused": OFF + sheet, "second refused": sheet + OFF, "nothing": b""}
    starts["second torn"] = FLAT + b"x" + sheet
    for size in (LONGEST - 1, LONGEST, LONGEST + 1, LONGEST + 2, 2 * LONGEST, 10**6):
        for (name, data), what in itertools.product(starts.items(), (lines[0], b"\n", b"x", b"\0")):
            yield Input(f"{size} bytes, {name}, {what!r}", padded(data, size, what))
        start = starts["read"]
        for what, full in (("a long line", start + lines[0]), ("whole lines", padded(start, size - 100, lines[0]))):
            rest = size - len(full) - len(lines[0]) - 1
            yield Input(f"{size} bytes, {what}", full + b"x" * rest + b"\n" + lines[0])
    for size in (1, 370, 371, 739, 740, 741, 2000):
        yield Input(f"{size} line feeds", b"\n" * size)
    for size in (1000, 4096, 40_000):
        for line in (b"9" * size, b"kind=q age=" + b"9" * size, b"kind=coh " * (size // 9)):
            yield Input(f"a line of {len(line)} bytes", starts["read"] + lines[0] + line + b"\n" + lines[1])
            yield Input(f"an ending of {len(line)} bytes", starts["read"] + lines[0] + line)


def any_bytes(draw, ready, count):
    """Whole inputs with some bytes changed, or a part left out or doubled; and bytes that are no sheet."""
    for i in range(count):
        (first, lines), (second, _) = draw.choice(ready), draw.choice(ready)
        data = first + second + some(draw, lines, 12)
        start = draw.choice((0, len(first), len(first + second), len(first + second)))
        for _ in range(draw.randint(1, 4)):
            if start < len(data):
                data = damaged(data, draw.randrange(start, len(data)), draw)
        if draw.randrange(3) == 0:
            a, b = sorted(draw.randrange(start, len(data) + 1) for _ in range(2))
            data = draw.choice((data[:a] + data[b:], data[:b] + data[a:], data[:a]))
        yield Input(f"changed bytes {i}", data)
        if i % 6 == 0:
            body = draw.randbytes(draw.choice((1, 10, 1000, 5000)))
            yield Input(f"any bytes {i}", draw.choice((b"", FLAT, FLAT * 2, FLAT * 2)) + body)


def inputs(draw):
    ready = pool(draw)
    torn = torn_lines(draw, ready)
    parts = [(one for one, _ in fixed_runs()), valid(draw, ready, torn, 240), refused_queries(draw)]
    parts += [torn_queries(draw, ready, torn, 60), ends_of_input(draw, ready), line_feeds(ready), cut_sheets(draw, ready)]
    parts += [refused_sheets(draw, ready), sizes(ready), any_bytes(draw, ready, 120)]
    return list(itertools.chain(*parts))


# ---- pairs of sheets whose values are told

def asked(draw, year, each):
    """Queries of all kinds that break no limit, of one year."""
    return draw.sample(usual(draw, [year], each), len(KINDS) * each)


def one_unit(draw, key):
    """A set, and the same with one parameter a unit more."""
    params = mild(draw)
    name, *age = key.split(".")
    other = dict(params)
    other[name] = [v + (x == int(age[0])) for x, v in enumerate(params[name])] if age else params[name] + 1
    both = [sheets.text(params), sheets.text(other)]
    draw.shuffle(both)
    return Pair(f"one unit of {key}", *both, asked(draw, draw.randint(FIRST_YEAR, LAST_YEAR), 3), None)


def drawn_pairs(draw):
    """Equal sheets, sheets that differ in a unit, and any two."""
    for i in range(5):
        sheet = sheets.text(mild(draw))
        yield Pair(f"equal {i}", sheet, sheet, asked(draw, draw.randint(FIRST_YEAR, LAST_YEAR), 3), None)
    keys = KEYS[:4] * 2 + [f"{run}.{draw.randint(*ages)}" for run in ("A", "B", "al", "be") for ages in ((0, 79), (80, 90))]
    for key in keys:
        yield one_unit(draw, key)
    for i in range(10):
        year = draw.randint(FIRST_YEAR, LAST_YEAR)
        second = sheets.extreme(draw, 10**8, year, 0.05) if i % 4 == 3 else mild(draw)
        yield Pair(f"any two {i}", sheets.text(mild(draw)), sheets.text(second), asked(draw, year, 3), None)


def example_pairs(draw):
    """The examples, each with each."""
    every = sorted(EXAMPLES.glob("*.sheet"))
    for one, other in itertools.product(every, every):
        queries = [("ecoh", 65, 2015, 0), ("acoh", 65, 2015, 0, 30_000), ("day", 65, 2020, 20410315)]
        queries += asked(draw, draw.randint(FIRST_YEAR, LAST_YEAR), 1)
        yield Pair(f"{one.name}, {other.name}", one.read_bytes(), other.read_bytes(), queries, None)


def open_pairs(job):
    """Sheets with a figure that is open on the coarse grid, or as near to it as can be, and on the fine one too: each with the
    next, and with another sheet, on either side."""
    kind, seed = job
    found = searched((kind, 2, seed))
    for one, other in itertools.permutations(opened(job), 2):
        yield Pair(f"open, {kind}", one.data, other.data, one.queries, None)
        yield Pair(f"open, {kind}, first", one.data, found[0].data, one.queries, None)
        yield Pair(f"open, {kind}, second", FLAT, one.data, one.queries, None)
    for one, other in zip(found, found[1:] + found[:1]):
        yield Pair(f"half step, {kind}", one.data, other.data, one.queries, None)
    for one in found:
        yield Pair(f"half step, {kind}, first", one.data, FLAT, one.queries, None)
        yield Pair(f"half step, {kind}, second", FLAT, one.data, one.queries, None)


GAPS = (-2, -1, 0, 1, 2)


def met_pairs(job):
    """Sheets that differ in A at one age, by secants and then by tries close by, so that the lower end of the higher quote
    lies at, or some units above or under, the upper end of the lower one; either way round."""
    kind, seed = job
    draw = random.Random(seed)
    out = {}
    while not out.keys() >= {0, 1}:
        params = mild(draw)
        age = draw.randint(60, 79 if kind in SUMS and kind in COHORT else 88)
        year = draw.randint(FIRST_YEAR, LAST_YEAR)
        query = (kind, age, year, lasting(draw, kind, age, year), *any_rate(draw, kind))
        ends_at, kept = moving(params, "A", query), {}
        top = ends_at(0)[1]

        def gap(by):
            if by not in kept:
                kept[by] = ends_at(by)[0] - top
            return kept[by]

        a, b = 0, 1000
        for _ in range(6):
            slope = (gap(b) - gap(a)) / (b - a)
            if slope == 0 or a == b or abs(gap(b) / slope) > 10**8:
                break
            a, b = b, b - round(gap(b) / slope)
            if a == b:
                break
        stride = max(1, round(1 / abs(slope))) if slope else 1
        for j in range(-12, 13):
            by = b + j * stride
            changed = moved(params, "A", age, by)
            if gap(by) in GAPS and not Quotes(changed).refusal(*query):
                out[gap(by)] = (sheets.text(params), sheets.text(changed), [query])
    for between, (low, high, queries) in out.items():
        yield Pair(f"{kind}, {between} units between", low, high, queries, between)
        yield Pair(f"{kind}, {between} units between, exchanged", high, low, queries, between)


def search(job):
    return list(job[0](job[1]))


def pairs(draw, workers):
    out = list(drawn_pairs(draw)) + list(example_pairs(draw))
    jobs = [(make, (kind, draw.random())) for kind in KINDS for make in (open_pairs, met_pairs)]
    return out + [pair for found in workers.map(search, jobs) for pair in found]


# ---- comparing

def word_of(line):
    return (line[5] or line[7]).decode()


def false_words(kind, figures, word, least, most, unit, one, other):
    """What a line says in units of 10^-unit that is not true of the two exact values, which are in units of 10^-9."""
    for shown, value in zip(figures, (one, other)):
        if shown != OPEN and shown != whole_run.figure_text(rounded(value, kind), kind):
            yield f"the exact value {value:.20f} rounds to {whole_run.figure_text(rounded(value, kind), kind)}"
    over = {"below": other - one, "above": one - other, "near": abs(one - other)}[word]
    if not least <= in_units(over, unit) <= most:
        yield f"the exact values are {one:.20f} and {other:.20f}"


def told(pair):
    """What is wrong with a pair's run, against the second implementation and the exact values; counts; and how many of its
    lines were held against the exact values."""
    data = text_of(pair)
    status, out = programs.run("compare", data)
    want = whole_run.compare(data)
    wrong, counts, checks = [complaint(pair.name, "compare", want, status, out)], collections.Counter(), 0
    tally(pair, want, counts)
    given = [whole_run.sheet_of(sheet).quotes for sheet in (pair.first, pair.second)]
    for query, line in zip(pair.queries, out.splitlines()):
        got = COMPARED.fullmatch(line)
        if not got or any(one.refusal(*query) for one in given):
            continue
        checks += 1
        exact = [one.value(*query) for one in given]
        figures = (got[3].decode(), got[4].decode())
        for said in false_words(query[0], figures, word_of(got), int(got[6] or 0), int(got[8]), int(got[9]), *exact):
            wrong.append(f"{pair.name}: {line.decode()}: {said}")
    return [said for said in wrong if said], counts, checks


def tally(pair, want, counts):
    """Counts what the second implementation says of a run."""
    if want == b"no=1\n":
        counts["no=1 alone"] += 1
    for line in want.splitlines():
        got = COMPARED.fullmatch(line)
        if not got:
            counts[line.rpartition(b" ")[2].decode() if line.startswith(b"kind=") else line.decode()] += 1
            continue
        kind, what = got[2].decode(), word_of(got)
        counts[f"{kind} {what}"] += 1
        counts[f"{kind} in fine units"] += got[9] == b"13"
        sides = got[3] == b"open", got[4] == b"open"
        if any(sides):
            counts[f"{kind} open {'first' if sides == (True, False) else 'second' if sides == (False, True) else 'both'}"] += 1
        if pair and pair.gap in MET:
            counts[f"{kind} {MET[pair.gap]}"] += 1
        if pair and pair.first == pair.second and what == "near":
            counts[f"{kind} equal"] += 1


MET = {0: "touching", 1: "a unit apart"}
TOLD = ("below", "above", "near", "equal", "touching", "a unit apart", "open first", "open second", "open both", "in fine units")
REFUSALS = (1, 3, 4, 10, 5, 8, 6)


def wanted_counts():
    out = [f"{kind} {what}" for kind in KINDS for what in TOLD] + [f"no={no}" for no in REFUSALS]
    return out + [f"sheet={sheet} no={no}" for sheet in (1, 2) for no in (1, 2)] + ["no=1 alone"]


# ---- the rest of the runs

def in_pieces(draw, everything):
    """Runs with the input in pieces: jobs to be called."""
    names = ("flat twice", "nothing", "370 line feeds", "741 line feeds", "no sheet", "one sheet", "three sheets")
    chosen = [one for one in everything if one.name in names]
    chosen += draw.sample([one for one in everything if 8000 < len(one.data) < 25_000], 6)
    for one in chosen:
        for pieces in ([1], [2, 3, 5, 7], [draw.randint(1, 1000) for _ in range(9)]):
            yield piecewise, "compare", one, pieces
    for one in everything:
        if len(one.data) in (LONGEST, LONGEST + 1) and "whole lines" in one.name:
            for pieces in ([4095], [4096], [4097], [LONGEST - 1, 1], [LONGEST, 1], [1, LONGEST]):
                yield piecewise, "compare", one, pieces
    for pieces in ([len(FLAT), 10_000], [2 * len(FLAT) - 1, 2, 40], [len(FLAT) + 1, 3000, 1]):
        yield piecewise, "compare", everything[0], pieces, 0.001


def other_ends(everything):
    """Runs with readers that close early, with a full device, an endless input, and files: jobs to be called."""
    long = next(one.data for one in everything if one.name == f"{LONGEST} bytes, whole lines")
    for data, count, ignored in itertools.product((long, everything[0].data), (0, 1, 5000), (False, True)):
        yield closes_early, "compare", data, count, ignored
    yield full_device, "compare", long
    yield (endless, "compare")
    for one in everything[::150]:
        yield from_file, "compare", one


def run_jobs(draw, everything, counts):
    """The whole runs, against the second implementation or against fixed lines: jobs to be called."""
    for one in everything:
        want = whole_run.compare(one.data)
        tally(None, want, counts)
        yield compared, "compare", one, want
    for one, want in fixed_runs():
        yield complaint, one.name, "whole_run.py", want, 0, whole_run.compare(one.data)
    yield from in_pieces(draw, everything)
    yield from other_ends(everything)


def report(counts, everything, every_pair, checks):
    print(f"{len(everything)} inputs, and {len(every_pair)} with {checks} lines held against exact values")
    refused = [f"sheet={sheet} no={no}" for sheet in (1, 2) for no in (1, 2)]
    print("sheets refused:", ", ".join(f"{what} {counts[what]}" for what in refused))
    print("queries refused:", ", ".join(f"no={no} {counts[f'no={no}']}" for no in REFUSALS))
    print(f"runs refused: {counts['no=1 alone']}")
    for kind in KINDS:
        print(f"{kind}:", ", ".join(f"{what} {counts[f'{kind} {what}']}" for what in TOLD))


def main():
    seed = int(sys.argv[1]) if len(sys.argv) > 1 else SEED
    print(f"seed {seed}")
    gone = programs.missing("compare")
    if gone:
        print(gone)
        return 1
    draw, counts, found, checks = random.Random(seed), collections.Counter(), [], 0
    with concurrent.futures.ProcessPoolExecutor(2) as workers:
        every_pair = pairs(draw, workers)
        for wrong, met, lines in workers.map(told, every_pair, chunksize=2):
            found += wrong or [None]
            counts += met
            checks += lines
    everything = inputs(draw)
    with concurrent.futures.ThreadPoolExecutor(2) as threads:
        found += threads.map(lambda job: job[0](*job[1:]), list(run_jobs(draw, everything, counts)))
    report(counts, everything, every_pair, checks)
    absent = [what for what in wanted_counts() if not counts[what]]
    found.append(f"no case of: {', '.join(absent)}" if absent else None)
    enough = len(everything) >= LEAST_INPUTS and len(every_pair) >= LEAST_PAIRS and checks >= LEAST_TOLD
    found.append(None if enough else "too few inputs, or lines held against exact values")
    wrong = [said for said in found if said]
    for message in wrong[:20]:
        print(message)
    print(f"{len(found) - len(wrong)} passed, {len(wrong)} failed")
    return 1 if wrong else 0


if __name__ == "__main__":
    sys.exit(main())
