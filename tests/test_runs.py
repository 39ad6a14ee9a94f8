"""The whole run of `quotes` and `ends`, byte for byte, against the second implementation in whole_run.py; and what README.md shows
of these programs, of `compare`, of `couples`, of `targets` and of `verdict`.

It runs both programs on some thousand inputs each: sheets that are whole, torn and off scale, queries of every kind, torn at
every field and byte, inputs up to, at and past the longest, and any bytes; whole, in pieces, and with a reader that closes
early. An argument is taken as the seed.
"""
import collections
import concurrent.futures
import itertools
import os
import random
import re
import subprocess
import sys
import tempfile
import threading
import time

import whole_run
import programs
import sheets
from couples import COUPLES
from grid import HIGHEST, flat
from quotes import ANNUITIES, DAY, KINDS, OLDEST, UNRATED, years_of
from reader import KEYS, LONGEST, SIZES
from test_quotes import at_limits, line_of, mild, opened, searched, usual

SEED = 20140065
EXAMPLES = programs.ROOT / "examples"
LEAST_INPUTS = 2000
# Seconds in which a run ends whose reader or writer does not behave.
PATIENCE = 10

Input = collections.namedtuple("Input", "name data")
FLAT = sheets.text(flat())
# Queries over the flat sheet, and what `quotes` prints after each, whatever the second implementation says.
FIXED = {
    b"kind=q age=65 year=2020 span=0": b" fig=0.30780",
    b"kind=coh age=119 year=2020 span=2": b" fig=0.47914",
    b"kind=ecoh age=120 year=2064 span=0": b" fig=2.75",
    b"kind=ecoh age=120 year=2014 span=0": b" fig=2.75",
    b"kind=eper age=120 year=2014 span=0": b" fig=2.75",
    b"kind=coh age=120 year=2064 span=0": b" fig=1.00000",
    b"kind=per age=120 year=2014 span=0": b" fig=1.00000",
    b"kind=coh age=120 year=2064 span=1": b" fig=0.69220",
    b"kind=coh age=120 year=2064 span=2": b" no=5",
    b"kind=per age=120 year=2064 span=2": b" no=5",
    b"kind=coh age=119 year=2014 span=3": b" no=5",
    b"kind=q age=121 year=2020 span=0": b" no=3",
    b"kind=eper age=121 year=2065 span=1": b" no=3",
    b"kind=eper age=120 year=2065 span=1": b" no=4",
    b"kind=q age=65 year=2184 span=0": b" fig=0.30780",
    b"kind=q age=65 year=2185 span=0": b" no=4",
    b"kind=ecoh age=65 year=2065 span=0": b" no=4",
    b"kind=ecoh age=65 year=2064 span=1": b" no=5",
    b"kind=q age=65 year=2020 span=1": b" no=5",
    b"kind=q age=-1 year=2020 span=0": b" no=3",
    b"kind=q age=0 year=-2020 span=0": b" no=4",
    b"kind=coh age=0 year=2020 span=-1": b" no=5",
    b"kind=acoh age=65 year=2020 span=0 rate=30000": b" fig=3.0",
    b"kind=aper age=65 year=2064 span=0 rate=0": b" fig=3.2",
    b"kind=acoh age=119 year=2064 span=0 rate=0": b" fig=3.2",
    b"kind=aper age=119 year=2014 span=0 rate=200000": b" fig=2.4",
    b"kind=acoh age=120 year=2064 span=0 rate=0": b" fig=3.2",
    b"kind=aper age=120 year=2014 span=0 rate=200000": b" fig=2.4",
    b"kind=acoh age=65 year=2020 span=0 rate=-1": b" no=8",
    b"kind=aper age=65 year=2020 span=0 rate=200001": b" no=8",
    b"kind=acoh age=120 year=2064 span=0 rate=999999999999999": b" no=8",
    b"kind=acoh age=65 year=2020 span=1 rate=200001": b" no=5",
    b"kind=aper age=65 year=2065 span=1 rate=-1": b" no=4",
    b"kind=acoh age=-1 year=2065 span=1 rate=-1": b" no=3",
    b"kind=day age=65 year=2020 date=20200101": b" fig=1.00000",
    b"kind=day age=65 year=2020 date=20210101": b" fig=0.69220",
    b"kind=day age=119 year=2020 date=20211231": b" fig=0.47962",
    b"kind=day age=120 year=2021 date=20211231": b" fig=0.69290",
    b"kind=day age=119 year=2020 date=20220101": b" no=5",
    b"kind=day age=65 year=2020 date=20191231": b" no=5",
    b"kind=day age=65 year=2020 date=10000101": b" no=5",
    b"kind=day age=65 year=2020 date=99991231": b" no=5",
    b"kind=day age=65 year=2020 date=9991231": b" no=10",
    b"kind=day age=65 year=2020 date=100000101": b" no=10",
    b"kind=day age=65 year=2020 date=21000229": b" no=10",
    b"kind=day age=65 year=2020 date=20210229": b" no=10",
    b"kind=day age=65 year=2020 date=20201301": b" no=10",
    b"kind=day age=65 year=2020 date=0": b" no=10",
    b"kind=day age=65 year=2020 date=-20410315": b" no=10",
    b"kind=day age=65 year=2020 date=999999999999999": b" no=10",
    b"kind=day age=65 year=2065 date=0": b" no=4",
    b"kind=day age=121 year=2065 date=0": b" no=3",
}
# Lines that are torn by their rate, or for want of it.
RATED = b"kind=acoh age=65 year=2020 span=0"
TORN_RATES = (
    RATED, b"kind=aper age=65 year=2020 span=0", RATED + b" ", RATED + b" rate", RATED + b" rate=", RATED + b" rate= ",
    RATED + b" 30000", RATED + b" rate 30000", RATED + b" rate=0 rate=0", RATED + b" rate=0 span=0", RATED + b" rate=0 ",
    RATED + b"  rate=0", RATED + b"\trate=0", RATED + b",rate=0", RATED + b"rate=0", RATED + b" Rate=0", RATED + b" rates=0",
    RATED + b" rate=00", RATED + b" rate=-0", RATED + b" rate=030000", RATED + b" rate=-01", RATED + b" rate=+1",
    RATED + b" rate=1.5", RATED + b" rate=3%", RATED + b" rate=1e4", RATED + b" rate=1" + b"0" * 15,
    RATED + b" rate=-1" + b"0" * 15, b"kind=acoh age=65 year=2020 rate=0 span=0", b"kind=acoh age=65 rate=0 year=2020 span=0",
    b"kind=acoh rate=0 age=65 year=2020 span=0", b"rate=0 " + RATED, b"kind=acoh age=65 year=2020 rate=0",
    *(b"kind=%b age=65 year=2020 span=0 rate=%d" % (kind.encode(), rate) for kind in UNRATED for rate in (0, 200_001)),
)
# Lines that are torn by their date, or for want of it.
DATED = b"kind=day age=65 year=2020"
TORN_DATES = (
    DATED, DATED + b" ", DATED + b" date", DATED + b" date=", DATED + b" date= ", DATED + b" 20410315", DATED + b" span=21",
    DATED + b" span=0", DATED + b" date=20410315 span=0", DATED + b" span=0 date=20410315", DATED + b" date=20410315 rate=0",
    DATED + b" date=20410315 rate=30000", DATED + b" rate=0", DATED + b" rate=0 date=20410315", DATED + b" span=0 rate=0",
    DATED + b" date=20410315 date=20410315", DATED + b" date=20410315 ", DATED + b"  date=20410315", DATED + b"date=20410315",
    DATED + b" date=020410315", DATED + b" date=+20410315", DATED + b" date=-0", DATED + b" date=2041-03-15",
    DATED + b" date=2041.0315", DATED + b" date=20410315.0", DATED + b" Date=20410315", DATED + b" dates=20410315",
    DATED + b" date=1" + b"0" * 15, DATED + b" date=-1" + b"0" * 15, b"kind=day age=65 date=20410315 year=2020",
    b"kind=day date=20410315 age=65 year=2020", b"date=20410315 " + DATED, b"kind=days age=65 year=2020 date=20410315",
    b"kind=DAY age=65 year=2020 date=20410315", b"kind=da age=65 year=2020 date=20410315",
    *(b"kind=%b age=65 year=2020 date=20410315" % kind.encode() for kind in UNRATED + ANNUITIES),
    *(b"kind=%b age=65 year=2020 span=0 date=20410315" % kind.encode() for kind in UNRATED + ANNUITIES),
    *(b"kind=%b age=65 year=2020 date=20410315 rate=0" % kind.encode() for kind in ANNUITIES),
    *(b"kind=%b age=65 year=2020 span=0 rate=0 date=20410315" % kind.encode() for kind in ANNUITIES),
)


# ---- sheets and queries

def pool(draw):
    """Sheets that are read, each with lines of queries: flat, realistic, extreme, steep in all or in some cells."""
    everywhere = dict(flat(), A=[0] * 91)
    at_85 = dict(flat(), A=[HIGHEST + (x == 85) for x in range(91)])
    at_40 = dict(flat(), A=[HIGHEST + (x == 40) for x in range(91)])
    params = [flat(), mild(draw), mild(draw), everywhere, at_85, at_40]
    params += [sheets.extreme(draw, 10**8, 2020, 0.3), sheets.realistic(draw)]
    out = []
    for one in params:
        queries = usual(draw, [2014, 2064, draw.randint(2015, 2063)], 12) + draw.sample(at_limits(), 150)
        out.append((sheets.text(one), [line_of(query) for query in queries]))
    return out


def half_steps(draw):
    """Sheets with a quote of each kind at a half step, so that its figure is open on the coarse grid, and on the fine one too."""
    for kind in KINDS:
        for one in searched((kind, 2, draw.random())) + opened((kind, draw.random())):
            yield Input(f"half step, {kind}", one.data + b"".join(map(line_of, one.queries)))


def some(draw, lines, most):
    return b"".join(draw.choice(lines) for _ in range(draw.randint(0, most)))


def valid(draw, ready, torn, count):
    """Queries in any number, and now and then a torn line among them."""
    for i in range(count):
        sheet, lines = draw.choice(ready)
        body = [draw.choice(torn if draw.random() < 0.1 else lines) for _ in range(draw.choice((0, 1, 2, 10, 40)))]
        yield Input(f"valid {i}", sheet + b"".join(body))


def fixed_runs():
    """Those lines as inputs, each with the output of `quotes`."""
    lines = {"the paper's lines": {query: query + end for query, end in FIXED.items()}}
    lines["torn rates"] = dict.fromkeys(TORN_RATES, b"no=1")
    lines["torn dates"] = dict.fromkeys(TORN_DATES, b"no=1")
    for name, rows in lines.items():
        yield Input(name, FLAT + b"".join(row + b"\n" for row in rows)), b"".join(row + b"\n" for row in rows.values())


def limits():
    """Every kind at and past every limit, over a sheet with no steep cell and one with nothing else."""
    lines = [line_of(query) for query in at_limits()]
    for sheet in (FLAT, sheets.text(dict(flat(), A=[0] * 91))):
        for at in range(0, len(lines), 150):
            yield Input(f"limits from {at}", sheet + b"".join(lines[at : at + 150]))


# ---- torn queries

NUMBERS = (
    b"", b"-", b"-0", b"00", b"01", b"007", b"-01", b"+5", b"--5", b"5-", b" 5", b"5 ", b"5.", b"5.0", b"5,0", b"1e3", b"0x10",
    b"9" * 15, b"-" + b"9" * 15, b"9" * 16, b"-" + b"9" * 16, b"1" + b"0" * 14, b"1" + b"0" * 15, b"0" * 15, b"1" * 400, b"x",
    b"5\0", b"\xb5", b"\xef\xbc\x95", b"5\r", b"5_0", b"-5", b"0", b"2020", b"18446744073709551616", b"\t5",
)
NAMES = (
    b"", b"Q", b"q ", b" q", b"qq", b"q\0", b"\0", b"c", b"co", b"cohh", b"COH", b"pe", b"perr", b"e", b"ec", b"eco", b"ecohh",
    b"ep", b"epe", b"eperr", b"eq", b"a", b"ac", b"aco", b"acohh", b"ap", b"ape", b"aperr", b"aecoh", b"d", b"da", b"dayy", b"Day",
    b"per,coh", b"0", b"\xe9", b"q=", b"=q", b"q" * 300, b"join", b"joints", b"Joint", b"ejoin", b"ejoints", b"las", b"lasts",
    b"elas", b"elasts", *[kind.encode() for kind in KINDS + COUPLES],
)
WHOLE = (
    b"%b ", b" %b", b"%b\r", b"%b\t", b"%b\0", b"\0%b", b"%b fig=0.30780", b"%b span=0", b"%b x", b"kind=%b", b"#%b",
    b"\xef\xbb\xbf%b", b"%b rate=0", b"%b rate=", b"%b rate=-1 rate=0", b"%b date=20410315", b"%b date=",
    b"%b age2=62",
)
KEYS_OF_QUERY = (b"kind", b"age", b"age2", b"year", b"span", b"rate", b"date")


def joined(fields, between=b" ", equals=b"="):
    return between.join(key + equals + value for key, value in fields) + b"\n"


def fields_of(line):
    return [tuple(part.split(b"=")) for part in line.rstrip(b"\n").split(b" ")]


def torn_fields(line):
    """A query with one field wrong in its key or value, or its fields left out, doubled, in another order, ill parted."""
    fields = fields_of(line)
    for i, (key, value) in enumerate(fields):
        keys = (b"", key[:-1], key + b"s", key.upper(), key.title(), b" " + key, key + b" ", key[::-1], *KEYS_OF_QUERY)
        changes = [(k, value) for k in keys] + [(key, v) for v in (NUMBERS if i else NAMES)]
        for change in changes:
            yield joined(fields[:i] + [change] + fields[i + 1 :])
        yield joined(fields[:i] + fields[i + 1 :])
        yield joined(fields[: i + 1] + fields[i:])
        yield joined(fields[:i] + [(b"", b"")] + fields[i:])
    for other in itertools.permutations(fields):
        yield joined(other)
    for between in (b"", b"  ", b"\t", b",", b";", b"\0", b"\r", b"\xa0", b"&", b"\n"):
        yield joined(fields, between)
    for equals in (b"", b"==", b":", b" = ", b"= ", b" =", b"\0", b"\n"):
        yield joined(fields, equals=equals)
    for form in WHOLE:
        yield form % line.rstrip(b"\n") + b"\n"


def damaged(data, at, draw):
    """One byte left out, doubled, exchanged with the next, replaced or put in."""
    byte, following, after = data[at : at + 1], data[at + 1 : at + 2], data[at + 2 :]
    other = draw.choice((b"\0", b"\xff", b"\n", b"\r", b" ", b"=", b"-", b"0", b"9", bytes([byte[0] ^ 1 << draw.randrange(8)])))
    ways = (following, byte * 2 + following, other + following, other + following, other + byte + following, following + byte)
    return data[:at] + draw.choice(ways) + after


def torn_bytes(draw, line):
    """A query with each of its bytes changed in some ways."""
    for at in range(len(line)):
        for other in (b"", b"\0", b"\xff", b"\n", b" ", b"=", b"0", b"-", line[at : at + 1] * 2, bytes([line[at] ^ 0x20])):
            yield line[:at] + other + line[at + 1 :]
        yield damaged(line, at, draw)


def one_of_each(ready):
    """An accepted query line of each kind over the flat sheet."""
    lines = ready[0][1]
    good = [line for line in lines if b"fig=" in whole_run.quotes(FLAT + line)]
    return [next(line for line in good if line.startswith(b"kind=%b " % kind.encode())) for kind in KINDS]


def torn_lines(draw, ready):
    out = []
    for line in one_of_each(ready):
        out += list(torn_fields(line)) + list(torn_bytes(draw, line))
    draw.shuffle(out)
    return out


def torn_queries(draw, ready, torn):
    """All torn lines, some to an input, with queries between them."""
    for at in range(0, len(torn), 12):
        body = [line + (draw.choice(ready[0][1]) if draw.randrange(2) else b"") for line in torn[at : at + 12]]
        yield Input(f"torn queries from {at}", FLAT + b"".join(body))


def ends_of_input(draw, ready):
    """The input ends within a query, at each of its bytes, alone or after another query."""
    for line in one_of_each(ready):
        before = draw.choice((b"", draw.choice(ready[0][1])))
        for at in range(len(line) + 1):
            yield Input(f"ends in {line[:at]!r}", FLAT + before + line[:at])


LINE_ENDS = (b"\r\n", b"\n\n", b"\n\r", b"\r", b"\n\n\n", b"\0\n", b"\x0b", b"\x0c\n", b"\xc2\x85", b"\xe2\x80\xa8\n", b" \n")


def line_feeds(ready):
    """Empty lines between queries, carriage returns, and other bytes that end no line."""
    sheet, lines = ready[1]
    for end in LINE_ENDS:
        body = b"".join(lines[:8])
        yield Input(f"queries end in {end!r}", sheet + body.replace(b"\n", end))
        yield Input(f"all ends in {end!r}", (sheet + body).replace(b"\n", end))
        yield Input(f"sheet ends in {end!r}", sheet.replace(b"\n", end) + body)


# ---- refused sheets

def cut_sheets(draw, ready):
    """The first lines of a sheet and then queries, and each line doubled or left out: the 370th line is a query's or not."""
    sheet, lines = ready[2]
    parts = whole_run.lines_in(sheet)
    for count in range(whole_run.SHEET_LINES + 1):
        yield Input(f"{count} lines of a sheet", b"".join(parts[:count]) + some(draw, lines, 3))
    for i in draw.sample(range(whole_run.SHEET_LINES), 60) + [0, 1, 369]:
        before, after = b"".join(parts[:i]), b"".join(parts[i + 1 :])
        yield Input(f"line {i} doubled", before + parts[i] * 2 + after + lines[0])
        yield Input(f"line {i} left out", before + after + lines[0] * 2)
        yield Input(f"line {i} exchanged with the next", before + b"".join(parts[i : i + 2][::-1] + parts[i + 2 :]) + lines[0])
    body = b"".join(lines[:3])
    for name, data in (("no sheet", body), ("queries first", body + sheet), ("two sheets", sheet * 2 + body)):
        yield Input(name, data)
    for name, data in (("a blank line first", b"\n" + sheet + body), ("no line feed after the sheet", sheet[:-1] + body)):
        yield Input(name, data)
    yield Input("no line feed after the sheet, no query", sheet[:-1])


def with_value(key, value):
    return re.sub(rb"(?m)^%b=.*$" % re.escape(key.encode()), b"%b=%b" % (key.encode(), value), FLAT)


def damaged_sheets(draw, ready):
    """A byte of the sheet changed, or a number of it in another form."""
    sheet, lines = ready[1]
    for i in range(200):
        at = draw.randrange(len(sheet))
        yield Input(f"byte {at} of a sheet", damaged(sheet, at, draw) + some(draw, lines, 2))
    for value in NUMBERS:
        for key in draw.sample(KEYS, 2) + [draw.choice(KEYS[:4])]:
            yield Input(f"{key}={value!r}", with_value(key, value) + some(draw, lines, 2))
    heads = ((b"sex=M", b"sex=F"), (b"sex=M", b"sex=X"), (b"AG2014", b"AG2016"), (b"AG2014", b"LILEE"), (b"table", b"Table"))
    for old, new in heads:
        yield Input(f"{new!r} for {old!r}", FLAT.replace(old, new, 1) + lines[0])


def off_scale(draw, ready):
    """Every size, one unit past it either side, with a torn number elsewhere too, and K + 171 theta."""
    lines = ready[0][1]
    for key in ("a", "theta", "K", "k", "A.0", "B.45", "al.90", "be.90", "A.90", "B.0", "al.1", "be.0"):
        size = SIZES[key.split(".")[0]]
        for value in (size, -size, size + 1, -size - 1, 10**15 - 1, 1 - 10**15, size * 10):
            sheet = with_value(key, b"%d" % value)
            yield Input(f"{key} {value}", sheet + some(draw, lines, 3))
            if abs(value) > size:
                at = draw.choice((b"be.90=0", b"a=0", b"A.1=-1000000000"))
                yield Input(f"{key} {value} and torn", sheet.replace(b"\n" + at, b"\n" + at + b"x") + lines[0])
    for theta in (2_923_976_608, 2_923_976_609):
        for sign in (1, -1):
            yield Input(f"theta {sign * theta}", with_value("theta", b"%d" % (sign * theta)) + some(draw, lines, 3))


# ---- sizes, and any bytes

def padded(data, size, line):
    """The data with a line again and again, and the start of one, up to a size."""
    return (data + line * (size // len(line) + 1))[:size]


def sizes(ready):
    (_, lines), (sheet, _) = ready[0], ready[1]
    bad = with_value("k", b"%d" % (SIZES["k"] + 1))
    for size in (LONGEST - 1, LONGEST, LONGEST + 1, LONGEST + 2, 70_000, 2 * LONGEST, 2 * LONGEST + 1, 10**6):
        for name, data in (("flat", FLAT), ("read", sheet), ("off scale", bad), ("torn", b"x" + sheet), ("nothing", b"")):
            for what in (lines[0], b"\n", b"x", b"kind=eper age=0 year=2014 span=0\n", b"\0", RATED + b" rate=0\n"):
                yield Input(f"{size} bytes, {name}, {what!r}", padded(data, size, what))
        short = lines[0] + b"x" * (size - len(FLAT) - 2 * len(lines[0]) - 1) + b"\n" + lines[0]
        yield Input(f"{size} bytes, a long line", FLAT + short)
        full = padded(FLAT, size - 100, lines[0])
        rest = size - len(full) - len(lines[0]) - 1
        yield Input(f"{size} bytes, whole lines", full + b"x" * rest + b"\n" + lines[0])
    for size in (1, 2, 369, 370, 371, 400, 1000):
        yield Input(f"{size} line feeds", b"\n" * size)
    yield Input("nothing", b"")
    for size in (1000, 4096, 30_000, 60_000):
        many = b"kind=coh " * (size // 9)
        for line in (b"9" * size, b"kind=q age=" + b"9" * size, b"kind=q" + b" " * size, b"\0" * size, many):
            yield Input(f"a line of {len(line)} bytes", FLAT + lines[0] + line + b"\n" + lines[1])
            yield Input(f"an ending of {len(line)} bytes", FLAT + lines[0] + line)
        yield Input(f"a number of {size} digits in the sheet", with_value("k", b"1" * size) + lines[0])


def any_bytes(draw, ready, count):
    """Whole inputs with some bytes changed, parts left out or exchanged; and bytes that are no sheet."""
    for i in range(count):
        sheet, lines = draw.choice(ready)
        data = sheet + some(draw, lines, 12)
        start = draw.choice((0, len(sheet), len(sheet), len(sheet)))
        for _ in range(draw.randint(1, 4)):
            if start < len(data):
                data = damaged(data, draw.randrange(start, len(data)), draw)
        if draw.randrange(3) == 0:
            a, b = sorted(draw.randrange(start, len(data) + 1) for _ in range(2))
            data = draw.choice((data[:a] + data[b:], data[:b] + data[a:], data[:a], data[: len(data) - b + a] + data[a:b]))
        yield Input(f"changed bytes {i}", data)
    for i in range(60):
        body = draw.randbytes(draw.choice((1, 10, 1000, 5000)))
        yield Input(f"any bytes {i}", draw.choice((b"", FLAT, FLAT, FLAT[:-1])) + body)
        alphabet = b"kindageyrspt=q coh0123456789-\n"
        yield Input(f"any letters {i}", FLAT + bytes(draw.choices(alphabet, k=draw.choice((5, 50, 500)))))


# ---- the examples, and the runs that the guide shows

def examples():
    for sheet in sorted(EXAMPLES.glob("*.sheet")):
        for queries in sorted(EXAMPLES.glob("*.queries")):
            yield Input(f"{sheet.name}, {queries.name}", sheet.read_bytes() + queries.read_bytes())


def shown_runs():
    """The runs of README.md: the program, its input and the output that is shown."""
    guide = (programs.ROOT / "README.md").read_bytes()
    for files, name, out in re.findall(rb"(?m)^\$ cat (.*) \| target/bin/(\w+)\n((?:(?!\$ |```).*\n)*)", guide):
        data = b"".join((programs.ROOT / file.decode()).read_bytes() for file in files.split())
        yield name.decode(), Input(f"README.md, {files.decode()}", data), out


def shown_heads():
    """What is wrong with the starts of files that README.md shows."""
    guide = (programs.ROOT / "README.md").read_bytes()
    shown = re.findall(rb"(?m)^\$ head -n ([0-9]+) (.*)\n((?:(?!\$ |```).*\n)*)", guide)
    for count, file, out in shown:
        lines = (programs.ROOT / file.decode()).read_bytes().splitlines(keepends=True)
        yield None if b"".join(lines[: int(count)]) == out else f"README.md shows another start of {file.decode()}"
    yield None if shown else "README.md shows the start of no file"


def guide_jobs():
    """Runs of the programs, and of the second implementation, against what the guide shows."""
    runs = list(shown_runs())
    for name in whole_run.PROGRAMS.keys() - {name for name, _, _ in runs}:
        yield str, f"README.md shows no run of {name}"
    for name, one, out in runs:
        yield compared, name, one, out
        yield complaint, one.name, "whole_run.py", out, 0, whole_run.PROGRAMS[name](one.data)


def steep_examples():
    """The realistic examples have no steep cell."""
    for name in ("men", "women", "women-b", "women-c", "research"):
        cells = whole_run.sheet_of((EXAMPLES / f"{name}.sheet").read_bytes()).quotes.coarse
        first, _, last = years_of(cells.start)
        if any(cells.steep(age, year) for age in range(OLDEST + 1) for year in range(first, last + 1)):
            return f"examples/{name}.sheet has a steep cell"
    return None


def inputs(draw):
    ready = pool(draw)
    torn = torn_lines(draw, ready)
    parts = [(one for one, _ in fixed_runs()), limits(), half_steps(draw)]
    parts += [torn_queries(draw, ready, torn), ends_of_input(draw, ready)]
    parts += [line_feeds(ready), cut_sheets(draw, ready), damaged_sheets(draw, ready), off_scale(draw, ready), sizes(ready)]
    parts += [any_bytes(draw, ready, 400), valid(draw, ready, torn, 500), examples()]
    return list(itertools.chain(*parts))


# ---- comparing

def differing(got, want):
    """The first line in which two outputs differ."""
    ours, theirs = want.split(b"\n"), got.split(b"\n")
    at = next(i for i in range(len(ours) + 1) if ours[i : i + 1] != theirs[i : i + 1])
    return f"line {at + 1}: {b''.join(theirs[at : at + 1])[:150]!r}, not {b''.join(ours[at : at + 1])[:150]!r}"


def complaint(what, name, want, status, got):
    """What is wrong with a run, or None."""
    if got == want and status == 0:
        return None
    return f"{name}, {what}: exit status {status}" if got == want else f"{name}, {what}: {differing(got, want)}"


def compared(name, one, want):
    try:
        return complaint(one.name, name, want, *programs.run(name, one.data))
    except subprocess.TimeoutExpired:
        return f"{name}, {one.name}: does not end"


def tally(one, want, counts):
    """Counts what the second implementation says of an input."""
    if want in (b"no=1\n", b"no=2\n"):
        counts["run refused " + want.decode().strip()] += 1
    for line in want.decode().splitlines():
        kind = line.partition(" ")[0]
        what = line.partition(" lo=")[2].partition("fig=")[2] or line.rpartition(" ")[2]
        counts[f"{kind} {what if what == 'open' or what.startswith('no=') else 'printed'}"] += 1


SAID = ("printed", "open", "no=3", "no=4", "no=5", "no=6")


def said_of(kind):
    """What is said of a kind's lines."""
    return SAID + (("no=8",) if kind in ANNUITIES else ("no=10",) if kind == DAY else ())


def wanted_counts():
    out = [f"kind={kind} {what}" for kind in KINDS for what in said_of(kind)]
    return out + ["no=1 no=1", "run refused no=1", "run refused no=2"]


# ---- inputs in pieces, and readers that close early

def feed(process, data, sizes_of_pieces, pause):
    """Writes the data in pieces; a program that reads no further is no failure."""
    at = 0
    try:
        for size in itertools.cycle(sizes_of_pieces):
            if at >= len(data):
                break
            os.write(process.stdin.fileno(), data[at : at + size])
            at += size
            if pause:
                time.sleep(pause)
    except BrokenPipeError:
        pass
    process.stdin.close()


def piecewise(name, one, pieces, pause=0.0):
    want = whole_run.PROGRAMS[name](one.data)
    process = subprocess.Popen([programs.path(name)], stdin=subprocess.PIPE, stdout=subprocess.PIPE, bufsize=0)
    feeder = threading.Thread(target=feed, args=(process, one.data, pieces, pause))
    watch = threading.Timer(programs.PATIENCE, process.kill)
    feeder.start()
    watch.start()
    got = b"".join(iter(lambda: process.stdout.read(65_536), b""))
    process.stdout.close()
    feeder.join()
    status = process.wait()
    watch.cancel()
    return complaint(f"{one.name}, in pieces of {pieces[:4]}", name, want, status, got)


def in_pieces(draw, everything):
    """Runs with the input in pieces: jobs to be called."""
    chosen = [one for one in everything if one.name in ("the paper's lines", "nothing", "370 line feeds", "no sheet")]
    chosen += draw.sample([one for one in everything if 4000 < len(one.data) < 9000], 8)
    longest = [one for one in everything if len(one.data) in (LONGEST, LONGEST + 1) and "whole lines" in one.name]
    for name in whole_run.ONE_SHEET:
        for one in chosen:
            for pieces in ([1], [2, 3, 5, 7], [draw.randint(1, 1000) for _ in range(9)]):
                yield piecewise, name, one, pieces
        for one in longest:
            for pieces in ([1], [4095], [4096], [4097], [LONGEST - 1, 1], [LONGEST, 1], [1, LONGEST]):
                yield piecewise, name, one, pieces
        for pieces in ([100, 1], [len(FLAT), 10], [len(FLAT) - 1, 2, 40]):
            yield piecewise, name, everything[0], pieces, 0.001


def closes_early(name, data, count, ignored):
    """A reader that takes some bytes of the output and closes: the program ends, whether it gets the signal or the error."""
    process = subprocess.Popen(
        [programs.path(name)], stdin=subprocess.PIPE, stdout=subprocess.PIPE, stderr=subprocess.DEVNULL, bufsize=0,
        restore_signals=not ignored,
    )
    got = b""
    if count == 0:
        process.stdout.close()
    feeder = threading.Thread(target=feed, args=(process, data, [len(data)], 0))
    feeder.start()
    while len(got) < count:
        more = process.stdout.read(count - len(got))
        got += more
        if not more:
            break
    process.stdout.close()
    right = whole_run.PROGRAMS[name](data)[:count] == got
    return outcome(process, feeder, f"{name}, a reader that closes after {count} bytes", right)


def outcome(process, feeder, what, right):
    try:
        process.wait(PATIENCE)
    except subprocess.TimeoutExpired:
        process.kill()
        feeder.join()
        return f"{what}: does not end"
    feeder.join()
    return None if right else f"{what}: other bytes"


def full_device(name, data):
    """An output that takes no byte: the program ends."""
    with open("/dev/full", "wb") as full:
        process = subprocess.Popen(
            [programs.path(name)], stdin=subprocess.PIPE, stdout=full, stderr=subprocess.DEVNULL, bufsize=0
        )
    feeder = threading.Thread(target=feed, args=(process, data, [len(data)], 0))
    feeder.start()
    return outcome(process, feeder, f"{name}, a full device", True)


def from_file(name, one):
    """A run whose input and output are files."""
    with tempfile.TemporaryFile() as source, tempfile.TemporaryFile() as sink:
        source.write(one.data)
        source.seek(0)
        done = subprocess.run([programs.path(name)], stdin=source, stdout=sink, check=False, timeout=programs.PATIENCE)
        sink.seek(0)
        return complaint(f"{one.name}, files", name, whole_run.PROGRAMS[name](one.data), done.returncode, sink.read())


def endless(name):
    """An input without an end is past the longest."""
    with open("/dev/zero", "rb") as zero:
        try:
            done = subprocess.run([programs.path(name)], stdin=zero, stdout=subprocess.PIPE, check=False, timeout=PATIENCE)
        except subprocess.TimeoutExpired:
            return f"{name}, an endless input: does not end"
    return complaint("an endless input", name, b"no=1\n", done.returncode, done.stdout)


def other_ends(everything):
    """Runs with readers that close early, with a full device, an endless input, and files: jobs to be called."""
    long = next(one.data for one in everything if one.name == f"{LONGEST} bytes, whole lines")
    short = everything[0].data
    for name in whole_run.ONE_SHEET:
        for data, count, ignored in itertools.product((long, short), (0, 1, 30, 5000), (False, True)):
            yield closes_early, name, data, count, ignored
        yield full_device, name, long
        yield full_device, name, short
        yield (endless, name)
        for one in everything[::200]:
            yield from_file, name, one


# ---- all of it

def fixed_lines():
    """What the second implementation says of the paper's own lines, and of torn rates and dates, against the lines themselves."""
    for one, want in fixed_runs():
        yield complaint(one.name, "whole_run.py", want, 0, whole_run.quotes(one.data))


def report(counts, everything):
    sizes_met = collections.Counter("past the longest" if len(one.data) > LONGEST else "to the longest" for one in everything)
    print(f"{len(everything)} inputs for each program:", *(f"{count} {what}" for what, count in sizes_met.items()))
    print("runs refused:", *(f"no={no} {counts[f'run refused no={no}']}" for no in (1, 2)))
    print(f"torn lines: {counts['no=1 no=1']}")
    for kind in KINDS:
        print(f"{kind}:", *(f"{name} {counts[f'kind={kind} {name}']}" for name in said_of(kind)))


def main():
    seed = int(sys.argv[1]) if len(sys.argv) > 1 else SEED
    print(f"seed {seed}")
    gone = programs.missing(*whole_run.PROGRAMS)
    if gone:
        print(gone)
        return 1
    draw = random.Random(seed)
    everything = inputs(draw)
    counts, jobs = collections.Counter(), []
    for one in everything:
        for name, said in whole_run.ONE_SHEET.items():
            jobs.append((compared, name, one, said(one.data)))
        tally(one, jobs[-1][3], counts)
    jobs += list(in_pieces(draw, everything)) + list(other_ends(everything)) + list(guide_jobs())
    with concurrent.futures.ThreadPoolExecutor(2) as threads:
        found = list(threads.map(lambda job: job[0](*job[1:]), jobs))
    report(counts, everything)
    absent = [what for what in wanted_counts() if not counts[what]]
    found.append(f"no case of: {', '.join(absent)}" if absent else None)
    found.append(None if len(everything) >= LEAST_INPUTS else f"{len(everything)} inputs, not {LEAST_INPUTS}")
    found += [*fixed_lines(), *shown_heads(), steep_examples()]
    wrong = [said for said in found if said]
    for message in wrong[:20]:
        print(message)
    print(f"{len(found) - len(wrong)} passed, {len(wrong)} failed")
    return 1 if wrong else 0


if __name__ == "__main__":
    sys.exit(main())
