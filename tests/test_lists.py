"""The commands `list`, `compare` and `judge` of the package, against the built programs.

Every row of a list of each example sheet, and of a sheet with quotes at half steps, of all kinds and with refused cells among
them, must be the answer of the programs `ends` and `quotes` to the query that the row names, in its unit, and those of one whole
list of expectancies too. More decimals are held against the rule, worked here from the ends, and against exact values to many
digits; wide lists and those for a Dutch spreadsheet against the plain ones. Each row of a comparison must be the line of the
program `compare`, and its summary what is counted in these lines. Tables of q that are right, have digits changed, an open figure
or one that only the fine grid settles are written in several forms, and each year must have the verdict of the program `verdict`,
with the ages that differ or that the fine grid settles. Whatever is wrong with an option or a file must be told with its name,
status 2.

The library is that of KULFIZAN_LIBRARY, else the one that make builds. An argument is taken as the seed.
"""
import collections
import contextlib
import csv
import io
import itertools
import os
import pathlib
import random
import re
import shlex
import shutil
import subprocess
import sys
import tempfile
from decimal import ROUND_HALF_UP, Context, Decimal

import c_interface
import programs
import sheets
from edges import Edges
from grid import COARSE, FINE, flat
from quotes import OPEN, Quotes, decimals as decimals_of
from reader import params_of, read
from test_quotes import mild

SEED = 20152064
EXAMPLES = programs.ROOT / "examples"
NAMES = ("women", "men", "women-b", "women-c", "research", "flat")
KINDS = ("q", "coh", "per", "ecoh", "eper", "acoh", "aper")
SPANNED, RATED = ("coh", "per"), ("acoh", "aper")
SPANS, RATES = (0, 1, 20, 61), {"0%": 0, "1.25%": 12_500, "30000ppm": 30_000, "20%": 200_000, "20.0001%": 200_001}
SHOWN_RATES = {"0%": 0, "1.25%": 12_500, "3%": 30_000, "20%": 200_000, "20.0001%": 200_001}
PAIRS = (("women", "women-b"), ("women", "women-c"), ("women", "research"), ("men", "women"), ("flat", "flat"), ("flat", "men"),
         ("edges", "women"), ("men", "edges"))
LEAST_ROWS, LEAST_CLOSED, LEAST_EXACT = 2000, 20, 150
# A sheet whose q in a year lies at half steps at some ages, open on the fine grid too, or closed by it.
EDGES, EDGE_YEAR, OPEN_AGES, CLOSED_AGES = "edges", 2025, (70, 40, 6), (65, 30, 2)
BEYOND = 10**4
# So many queries after two sheets are no longer than a run.
AT_ONCE = 900
HELP_LINES, HELP_WIDTH = 40, 100

Done = collections.namedtuple("Done", "status out err")
Asked = collections.namedtuple("Asked", "kind age year span rate")


# ---- the commands and the programs

def package():
    """The package over the library, or None where it cannot be built."""
    if "KULFIZAN_LIBRARY" not in os.environ:
        return c_interface.built()
    sys.path.insert(0, str(programs.ROOT / "python"))
    import kulfizan

    return kulfizan


def command(*words):
    """A command's status, output and errors, in this process."""
    from kulfizan import cli

    out, err = io.TextIOWrapper(io.BytesIO(), "utf-8", newline=""), io.StringIO()
    with contextlib.redirect_stdout(out), contextlib.redirect_stderr(err):
        try:
            status = cli.main([str(word) for word in words])
        except SystemExit as left:
            status = left.code
        out.flush()
    return Done(status, out.buffer.getvalue().decode(), err.getvalue())


def surroundings():
    return {**os.environ, "PYTHONPATH": str(programs.ROOT / "python")}


def started(*words, **given):
    """The same in a process of its own."""
    line = [sys.executable, "-m", "kulfizan", *map(str, words)]
    done = subprocess.run(line, env=surroundings(), capture_output=True, check=False, timeout=60, **given)
    return Done(done.returncode, done.stdout.decode(), done.stderr.decode())


def file_of(name):
    return MADE[name] if name in MADE else EXAMPLES / f"{name}.sheet"


MADE = {}


def made(folder, draw):
    """Writes the sheet of half steps: q of the ages, in one year, is open on the fine grid too, or closed by it."""
    while True:
        edges = Edges(mild(draw))
        ages = sorted(OPEN_AGES + CLOSED_AGES, reverse=True)
        placed = all(edges.place(("q", age, EDGE_YEAR, 0), BEYOND * (age in CLOSED_AGES)) for age in ages)
        given = Quotes(edges.params)
        found = placed and {age: given.quote("q", age, EDGE_YEAR, 0) for age in ages}
        if found and all(found[age].unit == FINE.digits and (found[age].steps == OPEN) == (age in OPEN_AGES) for age in ages):
            MADE[EDGES] = folder / f"{EDGES}.sheet"
            MADE[EDGES].write_bytes(sheets.text(edges.params))
            return


def answers(program, front, lines):
    """A program's answers to query lines of one sheet or two, in runs that it takes."""
    out = []
    for i in range(0, len(lines), AT_ONCE):
        data = front + "".join(line + "\n" for line in lines[i : i + AT_ONCE]).encode()
        out += programs.run(program, data)[1].decode().splitlines()
    return out


def line_of(asked):
    rate = "" if asked.rate is None else f" rate={asked.rate}"
    return f"kind={asked.kind} age={asked.age} year={asked.year} span={asked.span}{rate}"


def first_other(got, want):
    """The first two lines that differ, or how many there are."""
    return next((pair for pair in zip(got, want) if pair[0] != pair[1]), (len(got), len(want)))


def asked_of(cells):
    """The query that the first five cells of a row name."""
    kind, age, year, span, rate = cells
    assert (span != "") == (kind in SPANNED) and (rate != "") == (kind in RATED), cells
    return Asked(kind, int(age), int(year), int(span or 0), SHOWN_RATES.get(rate, rate) if rate else None)


def every(kinds, ages, years, spans=SPANS, rates=tuple(RATES.values())):
    """The queries of a selection, in the order of a list."""
    out = []
    for kind in kinds:
        spanned = [(span, None) for span in spans] if kind in SPANNED else [(0, None)]
        blocks = [(0, rate) for rate in rates] if kind in RATED else spanned
        out += [Asked(kind, age, year, *block) for block in blocks for age in ages for year in years]
    return out


def units(text, unit):
    """A decimal with so many places as the number of its last."""
    whole, part = text.split(".")
    assert len(part) == int(unit) and unit in ("9", "13"), text
    return int(whole + part)


def table(text, delimiter=","):
    return list(csv.reader(io.StringIO(text), delimiter=delimiter))


def options(kinds, ages, years, spans=SPANS, rates=tuple(RATES)):
    """A selection's options, as a user writes them."""
    out = ["--kinds", ",".join(kinds), "--ages", ",".join(map(str, ages)), "--years", ",".join(map(str, years))]
    out += ["--rates", ",".join(rates)] if set(kinds) & set(RATED) else []
    return out + (["--span", ",".join(map(str, spans))] if set(kinds) & set(SPANNED) else [])


# ---- lists

class List:
    """A sheet and what is asked of it, with the program's answers."""

    def __init__(self, name, path, kinds, ages, years):
        self.name, self.path = name, path
        self.asked, self.words = every(kinds, ages, years), options(kinds, ages, years)
        lines = [line_of(one) for one in self.asked]
        self.ends, self.figures = (answers(program, path.read_bytes(), lines) for program in ("ends", "quotes"))

    def run(self, *more):
        return command("list", self.path, *self.words, *more)


def start_of(name):
    return 2021 if name == "research" else 2013


def lists(draw):
    """The sheets with a selection each that has refused cells."""
    for name in (*NAMES, EDGES):
        ages = sorted({0, 60, 65, 90, 91, 119, 120, 121, *OPEN_AGES, *CLOSED_AGES, *draw.sample(range(121), 9)})
        offsets = sorted({0, 1, 2, 12, 27, 50, 51, 52, *draw.sample(range(3, 50), 3), 171, 172})
        yield List(name, file_of(name), KINDS, ages, [start_of(name) + offset for offset in offsets])


def short_lists(draw):
    """Some sheets with fewer cells, for lists that are written in several ways; the years have an expectancy and q that the fine
    grid closes, and q that is open."""
    for name in ("women", "men", "research", EDGES):
        ages = sorted({6, 55, 65, 120, 121, *draw.sample(range(121), 3)})
        years = [start_of(name) + 1, 2022, EDGE_YEAR, 2030, draw.randrange(2031, 2064), 2090]
        yield List(name, file_of(name), KINDS, ages, years)


def ends_of(row):
    """What the program `ends` prints of a row's ends."""
    return f"lo={units(row[6], row[8])} hi={units(row[7], row[8])} unit={row[8]} " if any(row[6:9]) else ""


def row_faults(one, rows):
    """Rows with ends, against the programs."""
    if [asked_of(row[:5]) for row in rows] != one.asked:
        return "other cells than those asked"
    for row, asked, ends, figure in zip(rows, one.asked, one.ends, one.figures):
        shown = row[5] if row[5].startswith("no=") else f"fig={row[5]}"
        if f"{line_of(asked)} {ends_of(row)}{shown}" != ends or f"{line_of(asked)} {shown}" != figure:
            return f"{row}, and the programs print {ends} and {figure}"
    return None


def listed(one, counts):
    """A long list with ends, and the same without, equal to the programs' answers."""
    done = one.run("--ends")
    head, *rows = table(done.out)
    refused = sum(row[5].startswith("no=") for row in rows)
    counts.update(row[5] for row in rows if row[5].startswith("no=") or row[5] == "open")
    counts["closed"] += sum(row[8] == "13" and row[5] != "open" for row in rows)
    counts[one.name] = len(rows)
    yield head == ["kind", "age", "year", "span", "rate", "figure", "low", "high", "unit"], f"{one.name}: {head}"
    fault = row_faults(one, rows)
    yield fault is None, f"{one.name}: {fault}"
    told = f"{refused:,} of {len(rows):,} refused" in done.err if refused else not done.err
    yield done.status == (1 if refused else 0) and told, f"{one.name}: status {done.status}, {done.err}, {refused} refused"
    plain = one.run()
    yield table(plain.out) == [row[:6] for row in [head, *rows]], f"{one.name}: the list without ends differs"


def half_up(lower, upper, unit, decimals):
    """The figure with so many decimals where both ends, in units of 10^-unit, round half up to it, else open."""
    one = 10 ** int(unit)
    first, second = ((2 * end * 10**decimals + one) // (2 * one) for end in (lower, upper))
    if first != second:
        return "open"
    digits = f"{first:0{decimals + 1}d}"
    return f"{digits[:-decimals]}.{digits[-decimals:]}"


def decimals_listed(one, counts):
    """More decimals than a figure's own where the ends settle them, and never fewer."""
    with_ends = table(one.run("--ends").out)[1:]
    for decimals in range(1, 10):
        rows, wrong = table(one.run("--decimals", decimals).out)[1:], None
        for row, (kind, *_, figure, low, high, unit) in zip(rows, with_ends):
            own = decimals_of(kind)
            want = half_up(units(low, unit), units(high, unit), unit, max(own, decimals)) if low else figure
            wrong = wrong or (row, want) if row[5] != want else wrong
            counts[decimals, "open" if row[5] == "open" else "told"] += not want.startswith("no=")
        yield len(rows) == len(with_ends) and not wrong, f"{one.name} with {decimals} decimals: {wrong}"


def exact_listed(one, draw, counts):
    """Each digit that is shown, against the exact value to many digits."""
    values = Quotes(params_of(read(one.path.read_bytes())[1]))
    rows = [row for row in table(one.run("--decimals", 6).out)[1:] if row[5][0].isdigit()]
    for row in draw.sample(rows, min(60, len(rows))):
        kind, age, year, span, rate = asked_of(row[:5])
        value = values.value(kind, age, year, span, *([rate] if kind in RATED else []))
        shown = value.scaleb(-9).quantize(Decimal("1e-6"), ROUND_HALF_UP, Context(prec=60))
        counts["exact"] += 1
        yield f"{shown:f}" == row[5], f"{one.name}: {row}, and the exact value is {value} units"


def unfolded(lines, step):
    """The cells of wide blocks, by block, age and year."""
    out, block = {}, None
    for line in lines:
        if not line:
            block = None
        elif block is None:
            block, years = line[0], line[1::step]
        else:
            for i, year in enumerate(years):
                out[block, line[0], year] = line[1 + i * step : 1 + (i + 1) * step]
    return out


def name_of(row):
    kind, _, _, span, rate = row[:5]
    return f"{kind} {rate}" if rate else f"{kind} span {span}" if span else kind


def wide_listed(one):
    """Wide lists, and those for a Dutch spreadsheet, against the long one."""
    for more, step in (([], 1), (["--ends"], 4), (["--decimals", 4], 1)):
        rows = table(one.run(*more).out)[1:]
        want = {(name_of(row), row[1], row[2]): row[5:] for row in rows}
        text = one.run("--wide", *more).out
        yield len(want) == len(rows) and unfolded(table(text), step) == want, f"{one.name}: wide {more} differs"
        for form in ([], ["--wide"]):
            plain, dutch = one.run(*form, *more).out, one.run(*form, *more, "--excel-nl").out
            back = [[cell.replace(",", ".") for cell in line] for line in table(dutch, ";")]
            good = back == table(plain) and "." not in dutch and dutch.count(",") == plain.count(".")
            yield good, f"{one.name}: {form} {more} for Dutch differs"


def whole_list():
    """All expectancies of a sheet, by the defaults alone, in a process of its own and into a file."""
    asked = every(["ecoh"], range(121), range(2014, 2065))
    with tempfile.TemporaryDirectory() as folder:
        path = f"{folder}/list.csv"
        done = started("list", file_of("women"), "--ends", "-o", path)
        with open(path, newline="") as file:
            text = file.read()
    rows, lines = table(text)[1:], [line_of(one) for one in asked]
    ends = answers("ends", file_of("women").read_bytes(), lines)
    got = [f"{line_of(asked_of(row[:5]))} {ends_of(row)}fig={row[5]}" for row in rows]
    yield done == Done(0, "", "") and "\r" not in text, f"the whole list: {done}"
    yield got == ends and len(ends) == 6171, f"the whole list: {first_other(got, ends)}"


def steep_list(folder):
    """A steep sheet is refused cell by cell."""
    path = folder / "steep.sheet"
    path.write_bytes(sheets.text(dict(flat(), A=[0] * 91)))
    done = command("list", path, "--kinds", "q,ecoh", "--ages", "65,120", "--years", "2014,2184")
    figures = [row[5] for row in table(done.out)[1:]]
    want = ["no=6"] * 4 + ["no=6", "no=4"] * 2
    yield figures == want and done.status == 1 and "6, steep" in done.err, f"steep: {done}"


class Steps:
    """Progress that only counts."""
    done = 0

    def step(self, count=1):
        self.done += count


def module_rows():
    """Rows as the module gives them, against the library's single calls; a kind that is none is torn."""
    from kulfizan import Refused, Sheet
    from kulfizan.lists import Row, rows
    from kulfizan.selections import Selection

    sheet, steps = Sheet.load(file_of(EDGES)), Steps()
    asked = Selection(KINDS, [*OPEN_AGES, *CLOSED_AGES, 67, 130], range(EDGE_YEAR - 1, EDGE_YEAR + 2), [15_000], [0, 7])
    found = list(rows(sheet, asked, steps))
    yield found == list(rows(sheet.data, asked)) and len(found) == asked.count() == steps.done, "rows of bytes, and progress"
    for row in found:
        try:
            want = sheet.quote(*row[:5])
            good = row.quote == want and row[5:] == (want.lower, want.upper, want.text, 0, want.unit)
            good &= row.closed == (want.unit == 13 and want.steps is not None)
        except Refused as refused:
            good = row[5:] == (None, None, f"no={refused.number}", refused.number, 9) and row.quote is None and not row.closed
        yield good, f"a row of the module: {row}"
    yield {row.closed for row in found if row.unit == 13} == {True, False}, "rows of the module that the fine grid closes and leaves"
    torn = list(rows(sheet, Selection(["foo"], [65], [2020])))
    yield torn == [Row("foo", 65, 2020, 0, None, None, None, "no=1", 1, 9)], f"a kind that is none: {torn}"


# ---- comparisons

COMPARED = re.compile(r"(.*) fig=(\S+) fig=(\S+) values=(\w+)(?: least=([0-9]+))? most=([0-9]+) unit=(9|13)")


def compare_line(row):
    """The line of the program `compare` that a row stands for."""
    first, second, _, values, least, most, unit = row[5:12]
    if values.startswith("no="):
        return f"{line_of(asked_of(row[:5]))} {values}"
    between = f" least={units(least, unit)}" if least else ""
    both = f"fig={first} fig={second} values={values}{between} most={units(most, unit)} unit={unit}"
    return f"{line_of(asked_of(row[:5]))} {both}"


def sort_of(line):
    """What a line of the program `compare` counts as in the summary, and its most, exactly."""
    got = COMPARED.fullmatch(line)
    if not got:
        return "refused", 0
    _, first, second, values, _, most, unit = got.groups()
    most = Decimal(most).scaleb(-int(unit))
    if "open" in (first, second):
        return "open", most
    return ("differently" if first != second else "near" if values == "near" else "different"), most


def summary_of(lines):
    """The counts of a kind, in the order of the summary, each with the greatest most where one is told."""
    found = [sort_of(line) for line in lines]
    out = []
    for what in ("different", "near", "differently", "open", "refused"):
        mosts = [most for sort, most in found if sort == what]
        most = max(mosts) if mosts and what != "refused" else None
        out += [(len(mosts), most)] if mosts or what != "refused" else []
    return out


def summary_shown(text):
    """The same from the text of a summary: by kind, how many there are, and each count with its most."""
    out = {}
    for line in text.splitlines()[1:]:
        head = re.fullmatch(r"(\w+), .*: ([0-9,]+) cells?", line)
        count = re.match(r" +([0-9,]+) (?:alike|different|open|refused)", line)
        if head:
            kind = head[1]
            out[kind] = (int(head[2].replace(",", "")), [])
        elif count:
            most = re.search(r", at most ([0-9.]+) apart$", line)
            out[kind][1].append((int(count[1].replace(",", "")), Decimal(most[1]) if most else None))
    return out


def closed_shown(text):
    """How many cells of each kind have a figure that the fine grid closed, by the summary."""
    found = re.findall(r"(?m)^  of all these, ([0-9,]+) with a figure that the fine grid closed$", text)
    return [int(count.replace(",", "")) for count in found]


def closed_in(lines):
    """Which of some lines of the program `ends` have a figure that the fine grid closed."""
    return [" unit=13 " in line and not line.endswith("fig=open") for line in lines]


def compared(first, second, draw, counts):
    """Two sheets compared, line by line as the program, with the summary of its lines."""
    paths = file_of(first), file_of(second)
    ages = sorted({0, 6, 65, 120, 121, *draw.sample(range(121), 8)})
    years = [2013, 2014, 2022, EDGE_YEAR, *sorted(draw.sample(range(EDGE_YEAR + 1, 2064), 3)), 2064, 2072, 2184]
    asked = every(KINDS, ages, years)
    want = answers("compare", b"".join(path.read_bytes() for path in paths), [line_of(one) for one in asked])
    done = command("compare", *paths, *options(KINDS, ages, years))
    summary, _, cells = done.out.partition("\n\n")
    rows = table(cells)[1:]
    got = [compare_line(row) for row in rows]
    name = f"{first} beside {second}"
    yield got == want, f"{name}: {first_other(got, want)}"
    counts.update(f"compared {sort_of(line)[0]}" for line in want)
    by_kind = {kind: [line for line in want if line.startswith(f"kind={kind} ")] for kind in KINDS}
    shown = {kind: (len(lines), summary_of(lines)) for kind, lines in by_kind.items()}
    yield summary_shown(summary) == shown, f"{name}: {summary}, not {shown}"
    prints = {"refused": "refused", "open": "open", "differently": "differ", "near": "alike", "different": "alike"}
    yield [row[7] for row in rows] == [prints[sort_of(line)[0]] for line in want], f"{name}: how figures print"
    single = [answers("ends", path.read_bytes(), [line_of(one) for one in asked]) for path in paths]
    both = [[line.rpartition("fig=")[2] if "fig=" in line else line.rpartition(" ")[2] for line in lines] for lines in single]
    yield [row[5:7] for row in rows] == [list(pair) for pair in zip(*both)], f"{name}: the figures of each sheet"
    closed = [any(pair) for pair in zip(*map(closed_in, single))]
    counts["compared closed"] += sum(closed)
    by_kind = [sum(one for one, cell in zip(closed, asked) if cell.kind == kind) for kind in KINDS]
    yield closed_shown(summary) == by_kind, f"{name}: closed by the fine grid are {by_kind}, not {closed_shown(summary)}"


def within_of(line, most):
    """Whether a line of the program proves that the values are within so many units of 10^-9, past them, or neither."""
    got = COMPARED.fullmatch(line)
    most *= 10 ** (int(got[7]) - 9)
    return "yes" if int(got[6]) <= most else "no" if got[5] and int(got[5]) > most else "open"


def tolerated(folder):
    """Tolerances in each unit, at and beside a most and a least, the exit status, and cells in a file."""
    first, second, third = file_of("women"), file_of("women-b"), file_of("women-c")
    words = ["--ages", "60-70", "--years", "2015"]
    lines = [line_of(one) for one in every(["ecoh"], range(60, 71), [2015])]
    want = answers("compare", first.read_bytes() + second.read_bytes(), lines)
    edges = {int(COMPARED.fullmatch(want[5])[i]) + by for i in (5, 6) for by in (-1, 0, 1)}
    for most in sorted(edges):
        for text in (f"{most}units", f"{Decimal(most).scaleb(-9):f}years"):
            done = command("compare", first, second, *words, "--tolerance", text, "--exit-code")
            summary, _, cells = done.out.partition("\n\n")
            said = [within_of(line, most) for line in want]
            yes, no, neither = map(said.count, ("yes", "no", "open"))
            told = f"tolerance {text}: {yes} proved within it, {no} proved past it, {neither} neither"
            good = [row[12] for row in table(cells)[1:]] == said and told in summary
            yield good and done.status == (set(said) != {"yes"}) and not done.err, f"tolerance {text}: {done}"
    yield from tolerated_finely()
    for other, more, status in (
        (second, [], 0), (second, ["--exit-code"], 1), (third, ["--exit-code"], 0), (second, ["--tolerance", "0units"], 0),
        (first, ["--exit-code", "--tolerance", "1years"], 0), (second, ["--exit-code", "--tolerance", "1years"], 0),
        (third, ["--exit-code", "--tolerance", "0units"], 1),
    ):
        done = command("compare", first, other, *words, *more, "--summary")
        yield done.status == status and "\n\n" not in done.out and not done.err, f"compare with {other.name} {more}: {done}"
    whole = command("compare", first, second, *words)
    into = command("compare", first, second, *words, "-o", folder / "cells.csv")
    yield into.out + "\n" + (folder / "cells.csv").read_text() == whole.out, f"compare into a file: {into}"
    dutch = command("compare", first, second, *words, "--excel-nl", "-o", folder / "cells.csv")
    back = [[cell.replace(",", ".") for cell in line] for line in table((folder / "cells.csv").read_text(), ";")]
    yield dutch.out == into.out and back == table(whole.out.partition("\n\n")[2]), f"compare for Dutch: {dutch}"
    words += ["--kinds", "acoh,aper", "--rates", "2%", "--tolerance", "0.5euro", "--exit-code"]
    prices = command("compare", first, second, *words)
    yield prices.status == 0 and not prices.err, f"a tolerance of prices: {prices}"
    common = command("compare", first, file_of("research"), "--ages", "65")
    found = [row[2] for row in table(common.out.partition("\n\n")[2])[1:]]
    yield found == [str(year) for year in range(2022, 2065)] and common.status == 0, f"the years that both have: {found}"


def tolerated_finely():
    """Tolerances in units of 10^-9 beside differences in those of 10^-13: within them and past them by less than one."""
    paths, asked = (file_of(EDGES), file_of("women")), every(["q"], sorted(CLOSED_AGES), [EDGE_YEAR])
    want = answers("compare", b"".join(path.read_bytes() for path in paths), [line_of(one) for one in asked])
    words = ["--kinds", "q", "--ages", ",".join(str(one.age) for one in asked), "--years", EDGE_YEAR]
    for line in want:
        got = COMPARED.fullmatch(line)
        yield got[7] == "13" and got[4] != "near", f"a comparison in fine units: {line}"
        for most in {int(got[i]) // 10**4 + by for i in (5, 6) for by in (0, 1)}:
            done = command("compare", *paths, *words, "--tolerance", f"{most}units")
            said = [within_of(one, most) for one in want]
            cells = table(done.out.partition("\n\n")[2])[1:]
            yield [row[12] for row in cells] == said and not done.err, f"a tolerance of {most} units: {done}, not {said}"


# ---- tables of q

def q_of(name, years):
    """The program's figure, ends and unit of q by year and age; the lower end's rounding stands for an open figure in a table."""
    lines = [line_of(Asked("q", age, year, 0, None)) for year in years for age in range(121)]
    got = [re.fullmatch(r"kind=q age=(\d+) year=(\d+) span=0 lo=(\d+) hi=(\d+) unit=(\d+) fig=(\S+)", line)
           for line in answers("ends", file_of(name).read_bytes(), lines)]
    return {(int(one[2]), int(one[1])): (one[6], int(one[3]), int(one[4]), int(one[5])) for one in got}


def entry_of(found):
    figure, lower, _, unit = found
    return half_up(lower, lower, unit, 5) if figure == "open" else figure


def written(years, entries, form):
    """A table's file in one of its forms."""
    delimiter, point, end, front = {
        "plain": (",", ".", "\n", b""), "Dutch": (";", ",", "\r\n", b"\xef\xbb\xbf"), "mixed": (";", ".", "\r\n", b""),
        "quoted": (",", ",", "\n", b"\xef\xbb\xbf"), "spaced": (",", ".", "\r\n", b"\r\n"),
    }[form]
    ages = list(range(121))
    if form in ("mixed", "spaced"):
        ages.sort(key=lambda age: (age * 37) % 121)
    lines = [["age, last birthday" if form == "quoted" else "age", *map(str, years)]]
    lines += [[str(age), *(entries[year, age].replace(".", point) for year in years)] for age in ages]
    if form == "spaced":
        lines = [[f" {cell} " for cell in line] + ["", ""] for line in lines] + [["", ""]]
    out = io.StringIO()
    csv.writer(out, delimiter=delimiter, lineterminator=end).writerows(lines)
    return front + out.getvalue().encode()


def program_verdict(name, year, entries):
    column = "".join(f"age={age} q={entries[year, age]}\n" for age in range(121))
    line = programs.run("verdict", file_of(name).read_bytes() + f"year={year}\n{column}".encode())[1].decode().strip()
    return line.removeprefix(f"year={year} ").removeprefix("verdict=")


def told_of(found, year, entries):
    """The ages that are wrong or open, or right by the fine grid alone, each with its entry and its ends, that must be told of a
    year."""
    out = []
    for age in range(121):
        figure, lower, upper, unit = found[year, age]
        if figure != entries[year, age] or unit == FINE.digits:
            low, high = (f"{Decimal(end).scaleb(-unit):.{unit}f}" for end in (lower, upper))
            sort = "open" if figure == "open" else "right" if figure == entries[year, age] else "wrong"
            out.append((age, sort, entries[year, age], low, high, unit != COARSE.digits))
    return out


TOLD = re.compile(
    r"  age (\d+): (right|wrong|open), the table has (\S+), the sheet .*: between ([0-9.]+) and ([0-9.]+)(, by the fine grid)?"
)


def judgements(text):
    """What `judge` says: by year the verdict, and what is told of its ages."""
    out = {}
    for line in text.splitlines():
        told = TOLD.fullmatch(line)
        if told:
            out[year][1].append((int(told[1]), *told.groups()[1:5], bool(told[6])))
        elif re.match(r"\d", line):
            year, verdict = line.split()
            out[year] = (verdict, [])
    return out


def changed(draw, entry):
    """An entry with one digit changed."""
    place = draw.choice([0, 2, 3, 4, 5, 6])
    return entry[:place] + draw.choice([digit for digit in "0123456789" if digit != entry[place]]) + entry[place + 1 :]


def judged(folder, draw, counts):
    """Tables that are right, open or have digits changed, in several forms."""
    path = folder / "table.csv"
    for name, first in (("women", 2014), ("research", 2022), ("men", 2014), ("flat", 2014), (EDGES, 2014)):
        years = sorted({first, 2022, EDGE_YEAR, first + 170, *draw.sample(range(first, first + 171), 9)})
        found = q_of(name, years)
        for form in ("plain", "Dutch", "mixed", "quoted", "spaced"):
            entries = {cell: entry_of(got) for cell, got in found.items()}
            for year in draw.sample([year for year in years if name != EDGES or year != EDGE_YEAR], 4) if form != "plain" else []:
                for age in draw.sample(range(121), draw.choice((1, 1, 2))):
                    entries[year, age] = changed(draw, entries[year, age])
            path.write_bytes(written(years, entries, form))
            yield judged_as(name, path, found, years, entries, counts)
    for age in CLOSED_AGES:
        found = q_of(EDGES, [EDGE_YEAR])
        entries = {cell: entry_of(got) for cell, got in found.items()}
        entries[EDGE_YEAR, age] = f"{Decimal(entries[EDGE_YEAR, age]) - Decimal('0.00001'):.5f}"
        path.write_bytes(written([EDGE_YEAR], entries, "plain"))
        yield judged_as(EDGES, path, found, [EDGE_YEAR], entries, counts)
    yield from judged_alone(folder)


def judged_as(name, path, found, years, entries, counts):
    """A table's verdicts by the program, with the ages that must be told."""
    want = {str(year): (program_verdict(name, year, entries), told_of(found, year, entries)) for year in years}
    done = command("judge", file_of(name), path)
    wrong = any(verdict == "wrong" for verdict, _ in want.values())
    counts.update(f"judged {verdict}" for verdict, _ in want.values())
    counts.update(f"judged {told[1]}, by the fine grid" for _, ages in want.values() for told in ages if told[5])
    return judgements(done.out) == want and done.status == wrong and not done.err, f"{name}: {done}, not {want}"


def judged_alone(folder):
    """One column with its year, one that the fine grid settles, a year that is refused, and a year chosen of several; and an open
    age."""
    found, path = q_of("women", [2020, 2022]), folder / "column.csv"
    for year, want, status in ((2020, "right", 0), (2022, "right", 0), (2013, "no=4", 1), (2185, "no=4", 1)):
        entries = {age: entry_of(found[year if year == 2022 else 2020, age]) for age in range(121)}
        path.write_text("leeftijd;q\n" + "".join(f"{age};{q}\n" for age, q in entries.items()))
        done = command("judge", file_of("women"), path, "--year", year)
        lines = done.out.splitlines()
        program = program_verdict("women", year, {(year, age): q for age, q in entries.items()})
        yield lines[0] == f"{year} {want}" and want == program and done.status == status, f"a column of {year}: {done}"
        if year == 2022:
            between = "between 0.0000150013286 and 0.0000150013304, by the fine grid"
            yield lines[1:] == [f"  age 6: right, the table has 0.00002, the sheet 0.00002: {between}"], f"a fine age: {lines}"
    entries = {cell: entry_of(got) for cell, got in found.items()}
    entries[2022, 6] = "0.00001"
    path.write_bytes(written([2020, 2022], entries, "plain"))
    done = command("judge", file_of("women"), path, "--year", 2022, "-o", folder / "verdict.txt")
    text = (folder / "verdict.txt").read_text()
    said = "  age 6: wrong, the table has 0.00001, the sheet 0.00002: between 0.0000150013286 and 0.0000150013304, by the fine grid\n"
    yield done == Done(1, "", "") and text == f"2022 wrong\n{said}", f"one year chosen: {done}, {text}"
    yield from open_age(folder)


def open_age(folder):
    """An open age with its lower rounding and with neither, and the ages that the fine grid settles beside it."""
    found, path = q_of(EDGES, [EDGE_YEAR]), folder / "open.csv"
    entries, age = {cell: entry_of(got) for cell, got in found.items()}, OPEN_AGES[0]
    for more, neither in ((0, ""), (2, ", and neither is {}")):
        figure, lower, upper, unit = found[EDGE_YEAR, age]
        low, high = (half_up(end, end, unit, 5) for end in (lower, upper))
        entries[EDGE_YEAR, age] = f"{Decimal(low) + Decimal(more).scaleb(-5):.5f}"
        path.write_bytes(written([EDGE_YEAR], entries, "plain"))
        done = command("judge", file_of(EDGES), path)
        said = f"  age {age}: open, the table has {entries[EDGE_YEAR, age]}, the sheet {low} or {high}{neither}: between "
        told = [line.split()[1].rstrip(":") for line in done.out.splitlines()[1:]]
        good = done.status == 0 and said.format(entries[EDGE_YEAR, age]) in done.out and done.out.startswith(f"{EDGE_YEAR} open")
        yield good and {str(one) for one in OPEN_AGES + CLOSED_AGES} <= set(told), f"an open age: {done}, not {said}"


def torn_tables():
    """A table's text damaged, and where and how the fault must be told."""
    entries = {cell: entry_of(got) for cell, got in q_of("women", [2020, 2021]).items()}
    lines = written([2020, 2021], entries, "plain").decode().splitlines()

    def with_line(at, line):
        return "\n".join(lines[: at - 1] + ([line] if line is not None else []) + lines[at:]) + "\n"

    age, five = (entries[2020, 65], entries[2021, 65]), "is not of one digit and five decimals"
    yield with_line(67, f"65,{age[0][:-1]},{age[1]}"), f"67: column 2 (2020): '{age[0][:-1]}' {five}"
    yield with_line(67, f"65,{age[0]},{age[1]}0"), f"67: column 3 (2021): '{age[1]}0' {five}"
    yield with_line(67, f"65,{age[0]},7.9E-03"), f"67: column 3 (2021): '7.9E-03' {five}"
    yield with_line(67, f"65,{age[0]},12.00000"), "67: column 3 (2021): '12.00000' is not of one digit"
    yield with_line(67, f"65,-0.00796,{age[1]}"), "67: column 2 (2020): '-0.00796' is not of one digit"
    yield with_line(67, f"65,n.a.,{age[1]}"), "67: column 2 (2020): 'n.a.' is no number"
    yield with_line(67, f"65,,{age[1]}"), "67: column 2 (2020): is empty"
    yield with_line(67, f"65,{age[0]}"), "67: column 3 (2021): is empty"
    yield with_line(67, f"65,{age[0]},{age[1]},0.1"), "67: column 4: '0.1' stands past"
    yield with_line(67, None), "121: column 1 (age): up to here no line is of age 65: 1 missing"
    yield with_line(67, f"64,{age[0]},{age[1]}"), "67: column 1 (age): age 64 stands in line 66 too"
    yield with_line(67, f"121,{age[0]},{age[1]}"), "67: column 1 (age): '121' is no age"
    yield with_line(67, f"x,{age[0]},{age[1]}"), "67: column 1 (age): 'x' is no age"
    yield with_line(67, f"65,0,00796,{age[1]}"), "67: column 2 (2020): '0' is not of one digit"
    yield with_line(1, "age,2020,2020"), "1: column 3 (2020): the year stands in column 2 too"
    yield with_line(1, "age,2020,note"), "1: column 3: 'note' is no year"
    yield with_line(1, None), "1: column 1: '0' is no name"
    yield with_line(1, "age 2020 2021"), "1: column 1: there is one column"
    column = "".join(f"{age},{entries[2020, age]}\n" for age in range(121))
    yield f"age,q\n{column}", "1: column 2: 'q' is no year, and --year is not given"
    yield "", "1: nothing stands in it"
    yield ";;\n\n", "1: nothing stands in it"
    yield with_line(67, "65,\udcff,1"), "67: no UTF-8 text"
    yield with_line(67, "65,\0,1"), "67: a zero byte"


def tables_refused(folder):
    path = folder / "torn.csv"
    for text, want in torn_tables():
        path.write_bytes(text.encode("utf-8", "surrogateescape"))
        done = command("judge", file_of("women"), path)
        yield done.status == 2 and not done.out and f"{path}:{want}" in done.err, f"a table that is torn, {want}: {done}"
    path.write_text("age,2020\n" + "0,x\n" * 50)
    done = command("judge", file_of("women"), path)
    yield done.status == 2 and len(done.err.splitlines()) == 21 and "and 80 more" in done.err, f"many faults: {done}"
    path.write_text("age,2020\n" + "".join(f"{age},0.50000\n" for age in range(100)))
    done = command("judge", file_of("women"), path)
    ages = ", ".join(map(str, range(100, 110)))
    want = f"{path}:101: column 1 (age): up to here no line is of age {ages}, ...: 21 missing"
    yield done.status == 2 and want in done.err, f"a table to age 99: {done}"


# ---- options, files and help

def wrong_usage(folder):
    """Options and files that are wrong, with what must be told of each."""
    women, nowhere = file_of("women"), folder / "nowhere"
    for words, want in (
        (["--kinds", "ecoh,eco"], "--kinds: 'eco' is none of q, coh, per, ecoh, eper, acoh, aper"),
        (["--kinds", "day"], "--kinds: 'day' is none of"), (["--kinds", ""], "--kinds: empty"),
        (["--kinds", "q,,coh"], "--kinds: nothing stands at one side of a comma"),
        (["--ages", "60-"], "--ages: '60-' is no number"), (["--ages", "70-60"], "--ages: '70-60' runs backward; write 60-70"),
        (["--ages", "65.5"], "--ages: '65.5' is no number"), (["--ages", "60 70"], "'60 70' is no number"),
        (["--ages", "\u0666"], "is no number"), (["--ages", "1000"], "--ages: '1000' is no number of at most 3 digits"),
        (["--years", "2015:2064"], "--years: '2015:2064' is no number"), (["--years", "12015"], "'12015' is no number"),
        (["--kinds", "acoh"], "--rates is wanted for acoh"), (["--kinds", "aper,acoh"], "--rates is wanted for aper and acoh"),
        (["--rates", "3%"], "--rates is given, and none of the kinds takes it"),
        (["--kinds", "acoh", "--rates", "3"], "--rates: '3' is no rate with its unit"),
        (["--kinds", "acoh", "--rates", "1,5%"], "--rates: '1' is no rate with its unit"),
        (["--kinds", "acoh", "--rates", "0.00001%"], "--rates: '0.00001%' is no whole number of millionths"),
        (["--kinds", "acoh", "--rates", "3." + "0" * 30 + "1%"], "001%' is no whole number of millionths"),
        (["--kinds", "acoh", "--rates", "1" * 5000 + "%"], "is no rate with its unit"),
        (["--kinds", "acoh", "--rates", "0.5ppm"], "--rates: '0.5ppm' is no whole number of millionths"),
        (["--kinds", "acoh", "--rates", "1" + "0" * 12 + "%"], "is no whole number of millionths of at most 15 digits"),
        (["--kinds", "coh"], "--span is wanted for coh"), (["--kinds", "coh", "--span", "-1"], "--span"),
        (["--span", "20"], "--span is given, and none of the kinds takes it: coh and per do"),
        (["--decimals", "10"], "--decimals 10"), (["--decimals", "0"], "--decimals 0"), (["--decimals", "x"], "--decimals"),
        (["-o", nowhere / "list.csv", "--ages", "65"], f"{nowhere}/list.csv: No such file"),
    ):
        yield ["list", women, *words], 2, want
    yield ["list", nowhere], 2, f"{nowhere}: No such file"
    yield ["list"], 2, "SHEET"
    yield ["list", EXAMPLES / "65.queries"], 1, f"{EXAMPLES}/65.queries: refused as 1, torn"
    for words, want in (
        (["--tolerance", "5"], "--tolerance: '5' is no number with its unit"),
        (["--tolerance", "1e-9years"], "'1e-9years' is no number with its unit"),
        (["--tolerance", "1." + "0" * 30 + "1years"], "finer than the unit"),
        (["--tolerance", "0.0000000001years"], "finer than the unit"), (["--tolerance", "0.5units"], "finer than the unit"),
        (["--tolerance", "1years", "--kinds", "q,ecoh"], "years is not the unit of q"),
        (["--tolerance", "1euro"], "euro is not the unit of ecoh"),
        (["--summary", "-o", folder / "cells.csv"], "--summary writes no cells"), (["--ages", "x"], "--ages: 'x'"),
        (["-o", nowhere / "cells.csv", "--ages", "65"], f"{nowhere}/cells.csv: No such file"),
    ):
        yield ["compare", women, women, *words], 2, want
    yield ["compare", women, nowhere], 2, f"{nowhere}: No such file"
    yield ["compare", women], 2, "B.sheet"
    yield ["judge", women, nowhere], 2, f"{nowhere}: No such file"
    yield ["judge", women, folder / "nothing.csv", "--year", "x"], 2, "--year"


def refused_usage(folder):
    for words, status, want in wrong_usage(folder):
        done = command(*words)
        yield done.status == status and not done.out and want in done.err, f"{words}: {done}, not {want}"
    one = command("list", file_of("women"), "--ages", "65,60-66,65", "--years", "2020,2015-2016", "--kinds", "eper,q,eper")
    cells = [tuple(row[:3]) for row in table(one.out)[1:]]
    ages = [65, 60, 61, 62, 63, 64, 66]
    want = [(kind, str(age), str(year)) for kind in ("eper", "q") for age in ages for year in (2020, 2015, 2016)]
    yield cells == want and one.status == 0, f"each once and in order: {cells}"


def quiet_pipe():
    """A reader that goes leaves no word on standard error."""
    words = [sys.executable, "-m", "kulfizan", "list", str(file_of("flat")), "--kinds", "q", "--years", "2014-2184"]
    line = " ".join(map(shlex.quote, words)) + " | head -n 1"
    done = subprocess.run(["bash", "-c", line], env=surroundings(), capture_output=True, check=False, timeout=60)
    yield done.stdout == b"kind,age,year,span,rate,figure\n" and not done.stderr, f"a reader that goes: {done}"


def helps(folder):
    """Each command's help fits a screen, says who judges, and its examples run as they stand."""
    for name in NAMES:
        shutil.copy(file_of(name), folder)
    years = range(2014, 2017)
    entries = {cell: entry_of(got) for cell, got in q_of("women", [*years, 2020]).items()}
    (folder / "table.csv").write_bytes(written(years, entries, "plain"))
    (folder / "column.csv").write_text("age,q\n" + "".join(f"{age},{entries[2020, age]}\n" for age in range(121)))
    for name in ("list", "compare", "judge"):
        done = command(name, "--help")
        lines = done.out.splitlines()
        fits = len(lines) <= HELP_LINES and max(map(len, lines)) <= HELP_WIDTH
        yield done.status == 0 and fits and "library is the judge" in " ".join(done.out.split()), f"{name} --help: {done}"
        examples = [shlex.split(line) for line in lines[lines.index("example:") + 1 :]]
        good = len(examples) >= 1 and all(words[:2] == ["kulfizan", name] for words in examples)
        yield good, f"examples of {name}: {examples}"
        for words in examples:
            got = started(*words[1:], cwd=folder)
            yield got.status == 0 and not got.err, f"{words}: {got}"


# ---- all

def checks(draw, counts, folder):
    made(folder, draw)
    for one in lists(draw):
        yield from listed(one, counts)
    for one in short_lists(draw):
        yield from itertools.chain(decimals_listed(one, counts), exact_listed(one, draw, counts), wide_listed(one))
    yield from itertools.chain(whole_list(), steep_list(folder), quiet_pipe(), module_rows())
    for pair in PAIRS:
        yield from compared(*pair, draw, counts)
    yield from itertools.chain(tolerated(folder), judged(folder, draw, counts), tables_refused(folder))
    yield from itertools.chain(refused_usage(folder), helps(folder))


def missing(counts):
    """What was not met, though it must be."""
    out = [f"{LEAST_ROWS} rows of {name}" for name in (*NAMES, EDGES) if counts[name] < LEAST_ROWS]
    out += [f"no={no}" for no in (3, 4, 5, 8) if not counts[f"no={no}"]]
    out += [f"{LEAST_CLOSED} figures that the fine grid closed"] if counts["closed"] < LEAST_CLOSED else []
    out += ["open figures"] if counts["open"] < len(OPEN_AGES) else []
    told = itertools.product(range(1, 10), ("open", "told"))
    out += [f"{what} with {decimals} decimals" for decimals, what in told if not counts[decimals, what]]
    out += [f"{LEAST_EXACT} exact values"] if counts["exact"] < LEAST_EXACT else []
    sorts = ("refused", "open", "differently", "near", "different", "closed")
    out += [f"compared {what}" for what in sorts if not counts[f"compared {what}"]]
    fine = [f"judged {what}, by the fine grid" for what in ("right", "wrong", "open")]
    out += [what for what in fine if not counts[what]]
    return out + [f"judged {what}" for what in ("right", "wrong", "open") if counts[f"judged {what}"] < 5]


def main():
    seed = int(sys.argv[1]) if len(sys.argv) > 1 else SEED
    print(f"seed {seed}")
    gone = programs.missing("ends", "quotes", "compare", "verdict")
    if gone or package() is None:
        print(gone or "the library cannot be built\n0 passed, 1 failed")
        return 1
    count, counts = c_interface.Count(), collections.Counter()
    with tempfile.TemporaryDirectory() as folder:
        for good, said in checks(random.Random(seed), counts, pathlib.Path(folder)):
            count.take(good, said)
    absent = missing(counts)
    count.take(not absent, f"no case of: {', '.join(absent)}")
    print(", ".join(f"{name} {counts[name]} rows" for name in (*NAMES, EDGES)))
    print(f"{counts['closed']} figures that the fine grid closed, {counts['open']} open, {counts['exact']} exact values")
    print(", ".join(f"{what} {counts[what]}" for what in sorted(map(str, counts)) if what.startswith(("compared", "judged"))))
    return count.close()


if __name__ == "__main__":
    sys.exit(main())
