"""The command `report` of the package: the page as it is written, and as a real browser shows it.

The page must be well formed and need nothing from elsewhere. Every figure on it is held against the programs `ends` and
`compare` and against the command `list`: the list, survival, q, the differences with their marks, what is open, what the fine
grid closed and how wide ends are. Pictures are read back: each point of a curve, each square's colour by the key, each mark,
against the ends.
Headless Chromium, which tests/browser installs where it is missing, must load the page with nothing said on its console; the
figures are then read again from its document, and the sizes of pictures and texts and the squares' colours from what it has
drawn.

The library is that of KULFIZAN_LIBRARY, else the one that make builds.
"""
import collections
import contextlib
import csv
import functools
import hashlib
import html.parser
import io
import json
import os
import pathlib
import random
import re
import struct
import subprocess
import sys
import tempfile
import traceback
import types
import zlib
from decimal import Decimal

import c_interface
import programs
import sheets
from edges import Edges
from test_quotes import mild

EXAMPLES = programs.ROOT / "examples"
BROWSER = programs.ROOT / "tests" / "browser"
AGES, YEARS, RATE = (0, 20, 40, 60, 65, 67, 70, 80, 90), (2014, 2024, 2034, 2044, 2054, 2064), 30_000
SPANS, Q_YEARS = (1, 10, 20, 30, 40, 60, 80), (2014, 2044, 2074, 2104, 2134, 2164, 2184)
LISTED = ("ecoh", "eper", "acoh")
LONGEST, ONE = 65_536, 10**9
VOID = ("meta", "br", "col", "hr", "img", "input", "link")
PATIENCE = 60
WIDTH = 900
TOLD = re.compile(r"(?:lo=([0-9]+) hi=([0-9]+) unit=(9|13) )?(?:fig=(\S+)|(no=[0-9]+))")
COMPARED = re.compile(r"fig=(\S+) fig=(\S+) values=(\w+)(?: least=([0-9]+))? most=([0-9]+) unit=(9|13)")
# A sheet with q at half steps in a year: open on the fine grid too, or closed by it.
EDGE_YEAR, OPEN_AGES, CLOSED_AGES = 2025, (70, 6), (65, 30)

# The ends in units of 10^-9, as exact decimals, how they are written, their unit, and the figure or the refusal.
Told = collections.namedtuple("Told", "lower upper low high unit text")
Compared = collections.namedtuple("Compared", "first second values least most unit")
Count = c_interface.Count


# ---- the commands and the programs

def package():
    """The package over the library, or None where it cannot be built."""
    if "KULFIZAN_LIBRARY" not in os.environ:
        return c_interface.built()
    sys.path.insert(0, str(programs.ROOT / "python"))
    import kulfizan

    return kulfizan


def command(*words):
    """A command's status, output and errors, in this process."""
    from kulfizan import cli

    out, err = io.TextIOWrapper(io.BytesIO(), "utf-8", newline=""), io.StringIO()
    with contextlib.redirect_stdout(out), contextlib.redirect_stderr(err):
        try:
            status = cli.main([str(word) for word in words])
        except SystemExit as left:
            status = left.code
        out.flush()
    return status, out.buffer.getvalue().decode(), err.getvalue()


def started(*words):
    """The same in a process of its own."""
    paths = {**os.environ, "PYTHONPATH": str(programs.ROOT / "python")}
    line = [sys.executable, "-m", "kulfizan", *map(str, words)]
    done = subprocess.run(line, env=paths, stdout=subprocess.PIPE, stderr=subprocess.PIPE, check=False, timeout=PATIENCE)
    return done.returncode, done.stdout.decode(), done.stderr.decode()


def sheet(name):
    return EXAMPLES / f"{name}.sheet"


def query(kind, age, year, span=0):
    rate = f" rate={RATE}" if kind in ("acoh", "aper") else ""
    return f"kind={kind} age={age} year={year} span={span}{rate}"


def answered(program, paths, queries):
    """A program's answers by query, without the query at their beginning, in runs that it takes."""
    front, out, left = b"".join(path.read_bytes() for path in paths), {}, list(dict.fromkeys(queries))
    size = (LONGEST - len(front)) // 64
    while left:
        part, left = left[:size], left[size:]
        lines = programs.run(program, front + "".join(f"{line}\n" for line in part).encode())[1].decode().splitlines()
        out.update((line, answer[len(line) + 1 :]) for line, answer in zip(part, lines))
    return out


def told(path, queries):
    """The ends and the figure of each query by the program `ends`."""
    out = {}
    for line, answer in answered("ends", [path], queries).items():
        lower, upper, unit, figure, refusal = TOLD.fullmatch(answer).groups()
        unit = int(unit or 9)
        ends = [int(end or 0) for end in (lower, upper)]
        shown = [amount(end, unit) for end in ends]
        out[line] = Told(*(Decimal(end).scaleb(9 - unit) for end in ends), *shown, unit, figure or refusal)
    return out


def closed(one):
    """Whether the fine grid closed a figure."""
    return one.unit == 13 and one.text != "open"


def compared(paths, queries):
    """What the program `compare` says of each query; None where it refuses."""
    out = {}
    for line, answer in answered("compare", paths, queries).items():
        got = COMPARED.fullmatch(answer)
        out[line] = got and Compared(got[1], got[2], got[3], got[4] and int(got[4]), int(got[5]), int(got[6]))
    return out


def hidden(pair):
    """Whether two figures print alike while the values are proved to differ."""
    return bool(pair) and pair.first == pair.second != "open" and pair.values != "near"


def amount(units, unit):
    """A number of units of 10^-unit as a decimal."""
    return f"{units // 10**unit}.{units % 10**unit:0{unit}}"


def furthest(pairs):
    """The most that any of some values differ by, as a decimal."""
    most = max(pairs, key=lambda pair: Decimal(pair.most).scaleb(-pair.unit))
    return amount(most.most, most.unit)


# ---- reading a page

class Node:
    """An element with its attributes and what is in it."""

    def __init__(self, tag, attributes):
        self.tag, self.at, self.parts = tag, dict(attributes), []

    def all(self, tag=None, **wanted):
        """The elements within, in their order, that have a tag, and attributes or a class."""
        for part in self.parts:
            if isinstance(part, Node):
                if (tag is None or part.tag == tag) and all(part.has(key, value) for key, value in wanted.items()):
                    yield part
                yield from part.all(tag, **wanted)

    def has(self, key, value):
        found = self.at.get(key.rstrip("_"))
        return value in found.split() if key == "class_" and found is not None else found == value

    def one(self, tag=None, **wanted):
        found = list(self.all(tag, **wanted))
        assert len(found) == 1, f"{len(found)} of {tag} {wanted}"
        return found[0]

    def text(self):
        return "".join(part if isinstance(part, str) else part.text() for part in self.parts)


class Reader(html.parser.HTMLParser):
    """A page as a tree; `wrong` has each tag that does not close what is open."""

    def __init__(self):
        super().__init__()
        self.root = Node("", {})
        self.open, self.wrong = [self.root], []

    def handle_starttag(self, tag, attributes):
        node = Node(tag, attributes)
        self.open[-1].parts.append(node)
        if tag not in VOID:
            self.open.append(node)

    def handle_endtag(self, tag):
        if tag != self.open[-1].tag:
            self.wrong.append(f"</{tag}> where {self.open[-1].tag} is open")
        else:
            self.open.pop()

    def handle_data(self, data):
        self.open[-1].parts.append(data)


@functools.lru_cache(8)
def tree(text):
    """A page's tree, and what is wrong with its tags."""
    reader = Reader()
    reader.feed(text)
    reader.close()
    return reader.root, reader.wrong + [f"{node.tag} is left open" for node in reader.open[1:]]


def rows_of(table):
    """The cells of a table row by row, those that go over several rows in each."""
    out, going = [], {}
    for line in table.all("tr"):
        row, cells, place = [], collections.deque(line.parts), 0
        while cells or place in going:
            if place in going:
                left, cell = going.pop(place)
            else:
                cell = cells.popleft()
                if not isinstance(cell, Node):
                    continue
                left = int(cell.at.get("rowspan", 1))
            if left > 1:
                going[place] = left - 1, cell
            row.append(cell)
            place += 1
        out.append(row)
    return out


def figures(table):
    """The figures of a table by sheet, age and column, each with whether it is marked."""
    head, *rows = rows_of(table)
    names = [cell.text() for cell in head]
    front = 2 if names[1] == "sheet" else 1
    out = {}
    for row in rows:
        place = ("first", "second").index(row[1].text()) if front == 2 else 0
        for name, cell in zip(names[front:], row[front:]):
            marks = [node.text() for node in cell.all("abbr")]
            text = "".join(part for part in cell.parts if isinstance(part, str))
            out[place, int(row[0].text()), int(name)] = text, marks == ["≠"] and cell.has("class_", "alike-differs")
        assert len(row) == len(head), f"a row of {len(row)} in {names}"
    return out


# ---- the page by itself

def form_faults(text):
    """What is wrong with a page's form, or comes from elsewhere."""
    root, wrong = tree(text)
    yield from wrong
    nodes = list(root.all())
    ids = [node.at["id"] for node in nodes if "id" in node.at]
    yield from (f"id {name} stands {count} times" for name, count in collections.Counter(ids).items() if count > 1)
    for node in nodes:
        if node.tag in ("script", "link", "iframe", "object", "img", "image", "use", "form", "base") or "src" in node.at:
            yield f"<{node.tag}>"
        for key, value in node.at.items():
            if key.startswith("on") or ("://" in value and key != "xmlns") or ("url(" in value and "url(#" not in value):
                yield f"<{node.tag} {key}={value}>"
            if key in ("href", "xlink:href") and (value[:1] != "#" or value[1:] not in ids):
                yield f"a reference to {value}"
            if key == "aria-labelledby":
                yield from (f"no {name} for {key}" for name in value.split() if name not in ids)
    style = root.one("style").text()
    yield from (f"{word} in the style" for word in ("url(", "@import", "://") if word in style)
    if "</html>" not in text or not text.startswith("<!DOCTYPE html>"):
        yield "no whole document"


def formed(name, text):
    faults = list(form_faults(text))
    yield not faults, f"{name}: {faults[:5]}"
    root, _ = tree(text)
    levels = [int(node.tag[1]) for node in root.all() if re.fullmatch("h[1-6]", node.tag)]
    stepwise = all(other - one <= 1 for one, other in zip(levels, levels[1:]))
    yield levels[0] == 1 and levels.count(1) == 1 and stepwise, f"{name}: headings {levels}"
    for table in root.all("table"):
        good = table.one("caption").text().strip() and all(cell.at.get("scope") for cell in table.all("th"))
        yield bool(good), f"{name}: the table {table.at.get('id')} has no caption or a heading without its scope"
    for picture in root.all("svg"):
        names = [node.text().strip() for node in (picture.one("title"), picture.one("desc"))]
        ids = f"{picture.at['id']}-title {picture.at['id']}-desc"
        good = all(names) and picture.at.get("role") == "img" and picture.at.get("aria-labelledby") == ids
        yield good, f"{name}: {picture.at['id']} is not told in words"


def sheet_shown(name, root, paths):
    """What the sheets are: each value of the file's lines, and the digest of its bytes."""
    rows = {row[0].text(): [cell.text() for cell in row[1:]] for row in rows_of(root.one("table", id="sheet-table"))}
    for place, path in enumerate(paths):
        lines = dict(line.split("=") for line in path.read_text().splitlines())
        start = int(lines.get("start", 2013))
        want = {"file": path.name, "table": lines["table"], "start": str(start), "quotes": f"{start + 1} to {start + 51}"}
        want.update({"q": f"{start + 1} to {start + 171}", "SHA-256": hashlib.sha256(path.read_bytes()).hexdigest()})
        got = {key: rows[key][place] for key in want}
        yield got == want and rows["sex"][place][0] == lines["sex"], f"{name}: the sheet is {got}"
        for key, title in (("K", "K at the start"), ("theta", "theta,"), ("k", "kappa at the start"), ("a", "a,"), ("c", "c,")):
            shown = next(cells[place] for head, cells in rows.items() if head.startswith(title))
            unit = 10**8 if key == "a" else ONE
            whole, _, part = shown.lstrip("-").partition(".")
            value = (int(whole) * unit + int((part + "0" * 9)[:9]) * unit // ONE) * (-1 if shown[0] == "-" else 1)
            yield value == int(lines.get(key, 0)), f"{name}: {key} is shown as {shown}"


def lists_of(root):
    """The tables of the list, each with its kind."""
    for table in root.all("table"):
        got = re.fullmatch(r"list-(\w+)-\d+", table.at["id"])
        if got:
            yield got[1], table


def cells_of(root, first):
    """The cells of all tables of figures: the sheet, the query, None where there is nothing to ask, the figure and its mark."""
    for kind, table in lists_of(root):
        yield from ((place, query(kind, age, year), *shown) for (place, age, year), shown in figures(table).items())
    for (place, age, year), shown in figures(root.one("table", id="q-table")).items():
        yield (place, query("q", age, year), *shown)
    for (place, age, span), shown in figures(root.one("table", id="survival-table")).items():
        yield (place, query("coh", age, first, span) if span <= 121 - age else None, *shown)


def figures_shown(name, root, paths, first, listed):
    """Every figure of the tables by the programs, the cells that were asked, and the marks by `compare`."""
    found = list(cells_of(root, first))
    got = collections.Counter(line for _, line, _, _ in found if line)
    yield set(got) == listed, f"{name}: other cells than those asked: {sorted(set(got) ^ listed)[:3]}"
    yield set(got.values()) == {len(paths)}, f"{name}: a cell is missing or stands twice"
    by_sheet = [told(path, got) for path in paths]
    pairs = compared(paths, got) if len(paths) > 1 else {}
    wrong = []
    for place, line, text, marked in found:
        want = by_sheet[place][line].text if line else "–"
        mark = place == 1 and line is not None and hidden(pairs[line])
        if (text, marked) != (want, mark):
            wrong.append(f"{line} of sheet {place + 1} is {text} {marked}, not {want} {mark}")
    yield not wrong and found, f"{name}: {len(wrong)} of {len(found)} figures are wrong: {wrong[:3]}"


def as_listed(name, root, path, words):
    """The figures of the list are those of the command `list`."""
    _, out, _ = command("list", path, "--kinds", ",".join(LISTED), *words)
    want = {(row[0], int(row[1]), int(row[2])): row[5] for row in list(csv.reader(io.StringIO(out)))[1:]}
    got = {}
    for kind, table in lists_of(root):
        got.update(((kind, age, year), text) for (place, age, year), (text, _) in figures(table).items() if place == 0)
    yield got == want, f"{name}: the list on the page is not that of the command"


def differences_shown(name, root, paths, ages, years):
    """Each row of the differences is the line of `compare`."""
    for kind in LISTED:
        lines = [query(kind, age, year) for age in ages for year in years]
        want = compared(paths, lines)
        rows = [[cell.text() for cell in row] for row in rows_of(root.one("table", id=f"differences-{kind}"))[1:]]
        wrong = [] if len(rows) == len(lines) else [f"{len(rows)} rows"]
        for line, row in zip(lines, rows):
            pair = want[line]
            said = "prints alike, differs" if hidden(pair) else "open" if "open" in pair[:2] else \
                "prints alike, near" if pair.first == pair.second else "prints differently"
            least = "–" if pair.least is None else amount(pair.least, pair.unit)
            good = [line, pair.first, pair.second, said, pair.values, least, amount(pair.most, pair.unit)]
            if [query(kind, *row[:2]), *row[2:]] != good:
                wrong.append(f"{row}, and compare says {line} {pair}")
        yield not wrong, f"{name}: differences of {kind}: {wrong[:3]}"


def summary_shown(name, root, paths, pairs):
    """How many cells print alike and so on, counted in the answers of `compare`, for some of the kinds."""
    rows = {row[0].text(): row[1:] for row in rows_of(root.one("table", id="differences-all"))[1:]}
    for kind, found in pairs.items():
        singles = [told(path, found) for path in paths]
        printed = [pair for pair in found.values() if pair and "open" not in pair[:2]]
        alike = [pair for pair in printed if pair.first == pair.second]
        sorts = [[pair for pair in alike if hidden(pair)], [pair for pair in alike if not hidden(pair)],
                 [pair for pair in printed if pair.first != pair.second]]
        mosts = [f"≤ {furthest(sort)}" if sort else "" for sort in sorts]
        want = [f"{len(found):,}"] + [f"{len(sort):,}{most}" for sort, most in zip(sorts, mosts)]
        given = [pair for pair in found.values() if pair]
        want += [f"{len(given) - len(printed):,}", f"{len(found) - len(given):,}"]
        count = sum(any(closed(single[line]) for single in singles) for line in found)
        told_closed = re.search(rf"[ :]{kind} ([0-9,]+)[,.]", root.one("p", id="differences-closed").text())
        yield count and told_closed and told_closed[1] == f"{count:,}", f"{name}: {told_closed} of {kind} are closed, not {count}"
        got = [cell.text() for cell in rows[kind]]
        yield got == want, f"{name}: the summary of {kind} is {got}, not {want}"
    sizes = [row[0].text() for row in rows.values()]
    yield sizes == ["20,691"] + ["6,171"] * 3, f"{name}: the summary is of {sizes} cells"


def fine_shown(name, root, whole):
    """The counts of figures that the fine grid closed and of open ones, the widest ends, and each figure that was worked again, the
    open ones first, of a sheet; the table has 100 of them at most."""
    rows = {}
    for head, *cells in rows_of(root.one("table", id="width-table-1"))[1:]:
        rows[head.text().split()[0]] = [cell.text() for cell in cells]
    shown = [[cell.text() for cell in row] for row in rows_of(root.one("table", id="fine-table-1"))[1:]]
    again = {line: one for found in whole.values() for line, one in found.items() if one.unit == 13}
    want = {line: [one.text, one.low, one.high, width_text(one)] for line, one in again.items()}
    got = {query(*row[:3]): row[3:] for row in shown}
    wrong = [line for line in got if got[line] != want.get(line)]
    opened = [row[3] == "open" for row in shown]
    yield not wrong and len(got) == len(shown) == min(100, len(want)), f"{name}: worked again are {wrong[:3]}, {len(got)} of {len(want)}"
    yield opened == sorted(opened, reverse=True), f"{name}: the open figures are not the first"
    yield sum(opened) == min(100, sum(one.text == "open" for one in again.values())), f"{name}: {sum(opened)} open figures"
    for kind, found in whole.items():
        width = {line: one.upper - one.lower for line, one in found.items()}
        counts = [len(found), sum(map(closed, found.values())), sum(one.text == "open" for one in found.values()), 0]
        age, year = re.fullmatch(r"age (\d+) in (\d+)", rows[kind][5]).groups()
        widest = found[query(kind, age, year)]
        good = rows[kind][:5] == [*(f"{count:,}" for count in counts), width_text(widest)]
        good &= width[query(kind, age, year)] == max(width.values())
        yield good, f"{name}: the ends of {kind} are {rows[kind]}, not {counts}"


def width_text(one):
    """How far ends lie apart, in their unit."""
    return f"{(one.upper - one.lower).scaleb(-9):.{one.unit}f}"


# ---- the pictures

def numbers(text):
    return [float(word) for word in re.findall(r"-?[0-9]+(?:\.[0-9]+)?", text)]


def ticks(axis, across):
    """The ticks of an axis: what is written, and where its line is."""
    places = [numbers(path.at["d"])[0 if across else 1] for path in axis.all("path")]
    return list(zip([node.text() for node in axis.all("text", class_="tick")], places))


def axis_of(picture, side):
    """An axis as the pixel of a value, by its first and last tick, and whether it has its title and ticks that belong there."""
    axis = picture.one("g", class_=f"{side}-axis")
    found = [(float(text), place) for text, place in ticks(axis, side == "x")]
    (first, start), (last, end) = found[0], found[-1]
    at = lambda value: start + (value - first) * (end - start) / (last - first)
    good = axis.one("text", class_="axis-title").text() and len(found) > 3
    return at, bool(good) and all(abs(at(value) - place) < 0.02 for value, place in found)


def points(path):
    found = numbers(path.at["d"])
    return list(zip(found[::2], found[1::2]))


def curves_drawn(name, root, paths, ages, year):
    """Each survival curve goes through its lower ends."""
    picture = root.one("svg", id="survival-picture")
    (across, good_x), (up, good_y) = axis_of(picture, "x"), axis_of(picture, "y")
    yield good_x and good_y, f"{name}: the axes of the curves"
    drawn = [points(path) for path in picture.all("path", class_="curve")]
    want = []
    for path in paths:
        found = told(path, [query("coh", age, year, span) for age in ages for span in range(122 - age)])
        want += [[float(found[query("coh", age, year, span)].lower) / ONE for span in range(122 - age)] for age in ages]
    yield sorted(map(len, drawn)) == sorted(map(len, want)), f"{name}: {len(drawn)} curves of {len(want)}, or with other points"
    pixels = [[(across(span), up(chance)) for span, chance in enumerate(chances)] for chances in want]
    near = lambda one, other: all(abs(a - b) < 0.02 for point in zip(one, other) for a, b in zip(*point))
    lost = [curve for curve in pixels if not any(len(curve) == len(line) and near(curve, line) for line in drawn)]
    yield not lost, f"{name}: {len(lost)} curves do not go through their ends"
    labels = [node.text() for node in picture.all("text", class_="name") if node.text().isdigit()]
    yield sorted(map(int, labels)) == sorted(ages), f"{name}: the curves' ages are {labels}"


def squares(picture, years):
    """The squares of a map by age and year, each with the path that it is in; one that is painted twice counts twice."""
    (across, good_x), (up, good_y) = axis_of(picture, "x"), axis_of(picture, "y")
    side = across(1) - across(0)
    out = collections.defaultdict(list)
    for path in picture.one("g", class_="squares").all("path"):
        for x, y, width, height, back in re.findall(r"M([\d.]+) ([\d.]+)h([\d.]+)v([\d.]+)h-([\d.]+)z", path.at["d"]):
            age, first, count = 120 - round((float(y) - (up(120) - side / 2)) / side), float(x), round(float(width) / side)
            first = years[0] + round((first - (across(years[0]) - side / 2)) / side)
            for year in range(first, first + count):
                out[age, year].append(path)
    whole = set(out) == {(age, year) for age in range(121) for year in years} and all(len(found) == 1 for found in out.values())
    return {cell: found[0] for cell, found in out.items()}, whole and good_x and good_y, across, up


def map_drawn(name, picture, found, years):
    """The map of q: each square in the colour whose bounds, by the key, its lower end lies between; the open are marked."""
    painted, whole, across, up = squares(picture, years)
    yield whole, f"{name}: the squares do not fill the map once, or its axes are wrong"
    key = picture.one("g", class_="key")
    steps, bounds = list(key.all("path", class_="step")), [node.text() for node in key.all("text", class_="tick")]
    named = [text for text in bounds if not text[0].isdigit()]
    bounds = [float(text) for text in bounds if text[0].isdigit()]
    between = {step.at["fill"]: (low, high) for step, high, low in zip(steps, bounds, bounds[1:])}
    downward = bounds == sorted(set(bounds), reverse=True)
    yield len(between) == len(steps) == len(bounds) - 1 and downward, f"{name}: the key is {bounds}"
    cells = {(age, year): found[query("q", age, year)] for age in range(121) for year in years}
    ranges = {cell: between[painted[cell].at["fill"]] for cell in cells}
    wrong = [cell for cell, one in cells.items() if not ranges[cell][0] * ONE <= float(one.lower) < ranges[cell][1] * ONE]
    yield not wrong, f"{name}: {len(wrong)} squares have another colour than their lower ends, as {wrong[:3]}"
    for word, is_marked in (("open", lambda one: one.text == "open"), ("closed", closed)):
        path = "".join(node.at["d"] for node in picture.all("path", class_=word))
        marks = re.findall(r"M([\d.]+) ([\d.]+)l", path)
        want = sorted((round(across(year), 1), round(up(age) - 3.5, 1)) for (age, year), one in cells.items() if is_marked(one))
        got = sorted((round(float(x), 1), round(float(y), 1)) for x, y in marks)
        yield got == want and bool(want) == (word in named), f"{name}: the marks of {word} figures, {len(got)} of {len(want)}"
    colours = [bytes.fromhex(step.at["fill"][1:]) for step in steps]
    light = [0.2126 * red + 0.7152 * green + 0.0722 * blue for red, green, blue in colours]
    yield light == sorted(set(light)), f"{name}: higher is not always darker"


def relations_drawn(name, picture, pairs, years):
    """Each square of the relations is that of `compare`."""
    painted, whole, _, _ = squares(picture, years)
    yield whole, f"{name}: the squares do not fill the map once, or its axes are wrong"
    wrong = [cell for cell, path in painted.items() if path.at["class"] != pairs[query("q", *cell)].values]
    yield not wrong, f"{name}: {len(wrong)} squares are not as compare says, as {wrong[:3]}"


def widths_drawn(name, picture, whole):
    """A line for each kind through the widest ends at each age."""
    powers = str.maketrans("⁻⁰¹²³⁴⁵⁶⁷⁸⁹", "-0123456789")
    axis = picture.one("g", class_="y-axis")
    found = [(int(text[2:].translate(powers)), place) for text, place in ticks(axis, False)]
    (first, start), (last, end) = found[0], found[-1]
    across, good = axis_of(picture, "x")
    drawn = [points(path) for path in picture.all("path", class_="width")]
    yield good and len(drawn) == len(whole) and all(len(line) == 121 for line in drawn), f"{name}: the lines of the widths"
    for line, (kind, of_kind) in zip(drawn, whole.items()):
        width = collections.Counter()
        for asked, one in of_kind.items():
            age = int(asked.split()[1][4:])
            width[age] = max(width[age], float(one.upper - one.lower))
        back = [10 ** (first + (y - start) * (last - first) / (end - start) + 9) for _, y in line]
        near = all(abs(x - across(age)) < 0.02 and abs(back[age] / width[age] - 1) < 0.01 for age, (x, _) in enumerate(line))
        yield near, f"{name}: the widths of {kind}"


# ---- the browser

MEASURE = """<script>
const box = node => { const r = node.getBoundingClientRect(); return [r.x, r.y, r.width, r.height]; };
const pictures = [...document.querySelectorAll("svg")].map(svg => ({
  id: svg.id, box: box(svg), marks: svg.querySelectorAll("path").length, texts: [...svg.querySelectorAll("text")].map(box) }));
const scrolls = [...document.querySelectorAll(".scroll")].map(
  node => [node.querySelector("table").id, node.scrollWidth, node.clientWidth]);
const page = document.documentElement;
const measured = { pictures, scrolls, page: [page.scrollWidth, page.scrollHeight, window.innerWidth],
  resources: performance.getEntriesByType("resource").map(entry => entry.name) };
const map = document.getElementById("q-picture-1");
document.body.replaceChildren(map);
document.body.style = "margin: 0; padding: 0; max-width: none";
document.body.append(Object.assign(document.createElement("pre"), { id: "measured", textContent: JSON.stringify(measured) }));
</script>"""


def browse(path, *words):
    """What a browser has of a page: its document, and what it says on its console."""
    line = [str(BROWSER), "--virtual-time-budget=2000", "--enable-logging=stderr", "--v=0", "--dump-dom", *words, path.as_uri()]
    done = subprocess.run(line, stdout=subprocess.PIPE, stderr=subprocess.PIPE, check=False, timeout=PATIENCE)
    said = [line for line in done.stderr.decode(errors="replace").splitlines() if "CONSOLE" in line]
    return done.returncode, done.stdout.decode(), said


def png(path):
    """A PNG's width, height and lines of pixels, as bytes of three or four a pixel; the lines are still as they are packed."""
    data, place, packed = path.read_bytes(), 8, b""
    while place < len(data):
        length, kind = struct.unpack(">I4s", data[place : place + 8])
        body = data[place + 8 : place + 8 + length]
        if kind == b"IHDR":
            width, height, depth, colours = struct.unpack(">IIBB", body[:10])
        packed += body if kind == b"IDAT" else b""
        place += 12 + length
    assert depth == 8 and colours in (2, 6), "another PNG than Chromium's"
    deep, raw = {2: 3, 6: 4}[colours], zlib.decompress(packed)
    return width, height, deep, [raw[i : i + width * deep + 1] for i in range(0, len(raw), width * deep + 1)]


def unpacked(deep, lines):
    """The lines of pixels of a PNG, each worked back from its filter."""
    out, above = [], bytearray(len(lines[0]) - 1)
    for packed in lines:
        kind, line = packed[0], bytearray(packed[1:])
        for i, value in enumerate(line):
            left, up, corner = (line[i - deep], above[i], above[i - deep]) if i >= deep else (0, above[i], 0)
            if kind == 4:
                far = abs(up - corner), abs(left - corner), abs(left + up - 2 * corner)
                guess = (left, up, corner)[far.index(min(far))]
            else:
                guess = (0, left, up, (left + up) // 2)[kind]
            line[i] = (value + guess) & 255
        out.append(line)
        above = line
    return out


def measured_faults(found, root):
    """What is wrong with the sizes of what is drawn."""
    pictures = {one["id"]: one for one in found["pictures"]}
    for picture in root.all("svg"):
        one, (_, _, width, height) = pictures.get(picture.at["id"]), numbers(picture.at["viewbox"])
        if one is None or [round(size, 2) for size in one["box"][2:]] != [width, height] or width < 600 or height < 300:
            yield f"{picture.at['id']} has the size {one and one['box']}, not {width} by {height}"
            continue
        if one["marks"] != sum(1 for _ in picture.all("path")):
            yield f"{picture.at['id']} has {one['marks']} marks"
        left, top = one["box"][:2]
        for x, y, wide, high in one["texts"]:
            across, down = -0.5 < x - left < x + wide - left < width + 0.5, -0.5 < y - top < y + high - top < height + 0.5
            if not (across and down):
                yield f"{picture.at['id']} has text outside: {x - left}, {y - top}, {wide}, {high}"
    yield from (f"the table {name} is {wide} wide, and not {room}" for name, wide, room in found["scrolls"] if wide > room)
    if found["page"][0] > found["page"][2]:
        yield f"the page is {found['page'][0]} wide in a window of {found['page'][2]}"
    yield from (f"{name} was fetched" for name in found["resources"])


def measured(name, path, root, folder):
    """The sizes of what is drawn, in a copy with a script of the test's own; then the map alone, as a picture."""
    text = path.read_text(encoding="utf-8")
    policy = re.search(r'<meta http-equiv="Content-Security-Policy"[^>]*>\n', text)[0]
    copy, shot = folder / f"measured-{name}.html", folder / f"measured-{name}.png"
    copy.write_text(text.replace(policy, "").replace("</body>", MEASURE + "</body>"), encoding="utf-8")
    status, dom, said = browse(copy, f"--window-size={WIDTH},440", f"--screenshot={shot}")
    got, _ = tree(dom)
    found = json.loads(got.one("pre", id="measured").text())
    faults = list(measured_faults(found, root))
    yield status == 0 and not said and not faults, f"{name} in the browser: {status}, {said[:3]}, {faults[:5]}"


def painted(name, shot, picture):
    """The middles of the map's squares have their colours in the browser's picture; a line, a mark or a name may hide some."""
    width, _, deep, lines = png(shot)
    years = range(2014, 2185)
    found, _, across, up = squares(picture, years)
    lines = unpacked(deep, lines[:400])
    same = 0
    for (age, year), path in found.items():
        x, y = int(across(year)), int(up(age))
        same += "#" + bytes(lines[y][x * deep : x * deep + 3]).hex() == path.at["fill"]
    yield width == WIDTH and same > 0.9 * len(found), f"{name}: {same} of {len(found)} squares are seen in their colours"


def shown_whole(name, shot, height):
    """A picture of the whole page has its size and is not blank."""
    width, high, _, lines = png(shot)
    busy = sum(len(set(line[1:])) > 8 for line in lines)
    good = (width, high) == (WIDTH, height) and busy > height // 4
    yield good, f"{name}: a picture of {width} by {high}, with marks in {busy} lines"


# ---- the tests

def listed_of(ages, years, q_years, first):
    """The queries whose figures stand in a page's tables."""
    out = {query(kind, age, year) for kind in LISTED for age in ages for year in years}
    out |= {query("q", age, year) for age in ages for year in q_years}
    return out | {query("coh", age, first, span) for age in ages for span in SPANS if span <= 121 - age}


def whole_of(path):
    """The answers to all cells that are looked through."""
    found = {"q": told(path, [query("q", age, year) for age in range(121) for year in range(2014, 2185)])}
    for kind in LISTED:
        found[kind] = told(path, [query(kind, age, year) for age in range(121) for year in range(2014, 2065)])
    return found


def one_sheet(folder):
    """A page of one sheet, by the defaults, from a process of its own."""
    path, women = folder / "one.html", sheet("women")
    done = started("report", women, "-o", path)
    yield done == (0, "", ""), f"one: {done}"
    text = path.read_text(encoding="utf-8")
    root, _ = tree(text)
    yield from formed("one", text)
    yield from sheet_shown("one", root, [women])
    words = ["--ages", ",".join(map(str, AGES)), "--years", ",".join(map(str, YEARS)), "--rates", "3%"]
    yield from as_listed("one", root, women, words)
    again = root.one("footer").one("code").text().split()
    yield again == ["kulfizan", "list", women.name, "--kinds", ",".join(LISTED), *words, "--ends"], f"one: again with {again}"
    whole = whole_of(women)
    yield from fine_shown("one", root, whole)
    yield from curves_drawn("one", root, [women], AGES, 2014)
    yield from map_drawn("one", root.one("svg", id="q-picture-1"), whole["q"], range(2014, 2185))
    yield from widths_drawn("one", root.one("svg", id="width-picture-1"), whole)
    names = [node.at["id"] for node in root.all("svg")]
    yield names == ["survival-picture", "q-picture-1", "width-picture-1"], f"one: the pictures are {names}"
    status, dom, said = browse(path, f"--window-size={WIDTH},6300", f"--screenshot={folder / 'one.png'}")
    yield status == 0 and not said, f"one in the browser: {status}, {said[:3]}"
    for name, found in (("one", root), ("one in the browser", tree(dom)[0])):
        yield from figures_shown(name, found, [women], 2014, listed_of(AGES, YEARS, Q_YEARS, 2014))
    yield from shown_whole("one", folder / "one.png", 6300)
    yield from measured("one", path, root, folder)
    yield from painted("one", folder / "measured-one.png", root.one("svg", id="q-picture-1"))


def two_sheets(folder):
    """A page of two sheets: the marks, the differences and where q differs."""
    path, paths = folder / "two.html", [sheet("women"), sheet("women-b")]
    done = command("report", *paths, "-o", path)
    yield done == (0, "", ""), f"two: {done}"
    text = path.read_text(encoding="utf-8")
    root, _ = tree(text)
    yield from formed("two", text)
    yield from sheet_shown("two", root, paths)
    status, dom, said = browse(path, f"--window-size={WIDTH},1000")
    yield status == 0 and not said, f"two in the browser: {status}, {said[:3]}"
    for name, found in (("two", root), ("two in the browser", tree(dom)[0])):
        yield from figures_shown(name, found, paths, 2014, listed_of(AGES, YEARS, Q_YEARS, 2014))
        yield from differences_shown(name, found, paths, AGES, YEARS)
    pairs = {"q": compared(paths, [query("q", age, year) for age in range(121) for year in range(2014, 2185)]),
             "eper": compared(paths, [query("eper", age, year) for age in range(121) for year in range(2014, 2065)])}
    yield from summary_shown("two", root, paths, pairs)
    yield from relations_drawn("two", root.one("svg", id="relation-picture"), pairs["q"], range(2014, 2185))
    yield from curves_drawn("two", root, paths, AGES, 2014)
    names = [node.at["id"] for node in root.all("svg")]
    want = ["survival-picture", "q-picture-1", "q-picture-2", "relation-picture", "width-picture-1", "width-picture-2"]
    yield names == want, f"two: the pictures are {names}"
    yield from measured("two", path, root, folder)


def edges(folder):
    """A page of a sheet with q that is open, or closed by the fine grid, in one year."""
    page, path, draw = folder / "edges.html", folder / "edges.sheet", random.Random(2025)
    made = False
    while not made:
        placed = Edges(mild(draw))
        ages = sorted(OPEN_AGES + CLOSED_AGES, reverse=True)
        made = all(placed.place(("q", age, EDGE_YEAR, 0), 10**4 * (age in CLOSED_AGES)) for age in ages)
    path.write_bytes(sheets.text(placed.params))
    status, out, err = command("report", path, "--ages", "65", "-o", page)
    root, _ = tree(page.read_text(encoding="utf-8"))
    yield (status, out, err) == (0, "", ""), f"edges: {status}, {err}"
    yield from formed("edges", page.read_text(encoding="utf-8"))
    whole = whole_of(path)
    yield from fine_shown("edges", root, whole)
    yield from map_drawn("edges", root.one("svg", id="q-picture-1"), whole["q"], range(2014, 2185))
    found = [whole["q"][query("q", age, EDGE_YEAR)] for age in OPEN_AGES + CLOSED_AGES]
    good = [(one.unit, one.text == "open") for one in found] == [(13, True)] * len(OPEN_AGES) + [(13, False)] * len(CLOSED_AGES)
    yield good, f"edges: the sheet's q are {found}"


def near_and_apart(folder):
    """The parts of the list and the differences by themselves, of sheets with values that are near, and of others that print
    differently."""
    from kulfizan import Sheet, answers, lists, sections

    sorts = collections.Counter()
    for names in (("women", "women-c"), ("men", "women"), ("flat", "flat")):
        paths = [sheet(name) for name in names]
        sheets = [Sheet.load(path) for path in paths]
        asked = answers.asked_for(list(AGES), list(YEARS), RATE, sheets)
        found = [types.SimpleNamespace(listed=list(lists.rows(one, asked.listed()))) for one in sheets]
        root, wrong = tree("".join([*sections.list_part(found, asked), *sections.differences_part(found, asked, {})]))
        marked = {query(kind, age, year): mark for kind, table in lists_of(root)
                  for (place, age, year), (_, mark) in figures(table).items() if place == 1}
        pairs = compared(paths, marked)
        sorts.update((hidden(pair), pair.values) for pair in pairs.values())
        yield not wrong and marked == {line: hidden(pair) for line, pair in pairs.items()}, f"{names}: the marks"
        yield from differences_shown(" beside ".join(names), root, paths, AGES, YEARS)
    yield all(sorts[sort] > 5 for sort in ((True, "above"), (False, "near"), (False, "below"))), f"what was met is {sorts}"


def chosen(folder):
    """Chosen ages and years of sheets with different starts, the first of which is steep in some cells, so that figures of
    either sheet are refused; and a title that is no markup."""
    page, steep, later = folder / "chosen.html", folder / "steep.sheet", sheet("research")
    steep.write_text(re.sub(r"(?m)^A\.(\d+)=.*$", r"A.\1=0", sheet("women").read_text()))
    ages, years, q_years = (62, 98, 99), [2020, *range(2022, 2032), 2064], (2022, 2052, 2082, 2112, 2142, 2172, 2184)
    title = 'Steep <b>beside</b> "research" & co'
    words = ["--ages", "62,121,98-99", "--years", ",".join(map(str, years)), "--rate", "30000ppm", "--title", title]
    status, out, err = command("report", steep, later, *words, "-o", page)
    text = page.read_text(encoding="utf-8")
    root, _ = tree(text)
    yield status == 1 and not out and "refused, first ecoh at age 62 in 2020, as 6" in err, f"chosen: {status}, {err}"
    yield from formed("chosen", text)
    yield from sheet_shown("chosen", root, [steep, later])
    yield root.one("h1").text() == title and root.one("head").one("title").text() == title, f"chosen: {root.one('h1').text()}"
    listed = listed_of(ages, years, q_years, 2022) | {query("q", 121, year) for year in q_years}
    listed |= {query(kind, 121, year) for kind in LISTED for year in years}
    yield from figures_shown("chosen", root, [steep, later], 2022, listed)
    yield from curves_drawn("chosen", root, [later], ages, 2022)
    tables = [table.at["id"] for kind, table in lists_of(root) if kind == "ecoh"]
    yield tables == ["list-ecoh-1", "list-ecoh-2"], f"chosen: many years are in the tables {tables}"
    notes = [node.text()[:5] for node in root.one("section", id="list").all("p")]
    yield notes == ["no=3:", "no=4:", "no=6:"], f"chosen: the refusals are {notes}"
    yield from refused_drawn("chosen", root, steep)


def refused_drawn(name, root, path):
    """The refused squares of a map, and their count."""
    found = told(path, [query("q", age, year) for age in range(121) for year in range(2014, 2185)])
    drawn, whole, _, _ = squares(root.one("svg", id="q-picture-1"), range(2014, 2185))
    wrong = [cell for cell, one in drawn.items() if one.has("class_", "refused") != (found[query("q", *cell)].text == "no=6")]
    yield whole and not wrong, f"{name}: {len(wrong)} squares are wrongly refused or given, as {wrong[:3]}"
    refused = sum(one.text == "no=6" for one in found.values())
    rows = {row[0].text(): row for row in rows_of(root.one("table", id="width-table-1"))}
    yield rows["q"][4].text() == f"{refused:,}" and 0 < refused < len(found), f"{name}: {rows['q'][4].text()} are refused"


def faults(folder):
    """What is wrong with a sheet, a file or an option, by its status and its name; nothing is written then."""
    torn = folder / "torn.sheet"
    torn.write_bytes(sheet("women").read_bytes()[:-1])
    women, page = sheet("women"), folder / "none.html"
    for words, status, said in (
        ([torn], 1, "torn.sheet: refused as 1"), ([women, torn], 1, "torn.sheet: refused as 1"),
        ([folder / "none.sheet"], 2, "none.sheet: No such file"), ([women, folder / "no.sheet"], 2, "no.sheet: No such file"),
        ([women, "--rate", "3"], 2, "--rate: '3'"), ([women, "--rate", "1%,2%"], 2, "--rate: one rate"),
        ([women, "--ages", "70-60"], 2, "--ages"), ([women, "--years", "x"], 2, "--years"),
        ([], 2, "SHEET"), ([women] * 3, 2, "unrecognized"),
    ):
        got = command("report", *words, "-o", page)
        yield got[0] == status and said in got[2] and not got[1] and not page.exists(), f"report {words}: {got}"
    got = command("report", folder / "steep.sheet", "-o", folder / "no" / "page.html")
    yield got[0] == 2 and "page.html: No such file" in got[2], f"a page that cannot be written: {got}"
    status, out, _ = command("report", "--help")
    lines = out.splitlines()
    fits = len(lines) <= 40 and max(map(len, lines)) <= 100
    yield status == 0 and fits and "example:" in lines, f"the help has {len(lines)} lines, the longest {max(map(len, lines))}"


def seen_failing(folder):
    """A page with a script, or with something from elsewhere, is found out, by its form and by the browser."""
    text = (folder / "one.html").read_text(encoding="utf-8")
    more = '<script>document.title = "run"</script><img src="http://localhost:9/a.png" alt="">'
    spoiled, path = text.replace("</main>", f"</main>{more}"), folder / "spoiled.html"
    path.write_text(spoiled, encoding="utf-8")
    _, dom, said = browse(path)
    title = tree(dom)[0].one("head").one("title").text()
    yield len(said) >= 2 and title != "run", f"the browser says of a spoiled page, entitled {title}, {said}"
    for old, new in (("</main>", ""), ('id="list"', 'id="q"'), ("<h1>", "<h1><p>"), ("</style>", "@import 'x.css';</style>")):
        broken = text.replace(old, new, 1)
        yield broken != text and list(form_faults(broken)), f"a page with {new!r} for {old!r} passes"
    yield len(list(form_faults(spoiled))) >= 2, "a page with a script passes"


def main():
    gone = programs.missing("ends", "compare")
    if gone:
        print(gone)
        return 1
    if package() is None:
        print("the library cannot be built\n0 passed, 1 failed")
        return 1
    count = Count()
    ready = subprocess.run([str(BROWSER), "--ready"], stdout=subprocess.PIPE, stderr=subprocess.STDOUT, check=False)
    if ready.returncode:
        print(ready.stdout.decode(errors="replace"))
        print("Chromium is not there and cannot be installed, so that no page is looked at in a browser\n0 passed, 1 failed")
        return 1
    with tempfile.TemporaryDirectory() as name:
        folder = pathlib.Path(name)
        for part in (one_sheet, two_sheets, edges, near_and_apart, chosen, faults, seen_failing):
            try:
                for good, said in part(folder):
                    count.take(bool(good), said)
            except Exception:
                count.take(False, f"{part.__name__} ends in an error:\n{traceback.format_exc()}")
    return count.close()


if __name__ == "__main__":
    sys.exit(main())
