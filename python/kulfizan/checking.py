"""The command `check`: what is wrong with a sheet, with queries or with a column, by line and key.

Whether a file is accepted is the library's answer; what is found and what is wanted is said beside it.
"""
import argparse
import functools
import re
from typing import Any, Callable, Iterator, List, NamedTuple, Optional, Tuple

from . import cli, units
from .cells import Grid, off_scale, path
from .library import LONGEST_INPUT, REFUSALS, Refused
from .sheets import COUPLE_KINDS, KINDS, Sheet, read, run, write
from .units import FIRST_START, LAST_START

NUMBER = re.compile(rb"0|-?[1-9][0-9]{0,14}")
DECIMAL = re.compile(rb"-?[0-9]+[.,][0-9]+")
STEPS = re.compile(rb"[0-9]\.[0-9]{5}")
TORN, TORN_COLUMN, NO_YEAR, STEEP = 1, 9, 4, 6
AGES = range(121)
SHOWN = 10
BOM = b"\xef\xbb\xbf"
# What a file may be: its words, as --as names them.
SHEET, QUERIES, COLUMN, ASKED, JUDGED = "sheet", "queries", "column", "sheet+queries", "sheet+column"
KINDS_OF_FILE = (SHEET, QUERIES, COLUMN, ASKED, JUDGED)
TITLES = {SHEET: "a sheet", QUERIES: "queries", COLUMN: "a column", ASKED: "a sheet and queries", JUDGED: "a sheet and a column"}


class Finding(NamedTuple):
    """A line and its key, what is found there and what is wanted; line 0 is the whole file."""
    line: int
    key: str
    found: str
    wanted: str
    hint: str = ""

    def told(self, name: str) -> str:
        place = f"{name}:{self.line}: " if self.line else f"{name}: "
        key = f"{self.key}: " if self.key else ""
        return f"{place}{key}found {self.found}, wanted {self.wanted}{f' ({self.hint})' if self.hint else ''}"


class Checked(NamedTuple):
    """What a file is, the number by which the library refuses it, or the first of its queries, else 0; and what was found."""
    what: str
    number: int
    findings: List[Finding]


def shown(data: bytes) -> str:
    """Bytes as they are shown, of at most 40."""
    if not data:
        return "nothing"
    return ascii((data if len(data) <= 40 else data[:37] + b"...").decode("latin-1"))


def lines_in(data: bytes) -> List[bytes]:
    """The lines with their line feeds; what follows the last one is a line too where it is not empty."""
    return re.findall(rb"[^\n]*\n|[^\n]+", data)


# ---- what a file is

def what_is(data: bytes) -> str:
    """What a file seems to be, by the starts of its lines: everything that is nothing else is taken as a sheet."""
    data = data[len(BOM) :] if data.startswith(BOM) else data
    first = next((line for line in data.splitlines() if line.strip()), b"")
    if first.startswith(b"kind="):
        return QUERIES
    if first.startswith((b"age=", b"year=")):
        return QUERIES if b" target=" in first else COLUMN
    after = re.search(rb"^(?:kind=|year=|age=)", data, re.M)
    return SHEET if not after else ASKED if after[0] == b"kind=" else JUDGED


def cut(data: bytes) -> Tuple[bytes, bytes]:
    """The sheet at the front of an input, of as many lines as its first one says, and what follows."""
    lines = lines_in(data)
    count = 372 if lines[:1] == [b"table=LILEE\n"] else 370
    return b"".join(lines[:count]), b"".join(lines[count:])


def year_line(data: bytes) -> Tuple[bytes, bytes]:
    """The first line, with its line feed, and what follows."""
    at = data.find(b"\n") + 1
    return (data[:at], data[at:]) if at else (data, b"")


# ---- the library's answer

@functools.lru_cache(None)
def flat(start: int) -> Sheet:
    """A sheet of which no cell is steep, to ask what does not depend on the parameters."""
    return Sheet(write([1, 0, 0, 0, 0, 0, start, 0] + [-(10**9), 0, 0, 0] * 91))


def refusal(call: Callable, *given: Any) -> int:
    """The number by which a call is refused, else 0."""
    try:
        call(*given)
    except Refused as refused:
        return refused.number
    return 0


def number_in(answer: bytes) -> int:
    """The refusal at the end of an answer, else 0."""
    found = re.search(rb"(?:^| )no=([0-9]+)$", answer)
    return int(found[1]) if found else 0


def answered(sheet: Sheet, queries: bytes) -> List[int]:
    """The refusal of each query's line, else 0, by the run of a sheet."""
    if len(sheet.data) + len(queries) > LONGEST_INPUT:
        return [TORN]
    return [number_in(line) for line in run(sheet.data + queries).splitlines()]


def by_any_sheet(asked: Callable[[Sheet], List[int]]) -> List[int]:
    """The refusals of lines by no sheet of their own: those that both the first start year and the last give, which have all years
    between them; the year is the reason only where both give that."""
    both = zip(asked(flat(FIRST_START)), asked(flat(LAST_START)))
    return [0 if 0 in pair else next((no for no in pair if no != NO_YEAR), NO_YEAR) for pair in both]


def column_number(sheet: Optional[Sheet], data: bytes) -> int:
    """The refusal of a column, with the line of its year or, if no sheet is given, without one."""
    year, column = None, data
    if sheet or data.startswith(b"year="):
        head, column = year_line(data)
        if not (head.startswith(b"year=") and head.endswith(b"\n") and NUMBER.fullmatch(head[5:-1])):
            return TORN
        year = int(head[5:-1])
    tried = [sheet] if sheet else [flat(FIRST_START), flat(LAST_START)]
    numbers = [refusal(one.verdict, one.years[0] if year is None else year, column) for one in tried]
    return 0 if 0 in numbers else numbers[0]


def refused_by(data: bytes, what: str, sheet: Optional[Sheet]) -> int:
    """The library's number for a file, else 0."""
    if what in (ASKED, JUDGED):
        front, rest = cut(data)
        number = TORN if len(data) > LONGEST_INPUT else refusal(read, front)
        if number:
            return number
        sheet, data = Sheet(front), rest
    if what == SHEET:
        return refusal(read, data)
    if what in (COLUMN, JUDGED):
        return column_number(sheet, data)
    numbers = answered(sheet, data) if sheet else by_any_sheet(lambda one: answered(one, data))
    return next(filter(None, numbers), 0)


# ---- bytes that no file has

def cleaned(data: bytes, what: str) -> Tuple[bytes, List[Finding]]:
    """The data with what editors and spreadsheets leave in them taken out, and what that was."""
    found = []
    if not data and what != QUERIES:
        found.append(Finding(0, "", "an empty file", TITLES[what]))
    if data[:2] in (b"\xff\xfe", b"\xfe\xff"):
        found.append(Finding(1, "", "UTF-16", "plain bytes", "save the file as UTF-8 without a byte order mark"))
    if data.startswith(BOM):
        found.append(Finding(1, "", "a byte order mark", "none", "save the file as UTF-8 without it"))
        data = data[len(BOM) :]
    crs = data.count(b"\r\n")
    if crs:
        line = data[: data.index(b"\r\n")].count(b"\n") + 1
        found.append(Finding(line, "", f"CR LF at the end of {crs} lines", "a line feed alone", "`tr -d '\\r'` takes them out"))
        data = data.replace(b"\r\n", b"\n")
    if b"\r" in data and b"\n" not in data:
        found.append(Finding(1, "", "CR at the ends of lines", "a line feed", "`tr '\\r' '\\n'` makes them such"))
    if data and not data.endswith(b"\n"):
        found.append(Finding(data.count(b"\n") + 1, "", "no line feed at the end of the last line", "one at the end of each line"))
        data += b"\n"
    return data, found


def number_hint(value: bytes, key: str = "") -> str:
    """What may be wrong with a number."""
    if DECIMAL.fullmatch(value) and key.split(".")[0] in units.UNITS:
        unit = units.unit_of(key)
        number, exact = units.whole(units.Decimal(value.replace(b",", b".").decode()), unit)
        size = "a whole year" if not unit.decimals else f"whole units of 10^-{unit.decimals}"
        return f"{size}; {value.decode()} is {'' if exact else 'about '}{number}, and `kulfizan sheet` takes decimals"
    if re.fullmatch(rb"-?[0-9]{16,}", value):
        return "at most 15 digits"
    if re.fullmatch(rb"\+[0-9]+|-?0[0-9]*", value):
        return "no plus, no zero in front, and 0 alone for nothing"
    if value != value.strip():
        return "no spaces and no CR"
    return "a decimal is none" if DECIMAL.fullmatch(value) else ""


# ---- a sheet

def value_fault(line: int, key: str, value: bytes) -> Iterator[Finding]:
    """What is wrong with the value of a key."""
    words = {"table": (b"AG2014", b"LILEE"), "sex": (b"M", b"F")}.get(key)
    if words:
        if value not in words:
            hint = "with nothing beside it" if value.strip() in words else ""
            yield Finding(line, key, shown(value), " or ".join(word.decode() for word in words), hint)
    elif not NUMBER.fullmatch(value):
        yield Finding(line, key, shown(value), "a whole number", number_hint(value, key))


def key_of(line: bytes) -> str:
    """What stands before the `=` of a line, or nothing where there is none."""
    key, equals, _ = line.partition(b"=")
    return key.decode("latin-1") if equals else ""


def sheet_lines(lines: List[bytes], expected: List[str]) -> Iterator[Finding]:
    """What is wrong with the lines of a sheet, held against the keys in their order: a key that is missing, one that stands there
    instead of another, and lines too many."""
    places, at = {key: place for place, key in enumerate(expected)}, 0
    for number, line in enumerate(lines, 1):
        key, wanted = key_of(line), expected[at] if at < len(expected) else ""
        if key and places.get(key, -1) > at:
            missing = expected[at : places[key]]
            hint = "1 line is missing" if len(missing) == 1 else f"{len(missing)} lines are missing, to {missing[-1]}"
            yield Finding(number, wanted, f"{key}=", f"{wanted}=", hint)
            at = places[key]
        elif not wanted:
            yield Finding(number, "", shown(line), f"nothing after {expected[-1]}", "an empty line" if not line else "")
            continue
        elif key != wanted:
            again = "it stands above already" if key in places else ""
            yield Finding(number, wanted, shown(line), f"{wanted}=", again)
            at += not (number < len(lines) and key_of(lines[number]) == wanted)
            continue
        yield from value_fault(number, key, line.partition(b"=")[2])
        at += 1
    if at < len(expected):
        yield Finding(len(lines), expected[at], "the end", f"{expected[at]}=", f"{len(expected) - at} lines are missing")


def sheet_findings(data: bytes) -> Iterator[Finding]:
    """What is wrong with a sheet: its form or, if that is right, its sizes."""
    lines = data.split(b"\n")[:-1]
    later = lines[:1] == [b"table=LILEE"] or lines[:1] != [b"table=AG2014"] and any(line.startswith(b"start=") for line in lines)
    expected = ["table", "sex", *units.keys("LILEE" if later else "AG2014")]
    torn = list(sheet_lines(lines, expected))
    yield from torn
    if not torn:
        values = {key: int(line.partition(b"=")[2]) for key, line in zip(expected[2:], lines[2:])}
        for key, found, wanted in off_scale(values):
            yield Finding(expected.index(key) + 1, key, found, wanted)


# ---- queries

def fields_of(kind: str) -> List[str]:
    """The names of a kind's numbers, in their order."""
    return ["age", "year", "date" if KINDS[kind].date else "span"] + ["rate"] * KINDS[kind].rate


def torn_query(number: int, line: bytes) -> Optional[Finding]:
    """What is wrong with the form of a query's line, None where nothing is."""
    words = line.split(b" ")
    kind = words[0][5:].decode("latin-1")
    if not words[0].startswith(b"kind="):
        return Finding(number, "kind", shown(words[0]), "kind=", line_hint(line))
    if kind not in KINDS:
        hint = "a couple's query, which the program `couples` takes" if kind in COUPLE_KINDS else ""
        return Finding(number, "kind", shown(words[0][5:]), f"one of {', '.join(KINDS)}", hint)
    for at, name in enumerate(fields_of(kind), 1):
        word = words[at] if at < len(words) else b""
        key, equals, value = word.partition(b"=")
        if key.decode("latin-1") != name or not equals:
            found = "the end of the line" if at >= len(words) else shown(word)
            return Finding(number, name, found, f"{name}=", field_hint(kind, name, word, at < len(words)))
        if not NUMBER.fullmatch(value):
            hint = "in millionths: 3% is 30000" if name == "rate" else number_hint(value)
            return Finding(number, name, shown(value), "a whole number", hint)
    rest = b" ".join(words[len(fields_of(kind)) + 1 :])
    if len(words) > len(fields_of(kind)) + 1:
        hint = f"{kind} takes no rate" if rest.startswith(b"rate=") else "a space is one too many" if not rest.strip() else ""
        return Finding(number, "", shown(rest) if rest else "a space", f"the end of the line after {fields_of(kind)[-1]}", hint)
    return None


def line_hint(line: bytes) -> str:
    """What a line may be that is no query."""
    if line.startswith(b"table="):
        return "a second sheet, which the programs `compare` and `couples` take: check each alone"
    if b" target=" in line:
        return "a line of `targets`, which that program takes"
    return "a column's line" if b" q=" in line else "" if line else "an empty line"


def field_hint(kind: str, name: str, word: bytes, there: bool) -> str:
    """What may be wrong with a field."""
    if name == "rate":
        return f"the price of {kind} has a rate, in millionths"
    if name in ("span", "date") and word.startswith((b"span=", b"date=")):
        return f"{kind} takes a {name}"
    return "one space between two fields" if there and not word else ""


def refused_query(number: int, line: bytes, no: int, sheet: Sheet) -> Finding:
    """Why a query of the right form is refused."""
    words = line.decode("ascii").split(" ")
    kind = words[0][5:]
    given = {key: int(value) for key, value in (word.split("=") for word in words[1:])}
    age, year, term = given["age"], given["year"], given.get("span", given.get("date", 0))
    name = "date" if KINDS[kind].date else "span"
    if no == STEEP:
        cell = Grid(sheet).first_steep(path(sheet.start, kind, age, year, term))
        return Finding(number, kind, "a steep cell", "none", cell.told() if cell else "")
    years = sheet.q_years if KINDS[kind].far else sheet.years
    spans = f"0 to {121 - age}, that is to age 121" if KINDS[kind].span else f"0 for {kind}"
    told = {
        3: ("age", str(age), "0 to 120"),
        4: ("year", str(year), f"{years[0]} to {years[-1]} for {kind} of this sheet"),
        5: (name, str(term), f"{year}0101 to {year + 120 - age}1231" if name == "date" else spans),
        8: ("rate", str(given.get("rate")), "0 to 200000, in millionths: 30000 is 3%"),
        10: ("date", str(term), "a day YYYYMMDD"),
    }
    return Finding(number, *told[no])


def query_findings(queries: bytes, sheet: Optional[Sheet], before: int) -> Iterator[Finding]:
    """What is wrong with query lines after so many others."""
    lines = [line.rstrip(b"\n") for line in lines_in(queries)]
    asked = sheet or flat(FIRST_START)
    numbers = refusals(lines, sheet) if sheet else by_any_sheet(lambda one: refusals(lines, one))
    for number, (line, no) in enumerate(zip(lines, numbers), before + 1):
        torn = torn_query(number, line)
        if torn:
            yield torn
        elif no:
            found = refused_query(number, line, no, asked)
            yield found if sheet or no != NO_YEAR else found._replace(wanted="a year that some start year from 2013 to 2033 offers")


def refusals(lines: List[bytes], sheet: Sheet) -> List[int]:
    """The refusal of each line, else 0, however many there are."""
    answers = sheet.run((line.decode("utf-8", "surrogateescape") for line in lines), ends=False)
    return [number_in(answer.encode()) for answer in answers]


# ---- a column

def entry_fault(number: int, line: bytes) -> Optional[Finding]:
    """What is wrong with the form of a column's line, None where nothing is."""
    words = line.split(b" ")
    for at, name in enumerate(("age", "q")):
        word = words[at] if at < len(words) else b""
        key, equals, value = word.partition(b"=")
        if key.decode("latin-1") != name or not equals:
            return Finding(number, name, shown(word), f"{name}=", "age=65 q=0.00796 is a line" if line else "an empty line")
        if name == "age" and not (NUMBER.fullmatch(value) and int(value) in AGES):
            return Finding(number, name, shown(value), "0 to 120", number_hint(value))
        if name == "q" and not STEPS.fullmatch(value):
            hint = "a decimal point" if b"," in value else "as 0.00796"
            return Finding(number, name, shown(value), "one digit, a point and five decimals", hint)
    if len(words) > 2:
        return Finding(number, "", shown(b" ".join(words[2:])), "the end of the line after q", "nothing behind it, no space either")
    return None


def column_findings(column: bytes, before: int) -> Iterator[Finding]:
    """What is wrong with a column after so many other lines. After a row out of its order the next age is wanted."""
    count, wanted = before, 0
    for count, line in enumerate(column.split(b"\n")[:-1], before + 1):
        fault = entry_fault(count, line)
        age = wanted if fault else int(line.partition(b" ")[0][4:])
        if fault:
            yield fault
        elif age != wanted:
            here = f"age {wanted}" if wanted in AGES else "the end after age 120"
            yield Finding(count, "age", f"age {age}", here, "rows go upward from age 0 to 120")
        wanted = age + 1
    if wanted in AGES:
        yield Finding(count, "age", "the end", f"the rows from age {wanted} to 120", "a column has 121 lines")


def dated_column(data: bytes, sheet: Optional[Sheet], before: int) -> Iterator[Finding]:
    """What is wrong with a column and the line of its year, which stands before it, or may where there is no sheet."""
    if sheet or data.startswith(b"year="):
        head, data = year_line(data)
        value = head.rstrip(b"\n")[5:]
        if not head.startswith(b"year="):
            yield Finding(before + 1, "year", shown(head.rstrip(b"\n")), "year=", "the column's year, in a line before it")
            data = head + data
            before -= 1
        elif not NUMBER.fullmatch(value):
            yield Finding(before + 1, "year", shown(value), "a whole number", number_hint(value))
        else:
            first, last = (sheet or flat(FIRST_START)).q_years[0], (sheet or flat(LAST_START)).q_years[-1]
            if not first <= int(value) <= last:
                yield Finding(before + 1, "year", value.decode(), f"{first} to {last}")
            elif sheet:
                yield from steep_column(sheet, int(value), before + 1)
        before += 1
    yield from column_findings(data, before)


def steep_column(sheet: Sheet, year: int, line: int) -> Iterator[Finding]:
    """A cell out of range in the year of a column."""
    cell = Grid(sheet).first_steep((age, year) for age in AGES)
    if cell:
        yield Finding(line, "year", "a steep cell", "none", cell.told())


# ---- a file

def sheet_part(data: bytes) -> bytes:
    """The lines before the first query or the year of a column."""
    after = re.search(rb"^(?:kind=|year=|age=)", data, re.M)
    return data[: after.start()] if after else data


def inner(data: bytes, what: str, sheet: Optional[Sheet]) -> Iterator[Finding]:
    """What is wrong with a file whose bytes are clean."""
    before = 0
    if what in (ASKED, JUDGED):
        front, rest = cut(data)
        if refusal(read, front):
            yield from sheet_findings(sheet_part(data))
            return
        sheet, data, before = Sheet(front), rest, front.count(b"\n")
    if what == SHEET:
        yield from sheet_findings(data)
    elif what in (COLUMN, JUDGED):
        yield from dated_column(data, sheet, before)
    else:
        yield from query_findings(data, sheet, before)


def too_long(data: bytes, what: str, sheet: Optional[Sheet]) -> Iterator[Finding]:
    """More bytes than are read, those of the sheet before queries included."""
    more = len((sheet or flat(FIRST_START)).data) if what == QUERIES else 0
    if what != COLUMN and len(data) + more > LONGEST_INPUT:
        hint = "cut the queries into more runs" if what in (QUERIES, ASKED) else ""
        wanted = f"at most {LONGEST_INPUT:,}{' with the sheet in front' if more else ''}"
        yield Finding(0, "", f"{len(data):,} bytes", wanted, hint)


def checked(data: bytes, what: Optional[str] = None, sheet: Optional[Sheet] = None) -> Checked:
    """What a file is, whether the library refuses it, and what was found wrong. Queries and columns may be held against a sheet;
    without one they are refused where every sheet refuses them, its cells aside."""
    what = what or what_is(data)
    clean, found = cleaned(data, what)
    found = [*too_long(data, what, sheet), *found]
    if clean:
        found.extend(inner(clean, what, sheet))
    return Checked(what, refused_by(data, what, sheet), found)


# ---- the command

def notes(data: bytes, what: str) -> Iterator[str]:
    """What is worth knowing of an accepted sheet."""
    if what in (SHEET, ASKED, JUDGED):
        sheet = Sheet(cut(data)[0])
        yield f"table {sheet.table}, sex {sheet.sex}, quotes {sheet.years[0]} to {sheet.years[-1]}, q to {sheet.q_years[-1]}"
        steep = list(Grid(sheet).steep_cells())
        if steep:
            cells = "1 cell is" if len(steep) == 1 else f"{len(steep):,} cells are"
            yield f"{cells} steep, so that queries that need them are refused as 6; the first is {steep[0].told()}"


def tell(name: str, data: bytes, what: Optional[str], sheet: Optional[Sheet]) -> bool:
    """Prints what is said of a file; whether it is accepted."""
    done = checked(data, what, sheet)
    if not done.number:
        print(f"{name}: {TITLES[done.what]}: accepted")
        for note in notes(data, done.what):
            print(f"{name}: {note}")
        return True
    for finding in done.findings[:SHOWN]:
        print(finding.told(name))
    more = f"; and {len(done.findings) - SHOWN} more" if len(done.findings) > SHOWN else ""
    print(f"{name}: {TITLES[done.what]}: refused as {done.number}, {REFUSALS[done.number].partition(':')[0]}{more}")
    return False


def run_check(args: argparse.Namespace) -> int:
    sheet = cli.sheet(args.sheet) if args.sheet else None
    good = True
    with cli.progress(len(args.files), "files") as shown_so_far:
        for name in args.files:
            good &= tell("standard input" if name == "-" else name, cli.read(name), args.what, sheet)
            shown_so_far.step()
    return 0 if good else 1


TEXT = """What is wrong with a sheet, with queries or with a column, by line and key: what was found and what
is wanted. A file may be a sheet, a sheet with queries or with a year and a column behind it, or
queries or a column alone, which --sheet holds against a sheet. The library decides whether it is
accepted, and the command says where to look; of steep cells (refused as 6) it names the first by
age and year. Exit status 1: a file is refused."""


def add(commands: Any) -> None:
    """The parser of the command."""
    parser = cli.command(commands, "check", "what is wrong with a sheet, queries or a column", TEXT, (
        "kulfizan check women.sheet desk.queries\nkulfizan check --sheet women.sheet desk.queries"))
    parser.add_argument("files", metavar="FILE", nargs="+", help="files, or - for standard input")
    parser.add_argument("--sheet", metavar="SHEET", help="hold queries and columns against this sheet")
    parser.add_argument("--as", dest="what", choices=KINDS_OF_FILE, metavar="WHAT",
                        help="sheet, queries, column, sheet+queries or sheet+column, if the first lines do not tell")
    parser.set_defaults(run=run_check)
