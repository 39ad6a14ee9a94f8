"""The commands `sheet` and `csv`: the decimals of a fit, in CSV files, to a sheet and back, exactly.

A fit is one row for each age, with the columns age, A, B, alpha and beta by their names in the first line; the series is one row
with a, theta, K and k, or a row for each of them with its name and its number. Numbers are decimals with a point or a comma; fields
are parted by `,`, `;` or tabs, and may stand in quotes.
"""
import argparse
import csv
import io
import os
import re
from decimal import Decimal
from typing import Any, Dict, Iterator, List, NamedTuple, Optional, Tuple

from . import cli, units
from .cells import Grid, off_scale
from .library import SEXES, TABLES, Refused
from .sheets import Sheet, write
from .units import AGES, FIRST_START, LATER, RUNS, SERIES, Unit

NUMBER = re.compile(r"[+-]?(?:[0-9]+(?:[.,][0-9]*)?|[.,][0-9]+)(?:[eE][+-]?[0-9]{1,2})?")
LONGEST_NUMBER = 100
# Names of columns, beside the parameters' own; those of a fit in small or capital letters alike.
AGE = Unit("age", "age", 0, 90)
FIT_NAMES = {"age": AGE, "leeftijd": AGE, "x": AGE, "a": RUNS[0], "b": RUNS[1], "alpha": RUNS[2], "al": RUNS[2], "\u03b1": RUNS[2],
             "beta": RUNS[3], "be": RUNS[3], "\u03b2": RUNS[3]}
SERIES_NAMES = {"a": SERIES[0], "theta": SERIES[1], "Theta": SERIES[1], "\u03b8": SERIES[1], "K": SERIES[2], "k": SERIES[3],
                "kappa": SERIES[3], "Kappa": SERIES[3], "\u03ba": SERIES[3], "start": LATER[0], "c": LATER[1]}


class Field(NamedTuple):
    """A number's text and its place."""
    text: str
    line: int
    name: str


class Given(NamedTuple):
    """A number in its unit, and its place."""
    value: int
    place: str


# ---- CSV files

def decoded(path: str, data: bytes) -> str:
    """A file's text: UTF-8 with or without a byte order mark, or else bytes that stand for themselves."""
    if data[:2] in (b"\xff\xfe", b"\xfe\xff"):
        raise cli.Fault(f"{path}:1: the file is UTF-16; save it as CSV in UTF-8")
    try:
        return data.decode("utf-8-sig")
    except UnicodeDecodeError:
        return data.decode("latin-1")


def parting(text: str) -> Tuple[str, str, int]:
    """The delimiter, the text after a first line `sep=;` of a spreadsheet, and how many lines were skipped."""
    first, _, rest = text.partition("\n")
    said = re.fullmatch(r"sep=([,;\t])", first.strip("\r"))
    if said:
        return said[1], rest, 1
    head = next((line for line in text.splitlines() if line.strip()), "")
    return next((mark for mark in ";\t" if mark in head), ","), text, 0


def rows_of(path: str) -> List[Tuple[int, List[str]]]:
    """The rows of a CSV file that are not blank, each with the number of its first line."""
    delimiter, text, skipped = parting(decoded(path, cli.read(path)))
    reader, out, line = csv.reader(io.StringIO(text, newline=""), delimiter=delimiter, strict=True), [], 1
    try:
        for row in reader:
            if any(field.strip() for field in row):
                out.append((line + skipped, [field.strip() for field in row]))
            line = reader.line_num + 1
    except csv.Error as error:
        raise cli.Fault(f"{path}:{max(1, reader.line_num + skipped)}: {error}") from None
    if not out:
        raise cli.Fault(f"{path}:1: the file is empty")
    return out


class Numbers:
    """The numbers of one file: which mark stands before their decimals, and those with more digits than their unit."""

    def __init__(self, path: str) -> None:
        self.path = path
        self.mark: Optional[Tuple[str, int]] = None
        self.long: List[str] = []

    def place(self, field: Field) -> str:
        return f"{self.path}:{field.line}: column {field.name}"

    def take(self, field: Field, unit: Unit) -> Given:
        """A field's number in its unit; one with more digits is rounded, and kept count of."""
        text, place = field.text.replace("\u2212", "-"), self.place(field)
        if len(text) > LONGEST_NUMBER or not NUMBER.fullmatch(text):
            raise cli.Fault(f"{place}: found {short(field.text)}, and a decimal number is wanted")
        for mark in ".,":
            if mark in text:
                self.mark = self.mark or (mark, field.line)
                if self.mark[0] != mark:
                    raise cli.Fault(f"{place}: {text} has `{mark}`, but numbers have `{self.mark[0]}` since line {self.mark[1]}")
        value, exact = units.whole(Decimal(text.replace(",", ".")), unit)
        if not exact:
            self.long.append(f"{place}: {text} has more digits than {unit.name}'s unit, {named(unit)}")
        return Given(value, place)


def named(unit: Unit) -> str:
    """A unit's size in words."""
    return f"10^-{unit.decimals}" if unit.decimals else "one year"


def short(text: str) -> str:
    """A text as it is shown, of at most 40 characters."""
    return "nothing" if not text else ascii(text if len(text) <= 40 else text[:37] + "...")


def header(path: str, rows: List[Tuple[int, List[str]]], names: Dict[str, Unit], fold: bool) -> Dict[int, Unit]:
    """The columns that are used, by their places; those that are not are told."""
    line, fields = rows[0]
    found: Dict[int, Unit] = {}
    for at, name in enumerate(fields):
        unit = names.get(name.casefold() if fold else name)
        if unit is None:
            if name:
                cli.tell(f"kulfizan: {path}:{line}: column {short(name)} is not used")
        elif unit in found.values():
            raise cli.Fault(f"{path}:{line}: column {unit.name} stands twice")
        else:
            found[at] = unit
    return found


def wanting(path: str, line: int, found: Dict[int, Unit], wanted: Tuple[Unit, ...]) -> None:
    """A fault where a column is missing."""
    missing = [unit.name for unit in wanted if unit not in found.values()]
    if missing:
        names = ", ".join(unit.name for unit in wanted)
        raise cli.Fault(f"{path}:{line}: no column {', '.join(missing)}: the first line names the columns {names}")


def fields_of(path: str, row: Tuple[int, List[str]], columns: Dict[int, Unit], width: int) -> Dict[Unit, Field]:
    """The fields of a row that are used."""
    line, fields = row
    if len(fields) < width or any(fields[width:]):
        hint = "; a decimal comma wants `;` between fields, or quotes" if len(fields) > width else ""
        raise cli.Fault(f"{path}:{line}: found {len(fields)} fields, and {width} are wanted, as in the first line{hint}")
    return {unit: Field(fields[at], line, unit.name) for at, unit in columns.items()}


def width_of(fields: List[str]) -> int:
    """How many fields a first line names, empty ones at its end aside."""
    return max(at + 1 for at, field in enumerate(fields) if field)


# ---- a fit and its series

def fit(path: str, numbers: Numbers) -> Dict[str, Given]:
    """The numbers of the ages, by their keys."""
    rows = rows_of(path)
    columns = header(path, rows, FIT_NAMES, True)
    wanting(path, rows[0][0], columns, (AGE, *RUNS))
    out: Dict[str, Given] = {}
    lines: Dict[int, int] = {}
    for row in rows[1:]:
        fields = fields_of(path, row, columns, width_of(rows[0][1]))
        text = fields[AGE].text
        if not re.fullmatch("[0-9]{1,3}", text) or int(text) not in AGES:
            raise cli.Fault(f"{numbers.place(fields[AGE])}: found {short(text)}, and an age from 0 to 90 is wanted")
        age = int(text)
        if age in lines:
            raise cli.Fault(f"{numbers.place(fields[AGE])}: age {age} stands in line {lines[age]} already")
        lines[age] = row[0]
        out.update((f"{unit.key}.{age}", numbers.take(fields[unit], unit)) for unit in RUNS)
    missing = [str(age) for age in AGES if age not in lines]
    if missing:
        more = f" and {len(missing) - 5} more" if len(missing) > 5 else ""
        raise cli.Fault(f"{path}:{rows[-1][0]}: no row of age {', '.join(missing[:5])}{more}: ages 0 to 90 are wanted")
    return out


def series(path: str, numbers: Numbers) -> Dict[str, Given]:
    """The numbers of the series, by their keys, from one row under their names or from a row for each."""
    rows = rows_of(path)
    upright = [name for name in rows[0][1] if name in SERIES_NAMES]
    fields = in_a_row(path, rows) if len(upright) > 1 else by_name(path, rows)
    return {unit.key: numbers.take(field, unit) for unit, field in fields.items()}


def in_a_row(path: str, rows: List[Tuple[int, List[str]]]) -> Dict[Unit, Field]:
    columns = header(path, rows, SERIES_NAMES, False)
    wanting(path, rows[0][0], columns, SERIES)
    if len(rows) != 2:
        raise cli.Fault(f"{path}:{rows[-1][0]}: found {len(rows) - 1} rows under the names, and one is wanted")
    return fields_of(path, rows[1], columns, width_of(rows[0][1]))


def by_name(path: str, rows: List[Tuple[int, List[str]]]) -> Dict[Unit, Field]:
    if rows[0][1][0] not in SERIES_NAMES:
        rows = rows[1:]
    out: Dict[Unit, Field] = {}
    for line, fields in rows:
        name = fields[0]
        if name not in SERIES_NAMES:
            raise cli.Fault(f"{path}:{line}: found {short(name)}, and one of a, theta, K, k, start or c is wanted")
        if len(fields) < 2 or any(fields[2:]):
            hint = "; a decimal comma wants `;` between fields, or quotes" if len(fields) > 2 else ""
            raise cli.Fault(f"{path}:{line}: found {len(fields)} fields, and a name and its number are wanted{hint}")
        unit = SERIES_NAMES[name]
        if unit in out:
            raise cli.Fault(f"{path}:{line}: {unit.name} stands in line {out[unit].line} already")
        out[unit] = Field(fields[1], line, unit.name)
    missing = [unit.name for unit in SERIES if unit not in out]
    if missing:
        last, names = rows[-1][0] if rows else 1, ", ".join(missing)
        raise cli.Fault(f"{path}:{last}: no {names}: the series has a, theta, K and k, under their names or beside them")
    return out


# ---- start and c

def later(args: argparse.Namespace, found: Dict[str, Given], numbers: Numbers) -> None:
    """Start and c, which a sheet of LILEE has, from the options or from the series file."""
    for unit, option in zip(LATER, (args.start, args.c)):
        if option is not None:
            given = numbers.take(Field(option.strip(), 0, unit.name), unit)._replace(place=f"--{unit.key} {option}")
            if unit.key in found and found[unit.key].value != given.value:
                raise cli.Fault(f"{found[unit.key].place}: has another {unit.name} than {given.place}")
            found[unit.key] = given
    if args.table == TABLES[0]:
        for unit, value in zip(LATER, (FIRST_START, 0)):
            given = found.setdefault(unit.key, Given(value, ""))
            if given.value != value:
                raise cli.Fault(f"{given.place}: a sheet of AG2014 has start 2013 and c 0; --table LILEE takes others")
    for unit in LATER:
        if unit.key not in found:
            raise cli.Fault(f"{args.series}: no {unit.name}: a sheet of LILEE wants --{unit.key}, or it in the series file")


# ---- slips of units

def slips(sheet: Sheet) -> Iterator[str]:
    """What looks like a slip of units, in words."""
    for name, run, low, high in (("B", sheet.slope, 90, 110), ("beta", sheet.beta, 50, 200)):
        total = sum(run)
        if any(run) and not low * 10**6 <= total <= high * 10**6 or name == "B" and not any(run):
            yield f"the sum of {name} is {units.text(total, 8)}, and that of a fit is 1 or near it"
    if not 5 * 10**7 <= sheet.a <= 10**8:
        yield f"a is {units.text(sheet.a, 8)}, and that of a fit lies between 0.5 and 1"
    mean = sum(map(abs, sheet.alpha)) // len(AGES)
    if mean > 3 * 10**8:
        yield f"alpha has the size {units.text(mean, 9):.4} on average, and that of a fit is below 0.3"
    if sheet.theta and abs(sheet.K) > 100 * abs(sheet.theta):
        yield f"K is {abs(sheet.K) // abs(sheet.theta)} times theta in size, a year's step, and that of a fit is at most 100 times"
    yield from expectancies(sheet)


def expectancies(sheet: Sheet) -> Iterator[str]:
    """What the library's expectancies at 65 tell, in the first quote year and in the last."""
    quotes = []
    for year in (sheet.years[0], sheet.years[-1]):
        try:
            quotes.append(sheet.quote("eper", 65, year))
        except Refused:
            cell = Grid(sheet).first_steep((age, year) for age in range(65, 121))
            yield f"the period expectancy at 65 in {year} is refused as 6, steep{f': {cell.told()}' if cell else ''}"
            continue
        if quotes[-1].high < 10 or quotes[-1].low > 35:
            yield f"the period expectancy at 65 in {year} is about {quotes[-1].low:.1f}, and one from 10 to 35 is expected"
    if len(quotes) == 2:
        change = quotes[1].low - quotes[0].low
        if not 1 <= change <= 12:
            years = f"from {sheet.years[0]} to {sheet.years[-1]}"
            yield f"the period expectancy at 65 changes by about {change:.1f} {years}, and 1 to 12 is expected: see theta and B"


# ---- the commands

def sheet_of(args: argparse.Namespace) -> Tuple[List[int], Dict[str, Given], int]:
    """The 372 numbers of the two files, the places of those that have one, and how many were rounded."""
    files = Numbers(args.fit), Numbers(args.series), Numbers("the options")
    found = series(args.series, files[1])
    later(args, found, files[2])
    found.update(fit(args.fit, files[0]))
    long = [message for one in (files[1], files[2], files[0]) for message in one.long]
    if long and not args.round:
        more = f"; and {len(long) - 1} more such" if len(long) > 1 else ""
        raise cli.Fault(f"{long[0]}{more}; --round rounds them", 1)
    head = [TABLES.index(args.table), SEXES.index(args.sex), *(found[unit.key].value for unit in (*SERIES, *LATER))]
    return head + [found[f"{unit.key}.{age}"].value for age in AGES for unit in RUNS], found, len(long)


def accepted(values: List[int], found: Dict[str, Given]) -> Sheet:
    """The sheet of the numbers by the library, or what is past its size."""
    try:
        return Sheet(write(values))
    except Refused as refused:
        told = [f"{found[key].place or key}: {key} is off scale: found {what}, wanted {wanted}"
                for key, what, wanted in off_scale({key: given.value for key, given in found.items()})]
        more = f"; and {len(told) - 1} more such" if len(told) > 1 else ""
        raise cli.Fault(f"{told[0]}{more}" if told else str(refused), 1) from None


def run_sheet(args: argparse.Namespace) -> int:
    values, found, rounded = sheet_of(args)
    sheet = accepted(values, found)
    if rounded:
        numbers = "1 number is" if rounded == 1 else f"{rounded} numbers are"
        cli.tell(f"kulfizan: {numbers} rounded to the unit: the figures are then of the rounded sheet")
    for message in slips(sheet):
        cli.tell(f"kulfizan: warning: {message}; the sheet is written all the same")
    cli.write(args.output, sheet.data)
    return 0


def csv_text(rows: List[List[str]], dutch: bool) -> str:
    """Rows as CSV, with `;` and a decimal comma for a Dutch spreadsheet."""
    lines = [(";" if dutch else ",").join(row) for row in rows]
    return "".join((line.replace(".", ",") if dutch else line) + "\n" for line in lines)


def fit_rows(sheet: Sheet) -> List[List[str]]:
    runs = sheet.level, sheet.slope, sheet.alpha, sheet.beta
    rows = [[str(age), *(units.text(run[age], unit.decimals) for unit, run in zip(RUNS, runs))] for age in AGES]
    return [["age", *(unit.name for unit in RUNS)], *rows]


def series_rows(sheet: Sheet) -> List[List[str]]:
    used = SERIES if sheet.table == TABLES[0] else SERIES + LATER
    return [[unit.name for unit in used], [units.text(getattr(sheet, unit.key), unit.decimals) for unit in used]]


def free(path: str, option: str) -> str:
    """A file's name that is not taken yet."""
    if os.path.exists(path):
        raise cli.Fault(f"{path}: the file is there already; {option} names one that may be written over")
    return path


def run_csv(args: argparse.Namespace) -> int:
    sheet = cli.sheet(args.sheet)
    stem = "sheet" if args.sheet == "-" else args.sheet[: -len(".sheet")] if args.sheet.endswith(".sheet") else args.sheet
    fit_path = args.fit or free(f"{stem}-fit.csv", "--fit")
    series_path = args.series or free(f"{stem}-series.csv", "--series")
    cli.write(fit_path, csv_text(fit_rows(sheet), args.excel_nl))
    cli.write(series_path, csv_text(series_rows(sheet), args.excel_nl))
    table = "" if sheet.table == TABLES[0] else f" --table {sheet.table}"
    cli.tell(f"kulfizan: the way back: kulfizan sheet {fit_path} {series_path} --sex {sheet.sex}{table} -o {args.sheet}")
    return 0


SHEET_TEXT = """A fit's decimals to a sheet, exactly. FIT.csv has a row for each age from 0 to 90, with the columns
age, A, B, alpha and beta; SERIES.csv has one row with a, theta, K and k, or a row for each, its
name first. Columns go by the names in the first line. Fields are parted by `,`, `;` or tabs, and
decimals have a point or a comma. A, alpha, theta, K, k and c have at most 9 decimals, B, beta and a
8: a number with more is refused, unless --round. Sizes that look like a slip of units are warned
of. The library decides whether the sheet is accepted."""
CSV_TEXT = """A sheet's numbers as decimals in two CSV files, exactly: the way back of `kulfizan sheet`. Without
--fit and --series the files are named after the sheet, NAME-fit.csv and NAME-series.csv."""


def add(commands: Any) -> None:
    """The parsers of both commands."""
    parser = cli.command(commands, "sheet", "a fit's decimals, in CSV files, to a sheet", SHEET_TEXT, (
        "kulfizan sheet fit.csv series.csv --sex F -o women.sheet\n"
        "kulfizan sheet fit.csv series.csv --sex F --table LILEE --start 2020 --c 0.12 -o later.sheet"))
    parser.add_argument("fit", metavar="FIT.csv", help="the parameters of the ages")
    parser.add_argument("series", metavar="SERIES.csv", help="those of the series, K and k in the start year")
    parser.add_argument("--sex", choices=SEXES, required=True, help="a label in the sheet")
    parser.add_argument("--table", choices=TABLES, default=TABLES[0], help="AG2014, or LILEE for a later fit")
    parser.add_argument("--start", metavar="YEAR", help="LILEE: the start year of both series, 2013 to 2033")
    parser.add_argument("--c", metavar="C", help="LILEE: the constant that is added to kappa each year")
    parser.add_argument("--round", action="store_true", help="round numbers with more digits than their unit, and tell how many")
    parser.add_argument("-o", dest="output", metavar="FILE", default="-", help="the sheet's file; else standard output")
    parser.set_defaults(run=run_sheet)
    parser = cli.command(commands, "csv", "a sheet to the CSV files of its fit", CSV_TEXT, (
        "kulfizan csv women.sheet --fit fit.csv --series series.csv"))
    parser.add_argument("sheet", metavar="SHEET", help="a sheet's file, or - for standard input")
    parser.add_argument("--fit", metavar="FILE", help="the file for the parameters of the ages, or - for standard output")
    parser.add_argument("--series", metavar="FILE", help="the file for those of the series, or -")
    parser.add_argument("--excel-nl", action="store_true", help="`;` between fields and a decimal comma")
    parser.set_defaults(run=run_csv)
