"""The command `judge`: a published table of q held against a sheet, year by year.

The table is a CSV file with an age in each line and a column for each year, or the ages and one column. The verdict on a year
is the library's, on the column's text; the ages that are wrong or open are told with the library's figures and ends.
"""
import csv
import io
import re
from typing import Any, Dict, Iterator, List, NamedTuple, Optional, Tuple

from . import cli
from .library import REFUSALS, Refused
from .lists import OPEN, Row, rows
from .selections import Selection
from .sheets import Sheet, half_up, stepped
from .units import FINE

AGES = range(121)
DECIMALS = 5
NUMBER = re.compile(r"[+-]?([0-9]+([.,][0-9]*)?|[.,][0-9]+)([eE][+-]?[0-9]+)?")
ENTRY, AGE, YEAR = re.compile(r"[0-9][.,][0-9]{5}"), re.compile(r"[0-9]{1,3}"), re.compile(r"[0-9]{4}")
MOST_FAULTS, MOST_AGES = 20, 10
BOM = b"\xef\xbb\xbf"
DESCRIPTION = """A published table of q against a sheet: CSV with a line for each age from 0 to 120 and a column for
each year, named by it, or age,q with --year; `,` or `;` between cells, a decimal point or comma;
each q with five decimals. The library is the judge of each year: right, wrong, or open, where no
entry differs from a settled figure and one is not settled. Wrong and open ages are told with their
ends, and so are those that only the fine grid settles. Status 1 if a year is wrong or refused."""
EXAMPLE = """kulfizan judge women.sheet table.csv
kulfizan judge women.sheet column.csv --year 2020"""


class Line(NamedTuple):
    """A line of the file: its number and its cells."""
    number: int
    cells: List[str]


class Table(NamedTuple):
    """The entries of each year by age, with a point."""
    years: List[int]
    entries: Dict[int, Dict[int, str]]


class Faults:
    """What is wrong with a file, by line and column."""

    def __init__(self, path: str) -> None:
        self.path, self.found = path, []

    def add(self, line: int, column: Optional[int], name: str, what: str) -> None:
        where = "" if column is None else f"column {column}{f' ({name})' if name else ''}: "
        self.found.append(f"{self.path}:{line}: {where}{what}")

    def end(self) -> None:
        """Ends the command where anything is wrong."""
        if self.found:
            more = len(self.found) - MOST_FAULTS
            raise cli.Fault("\n".join(self.found[:MOST_FAULTS] + ([f"and {more:,} more"] if more > 0 else [])))


# ---- the file

def lines_of(path: str, data: bytes) -> List[Line]:
    """The lines that have anything in them, their cells divided by `;` where the first of them has one, and else by `,`."""
    data = data[len(BOM) :] if data.startswith(BOM) else data
    try:
        text = data.decode("utf-8")
    except UnicodeDecodeError as error:
        raise cli.Fault(f"{path}:{data[: error.start].count(10) + 1}: no UTF-8 text") from None
    if "\0" in text:
        raise cli.Fault(f"{path}:{text[: text.index(chr(0))].count(chr(10)) + 1}: a zero byte, which no text has")
    first = next((line for line in text.splitlines() if line.strip(" ;,")), text)
    reader = csv.reader(io.StringIO(text, newline=""), delimiter=";" if ";" in first else ",")
    out = []
    try:
        for cells in reader:
            cells = [cell.strip() for cell in cells]
            while cells and not cells[-1]:
                cells.pop()
            if cells:
                out.append(Line(reader.line_num, cells))
    except csv.Error as error:
        raise cli.Fault(f"{path}:{reader.line_num}: {error}") from None
    return out


def header(line: Line, year: Optional[int], faults: Faults) -> List[Tuple[int, int]]:
    """The columns, counted from 1, and their years, that the first line names. A second column that is no year is that of the
    option's year, where there are two columns."""
    if AGE.fullmatch(line.cells[0]):
        faults.add(line.number, 1, "", f"{line.cells[0]!r} is no name: the first line names the columns, as age,2014,2015")
        return []
    if len(line.cells) == 2 and year is not None and not YEAR.fullmatch(line.cells[1]):
        return [(2, year)]
    if len(line.cells) == 1:
        faults.add(line.number, 1, "", "there is one column, and two at least are wanted; cells are divided by `,` or `;`")
    out = {}
    for column, name in enumerate(line.cells[1:], 2):
        if not YEAR.fullmatch(name):
            hint = ", and --year is not given" if len(line.cells) == 2 else ""
            faults.add(line.number, column, "", f"{name!r} is no year{hint}")
        elif int(name) in out:
            faults.add(line.number, column, name, f"the year stands in column {out[int(name)]} too")
        else:
            out[int(name)] = column
    if year is not None and year not in out:
        faults.add(line.number, None, "", f"--year {year} is none of its columns")
    return [(column, one) for one, column in out.items() if year in (None, one)]


def complaint(cell: str) -> str:
    """What is wrong with an entry."""
    if not cell:
        return "is empty"
    if not NUMBER.fullmatch(cell):
        return f"{cell!r} is no number"
    return f"{cell!r} is not of one digit and five decimals, as 0.00310; a spreadsheet may have dropped last zeros"


def table_of(path: str, data: bytes, year: Optional[int]) -> Table:
    """The table of a file's bytes; with a year that one alone. Whatever is wrong is told by line and column."""
    faults = Faults(path)
    lines = lines_of(path, data)
    if not lines:
        raise cli.Fault(f"{path}:1: nothing stands in it")
    columns = header(lines[0], year, faults)
    faults.end()
    seen: Dict[int, int] = {}
    entries: Dict[int, Dict[int, str]] = {one: {} for _, one in columns}
    for number, cells in lines[1:]:
        age = age_of(number, cells[0], seen, faults)
        if len(cells) > len(lines[0].cells):
            faults.add(number, len(lines[0].cells) + 1, "", f"{cells[len(lines[0].cells)]!r} stands past the named columns")
        for column, one in columns:
            cell = cells[column - 1] if column <= len(cells) else ""
            if not ENTRY.fullmatch(cell):
                faults.add(number, column, str(one), complaint(cell))
            elif age is not None:
                entries[one][age] = cell.replace(",", ".")
    missing = [str(age) for age in AGES if age not in seen]
    if missing:
        some = missing[:MOST_AGES] + (["..."] if len(missing) > MOST_AGES else [])
        faults.add(lines[-1].number, 1, "age", f"up to here no line is of age {', '.join(some)}: {len(missing)} missing")
    faults.end()
    return Table([one for _, one in columns], entries)


def age_of(number: int, cell: str, seen: Dict[int, int], faults: Faults) -> Optional[int]:
    """The age of a line, None where it is none or stands in another line too."""
    if not AGE.fullmatch(cell) or int(cell) not in AGES:
        faults.add(number, 1, "age", f"{cell!r} is no age from 0 to 120" if cell else "is empty")
        return None
    age = int(cell)
    if age in seen:
        faults.add(number, 1, "age", f"age {age} stands in line {seen[age]} too")
        return None
    seen[age] = number
    return age


# ---- the verdicts

def column_of(entries: Dict[int, str]) -> bytes:
    """The text of a column that the library judges."""
    return b"".join(b"age=%d q=%b\n" % (age, entries[age].encode("ascii")) for age in AGES)


def said(row: Row, entry: str) -> str:
    """What is told of an age that is wrong or open, or that only the fine grid settles."""
    low, high = row.ends()
    between = f"between {low} and {high}{', by the fine grid' if row.unit == FINE else ''}"
    if row.text != OPEN:
        verdict = "right" if row.text == entry else "wrong"
        return f"  age {row.age}: {verdict}, the table has {entry}, the sheet {row.text}: {between}"
    roundings = [stepped(half_up(end, DECIMALS, row.unit), DECIMALS) for end in (row.lower, row.upper)]
    neither = "" if entry in roundings else f", and neither is {entry}"
    return f"  age {row.age}: open, the table has {entry}, the sheet {roundings[0]} or {roundings[1]}{neither}: {between}"


def judged(sheet: Sheet, year: int, entries: Dict[int, str]) -> Tuple[str, List[str]]:
    """The verdict on a year, `no=N` where it is refused, and what is told of its ages."""
    try:
        verdict = sheet.verdict(year, column_of(entries))
    except Refused as refused:
        return f"no={refused.number}", [f"  {REFUSALS[refused.number]}"]
    found = rows(sheet, Selection(["q"], list(AGES), [year]))
    return verdict, [said(row, entries[row.age]) for row in found if row.closed or row.text != entries[row.age]]


def judgements(sheet: Sheet, table: Table, progress: Optional[cli.Progress] = None) -> Iterator[Tuple[int, str, List[str]]]:
    """Each year of a table with its verdict and what is told of its ages."""
    for year in table.years:
        verdict, told = judged(sheet, year, table.entries[year])
        if progress:
            progress.step()
        yield year, verdict, told


# ---- the command

def add(commands: Any) -> None:
    parser = cli.command(commands, "judge", "a published table of q, judged year by year", DESCRIPTION, EXAMPLE)
    parser.add_argument("sheet", metavar="SHEET", help="a sheet's file")
    parser.add_argument("table", metavar="TABLE.csv", help="the published table")
    parser.add_argument("--year", type=int, metavar="Y", help="the year of a table age,q; of one with years, the one to judge")
    parser.add_argument("-o", "--output", default="-", metavar="FILE", help="standard output if left out")
    parser.set_defaults(run=run)


def run(args: Any) -> int:
    sheet = cli.sheet(args.sheet)
    table = table_of(args.table, cli.read(args.table), args.year)
    with cli.progress(len(table.years), "years") as progress:
        found = list(judgements(sheet, table, progress))
    cli.write(args.output, "".join("\n".join([f"{year} {verdict}", *told]) + "\n" for year, verdict, told in found))
    return 0 if all(verdict in ("right", "open") for _, verdict, _ in found) else 1
