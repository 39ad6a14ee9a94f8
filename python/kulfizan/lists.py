"""The command `list`: figures of a sheet by kind, age and year, as CSV.

Each figure, refusal and pair of ends is the answer of the library's run. More decimals than a figure has of its own are written
only where both ends round to them.
"""
import csv
import io
import itertools
from typing import Any, Iterable, Iterator, List, NamedTuple, Optional, Tuple

from . import cli
from .library import REFUSALS
from .selections import RATED, SPANNED, Block, Selection, add_selection, percent, selected
from .sheets import KINDS, Quote, Sheet
from .units import COARSE, FINE

OPEN = "open"
HEADER = ["kind", "age", "year", "span", "rate"]
DESCRIPTION = """Figures of a sheet as CSV: a line for each kind, age and year, or with --wide ages down and years
across, in a block for each kind, rate and span. The library is the judge: a figure is its answer,
`open` where the ends do not settle it, and `no=N` where it is refused; status 1 if any is refused.
Ends have 9 decimals, or 13 where those of 9 leave the figure open and it is worked again."""
EXAMPLE = """kulfizan list women.sheet --kinds ecoh,acoh --ages 60-70 --rates 1%,2%,3% --ends -o list.csv
kulfizan list women.sheet --kinds q --wide --excel-nl -o q.csv"""


class Row(NamedTuple):
    """A cell with its answer: the ends in units of 10^-unit, None where it is refused, and the text: the figure, `open` or `no=N`.
    The span is 0 and the rate None where the kind takes none; `no` is the refusal's number, or 0."""
    kind: str
    age: int
    year: int
    span: int
    rate: Optional[int]
    lower: Optional[int]
    upper: Optional[int]
    text: str
    no: int
    unit: int = COARSE

    @property
    def quote(self) -> Optional[Quote]:
        """The answer as a quote, None where it is refused."""
        if self.no:
            return None
        steps = None if self.text == OPEN else int(self.text.replace(".", ""))
        return Quote(self.lower, self.upper, steps, KINDS[self.kind].decimals, self.unit)

    @property
    def closed(self) -> bool:
        """Whether the fine grid closed the figure: coarse ends leave it open, and fine ones do not."""
        return self.unit == FINE and self.text != OPEN

    def finely(self) -> Tuple[int, int]:
        """Both ends in units of 10^-13, whichever unit they have."""
        return self.lower * 10 ** (FINE - self.unit), self.upper * 10 ** (FINE - self.unit)

    def width(self) -> int:
        """How far the ends lie apart, in units of 10^-13."""
        lower, upper = self.finely()
        return upper - lower

    def figure(self, decimals: int = 1) -> str:
        """The figure with its own decimals or, if that is more, with so many: `open` where the ends round to different ones."""
        if self.no or decimals <= KINDS[self.kind].decimals:
            return self.text
        return self.quote.rounded(decimals) or OPEN

    def ends(self) -> List[str]:
        """Both ends as decimals, empty where it is refused."""
        return ["", ""] if self.no else [f"{end:f}" for end in (self.quote.low, self.quote.high)]

    def with_unit(self) -> List[str]:
        """Both ends and the decimals of their unit, empty where it is refused."""
        return [*self.ends(), "" if self.no else str(self.unit)]

    def names(self) -> List[str]:
        """The cell by its kind, age, year, span and rate; a span and a rate only where the kind takes one."""
        span = str(self.span) if self.kind in SPANNED else ""
        return [self.kind, str(self.age), str(self.year), span, percent(self.rate) if self.kind in RATED else ""]


def row_of(block: Block, age: int, year: int, answer: str) -> Row:
    """The row of a cell and the line of its answer."""
    ends = answer[len(block.query(age, year)) :].split()
    cell = (block.kind, age, year, block.span, block.rate)
    if len(ends) != 4:
        refusal = ends[0] if ends else answer
        return Row(*cell, None, None, refusal, int(refusal.partition("=")[2]))
    lower, upper, unit, text = (word.partition("=")[2] for word in ends)
    return Row(*cell, int(lower), int(upper), text, 0, int(unit))


def rows(sheet: Any, selection: Selection, progress: Optional[cli.Progress] = None) -> Iterator[Row]:
    """The row of each cell of a selection, in its order."""
    sheet = sheet if isinstance(sheet, Sheet) else Sheet(sheet)
    cells, asked = itertools.tee(selection.cells())
    for cell, answer in zip(cells, sheet.run(block.query(age, year) for block, age, year in asked)):
        if progress:
            progress.step()
        yield row_of(*cell, answer)


# ---- CSV

def csv_text(lines: Iterable[List[str]], dutch: bool) -> str:
    """Lines of cells as CSV; for a Dutch spreadsheet with `;` between cells and a comma for the point, which no cell has but in
    a number."""
    out = io.StringIO()
    writer = csv.writer(out, delimiter=";" if dutch else ",", lineterminator="\n")
    writer.writerows([cell.replace(".", ",") for cell in line] if dutch else line for line in lines)
    return out.getvalue()


def long(found: Iterable[Row], ends: bool, decimals: int) -> Iterator[List[str]]:
    """A line for each row, after a line of names."""
    yield HEADER + ["figure"] + (["low", "high", "unit"] if ends else [])
    for row in found:
        yield row.names() + [row.figure(decimals)] + (row.with_unit() if ends else [])


def wide(found: Iterable[Row], selection: Selection, ends: bool, decimals: int) -> Iterator[List[str]]:
    """A block for each kind, rate and span, named in its first cell, with ages down and years across; an empty line between
    two."""
    found = iter(found)
    years = [[f"{year}"] + [f"{year} {what}" for what in ("low", "high", "unit") if ends] for year in selection.years]
    for number, block in enumerate(selection.blocks()):
        if number:
            yield []
        yield [block.name(), *itertools.chain(*years)]
        for age in selection.ages:
            line = itertools.islice(found, len(selection.years))
            yield [f"{age}", *itertools.chain(*([row.figure(decimals)] + (row.with_unit() if ends else []) for row in line))]


# ---- the command

def add_form(parser: Any) -> Any:
    """The options of how a list is written."""
    group = parser.add_argument_group("how it is written")
    group.add_argument("-o", "--output", default="-", metavar="FILE", help="standard output if left out")
    group.add_argument("--excel-nl", action="store_true", help="for a Dutch spreadsheet: `;` between cells, a decimal comma")
    return group


def add(commands: Any) -> None:
    parser = cli.command(commands, "list", "a list of figures of a sheet, as CSV", DESCRIPTION, EXAMPLE)
    parser.add_argument("sheet", metavar="SHEET", help="a sheet's file")
    add_selection(parser)
    group = add_form(parser)
    group.add_argument("--wide", action="store_true", help="ages down, years across")
    group.add_argument("--ends", action="store_true", help="beside each figure the ends of the exact value, and their unit")
    more = "up to 9, where that is more than a figure's own: 2 of an expectancy, 1 of a price, 5 of a chance"
    group.add_argument("--decimals", type=int, default=1, metavar="N", help=more)
    parser.set_defaults(run=run)


class Refusals:
    """How many of the rows that are seen are refused, and the first of these."""

    def __init__(self) -> None:
        self.total, self.count, self.first = 0, 0, None

    def see(self, row: Row) -> Row:
        """One more row, as it is."""
        self.total += 1
        if row.no:
            self.count, self.first = self.count + 1, self.first or row
        return row

    def status(self) -> int:
        """The exit status: 1, with a line on standard error, where any is refused."""
        if self.first:
            kind, age, year, no = self.first.kind, self.first.age, self.first.year, self.first.no
            counts = f"{self.count:,} of {self.total:,} refused"
            cli.tell(f"kulfizan: {counts}, first {kind} at age {age} in {year}, as {no}, {REFUSALS[no]}")
        return 1 if self.first else 0


def run(args: Any) -> int:
    if not 1 <= args.decimals <= COARSE:
        raise cli.Fault(f"--decimals {args.decimals}: a number from 1 to {COARSE} is wanted, which all ends have")
    sheet = cli.sheet(args.sheet)
    selection, refusals = selected(args, sheet), Refusals()
    with cli.progress(selection.count(), "figures") as progress:
        found = map(refusals.see, rows(sheet, selection, progress))
        lines = wide(found, selection, args.ends, args.decimals) if args.wide else long(found, args.ends, args.decimals)
        text = csv_text(lines, args.excel_nl)
    cli.write(args.output, text)
    return refusals.status()
