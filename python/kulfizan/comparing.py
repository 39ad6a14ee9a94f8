"""The command `compare`: two sheets beside each other, cell by cell, and what is proved of the difference.

The figures and ends are the library's answers, and two are held against each other by the rule of the program `compare`.
"""
import re
from fractions import Fraction
from typing import Any, Iterable, Iterator, List, NamedTuple, Optional, Sequence

from . import cli
from .lists import HEADER, OPEN, Refusals, Row, add_form, csv_text, rows
from .selections import add_selection, selected
from .sheets import KINDS, Comparison, compare
from .units import COARSE, FINE, decimal

ALIKE, DIFFER, REFUSED = "alike", "differ", "refused"
NEAR = "near"
YES, NO = "yes", "no"
EXPECTANCIES, PRICES = ("ecoh", "eper"), ("acoh", "aper")
# The words of a tolerance's unit: how many units of 10^-9 it has, and the kinds that are counted in it.
MEASURES = {"years": (10**COARSE, EXPECTANCIES), "euro": (10**COARSE, PRICES), "units": (1, tuple(KINDS))}
TOLERANCE = re.compile(rf"([0-9]{{1,15}}(?:\.[0-9]{{1,40}})?) ?({'|'.join(MEASURES)})")
DESCRIPTION = """Two sheets cell by cell: both figures; whether they print alike; whether the first value is proved
to be below or above the second, by how much at least and at most, or near, and within how much.
First comes a summary; with -o the cells go to the file. The library is the judge: figures and ends
are its answers. Status 1 if a cell is refused; differences change it with --exit-code alone."""
EXAMPLE = """kulfizan compare women.sheet women-b.sheet --kinds ecoh,eper --ages 60-70 -o differences.csv
kulfizan compare women.sheet women-c.sheet --tolerance 0.001years --exit-code --summary"""


class Tolerance(NamedTuple):
    """The most that values may differ by, in units of 10^-9, and how it was written."""
    most: int
    text: str

    def units(self, unit: int) -> int:
        """The same in units of 10^-unit."""
        return self.most * 10 ** (unit - COARSE)


class Pair(NamedTuple):
    """A cell of both sheets, and the values compared; None where either is refused."""
    first: Row
    second: Row
    values: Optional[Comparison]

    def printed(self) -> str:
        """Whether the figures are alike or differ, or one is open or refused."""
        if self.values is None:
            return REFUSED
        if OPEN in (self.first.text, self.second.text):
            return OPEN
        return ALIKE if self.first.text == self.second.text else DIFFER

    def within(self, tolerance: Tolerance) -> str:
        """Whether the values are proved to differ by at most the tolerance, or by more, or neither."""
        if self.values is None:
            return ""
        most = tolerance.units(self.values.unit)
        if self.values.most <= most:
            return YES
        return NO if (self.values.least or 0) > most else OPEN

    def apart(self, tolerance: Optional[Tolerance]) -> bool:
        """Whether the values are proved to differ; with a tolerance, whether they are not proved to be within it."""
        if self.values is None:
            return False
        return self.values.most > tolerance.units(self.values.unit) if tolerance else self.values.relation != NEAR

    def closed(self) -> bool:
        """Whether the fine grid closed a figure of the two."""
        return self.first.closed or self.second.closed

    def cells(self) -> List[str]:
        """Both figures, how they print, and what is proved of the values with its unit; of a refused cell the number that `compare`
        gives."""
        both = [self.first.text, self.second.text, self.printed()]
        if self.values is None:
            return [*both, self.first.text if self.first.no else self.second.text, "", "", ""]
        relation, least, most, unit = self.values
        return [*both, relation, "" if least is None else amount(least, unit), amount(most, unit), str(unit)]


def amount(units: int, unit: int) -> str:
    """A number of units of 10^-unit as a decimal."""
    return f"{decimal(units, unit):f}"


def furthest(found: List[Pair]) -> str:
    """The most that the values of any of these differ by, as a decimal."""
    values = max((pair.values for pair in found), key=lambda values: values.most * 10 ** (FINE - values.unit))
    return amount(values.most, values.unit)


def pairs(first: Iterable[Row], second: Iterable[Row]) -> Iterator[Pair]:
    """The rows of two sheets side by side."""
    for one, other in zip(first, second):
        yield Pair(one, other, None if one.no or other.no else compare(one.quote, other.quote))


def tolerance_of(text: Optional[str], kinds: Sequence[str]) -> Optional[Tolerance]:
    """The tolerance of an option, in a unit that all kinds are counted in."""
    if text is None:
        return None
    got = TOLERANCE.fullmatch(text.strip())
    if not got:
        raise cli.Fault(f"--tolerance: {text!r} is no number with its unit, as 0.001years, 0.01euro or 5000units (of 10^-9)")
    size, counted = MEASURES[got[2]]
    others = [kind for kind in kinds if kind not in counted]
    if others:
        said = f"not the unit of {' and '.join(others)}; units of 10^-9 are of all kinds, as 5000units"
        raise cli.Fault(f"--tolerance {text}: {got[2]} is {said}")
    most = Fraction(got[1]) * size
    if most.denominator != 1:
        raise cli.Fault(f"--tolerance {text}: finer than the unit of the ends, 10^-9")
    return Tolerance(int(most), text)


# ---- what is written

def lines(found: Iterable[Pair], tolerance: Optional[Tolerance]) -> Iterator[List[str]]:
    """A line for each cell, after a line of names."""
    names = ["first", "second", "print", "values", "least", "most", "unit"]
    yield HEADER + names + (["within"] if tolerance else [])
    for pair in found:
        yield pair.first.names() + pair.cells() + ([pair.within(tolerance)] if tolerance else [])


def counted(found: List[Pair], what: str) -> str:
    """How many cells there are, and the most that the values of any of them differ by."""
    most = f", at most {furthest(found)} apart" if found else ""
    return f"{len(found):8,} {what}{most}"


def summary(kind: str, found: List[Pair], tolerance: Optional[Tolerance]) -> Iterator[str]:
    """How many cells of a kind print alike, differently or are open, and what is proved of them."""
    by = {how: [pair for pair in found if pair.printed() == how] for how in (ALIKE, DIFFER, OPEN, REFUSED)}
    near = [pair for pair in by[ALIKE] if pair.values.relation == NEAR]
    hidden = [pair for pair in by[ALIKE] if pair.values.relation != NEAR]
    unit = ", in years" if kind in EXPECTANCIES else ""
    yield f"{kind}, {KINDS[kind].title}{unit}: {len(found):,} cell{'' if len(found) == 1 else 's'}"
    yield counted(hidden, "alike in print, proved different")
    yield counted(near, "alike in print, near")
    yield counted(by[DIFFER], "different in print")
    yield counted(by[OPEN], "open, where the ends of a sheet do not settle its figure")
    yield f"  of all these, {sum(pair.closed() for pair in found):,} with a figure that the fine grid closed"
    if by[REFUSED]:
        yield f"{len(by[REFUSED]):8,} refused"
    if tolerance:
        told = [pair.within(tolerance) for pair in found]
        counts = [f"{told.count(how):,}" for how in (YES, NO, OPEN)]
        yield "  tolerance {}: {} proved within it, {} proved past it, {} neither".format(tolerance.text, *counts)


def whole_summary(names: List[str], found: List[Pair], tolerance: Optional[Tolerance]) -> str:
    """The summary of each kind, under the names of both sheets."""
    out = [f"{names[0]} beside {names[1]}"]
    for kind in dict.fromkeys(pair.first.kind for pair in found):
        out += summary(kind, [pair for pair in found if pair.first.kind == kind], tolerance)
    return "\n".join(out) + "\n"


# ---- the command

def add(commands: Any) -> None:
    parser = cli.command(commands, "compare", "two sheets cell by cell, with what is proved", DESCRIPTION, EXAMPLE)
    parser.add_argument("sheet", metavar="A.sheet", help="the first sheet")
    parser.add_argument("other", metavar="B.sheet", help="the second")
    add_selection(parser)
    group = add_form(parser)
    group.add_argument("--summary", action="store_true", help="the summary alone")
    group.add_argument("--tolerance", metavar="T", help="tell what is within it: 0.001years, 0.01euro, 5000units (of 10^-9)")
    status = "status 1 if values are proved different; with --tolerance, if any are not proved within it"
    group.add_argument("--exit-code", action="store_true", help=status)
    parser.set_defaults(run=run)


def run(args: Any) -> int:
    if args.summary and args.output != "-":
        raise cli.Fault("--summary writes no cells, and -o is where they go: one of the two is wanted")
    sheets = [cli.sheet(args.sheet), cli.sheet(args.other)]
    selection, refusals = selected(args, *sheets), Refusals()
    tolerance = tolerance_of(args.tolerance, selection.kinds)
    with cli.progress(2 * selection.count(), "figures") as progress:
        found = list(pairs(*(rows(sheet, selection, progress) for sheet in sheets)))
    text = "" if args.summary else csv_text(lines(found, tolerance), args.excel_nl)
    if args.output != "-":
        cli.write(args.output, text)
    cli.write("-", whole_summary([args.sheet, args.other], found, tolerance))
    if text and args.output == "-":
        cli.write("-", "\n" + text)
    for pair in found:
        refusals.see(pair.first if pair.first.no else pair.second)
    differing = args.exit_code and any(pair.apart(tolerance) for pair in found)
    return max(refusals.status(), 1 if differing else 0)
