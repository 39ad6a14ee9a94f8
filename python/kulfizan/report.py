"""The command `report`: a page about a sheet, or about two beside each other.

Every figure, end and refusal on it is the library's answer; pictures are drawn from the lower ends.
"""
import shlex
from typing import Any, List, Optional

from . import __version__, cli, pages, sections
from .answers import LISTED, Asked, Found, asked_for
from .lists import Refusals, Row
from .pages import plain
from .selections import ages, percent, rates, years
from .sheets import Sheet

AGES, RATE = "0,20,40,60,65,67,70,80,90", "3%"
EVERY = 10
DESCRIPTION = """A page about a sheet, or two beside each other: one HTML file that needs no network and no script.
What the sheet is, expectancies and prices at chosen ages, survival curves, q by age and year, of
two sheets the differences, which figures are open or closed by the fine grid, and how wide the ends
are. The library is the judge: each figure is its answer. Status 1 if a sheet or figure is refused."""
EXAMPLE = """kulfizan report women.sheet -o report.html
kulfizan report women.sheet women-b.sheet --ages 60-70 --years 2015,2025 --rate 2% -o report.html"""


# ---- the page

def again(found: List[Found], asked: Asked) -> str:
    """The command that gives the figures of the list again."""
    command, more = ("compare", "") if len(found) > 1 else ("list", " --ends")
    chosen = [",".join(map(str, numbers)) for numbers in (LISTED, asked.ages, asked.years)]
    options = "--kinds {} --ages {} --years {}".format(*chosen)
    files = " ".join(shlex.quote(one.file) for one in found)
    return f"<code>kulfizan {command} {plain(files)} {options} --rates {percent(asked.rate)}{more}</code>"


def page(found: List[Found], asked: Asked, title: Optional[str]) -> str:
    """The whole page."""
    two = len(found) > 1
    whole = {kind: sections.common_pairs(found, kind) for kind in found[0].whole} if two else {}
    heads = [f"{plain(one.name)}: {one.sheet.table}, sex {one.sheet.sex}, start {one.sheet.start}" for one in found]
    parts = [
        ("reading", "How to read this page", *sections.reading(two)),
        ("sheets", "The sheets" if two else "The sheet", *sections.sheets_part(found)),
        ("list", "Expectancies and prices", *sections.list_part(found, asked)),
    ]
    if two:
        parts.append(("differences", "Differences", *sections.differences_part(found, asked, whole)))
    parts += [
        ("survival", "Survival", *sections.survival_part(found, asked)),
        ("q", "Death probabilities", *sections.q_part(found, asked, whole.get("q"))),
        ("open", "Open figures and the width of the ends", *sections.open_part(found, asked)),
    ]
    footer = f"Made by kulfizan {__version__}. The figures of the list again: {again(found, asked)}"
    named = title or "Mortality report: " + " beside ".join(one.name for one in found)
    return pages.page(named, "; ".join(heads) + ".", parts, footer)


# ---- the command

def add(commands: Any) -> None:
    parser = cli.command(commands, "report", "a page about a sheet, or two, with pictures", DESCRIPTION, EXAMPLE)
    parser.add_argument("sheet", metavar="SHEET", help="a sheet's file")
    parser.add_argument("other", metavar="SHEET", nargs="?", help="another, beside the first")
    group = parser.add_argument_group("what is shown")
    group.add_argument("--ages", default=AGES, metavar="A-B,...", help=f"as 60-70; {AGES} if left out")
    group.add_argument("--years", metavar="Y-Z,...", help=f"as 2015,2025; every {EVERY}th quote year if left out")
    group.add_argument("--rate", default=RATE, metavar="R", help="of the price: 2.5%% or 25000ppm; 3%% if left out")
    group.add_argument("--title", metavar="TEXT", help="the page's title")
    group.add_argument("-o", "--output", default="-", metavar="FILE", help="standard output if left out")
    parser.set_defaults(run=run)


def rate_of(text: str) -> int:
    """The one rate of the option."""
    try:
        found = rates(text)
    except cli.Fault as fault:
        raise cli.Fault(str(fault).replace("--rates", "--rate", 1)) from None
    if len(found) != 1:
        raise cli.Fault(f"--rate: one rate is wanted, not {len(found)}")
    return found[0]


def chosen(args: Any, sheets: List[Sheet]) -> Asked:
    """What the options ask."""
    listed = years(None, *sheets)[::EVERY] if args.years is None else years(args.years)
    return asked_for(ages(args.ages), listed, rate_of(args.rate), sheets)


def run(args: Any) -> int:
    paths = [args.sheet] if args.other is None else [args.sheet, args.other]
    sheets = [cli.sheet(path) for path in paths]
    asked, refusals = chosen(args, sheets), Refusals()
    with cli.progress(sum(map(asked.count, sheets)), "figures") as progress:
        def see(row: Row) -> Row:
            progress.step()
            return refusals.see(row)

        found = [Found(path, sheet, asked, see) for path, sheet in zip(paths, sheets)]
    cli.write(args.output, page(found, asked, args.title))
    return refusals.status()
