"""What is asked of a sheet: kinds, ages, years, rates and spans, from the text of a command's options.

Numbers are written `65`, `60-70` or `0,20,60-70`; each counts once, in the order in which it is written. A number that is none
of the table's, such as age 121, is asked all the same: the library refuses it, and the list shows the refusal, `no=3`.
"""
import re
from fractions import Fraction
from typing import Any, Iterator, List, NamedTuple, Optional, Sequence, Tuple

from . import cli
from .sheets import KINDS

# The kinds that a list takes; survival to a day has a date, and is asked by itself.
LISTED = tuple(word for word, kind in KINDS.items() if not kind.date)
RATED = tuple(word for word in LISTED if KINDS[word].rate)
SPANNED = tuple(word for word in LISTED if KINDS[word].span)
# How many millionths a rate's unit has.
UNITS = {"%": 10_000, "ppm": 1}
LONGEST_NUMBER = 15
RATE = re.compile(r"(-?[0-9]{1,15}(?:\.[0-9]{1,40})?) ?(%|ppm)")


class Block(NamedTuple):
    """A kind with its span and its rate in millionths: 0 and None where it takes none."""
    kind: str
    span: int
    rate: Optional[int]

    def name(self) -> str:
        """`ecoh`, `acoh 3%` or `coh span 20`."""
        if self.kind in RATED:
            return f"{self.kind} {percent(self.rate)}"
        return f"{self.kind} span {self.span}" if self.kind in SPANNED else self.kind

    def query(self, age: int, year: int) -> str:
        """The query line of a cell."""
        rate = "" if self.rate is None else f" rate={self.rate}"
        return f"kind={self.kind} age={age} year={year} span={self.span}{rate}"


class Selection(NamedTuple):
    """What is asked: of each block, each age in each year."""
    kinds: Sequence[str]
    ages: Sequence[int]
    years: Sequence[int]
    rates: Sequence[int] = ()
    spans: Sequence[int] = ()

    def blocks(self) -> Iterator[Block]:
        for kind in self.kinds:
            if kind in RATED:
                yield from (Block(kind, 0, rate) for rate in self.rates)
            elif kind in SPANNED:
                yield from (Block(kind, span, None) for span in self.spans)
            else:
                yield Block(kind, 0, None)

    def cells(self) -> Iterator[Tuple[Block, int, int]]:
        """Each block with each age and, of that, each year."""
        return ((block, age, year) for block in self.blocks() for age in self.ages for year in self.years)

    def count(self) -> int:
        """How many cells there are."""
        return sum(1 for _ in self.blocks()) * len(self.ages) * len(self.years)


def percent(rate: int) -> str:
    """A rate in millionths as a percentage: `3%`, `1.25%`."""
    whole, part = divmod(abs(rate), UNITS["%"])
    return ("-" if rate < 0 else "") + f"{whole}.{part:04}".rstrip("0").rstrip(".") + "%"


def parts(text: str, option: str) -> List[str]:
    """What stands between the commas of an option."""
    found = [part.strip() for part in text.split(",")]
    if not all(found):
        raise cli.Fault(f"{option}: nothing stands at one side of a comma in {text!r}" if any(found) else f"{option}: empty")
    return found


def numbers(text: str, option: str, digits: int, example: str) -> List[int]:
    """The numbers of an option, each with at most so many digits."""
    form = re.compile(rf"([0-9]{{1,{digits}}})(?:-([0-9]{{1,{digits}}}))?")
    out = {}
    for part in parts(text, option):
        got = form.fullmatch(part)
        if not got:
            raise cli.Fault(f"{option}: {part!r} is no number of at most {digits} digits and no run of them, as {example}")
        first, last = int(got[1]), int(got[2] or got[1])
        if last < first:
            raise cli.Fault(f"{option}: {part!r} runs backward; write {last}-{first}")
        out.update(dict.fromkeys(range(first, last + 1)))
    return list(out)


def ages(text: str) -> List[int]:
    return numbers(text, "--ages", 3, "60-70")


def spans(text: str) -> List[int]:
    return numbers(text, "--span", 3, "10,20")


def years(text: Optional[str], *sheets: Any) -> List[int]:
    """The years of an option; without one the quote years that all the sheets have."""
    if text is not None:
        return numbers(text, "--years", 4, "2015-2064")
    return sorted(set.intersection(*(set(sheet.years) for sheet in sheets)))


def kinds(text: str) -> List[str]:
    """The kinds of an option, by their words."""
    found = dict.fromkeys(parts(text, "--kinds"))
    for word in found:
        if word not in LISTED:
            raise cli.Fault(f"--kinds: {word!r} is none of {', '.join(LISTED)}")
    return list(found)


def rates(text: str) -> List[int]:
    """The rates of an option in millionths, each written with its unit: `1.5%` or `15000ppm`."""
    out = {}
    for part in parts(text, "--rates"):
        got = RATE.fullmatch(part)
        if not got:
            raise cli.Fault(f"--rates: {part!r} is no rate with its unit and a decimal point, as 1.5% or 15000ppm (millionths)")
        rate = Fraction(got[1]) * UNITS[got[2]]
        if rate.denominator != 1 or abs(rate) >= 10**LONGEST_NUMBER:
            raise cli.Fault(f"--rates: {part!r} is no whole number of millionths of at most {LONGEST_NUMBER} digits")
        out[int(rate)] = None
    return list(out)


def add_selection(parser: Any, kinds: str = "ecoh", ages: str = "0-120") -> None:
    """The options that say what is asked."""
    group = parser.add_argument_group("what is asked")
    group.add_argument("--kinds", default=kinds, metavar="K,...", help=f"of {', '.join(LISTED)}; {kinds} if left out")
    group.add_argument("--ages", default=ages, metavar="A-B,...", help=f"as 60-70 or 60,65,67; {ages} if left out")
    group.add_argument("--years", metavar="Y-Z,...", help="as 2015-2064; all quote years if left out")
    group.add_argument("--rates", metavar="R,...", help="of acoh and aper, with their unit: 1%%,2.5%% or 25000ppm")
    group.add_argument("--span", metavar="S,...", help="of coh and per, in years: 20 or 10,20")


def selected(args: Any, *sheets: Any) -> Selection:
    """What the options ask of a sheet, or of several in the years that all have."""
    asked = kinds(args.kinds)
    given = Selection(
        asked, ages(args.ages), years(args.years, *sheets), rates(args.rates) if args.rates is not None else [],
        spans(args.span) if args.span is not None else [],
    )
    matched(asked, RATED, "--rates", args.rates, "3%")
    matched(asked, SPANNED, "--span", args.span, "20")
    return given


def matched(asked: List[str], takers: Tuple[str, ...], option: str, text: Optional[str], example: str) -> None:
    """A fault where kinds that take an option lack it, or it is given and no kind takes it."""
    taking = [kind for kind in asked if kind in takers]
    if taking and text is None:
        raise cli.Fault(f"{option} is wanted for {' and '.join(taking)}, as {option} {example}")
    if text is not None and not taking:
        raise cli.Fault(f"{option} is given, and none of the kinds takes it: {' and '.join(takers)} do")
