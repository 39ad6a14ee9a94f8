"""Sheets and their quotes: each answer is the library's, and what is shown of it follows from its two ends.

Every function that takes a sheet takes a `Sheet` or a sheet's bytes.
"""
import ctypes
import datetime
import os
from decimal import Decimal
from typing import Any, Dict, Iterable, Iterator, List, NamedTuple, Optional, Tuple, Union

from . import library
from .library import LONGEST_INPUT, LONGEST_SHEET, RUN_ROOM, SET_LENGTH, accepted, calls, signed, written
from .units import decimal

Bytes = Union[bytes, bytearray, memoryview]
SheetLike = Union["Sheet", Bytes]
VERDICTS = ("right", "wrong", "open")
TORN_ANSWER = "no=1"


class Kind(NamedTuple):
    """A kind of figure: the decimals it is printed with, whether its query takes a rate, a span that may be other than 0, or a
    date, whether it is offered for all 171 years and not for 51 only, and what it is."""
    decimals: int
    rate: bool
    span: bool
    date: bool
    far: bool
    title: str


KINDS: Dict[str, Kind] = {
    "q": Kind(5, False, False, False, True, "one-year death probability"),
    "coh": Kind(5, False, True, False, False, "chance to survive the span, along the cohort"),
    "per": Kind(5, False, True, False, False, "chance to survive the span, in one calendar year"),
    "ecoh": Kind(2, False, False, False, False, "cohort life expectancy"),
    "eper": Kind(2, False, False, False, False, "period life expectancy"),
    "acoh": Kind(1, True, False, False, False, "price of an annuity of 1 a year, along the cohort"),
    "aper": Kind(1, True, False, False, False, "price of an annuity of 1 a year, in one calendar year"),
    "day": Kind(5, False, False, True, False, "chance to live to a day, along the cohort"),
}
COUPLE_KINDS: Dict[str, Kind] = {
    "joint": Kind(5, False, True, False, False, "chance that both live after the span"),
    "last": Kind(5, False, True, False, False, "chance that at least one lives after the span"),
    "ejoint": Kind(2, False, False, False, False, "expectancy of the years in which both live"),
    "elast": Kind(2, False, False, False, False, "expectancy of the years in which at least one lives"),
}


def half_up(end: int, decimals: int, unit: int) -> int:
    """An end, in units of 10^-unit, in steps of so many decimals, rounded half up."""
    step = 10 ** max(0, unit - decimals)
    return (2 * end * 10 ** max(0, decimals - unit) + step) // (2 * step)


def stepped(steps: int, decimals: int) -> str:
    """A number of steps as text with its decimals."""
    return f"{decimal(steps, decimals):f}"


class Quote(NamedTuple):
    """An answer: the two ends in units of 10^-unit, between which the exact value lies, the figure's number of steps, None where
    it is open, the decimals of a step, and the unit: 9, or 13 where ends in units of 10^-9 leave the figure open, so that it was
    worked again."""
    lower: int
    upper: int
    steps: Optional[int]
    decimals: int
    unit: int

    @property
    def text(self) -> str:
        """The figure as the programs print it, or "open"."""
        return "open" if self.steps is None else stepped(self.steps, self.decimals)

    @property
    def low(self) -> Decimal:
        """The lower end, exactly."""
        return decimal(self.lower, self.unit)

    @property
    def high(self) -> Decimal:
        """The upper end, exactly."""
        return decimal(self.upper, self.unit)

    def rounded(self, decimals: int) -> Optional[str]:
        """The figure with so many decimals where both ends round half up to it, so that the exact value does too; else None."""
        if decimals < 0:
            raise ValueError(f"a figure has 0 decimals or more, not {decimals}")
        lower, upper = (half_up(end, decimals, self.unit) for end in (self.lower, self.upper))
        return stepped(lower, decimals) if lower == upper else None

    def ends_in(self, unit: int) -> Tuple[int, int]:
        """Both ends in units of 10^-unit, which are no coarser than their own."""
        return self.lower * 10 ** (unit - self.unit), self.upper * 10 ** (unit - self.unit)


class Comparison(NamedTuple):
    """Two values by their ends: the first is "below" the second or "above" it, by `least` at least and `most` at most, or "near",
    with no least, and they differ by `most` at most. Both are in units of 10^-unit, the finer unit of the two quotes."""
    relation: str
    least: Optional[int]
    most: int
    unit: int


def compare(first: Quote, second: Quote) -> Comparison:
    """Two quotes of one kind compared by their ends, as the program `compare` does."""
    for one in (first, second):
        if not isinstance(one, Quote):
            raise TypeError(f"two Quotes are wanted, not {type(one).__name__}")
    if first.decimals != second.decimals:
        raise ValueError("two quotes of one kind are wanted, not two with other decimals")
    unit = max(first.unit, second.unit)
    (low, high), (other_low, other_high) = first.ends_in(unit), second.ends_in(unit)
    if high < other_low:
        return Comparison("below", other_low - high, other_high - low, unit)
    if other_high < low:
        return Comparison("above", low - other_high, high - other_low, unit)
    return Comparison("near", None, max(high - other_low, other_high - low), unit)


def as_bytes(value: Any, what: str) -> bytes:
    """Bytes as they are lent to a call; a Sheet has its own."""
    if isinstance(value, Sheet):
        return value.data
    if isinstance(value, (bytes, bytearray, memoryview)):
        return bytes(value)
    wanted, reads = ("a Sheet or bytes", "Sheet.load(path)") if what == "a sheet" else ("bytes", "open(path, 'rb').read()")
    hint = f"; {reads} reads a file" if isinstance(value, (str, os.PathLike)) else ""
    raise TypeError(f"{what} is wanted as {wanted}, not as {type(value).__name__}{hint}")


def as_word(kind: Any) -> bytes:
    """A kind's word as it is lent to a call."""
    if not isinstance(kind, str):
        raise TypeError(f"a kind is wanted as a str such as 'ecoh', not as {type(kind).__name__}")
    return kind.encode("utf-8", "surrogatepass")


def read(sheet: SheetLike) -> List[int]:
    """The set of a sheet, of either table, as 372 numbers."""
    data = as_bytes(sheet, "a sheet")
    values = (ctypes.c_int64 * SET_LENGTH)()
    accepted(calls().kulfizan_read(data, len(data), values, SET_LENGTH))
    return list(values)


def write(values: Iterable[int]) -> bytes:
    """The one sheet of a set, as bytes: 370 lines for AG2014, 372 for LILEE."""
    numbers, count = signed(values)
    return written(calls().kulfizan_write, numbers, count, room=LONGEST_SHEET)


def quote(sheet: SheetLike, kind: str, age: int, year: int, span: int = 0, rate: Optional[int] = None) -> Quote:
    """The quote of a query of a sheet. The kind is "q", "coh", "per", "ecoh" or "eper" with no rate, or "acoh" or "aper" with
    one, in units of 10^-6; the other way round it is torn, as such a line is."""
    data, word = as_bytes(sheet, "a sheet"), as_word(kind)
    call, rates = (calls().kulfizan_quote, ()) if rate is None else (calls().kulfizan_annuity, (rate,))
    given, _ = signed((age, year, span, *rates))
    *ends, unit = library.quoted(call, data, len(data), word, len(word), *given)
    return Quote(*ends, KINDS[kind].decimals, unit)


def day(sheet: SheetLike, age: int, year: int, date: Union[int, datetime.date]) -> Quote:
    """Survival to a day, along the cohort, from 1 January of the year. The date is a number YYYYMMDD or a `datetime.date`."""
    if isinstance(date, datetime.date):
        date = 10_000 * date.year + 100 * date.month + date.day
    data = as_bytes(sheet, "a sheet")
    given, _ = signed((age, year, date))
    *ends, unit = library.quoted(calls().kulfizan_day, data, len(data), *given)
    return Quote(*ends, KINDS["day"].decimals, unit)


def couple(sheet: SheetLike, other_sheet: SheetLike, kind: str, age: int, other_age: int, year: int, span: int = 0) -> Quote:
    """The quote of a query of two independent lives, along the cohort. The kind is "joint" or "last", the chance that both live or
    that at least one lives after the span, or "ejoint" or "elast", the expectancy of that state."""
    first, second, word = as_bytes(sheet, "a sheet"), as_bytes(other_sheet, "a sheet"), as_word(kind)
    given, _ = signed((age, other_age, year, span))
    *ends, unit = library.quoted(calls().kulfizan_couple, first, len(first), second, len(second), word, len(word), *given)
    return Quote(*ends, COUPLE_KINDS[kind].decimals, unit)


def target_year(sheet: SheetLike, age: int, target: int) -> Union[int, str]:
    """The year in which the period expectancy at an age reaches a target, any number, in units of 10^-9. Of the 51 quote years the
    first counts whose upper end in that unit is at or above the target: it is the answer where its lower end is too, and else
    "open"; "none" where there is no such year. A year is the earliest whose exact expectancy is at least the target, and "none"
    means that no year has one."""
    data = as_bytes(sheet, "a sheet")
    given, _ = signed((age, target))
    found, year = ctypes.c_uint64(), ctypes.c_int64()
    accepted(calls().kulfizan_target(data, len(data), *given, ctypes.byref(found), ctypes.byref(year)))
    return (year.value, "open", "none")[found.value]


def verdict(sheet: SheetLike, year: int, column: Bytes) -> str:
    """The verdict on a column of q for one year that somebody published, by a sheet: "right", "wrong" or "open". The column is
    bytes, 121 lines `age=0 q=0.00312` upward from age 0 to 120; in any other order it is torn."""
    data, entries = as_bytes(sheet, "a sheet"), as_bytes(column, "a column")
    (number,), _ = signed((year,))
    found = ctypes.c_uint64()
    accepted(calls().kulfizan_verdict(data, len(data), number, entries, len(entries), ctypes.byref(found)))
    return VERDICTS[found.value]


def run(data: Bytes, ends: bool = False) -> bytes:
    """The whole run of an input: a sheet and then query lines, as bytes, to what the program `quotes` prints, or `ends`."""
    given = as_bytes(data, "an input")
    return written(calls().kulfizan_run, given, len(given), bool(ends), room=5 * len(given) + RUN_ROOM)


def line_bytes(query: Any) -> bytes:
    """A query's line as bytes, with its line feed."""
    if not isinstance(query, str):
        raise TypeError(f"a query is wanted as a str, not as {type(query).__name__}")
    if "\n" in query:
        raise ValueError(f"a query is one line, without its line feed: {query!r}")
    return query.encode("utf-8", "surrogateescape") + b"\n"


class Sheet:
    """A sheet that the library accepts, with its numbers in the sheet's units; raises `Refused` where it is refused."""

    def __init__(self, data: SheetLike) -> None:
        self.data = as_bytes(data, "a sheet")
        self.values = read(self.data)
        head = dict(zip(library.HEAD, self.values))
        self.table = library.TABLES[head["table"]]
        self.sex = library.SEXES[head["sex"]]
        self.a, self.theta, self.K, self.k = (head[key] for key in ("a", "theta", "K", "k"))
        self.start, self.c = head["start"], head["c"]
        ages = self.values[len(library.HEAD) :]
        self.level, self.slope, self.alpha, self.beta = (ages[i::4] for i in range(4))

    @classmethod
    def load(cls, path: Union[str, "os.PathLike[str]"]) -> "Sheet":
        """The sheet of a file."""
        with open(path, "rb") as file:
            data = file.read(LONGEST_INPUT + 1)
        try:
            return cls(data)
        except library.Refused as refused:
            raise library.Refused(refused.number, os.fspath(path)) from None

    def __bytes__(self) -> bytes:
        return self.data

    def __eq__(self, other: Any) -> bool:
        return self.data == other.data if isinstance(other, Sheet) else NotImplemented

    def __hash__(self) -> int:
        return hash(self.data)

    def __repr__(self) -> str:
        return f"<Sheet {self.table} {self.sex}, start {self.start}>"

    @property
    def years(self) -> range:
        """The 51 years for which quotes are given."""
        return range(self.start + 1, self.start + 52)

    @property
    def q_years(self) -> range:
        """The 171 years for which q is given, and columns are judged."""
        return range(self.start + 1, self.start + 172)

    def quote(self, kind: str, age: int, year: int, span: int = 0, rate: Optional[int] = None) -> Quote:
        """The quote of a query, as `kulfizan.quote`."""
        return quote(self, kind, age, year, span, rate)

    def day(self, age: int, year: int, date: Union[int, datetime.date]) -> Quote:
        """Survival to a day, as `kulfizan.day`."""
        return day(self, age, year, date)

    def target_year(self, age: int, target: int) -> Union[int, str]:
        """The year a target is reached, as `kulfizan.target_year`."""
        return target_year(self, age, target)

    def verdict(self, year: int, column: Bytes) -> str:
        """The verdict on a column, as `kulfizan.verdict`."""
        return verdict(self, year, column)

    def run(self, queries: Iterable[str], ends: bool = True) -> Iterator[str]:
        """The answers of the library's run to query lines, given without line feeds, one for each line: what the program `ends`
        prints, or `quotes`. However many there are, they go through in runs of at most 65,536 bytes."""
        lines, used = [], len(self.data)
        for query in queries:
            line = line_bytes(query)
            if used + len(line) > LONGEST_INPUT and lines:
                yield from self._answers(lines, ends)
                lines, used = [], len(self.data)
            lines.append(line)
            used += len(line)
        yield from self._answers(lines, ends)

    def _answers(self, lines: List[bytes], ends: bool) -> List[str]:
        """The answers to lines that fit one run; a line that alone does not is torn, as any line of that length."""
        if sum(map(len, lines)) + len(self.data) > LONGEST_INPUT:
            return [TORN_ANSWER] * len(lines)
        return run(self.data + b"".join(lines), ends).decode("ascii").splitlines()
