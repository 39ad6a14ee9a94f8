"""The whole run of the rate sheet's programs, from input bytes to output bytes, written from paper 01, "The quote program",
and for annuities, survival to a day, sheets of the table LILEE, finer working, `verdict`, `couples` and `targets` from paper 02.

`quotes` echoes a query with its figure, `ends` with its two ends and their unit ahead of the figure. `compare` reads two sheets and
echoes a query with the figure of each and what the two pairs of ends tell of the two values, in the finer of their units. `couples`
reads two sheets, a life's each, and echoes a query of both lives as `ends` does. `targets` reads a sheet and echoes a line of an
age and a target with the year in which it is reached. `verdict` reads a sheet, a year and a column, and prints the verdict on it.
"""
import functools
import re

from columns import columns_of
from couples import COUPLES, SINGLE, Couple
from quotes import ANNUITIES, DAY, OPEN, UNRATED, Quotes, decimals
from reader import LONGEST, NUMBER, TORN, params_of, read
from targets import Targets

SHEET_LINES, LILEE_LINES, LILEE_FIRST = 370, 372, b"table=LILEE\n"


def form(kinds, *keys):
    """The lines of some kinds, with the keys of their numbers."""
    numbers = b"".join(b" %b=(%b)" % (key, NUMBER.pattern) for key in keys)
    return re.compile(b"kind=(%b)%b\n" % ("|".join(kinds).encode(), numbers))


FORMS = (
    form(UNRATED, b"age", b"year", b"span"), form(ANNUITIES, b"age", b"year", b"span", b"rate"),
    form((DAY,), b"age", b"year", b"date"),
)
COUPLE_FORMS = (form(COUPLES, b"age", b"age2", b"year", b"span"),)


def lines_in(data):
    """The bytes cut after each line feed; what follows the last one is a line too where it is not empty."""
    return re.findall(rb"[^\n]*\n|[^\n]+", data)


def parted(lines):
    """The sheet at the front of lines, of as many as its first line says, and the lines after it."""
    count = LILEE_LINES if lines[:1] == [LILEE_FIRST] else SHEET_LINES
    return b"".join(lines[:count]), lines[count:]


def query_of(line, forms=FORMS):
    """The kind, age, year and span of a query line, or the date in the span's place, and an annuity's rate, or what else the
    forms have; None where it is torn."""
    got = next(filter(None, (one.fullmatch(line) for one in forms)), None)
    return (got[1].decode(), *map(int, got.groups()[1:])) if got else None


def figure_text(steps, kind):
    """A figure with its kind's decimals, or the word."""
    if steps == OPEN:
        return OPEN
    whole, part = divmod(steps, 10 ** decimals(kind))
    return f"{whole}.{part:0{decimals(kind)}d}"


def refused(no):
    return f"no={no}"


def figure_field(kind, quote):
    """The figure of a quote."""
    return f" fig={figure_text(quote.steps, kind)}"


def echo(line):
    """A query line as it is printed again."""
    return line.decode().rstrip("\n")


def answered(quotes, query):
    """The refusal of a query, 0 where it is accepted, and its quote."""
    no = quotes.refusal(*query)
    return (no, None) if no else (0, quotes.quote(*query))


def shown(line, kind, answer, with_ends):
    """A query line with its answer, with the step and decimals of a kind."""
    no, quote = answer
    if no:
        return f"{echo(line)} {refused(no)}"
    ends = f" lo={quote.lower} hi={quote.upper} unit={quote.unit}" if with_ends else ""
    return echo(line) + ends + figure_field(kind, quote)


class Sheet:
    """The answers over one sheet, each worked once."""

    def __init__(self, sheet):
        self.no, given = read(sheet)
        self.quotes = None if self.no else Quotes(params_of(given))
        self.answer = functools.cache(functools.partial(answered, self.quotes))

    def printed(self, line, with_ends):
        """The line that is printed for a later line of the input."""
        query = query_of(line)
        return refused(TORN) if query is None else shown(line, query[0], self.answer(query), with_ends)


sheet_of = functools.lru_cache(200)(Sheet)


def run(data, with_ends):
    """What a program prints for its whole input."""
    if len(data) > LONGEST:
        return text([refused(TORN)])
    given, lines = parted(lines_in(data))
    sheet = sheet_of(given)
    if sheet.no:
        return text([refused(sheet.no)])
    return text(sheet.printed(line, with_ends) for line in lines)


def text(lines):
    return "".join(line + "\n" for line in lines).encode()


def quotes(data):
    return run(data, with_ends=False)


def ends(data):
    return run(data, with_ends=True)


# ---- two sheets

def excess(lower, higher):
    """By how many units the value between the higher ends exceeds that between the lower: at least, and at most."""
    return f" least={higher[0] - lower[1]} most={higher[1] - lower[0]}"


def told(first, second):
    """What two pairs of ends in one unit tell of the two values."""
    if first[1] < second[0]:
        return " values=below" + excess(first, second)
    if second[1] < first[0]:
        return " values=above" + excess(second, first)
    return f" values=near most={max(first[1] - second[0], second[1] - first[0])}"


def values(first, second):
    """What two quotes tell of the two values, in the finer of their units."""
    unit = max(first.unit, second.unit)
    both = ([end * 10 ** (unit - quote.unit) for end in (quote.lower, quote.upper)] for quote in (first, second))
    return f"{told(*both)} unit={unit}"


def compared(first, second, line):
    """The line that is printed for a line after two sheets."""
    query = query_of(line)
    if query is None:
        return refused(TORN)
    (no, quote), (other_no, other) = first.answer(query), second.answer(query)
    if no or other_no:
        return f"{echo(line)} {refused(no or other_no)}"
    return echo(line) + figure_field(query[0], quote) + figure_field(query[0], other) + values(quote, other)


def two_sheets(data):
    """The two sheets at the front of an input, and the lines after them."""
    one, rest = parted(lines_in(data))
    other, lines = parted(rest)
    return sheet_of(one), sheet_of(other), lines


def compare(data):
    """What `compare` prints for its whole input."""
    if len(data) > LONGEST:
        return text([refused(TORN)])
    first, second, lines = two_sheets(data)
    for number, sheet in ((1, first), (2, second)):
        if sheet.no:
            return text([f"sheet={number} {refused(sheet.no)}"])
    return text(compared(first, second, line) for line in lines)


# ---- couples

@functools.lru_cache(200)
def couple_of(first, second):
    """The answers over two sheets, each worked once."""
    return functools.cache(functools.partial(answered, Couple(first.quotes, second.quotes)))


def of_couple(answer, line):
    """The line that is printed for a line after a couple's two sheets."""
    query = query_of(line, COUPLE_FORMS)
    return refused(TORN) if query is None else shown(line, SINGLE[query[0]], answer(query), with_ends=True)


def couples(data):
    """What `couples` prints for its whole input: of two refused sheets the lower number is given, of equal ones the first's."""
    if len(data) > LONGEST:
        return text([refused(TORN)])
    first, second, lines = two_sheets(data)
    refusals = [(sheet.no, number) for number, sheet in ((1, first), (2, second)) if sheet.no]
    if refusals:
        no, number = min(refusals)
        return text([f"sheet={number} {refused(no)}"])
    return text(of_couple(couple_of(first, second), line) for line in lines)


# ---- the year a target is reached

AIM = re.compile(b"age=(%b) target=(%b)\n" % (NUMBER.pattern, NUMBER.pattern))


@functools.lru_cache(200)
def targets_of(sheet):
    """The answers over the bytes of a sheet that is read."""
    return Targets(sheet_of(sheet).quotes)


def of_target(given, line):
    """The line that is printed for a line after the sheet."""
    got = AIM.fullmatch(line)
    if not got:
        return refused(TORN)
    no, found = given.answer(*map(int, got.groups()))
    return f"{echo(line)} {refused(no) if no else f'year={found}'}"


def targets(data):
    """What `targets` prints for its whole input."""
    if len(data) > LONGEST:
        return text([refused(TORN)])
    sheet, lines = parted(lines_in(data))
    no = sheet_of(sheet).no
    return text([refused(no)] if no else (of_target(targets_of(sheet), line) for line in lines))


# ---- a published column

YEAR = re.compile(b"year=(%b)\n" % NUMBER.pattern)


def verdict(data):
    """What `verdict` prints for its whole input: a torn year's line comes before a sheet that is off scale."""
    sheet, lines = parted(lines_in(data))
    given = YEAR.fullmatch(b"".join(lines[:1]))
    if len(data) > LONGEST or not given:
        return text([refused(TORN)])
    columns, year = columns_of(sheet), int(given[1])
    if columns.no:
        return text([refused(columns.no)])
    no, said = columns.verdict(year, b"".join(lines[1:]))
    return text([f"year={year} {refused(no) if no else f'verdict={said}'}"])


ONE_SHEET = {"quotes": quotes, "ends": ends}
PROGRAMS = ONE_SHEET | {"compare": compare, "couples": couples, "targets": targets, "verdict": verdict}
