"""The verdict on a published column: the program `verdict`, byte for byte, and the library's call, from C and from Python,
against the second implementation in columns.py and whole_run.py; and what is said of a column, against the exact values to 80
digits.

Columns are of flat, realistic, extreme and steep sheets, some with ages that are open, or that only the fine grid settles: right
ones, one digit changed at each age in turn, open ages with any entry and a wrong one beside them, rows in other orders, and every
kind of damage; 3,000 of them by their rows, as many of each form. What is said of most of them is also known beforehand, whatever
the second implementation says. The program also gets torn and off-scale sheets, years' lines torn in every way, and inputs up to, at
and past the longest, in pieces. An argument is taken as the seed.
"""
import collections
import concurrent.futures
import functools
import itertools
import random
import sys

import whole_run
import c_interface
import programs
import sheets
from edges import Edges, closure_placed
from columns import AGES, RIGHT, TORN_COLUMN, VERDICTS, WRONG, columns_of, entries_of
from c_interface import GREATEST, LEAST
from grid import HIGHEST, LOWEST, START, flat
from quotes import FIRST_YEAR, LAST_CELL, LAST_FITTED, LAST_YEAR, NO_YEAR, OFF_SCALE, OLDEST, OPEN, STEEP, rounded, years_of
from reader import LONGEST, NUMBER, SIZES, TORN
from test_runs import EXAMPLES, FLAT, LINE_ENDS, NUMBERS, WHOLE, Input, closes_early, compared, complaint, damaged, endless
from test_runs import from_file, full_device, padded, piecewise, with_value
from test_quotes import mild

SEED = 20142184
EACH_FORM = 375
OFF = with_value("k", b"%d" % (SIZES["k"] + 1))
STEEP_SHEET = sheets.text(dict(flat(), A=[0] * 91))
TORN_SHEET = FLAT.replace(b"sex=", b"Sex=", 1)
# A figure that only the fine grid settles.
FINE, FINE_UNIT = "fine", 13
# The flat sheet's q is 1 less e to the −1/e, at every age and in every year.
FLAT_STEPS = 30780

# A sheet and a year that are accepted, with the figures and the rounded exact values of ages 0 to 120.
Table = collections.namedtuple("Table", "name sheet year figures steps")
# A call: a sheet, a year and a column, and the verdict or the refusal that is known beforehand, or None.
Case = collections.namedtuple("Case", "name sheet year column known")


def line_of(age, steps):
    return b"age=%d q=%d.%05d\n" % (age, *divmod(steps, 10**5))


def text_of(entries):
    """The column of pairs of an age and its number of steps, in their order."""
    return b"".join(line_of(*entry) for entry in entries)


FLAT_LINES = [line_of(age, FLAT_STEPS) for age in AGES]
FLAT_COLUMN = b"".join(FLAT_LINES)


def input_of(case):
    return Input(case.name, case.sheet + b"year=%d\n" % case.year + case.column)


# ---- sheets and years

@functools.cache
def exact_steps(sheet, year):
    """The rounded exact values of an accepted sheet and year."""
    return [rounded(columns_of(sheet).quotes.value("q", age, year, 0), "q") for age in AGES]


def table(name, sheet, year):
    """The table of a sheet and a year, or None where it is refused."""
    no, figures = columns_of(sheet).figures(year)
    return None if no else Table(f"{name}, {year}", sheet, year, figures, exact_steps(sheet, year))


def plain_tables(draw):
    """Flat, realistic and extreme sheets, those whose cells lie at the ends of the range, and the examples."""
    for year in (FIRST_YEAR, 2020, LAST_YEAR, LAST_CELL):
        yield table("flat", FLAT, year)
        yield table("at the edge", sheets.text(sheets.at_edge(draw, year, 0)), year)
    for _ in range(6):
        yield table("realistic", sheets.text(mild(draw)), draw.choice((FIRST_YEAR, LAST_YEAR, LAST_CELL, 2020)))
        year = draw.randint(FIRST_YEAR, LAST_CELL)
        yield table("extreme", sheets.text(sheets.extreme(draw, draw.choice((10**8, 10**8 - 1)), year, 0.3)), year)
    for name in ("men", "women", "women-b"):
        for year in (FIRST_YEAR, LAST_CELL, draw.randint(FIRST_YEAR, LAST_CELL)):
            yield table(name, (EXAMPLES / f"{name}.sheet").read_bytes(), year)


def placed(params, year, age, beyond):
    """The set with q of an age moved to so many units of 10^-13 beyond a half step, or None."""
    if age > LAST_FITTED:
        return closure_placed(params, ("q", age, year, 0), beyond)
    edges = Edges(params)
    return edges.params if edges.place(("q", age, year, 0), beyond) else None


def told(sheet, year, age):
    """Whether q of an age is open, or else whether it is printed by its fine ends."""
    quote = columns_of(sheet).quotes.quote("q", age, year, 0)
    return OPEN if quote.steps == OPEN else FINE if quote.unit == FINE_UNIT else RIGHT


OPENED = ((120,), (91,), (105,), (90,), (80,), (79,), (0,), (120, 0), (100, 79, 40, 2, 1, 0), (*range(77, -1, -7),))
SETTLED = ((120,), (91,), (90,), (79,), (0,), (100, 79, 40, 2, 1, 0), (*range(77, -1, -7),))


def table_with(draw, ages, what, beyond, *start):
    """A realistic sheet and a year in which these ages are open, or are printed by their fine ends alone; of any start year."""
    while True:
        params, year = mild(draw, *start), draw.randint(*years_of(*(start or [START]))[:2])
        for age in ages:
            params = params and placed(params, year, age, beyond)
        found = params and table(what, sheets.text(params), year)
        if found and all(told(found.sheet, year, age) == what for age in ages):
            return found


def tables(draw):
    """The tables, first those with no open age."""
    every = [one for one in plain_tables(draw) if one] + [table_with(draw, ages, OPEN, 0) for ages in OPENED]
    every += [table_with(draw, ages, FINE, draw.choice((-1, 1)) * 2000) for ages in SETTLED]
    return sorted(every, key=lambda one: OPEN in one.figures)


# ---- columns of entries

def known(one, entries):
    """What is known of a column whose entries are all but some those of the exact values: torn where its rows don't go upward
    from age 0 to 120."""
    if [age for age, _ in entries] != [*AGES]:
        return TORN_COLUMN
    if any(one.figures[age] not in (OPEN, steps) for age, steps in entries):
        return WRONG
    return OPEN if OPEN in one.figures else RIGHT


def case_of(one, what, entries):
    return Case(f"{one.name}, {what}", one.sheet, one.year, text_of(entries), known(one, entries))


def shuffled(draw, entries):
    entries = list(entries)
    return draw.sample(entries, len(entries))


def with_entry(one, age, steps):
    """The table's own column with another entry at an age."""
    return [(x, steps if x == age else own) for x, own in enumerate(one.steps)]


def in_orders(draw, one):
    """The table's own column upward, and torn: downward, from the middle on, every second age first, and in any order."""
    own, at = list(enumerate(one.steps)), draw.randint(1, OLDEST)
    for entries in (own, own[::-1], own[at:] + own[:at], own[::2] + own[1::2], shuffled(draw, own)):
        yield case_of(one, "in some order", entries)


def digit_changed(draw, one):
    """One digit changed at each age in turn, each of the six in turn."""
    for age in AGES:
        place = 10 ** (age % 6)
        digit = one.steps[age] // place % 10
        steps = one.steps[age] + (draw.choice([other for other in range(10) if other != digit]) - digit) * place
        yield case_of(one, f"a digit of age {age}", with_entry(one, age, steps))


def nearest(draw, one):
    """An entry one step off, at the first age, the last and others."""
    for age in draw.sample(AGES, 10) + [0, OLDEST]:
        steps = max(0, one.steps[age] + draw.choice((-1, 1)))
        yield case_of(one, f"age {age} a step off", with_entry(one, age, steps))


def all_else(draw, one):
    """The entries of two ages exchanged, of all ages moved on, of another table's year, all alike, and any."""
    own = one.steps
    for _ in range(3):
        x, y = draw.sample(AGES, 2)
        yield case_of(one, "two exchanged", [(age, own[{x: y, y: x}.get(age, age)]) for age in AGES])
    yield case_of(one, "moved on", list(zip(AGES, own[1:] + own[:1])))
    for steps in (0, 99_999, 100_000, 999_999, FLAT_STEPS):
        yield case_of(one, f"all {steps}", [(age, steps) for age in AGES])
    yield case_of(one, "any entries", [(age, draw.randrange(10**6)) for age in AGES])
    yield case_of(one, "all a step off", [(age, steps + 1) for age, steps in enumerate(own)])


def around_open(draw, one):
    """Any entries at the open ages: the rest right, or wrong at one age or at all; torn where the open ages come first."""
    ages = [age for age in AGES if one.figures[age] == OPEN]
    printed = [age for age in AGES if age not in ages]
    for _ in range(3 if ages else 0):
        odd = {age: draw.choice((one.steps[age] - 1, one.steps[age] + 1, draw.randrange(10**6))) for age in ages}
        odd = {age: max(0, steps) for age, steps in odd.items()}
        at_open, rest = list(odd.items()), [(age, one.steps[age]) for age in printed]
        yield case_of(one, "odd at open ages", sorted(at_open + rest))
        yield case_of(one, "odd at open ages, first", at_open + rest)
        for wrong in (printed[0], printed[-1], draw.choice(printed)):
            one_off = [(age, steps + (age == wrong)) for age, steps in rest]
            yield case_of(one, f"odd at open ages, {wrong} wrong", sorted(at_open + one_off))
            yield case_of(one, f"right at open ages, {wrong} wrong", with_entry(one, wrong, one.steps[wrong] + 1))
        yield case_of(one, "odd at open ages, all wrong", sorted(at_open + [(age, steps + 1) for age, steps in rest]))


def entry_columns(draw, every):
    for one in every:
        yield from in_orders(draw, one)
        yield from nearest(draw, one)
        yield from all_else(draw, one)
        yield from around_open(draw, one)
    for one in [every[0], every[2], every[-1], every[-3], *draw.sample(every[1:], 3)]:
        yield from digit_changed(draw, one)


# ---- columns by their rows

def neighbours_exchanged(draw, rows):
    at = draw.randrange(OLDEST)
    return [*rows[:at], rows[at + 1], rows[at], *rows[at + 2 :]]


def age_twice(draw, rows):
    """121 rows that don't fall, one age twice and another missing."""
    twice, missing = draw.sample(AGES, 2)
    return sorted((twice if age == missing else age, steps) for age, steps in rows)


def age_missing(draw, rows):
    """121 rows that go upward, with one outside for an age that is missing."""
    missing, outside = draw.choice(AGES), draw.choice((-1, OLDEST + 1))
    return sorted((outside if age == missing else age, steps) for age, steps in rows)


def one_row_less(draw, rows):
    at = draw.choice((0, OLDEST, draw.choice(AGES)))
    return [*rows[:at], *rows[at + 1 :]]


def one_row_more(draw, rows):
    """122 rows: one of an age outside, or one that stands twice, beside itself or at the end."""
    at = draw.choice(AGES)
    before, after = (-1, rows[at][1]), (OLDEST + 1, rows[at][1])
    return draw.choice(([*rows, after], [before, *rows], [*rows[: at + 1], *rows[at:]], [*rows, rows[at]]))


# The forms that rows are tried in, each with what it makes of a table's own rows, of which one may have another entry.
IN_ORDER, DAMAGED = "in order", "damaged bytes"
FORMS = {
    IN_ORDER: lambda draw, rows: rows,
    "two neighbours exchanged": neighbours_exchanged,
    "shuffled": shuffled,
    "an age twice": age_twice,
    "an age missing": age_missing,
    "120 rows": one_row_less,
    "122 rows": one_row_more,
}


def of_form(draw, one, form):
    """A column of a table by its rows, or with some bytes changed: torn, wrong or neither."""
    rows = with_entry(one, draw.choice(AGES), draw.randrange(10**6)) if draw.randrange(4) else list(enumerate(one.steps))
    if form != DAMAGED:
        return case_of(one, form, FORMS[form](draw, rows))
    column = text_of(rows)
    for _ in range(draw.choice((1, 1, 1, 3))):
        column = damaged(column, draw.randrange(len(column)), draw)
    return Case(f"{one.name}, {form}", one.sheet, one.year, column, None)


def form_columns(draw, every):
    """As many different columns of each form."""
    for form in (*FORMS, DAMAGED):
        met = set()
        while len(met) < EACH_FORM:
            case = of_form(draw, draw.choice(every), form)
            if case.column not in met:
                met.add(case.column)
                yield form, case


# ---- torn columns

FIGURES = (
    b"", b"0", b"1", b"0.", b".30780", b"0.3078", b"0.307800", b"0.3", b"0.30780000000", b"00.30780", b"10.30780", b"-0.30780",
    b"+0.30780", b"0,30780", b"0 30780", b"030780", b"0:30780", b"0.30780 ", b" 0.30780", b"0.30780\r", b"0.30780\0", b"0.307.0",
    b"0..3078", b"0.3078x", b"x.30780", b"0.3078o", b"O.30780", b"3.078e-1", b"30780", b"open", b"0.-3078", b"0.+3078",
    b"0.3078\xb2", b"\xef\xbc\x90.30780", b"0.30780 0.30780", b"0x0.3078", b"0." + b"3" * 400, b"0.30780%", b"/.30780",
    b":.30780", b"0.3078/", b"0.3078:", b"0.\t3078", b"nan", b"0.30780q", b"=0.30780", b"0/30780",
)
AGE_KEYS = (b"", b"Age", b"AGE", b"ag", b"ages", b" age", b"age ", b"year", b"q", b"\0age", b"age=0 age")
Q_KEYS = (b"", b"Q", b"qx", b" q", b"q ", b"p", b"fig", b"age", b"q=0.30780 q")
# Ages outside 0 to 120, also those that a byte or a word of 32 bits would take for 65.
OUTSIDE = (121, 122, 128, 255, 256 + 65, 512 + 65, 65_536 + 65, 2**32 + 65, 10**15 - 1, -1, -65, -120, -121, 65 - 256, 1 - 10**15)


def torn_lines():
    """Lines that are no entry of age 65, in every way."""
    yield from (b"age=%b q=0.30780" % number for number in NUMBERS)
    yield from (b"age=%d q=0.30780" % age for age in OUTSIDE)
    yield from (b"age=%b q=0.30780" % number for number in (b"065", b"0065", b"+65", b"65.0", b"6 5", b"6x", b"65" + b"0" * 14))
    yield from (b"age=65 q=%b" % number for number in FIGURES)
    yield from (b"%b=65 q=0.30780" % key for key in AGE_KEYS)
    yield from (b"age=65 %b=0.30780" % key for key in Q_KEYS)
    yield from (form % b"age=65 q=0.30780" for form in WHOLE)
    yield from (b"age=65%bq=0.30780" % between for between in (b"", b"  ", b"\t", b",", b";", b"\0", b"\r", b"\xa0", b"\n"))
    yield from (b"age%b65 q%b0.30780" % (equals, equals) for equals in (b"", b"==", b":", b" = ", b"= ", b" =", b"\0", b"\n"))
    yield from (b"q=0.30780 age=65", b"age=65", b"q=0.30780", b"65 0.30780", b"65", b"", b"x", b"\0", b"\xff" * 16, b"age=65 q")
    yield from (b"age=65 q=0.30780" + b"0" * 50_000, b"x" * 50_000, b"age=" + b"6" * 4096 + b" q=0.30780", b" " * 4096)


def with_line(at, *lines):
    """The flat column, with other lines in place of that of an age."""
    return b"".join([*FLAT_LINES[:at], *lines, *FLAT_LINES[at + 1 :]])


def miscounted(draw):
    """Ages that are not each there once: twice, missing, more of them, and others whose count, total or bits are the same."""
    for age in [0, 1, 59, 119, 120] + draw.sample(AGES, 5):
        line, other = FLAT_LINES[age], (age + draw.randint(1, OLDEST)) % (OLDEST + 1)
        yield f"age {age} missing", with_line(age)
        yield f"age {age} twice", with_line(age, line, line)
        yield f"age {age} twice with two entries", with_line(age, line, line_of(age, FLAT_STEPS + 1))
        yield f"age {age} twice, the second at the end", FLAT_COLUMN + line
        yield f"age {age} in place of {other}", with_line(other, line)
        yield f"age {age} in place of {other}, with another entry", with_line(other, line_of(age, 0))
        for outside in draw.sample(OUTSIDE, 3) + [121, -1]:
            yield f"age {outside} in place of {age}", with_line(age, line_of(outside, FLAT_STEPS))
            yield f"age {outside} beside {age}", with_line(age, line, line_of(outside, FLAT_STEPS))
    for low, high in ((10, 20), (0, 2), (118, 120), (31, 33)):
        middle = line_of((low + high) // 2, FLAT_STEPS)
        lines = [middle if age in (low, high) else line for age, line in enumerate(FLAT_LINES)]
        yield f"{low} and {high} both in the middle", b"".join(lines)
    for ages in ([0] * 121, [120] * 121, [60] * 121, [*range(120), 119], [*range(1, 122)], [*range(-1, 120)], [*range(122)]):
        yield f"ages {ages[0]}, {ages[1]} to {ages[-1]}", b"".join(line_of(age, FLAT_STEPS) for age in ages)


def cut_and_long(draw):
    """The column cut, begun late, doubled, with more before, within or after it, its line feeds others, and very long ones."""
    whole, last = len(FLAT_COLUMN), len(FLAT_LINES[-1])
    for at in [*range(last + 1), *draw.sample(range(whole), 20), whole - 1]:
        yield f"{at} bytes", FLAT_COLUMN[:at]
        yield f"{at} bytes less", FLAT_COLUMN[: whole - at - 1]
        yield f"begun after {at + 1}", FLAT_COLUMN[at + 1 :]
    for count in (0, 1, 119, 120):
        yield f"{count} lines", b"".join(FLAT_LINES[:count])
    for more in (b"\n", b"\n\n", b"\r\n", b" ", b"\0", b"x", b"year=2020\n", b"age q\n", b"\xef\xbb\xbf", b"#\n", FLAT_COLUMN):
        at = draw.randint(1, OLDEST)
        yield f"{more[:9]!r} first", more + FLAT_COLUMN
        yield f"{more[:9]!r} after", FLAT_COLUMN + more
        yield f"{more[:9]!r} within", b"".join(FLAT_LINES[:at]) + more + b"".join(FLAT_LINES[at:])
    for end in LINE_ENDS:
        yield f"lines end in {end!r}", FLAT_COLUMN.replace(b"\n", end)
        age = draw.choice(AGES)
        yield f"a line ends in {end!r}", with_line(age, FLAT_LINES[age].replace(b"\n", end))
    for size in (2**14, 57_000, 70_000, 200_000):
        for line in (FLAT_LINES[0], b"\n", b"x", b"\0", b"age=0 "):
            yield f"{size} bytes of {line[:9]!r} after", padded(FLAT_COLUMN, size, line)
            yield f"{size} bytes of {line[:9]!r}", padded(b"", size, line)
    yield "a sheet", FLAT


def torn_columns(draw):
    """Columns that are torn for certain, over the flat sheet."""
    for line in torn_lines():
        rest = FLAT_LINES[:65] + FLAT_LINES[66:]
        yield f"the line {line[:40]!r}", with_line(65, line + b"\n")
        if draw.randrange(3) == 0:
            yield f"the last line {line[:40]!r}", b"".join([*rest, line + b"\n"])
            yield f"the line {line[:40]!r} more", FLAT_COLUMN + line + b"\n"
    yield from miscounted(draw)
    yield from cut_and_long(draw)


def torn_cases(draw):
    """Each over the flat sheet, some with a sheet off scale, a year out of range and a steep set: 2 comes first, then 9."""
    for what, column in torn_columns(draw):
        yield Case(f"torn, {what}", FLAT, draw.choice((2014, 2020, 2184)), column, TORN_COLUMN)
        sheet, year, no = draw.choice((
            (OFF, 2020, OFF_SCALE), (OFF, 2013, OFF_SCALE), (FLAT, 2185, TORN_COLUMN), (FLAT, -2020, TORN_COLUMN),
            (STEEP_SHEET, 2020, TORN_COLUMN), (STEEP_SHEET, 2013, TORN_COLUMN), (TORN_SHEET, 2020, TORN),
        ))
        if draw.randrange(3) == 0:
            yield Case(f"torn in order, {what}", sheet, year, column, no)


# ---- refusals of the sheet, the year and steep cells

YEARS = (FIRST_YEAR - 1, FIRST_YEAR, LAST_YEAR, LAST_YEAR + 1, LAST_CELL, LAST_CELL + 1, 0, -2020, 10**15 - 1, 1 - 10**15)
FAR_YEARS = (LEAST, LEAST + 1, 2**32 + 2020, 2020 - 2**32, 65_536 + 2020, 2020 - 65_536, GREATEST, GREATEST - 1)


def in_order(years):
    """Sheets with years and columns of which more than one is at fault: 1, 2, 9, 4, 6, and then the verdict."""
    faults = {FLAT: 0, STEEP_SHEET: STEEP, OFF: OFF_SCALE, TORN_SHEET: TORN, OFF.replace(b"sex=", b"Sex=", 1): TORN, b"": TORN}
    columns = {FLAT_COLUMN: RIGHT, with_line(7, line_of(7, 0)): WRONG, with_line(7): TORN_COLUMN, b"": TORN_COLUMN}
    for (sheet, no), year, (column, said) in itertools.product(faults.items(), years, columns.items()):
        late = said if said == TORN_COLUMN else 0 if FIRST_YEAR <= year <= LAST_CELL else NO_YEAR
        first = no if no in (TORN, OFF_SCALE) else late or no or said
        yield Case(f"in order, {no}, {year}, {said}", sheet, year, column, first)


def steep_cases(draw):
    """A cell of one age at an end of the range and a unit past it, in every year, or past it from a year on."""
    for age in range(LAST_FITTED + 1):
        edge, past = draw.choice(((HIGHEST, 1), (LOWEST, -1)))
        for by, said in ((0, WRONG), (past, STEEP)):
            if by or age % 10 == 0:
                sheet = sheets.text(dict(flat(), A=[edge + by if x == age else -(10**9) for x in AGES[:91]]))
                yield Case(f"{edge + by} at {age}", sheet, draw.choice(YEARS[1:5]), FLAT_COLUMN, said)
    for age, last in itertools.product((0, 45, 79, 80, 90), (1, 51, 170)):
        rise = [10**6 * (x == age) for x in AGES[:91]]
        base = [HIGHEST - last * 10**7 if x == age else -(10**9) for x in AGES[:91]]
        sheet = sheets.text(dict(flat(), theta=10**9, A=base, B=rise))
        for year, said in ((2013 + last, WRONG), (2014 + last, STEEP)):
            yield Case(f"rises at {age}, {year}", sheet, year, FLAT_COLUMN, said)


def cases(draw, every):
    """All cases, and those of each form among them."""
    formed = list(form_columns(draw, every))
    parts = [in_order(YEARS), entry_columns(draw, every), torn_cases(draw), steep_cases(draw), (case for _, case in formed)]
    return list(itertools.chain(*parts)), formed


# ---- inputs of the program: the year's line, the sheet's lines, and sizes

YEAR_LINES = (
    b"year=\n", b"year\n", b"year 2020\n", b"year:2020\n", b"year==2020\n", b"year=2020 \n", b" year=2020\n", b"year= 2020\n",
    b"year =2020\n", b"Year=2020\n", b"YEAR=2020\n", b"yea=2020\n", b"years=2020\n", b"=2020\n", b"2020\n", b"\n", b"\n\n",
    b"year=2020\r\n", b"year=2020\r", b"year=2020\0\n", b"\0year=2020\n", b"year=2020\t\n", b"year=02020\n", b"year=+2020\n",
    b"year=-02020\n", b"year=--2020\n", b"year=2020.0\n", b"year=2,020\n", b"year=2e3\n", b"year=0x7e4\n", b"year=202o\n",
    b"year=2020 verdict=right\n", b"year=2020 year=2020\n", b"year=2020 span=0\n", b"year=2020\x0b", b"\xef\xbb\xbfyear=2020\n",
    b"age=2020\n", b"kind=q age=65 year=2020 span=0\n", b"table=AG2014\n", b"\nyear=2020\n", b"\r\nyear=2020\n", b"x\nyear=2020\n",
    b"", b"year=\n2020\n", b"year\n=2020\n", b"#year=2020\n", b"year=2020", b"year=" + b"9" * 16 + b"\n",
    b"year=-" + b"9" * 16 + b"\n", b"year=" + b"2" * 4096 + b"\n", b"x" * 4096 + b"\n", b"year=2/20\n", b"year=20:0\n",
    *(b"year=%b\n" % number for number in NUMBERS if not NUMBER.fullmatch(number)),
)


def torn_years(draw):
    """Years' lines that are torn, with sheets that are read, steep, off scale and torn; and the line cut at each byte."""
    for line in YEAR_LINES:
        for sheet in (FLAT, draw.choice((OFF, OFF, STEEP_SHEET, TORN_SHEET))):
            column = draw.choice((FLAT_COLUMN, FLAT_COLUMN, with_line(7), b""))
            yield Input(f"the year's line {line[:40]!r}", sheet + line + column), b"no=1\n"
    for sheet, at in itertools.product((FLAT, OFF), range(len(b"year=2020"))):
        yield Input(f"ends in {b'year=2020'[:at]!r}", sheet + b"year=2020"[:at]), b"no=1\n"
    yield Input("ends in the year", FLAT + b"year=2020"), b"no=1\n"
    yield Input("ends after the year's line", FLAT + b"year=2020\n"), b"year=2020 no=9\n"
    yield Input("off scale, ends after the year's line", OFF + b"year=2020\n"), b"no=2\n"
    for number in (b"0", b"-1", b"2013", b"2185", b"9" * 15, b"-" + b"9" * 15, b"20200", b"202"):
        yield Input(f"the year {number}", FLAT + b"year=%b\n" % number + FLAT_COLUMN), b"year=%b no=4\n" % number
    for year in (2014, 2020, 2184):
        yield Input("two years", FLAT + b"year=%d\n" % year * 2 + FLAT_COLUMN), b"year=%d no=9\n" % year


def sheet_lines(draw, every):
    """A sheet with a line left out, doubled, exchanged or damaged, off scale, in another place, or not there."""
    one = draw.choice(every)
    rest, parts = b"year=%d\n" % one.year + text_of(enumerate(one.steps)), whole_run.lines_in(one.sheet)
    for i in draw.sample(range(whole_run.SHEET_LINES), 25) + [0, 1, 368, 369]:
        before, after = b"".join(parts[:i]), b"".join(parts[i + 1 :])
        yield Input(f"{i} lines of a sheet", before + rest), b"no=1\n"
        yield Input(f"line {i} doubled", before + parts[i] * 2 + after + rest), b"no=1\n"
        yield Input(f"line {i} left out", before + after + rest), b"no=1\n"
        yield Input(f"line {i} exchanged with the next", before + b"".join(parts[i : i + 2][::-1] + parts[i + 2 :]) + rest), None
        yield Input(f"line {i} damaged", damaged(one.sheet, sum(map(len, parts[:i])), draw) + rest), None
    for key in ("a", "theta", "K", "k", "A.0", "B.45", "al.90", "be.90"):
        for past, said in ((0, None), (1, b"no=2\n")):
            value = b"%d" % (draw.choice((1, -1)) * (SIZES[key.split(".")[0]] + past))
            yield Input(f"{key} {value}", with_value(key, value) + b"year=2020\n" + FLAT_COLUMN), said
    others = {
        "nothing": b"", "a column alone": FLAT_COLUMN, "a year and a column": rest, "a year and a column first": rest + one.sheet,
        "the column first": one.sheet + FLAT_COLUMN + b"year=2020\n", "a blank line first": b"\n" + one.sheet + rest,
        "a blank line between": one.sheet + b"\n" + rest, "two sheets": one.sheet * 2 + rest, "no line feed": one.sheet[:-1] + rest,
        "a sheet alone": one.sheet, "no line feed after the sheet": one.sheet[:-1], "370 line feeds": b"\n" * 370 + rest,
    }
    for name, data in others.items():
        yield Input(name, data), b"no=1\n"


def sizes(draw):
    """Inputs up to, at and past the longest, with columns that would be right, and sheets of every kind."""
    starts = {"flat": FLAT, "off scale": OFF, "steep": STEEP_SHEET, "torn": TORN_SHEET}
    for size in (LONGEST - 1, LONGEST, LONGEST + 1, LONGEST + 2, 2 * LONGEST, 10**6):
        for (name, sheet), more in itertools.product(starts.items(), (b"\n", b"x", FLAT_LINES[0], b"\0")):
            said = {"flat": b"year=2020 no=9\n", "off scale": b"no=2\n", "steep": b"year=2020 no=9\n", "torn": b"no=1\n"}[name]
            data = padded(sheet + b"year=2020\n" + FLAT_COLUMN, size, more)
            yield Input(f"{size} bytes, {name}, {more[:9]!r}", data), said if size <= LONGEST else b"no=1\n"
        yield Input(f"{size} bytes, no year", padded(FLAT, size, FLAT_LINES[0])), b"no=1\n"
        yield Input(f"{size} bytes, a long year", padded(FLAT + b"year=", size - 1, b"2") + b"\n"), b"no=1\n"
        yield Input(f"{size} bytes", draw.randbytes(size)), b"no=1\n"
    data = FLAT + b"year=2020\n" + FLAT_COLUMN
    yield Input("whole", data), b"year=2020 verdict=right\n"
    for at in draw.sample(range(len(data)), 40):
        yield Input(f"the first {at} bytes", data[:at]), None


def any_bytes(draw, every, count):
    """Whole inputs with some bytes changed, or a part left out or doubled."""
    for i in range(count):
        one = draw.choice(every)
        data = one.sheet + b"year=%d\n" % one.year + text_of(enumerate(one.steps))
        for _ in range(draw.randint(1, 3)):
            data = damaged(data, draw.randrange(draw.choice((0, len(one.sheet))), len(data)), draw)
        if draw.randrange(3) == 0:
            a, b = sorted(draw.randrange(len(data) + 1) for _ in range(2))
            data = draw.choice((data[:a] + data[b:], data[:b] + data[a:], data[:a]))
        yield Input(f"changed bytes {i}", data), None


def other_inputs(draw, every):
    """Inputs that are no sheet, year and column, each with its output where that is known beforehand."""
    return list(itertools.chain(torn_years(draw), sheet_lines(draw, every), sizes(draw), any_bytes(draw, every, 150)))


# ---- comparing the program

def untrue(case, said):
    """What is wrong with a verdict, of the exact values: right is said only where every entry is the rounded one, wrong only
    where some entry is not."""
    entries = entries_of(case.column) if said in VERDICTS else None
    same = entries and entries == exact_steps(case.sheet, case.year)
    true = {RIGHT: same, WRONG: entries and not same}.get(said, True)
    return None if true else f"verdict, {case.name}: {said} is not true of the exact values"


@functools.cache
def said_of(case):
    """What the second implementation says of a call: the refusal or the verdict."""
    no, said = columns_of(case.sheet).verdict(case.year, case.column)
    return no or said


def run_case(case):
    """What is wrong with a program's run over a case, against the second implementation and the exact values."""
    one = input_of(case)
    status, out = programs.run("verdict", one.data)
    said = out.decode(errors="replace").rstrip("\n").rpartition("verdict=")[2]
    return complaint(one.name, "verdict", whole_run.verdict(one.data), status, out) or untrue(case, said)


def known_case(case):
    """What is wrong with the second implementation, where something is known beforehand."""
    said = said_of(case)
    return None if said == case.known else f"columns.py, {case.name}: {said}, not {case.known}"


def in_pieces(draw, everything):
    """Runs with the input in pieces: jobs to be called."""
    names = ("whole", "nothing", "a sheet alone", "ends after the year's line", "two sheets")
    chosen = [one for one in everything if one.name in names]
    chosen += draw.sample([one for one in everything if 4000 < len(one.data) < 15_000], 6)
    for one in chosen:
        for pieces in ([1], [2, 3, 5, 7], [draw.randint(1, 1000) for _ in range(9)]):
            yield piecewise, "verdict", one, pieces
    for one in everything:
        if one.name in (f"{LONGEST} bytes, flat, b'\\n'", f"{LONGEST + 1} bytes, flat, b'\\n'"):
            for pieces in ([4095], [4096], [4097], [LONGEST - 1, 1], [LONGEST, 1], [1, LONGEST]):
                yield piecewise, "verdict", one, pieces
    whole = next(one for one in everything if one.name == "whole")
    for pieces in ([len(FLAT), 5, 5, 3000], [len(FLAT) - 1, 2, 2000], [len(FLAT) + 9, 1, 2067, 1]):
        yield piecewise, "verdict", whole, pieces, 0.001


def other_ends(everything):
    """Runs with readers that close early, with a full device, an endless input, and files: jobs to be called."""
    whole = next(one for one in everything if one.name == "whole")
    for count, ignored in itertools.product((0, 1, 30), (False, True)):
        yield closes_early, "verdict", whole.data, count, ignored
    yield full_device, "verdict", whole.data
    yield (endless, "verdict")
    for one in [whole, *everything[::150]]:
        yield from_file, "verdict", one


def jobs(draw, every_case, others):
    for case in every_case:
        yield run_case, case
        if case.known is not None:
            yield known_case, case
    for one, known_output in others:
        want = whole_run.verdict(one.data)
        yield compared, "verdict", one, want
        if known_output is not None:
            yield complaint, one.name, "whole_run.py", known_output, 0, want
    everything = [input_of(case) for case in every_case[::20]] + [one for one, _ in others]
    yield from in_pieces(draw, everything)
    yield from other_ends(everything)


# ---- the library's call, from C and from Python

def call_cases(draw):
    """Cases for the calls alone: years of 64 bits, sheets at and past the longest, and very long columns."""
    yield from in_order(FAR_YEARS)
    for size in (LONGEST - 1, LONGEST, LONGEST + 1, 10**6):
        for sheet in (FLAT.ljust(size, b"\n"), OFF.ljust(size, b"\n"), draw.randbytes(size)):
            yield Case(f"a sheet of {size} bytes", sheet, 2020, draw.choice((FLAT_COLUMN, b"")), TORN)
    for sheet, no in ((FLAT, TORN_COLUMN), (OFF, OFF_SCALE), (b"", TORN)):
        for column in (FLAT_COLUMN.ljust(10**6, b"\n"), FLAT_COLUMN * 1000, b"9" * 10**6, draw.randbytes(10**6)):
            yield Case("a column of a million bytes", sheet, draw.choice((2020, LEAST)), column, no)


def answered(call, *given):
    """What a call gives, the number of the refusal that it raises, or the name of another error."""
    try:
        return call(*given)
    except Exception as error:
        return getattr(error, "number", type(error).__name__)


def compare_calls(count, draw, module, every_case):
    """Each case from C, with the number that is lent, and from Python."""
    for case in every_case:
        said, given = said_of(case), (case.sheet, case.year, case.column)
        count.take(case.known in (None, said), f"columns.py, {case.name}: {said}, not {case.known}")
        before = draw.choice((0, 1, 2, draw.getrandbits(64), 2**64 - 1))
        wanted = (0, VERDICTS.index(said)) if said in VERDICTS else (said, before)
        got = c_interface.verdict(module.LIBRARY, *given, before)
        count.take(got == wanted, f"kulfizan_verdict, {case.name}: {got}, not {wanted}")
        got = answered(module.verdict, *given)
        count.take(got == said, f"kulfizan.verdict, {case.name}: {got}, not {said}")


def compare_module(count, module):
    """What the Python module takes and raises beside that."""
    took = answered(module.verdict, bytearray(FLAT), 2020, bytearray(FLAT_COLUMN))
    count.take(took == RIGHT, "kulfizan.verdict takes no bytearray")
    for year, wanted in ((GREATEST + 1, 4), (LEAST - 1, 4), (10**30 + 2020, 4), (2020.0, "TypeError"), (1e30, "TypeError")):
        got = answered(module.verdict, FLAT, year, FLAT_COLUMN)
        count.take(got == wanted, f"kulfizan.verdict in {year}: {got}, not {wanted}")
    words = str(answered(module.Refused, TORN_COLUMN))
    count.take("column" in words, f"refusal {TORN_COLUMN} has the words {words}")


def compare_library(draw, every_case):
    """The counts of all that the library is compared in."""
    count, module = c_interface.Count(), c_interface.built()
    there = module is not None and hasattr(module, "verdict") and hasattr(module.LIBRARY, "kulfizan_verdict")
    count.take(there, "the library with its verdict is not built")
    if there:
        compare_calls(count, draw, module, [*every_case, *call_cases(draw)])
        compare_module(count, module)
    return count


# ---- all of it

SAID = (*VERDICTS, TORN, OFF_SCALE, TORN_COLUMN, NO_YEAR, STEEP)
# What has to be said of some column of each form.
FORM_SAID = {form: {TORN_COLUMN} for form in FORMS} | {IN_ORDER: {*VERDICTS}, DAMAGED: {WRONG, TORN_COLUMN}}
OPEN_AGES = {"to 79": range(80), "80 to 90": range(80, 91), "above 90": range(91, 121), "0": (0,), "120": (120,)}


def absent(counts, every, formed):
    """What should have been met and was not."""
    missed = [f"no case of: {what}" for what in SAID if not counts[what]]
    for form, said in FORM_SAID.items():
        got = [said_of(case) for one, case in formed if one == form]
        if len(got) != EACH_FORM or not said <= {*got}:
            missed.append(f"{form}: {len(got)} columns, of which is said {sorted(map(str, {*got}))}")
    for name, ages in OPEN_AGES.items():
        if not any(one.figures[age] == OPEN for one in every for age in ages):
            missed.append(f"no open age {name}")
        if not any(told(one.sheet, one.year, age) == FINE for one in every for age in ages):
            missed.append(f"no age {name} that the fine grid settles")
    if not any(OPEN not in one.figures for one in every):
        missed.append("no table without an open age")
    return missed


def report(counts, every, every_case, formed, others):
    print(f"{len(every)} tables, {sum(OPEN in one.figures for one in every)} with open ages")
    print(f"{len(every_case)} cases, {len({case.column for case in every_case})} columns, and {len(others)} other inputs")
    print("said of them:", ", ".join(f"{what} {counts[what]}" for what in SAID))
    for form in FORM_SAID:
        said = collections.Counter(said_of(case) for one, case in formed if one == form)
        print(f"{form}:", ", ".join(f"{what} {said[what]}" for what in SAID if said[what]))


def main():
    seed = int(sys.argv[1]) if len(sys.argv) > 1 else SEED
    print(f"seed {seed}")
    gone = programs.missing("verdict")
    if gone:
        print(gone)
        return 1
    draw = random.Random(seed)
    every = tables(draw)
    (every_case, formed), others = cases(draw, every), other_inputs(draw, every)
    counts = collections.Counter(map(said_of, every_case))
    with concurrent.futures.ThreadPoolExecutor(2) as threads:
        found = list(threads.map(lambda job: job[0](*job[1:]), list(jobs(draw, every_case, others))))
    report(counts, every, every_case, formed, others)
    found += absent(counts, every, formed) or [None]
    wrong = [said for said in found if said]
    for message in wrong[:20]:
        print(message)
    library = compare_library(draw, every_case)
    passed, failed = len(found) - len(wrong) + library.passed, len(wrong) + library.failed
    print(f"{passed} passed, {failed} failed")
    return 1 if failed else 0


if __name__ == "__main__":
    sys.exit(main())
