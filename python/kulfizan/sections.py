"""The sections of a report: tables of figures and pictures, with what they say in words."""
import hashlib
from typing import Any, Dict, Iterable, Iterator, List, Optional, Sequence, Tuple

from . import pages, pictures
from .answers import LAST_AGE, LISTED, Asked, Found, shared
from .comparing import ALIKE, DIFFER, NEAR, Pair, amount, furthest, pairs
from .library import REFUSALS
from .lists import OPEN, Row
from .pages import Cell, Column, Head, plain
from .selections import percent
from .sheets import KINDS, Sheet
from .svg import element
from .units import FINE, text as exact

SPANS = (1, 10, 20, 30, 40, 60, 80)
MOST_FINE, MOST_YEARS = 100, 8
SEXES = {"F": "F, women", "M": "M, men"}
UNIT_OF = {"ecoh": "in years", "eper": "in years", "acoh": "in euro", "q": "a chance", "coh": "a chance"}


# ---- tables of figures

def shown(row: Optional[Row]) -> Cell:
    """A figure as the library gives it."""
    if row is None:
        return Cell("–", "refused")
    return Cell(plain(row.text), "refused" if row.no else OPEN if row.text == OPEN else None)


def pair_of(first: Row, second: Row) -> Pair:
    return next(pairs([first], [second]))


def hidden(pair: Pair) -> bool:
    """Whether two figures print alike and the values are proved to differ."""
    return pair.printed() == ALIKE and pair.values.relation != NEAR


def marked(first: Optional[Row], second: Optional[Row]) -> Cell:
    """The second sheet's figure, marked where it prints as the first's and the values are proved to differ."""
    if first and second and hidden(pair_of(first, second)):
        return Cell(f'{plain(second.text)}<abbr title="prints alike, differs">≠</abbr>', "alike-differs")
    return shown(second)


def figures(name: str, caption: str, columns: Sequence[int], groups: Dict[int, List[List[Optional[Row]]]]) -> str:
    """Figures by age and one thing more: of each age a row for each sheet."""
    two = any(len(both) > 1 for both in groups.values())
    heads = [Column("age")] + ([Column("sheet", True)] if two else []) + [Column(str(column)) for column in columns]
    bodies = []
    for age, both in groups.items():
        first = [Head(str(age), len(both))] + ([Head("first", 1, True)] if two else [])
        lines = [first + [shown(row) for row in both[0]]]
        if two:
            lines.append([Head("second", 1, True)] + [marked(*pair) for pair in zip(*both)])
        bodies.append(lines)
    if not two:
        return pages.table(name, caption, heads, [[line for lines in bodies for line in lines]], "ruled")
    return pages.table(name, caption, heads, bodies, "two")


def by_age(found: List[List[Row]], ages: List[int], columns: int) -> Dict[int, List[List[Row]]]:
    """The rows of each sheet, cut by age."""
    return {age: [part(of_sheet, place, columns) for of_sheet in found] for place, age in enumerate(ages)}


def part(found: List[Any], place: int, size: int) -> List[Any]:
    """One of the parts of a size that a list is cut into."""
    return found[place * size : (place + 1) * size]


def kind_title(kind: str, rate: int) -> str:
    """What a kind is, with its rate and its unit."""
    at = f", at {percent(rate)}" if KINDS[kind].rate else ""
    return f"<code>{kind}</code>, {plain(KINDS[kind].title)}{at}, {UNIT_OF[kind]}"


def noted(found: Iterable[Row]) -> str:
    """What the refusals of a table mean."""
    numbers = sorted({row.no for row in found if row.no})
    return "".join(pages.paragraph(f"<code>no={no}</code>: refused, {plain(REFUSALS[no])}.") for no in numbers)


# ---- the sections

def reading(two: bool) -> Iterator[str]:
    """How the page is read, and what is proved."""
    items = [
        "A <strong>figure</strong> such as 21.38 is the exact value of the formula with the sheet's numbers, rounded half up "
        "to the last digit that is shown. This is proved of the library that gave it: nothing was rounded on the way.",
        "The <strong>ends</strong> of a value are two decimals between which the exact value is proved to lie, with nine "
        "digits after the point. Where such ends round to different figures, the value is worked again on a finer grid, with "
        "thirteen. <em>open</em> stands where these do not settle it either. It is no error.",
        "<code>no=N</code> is a refusal, with its number, and no value is given.",
    ]
    if two:
        items.append(
            '<span class="alike-differs">≠</span> marks figures that <strong>print alike while the values are proved to '
            "differ</strong>: their ends do not touch. Values whose ends touch are <em>near</em>, and may be the same."
        )
    yield pages.bullets(items)
    yield pages.paragraph(
        "The page presents the library's answers and works out no figure. The page itself is not proved: pictures are drawn "
        "from the lower ends, and any figure can be asked again, as the command at the foot does."
    )


def sheet_lines(sheet: Sheet) -> Iterator[Tuple[str, str]]:
    """What a sheet is, line by line."""
    yield "table", sheet.table
    yield "sex", SEXES[sheet.sex]
    yield "start", str(sheet.start)
    yield "quotes", f"{sheet.years[0]} to {sheet.years[-1]}"
    yield "q", f"{sheet.q_years[0]} to {sheet.q_years[-1]}"
    yield "K at the start", exact(sheet.K, 9)
    yield "theta, by which K moves each year", exact(sheet.theta, 9)
    yield "kappa at the start", exact(sheet.k, 9)
    yield "a, which multiplies kappa each year", exact(sheet.a, 8)
    yield "c, which is added to kappa each year", exact(sheet.c, 9)


def sheets_part(found: List[Found]) -> Iterator[str]:
    """What the sheets are."""
    two = len(found) > 1
    lines: List[List[Any]] = [[Head("file", 1, True)] + [Cell(plain(one.name), "words") for one in found]]
    values = [list(sheet_lines(one.sheet)) for one in found]
    for of_sheets in zip(*values):
        lines.append([Head(plain(of_sheets[0][0]), 1, True)] + [Cell(plain(value), "words") for _, value in of_sheets])
    digests = [hashlib.sha256(one.sheet.data).hexdigest() for one in found]
    lines.append([Head("bytes", 1, True)] + [Cell(f"{len(one.sheet.data):,}", "words") for one in found])
    lines.append([Head("SHA-256", 1, True)] + [Cell(f"<code>{digest}</code>", "words") for digest in digests])
    columns = [Column("", True)] + [Column(word, True) for word in (("first", "second") if two else ("sheet",))]
    caption = "The head of the sheet, its series and its bytes. The log force at an age is A + alpha + B·K + beta·kappa."
    yield pages.table("sheet-table", caption, columns, [lines], "ruled facts")
    if two and digests[0] == digests[1]:
        yield pages.paragraph("Both files have the same bytes.")


def list_part(found: List[Found], asked: Asked) -> Iterator[str]:
    """The list: a table for each kind, or several where there are many years."""
    size, columns = len(asked.ages) * len(asked.years), len(asked.years)
    for place, kind in enumerate(LISTED):
        groups = by_age([part(one.listed, place, size) for one in found], asked.ages, columns)
        for number in range(-(-columns // MOST_YEARS)):
            fitting = {age: [part(line, number, MOST_YEARS) for line in both] for age, both in groups.items()}
            shown_years = part(asked.years, number, MOST_YEARS)
            yield figures(f"list-{kind}-{number + 1}", kind_title(kind, asked.rate), shown_years, fitting)
    yield noted(row for one in found for row in one.listed)


def how_printed(pair: Pair) -> Cell:
    """What a reader of both figures should know."""
    if hidden(pair):
        return Cell("<strong>prints alike, differs</strong>", "words alike-differs")
    words = {ALIKE: "prints alike, near", DIFFER: "prints differently", OPEN: "open"}
    return Cell(words.get(pair.printed(), "refused"), "words")


def difference(pair: Pair) -> List[Cell]:
    """Both figures of a cell and what is proved of the values."""
    values, least, most, _ = pair.cells()[3:]
    proved = [Cell(plain(values), "words"), Cell(least or "–"), Cell(most or "–")]
    return [shown(pair.first), shown(pair.second), how_printed(pair), *proved]


def differences(name: str, caption: str, found: List[Pair], asked: Asked) -> str:
    """A table of pairs by age and year."""
    titles = [("year", False), ("first", False), ("second", False), ("the figures", True), ("the first value is", True),
              ("by at least", False), ("at most", False)]
    columns = [Column("age")] + [Column(*title) for title in titles]
    count = len(asked.years)
    groups = []
    for place, age in enumerate(asked.ages):
        lines = [[Head(str(pair.first.year)), *difference(pair)] for pair in part(found, place, count)]
        lines[0].insert(0, Head(str(age), count))
        groups.append(lines)
    return pages.table(name, caption, columns, groups)


def counted(found: List[Pair]) -> Cell:
    """How many there are and the most that any of them can differ by."""
    most = element("div", f"≤ {furthest(found)}") if found else ""
    return Cell(f"{len(found):,}{most}")


def summary_line(kind: str, found: List[Pair], rate: int) -> List[Any]:
    """How many cells of a kind print alike, differ, are open or refused."""
    alike = [pair for pair in found if pair.printed() == ALIKE]
    sorts = [[pair for pair in alike if hidden(pair)], [pair for pair in alike if not hidden(pair)],
             [pair for pair in found if pair.printed() == DIFFER]]
    others = [sum(pair.printed() == OPEN for pair in found), sum(pair.values is None for pair in found)]
    name = f"{kind} {percent(rate)}" if KINDS[kind].rate else kind
    return [Head(name, 1, True), Cell(f"{len(found):,}"), *map(counted, sorts), *(Cell(f"{other:,}") for other in others)]


def common_pairs(found: List[Found], kind: str) -> List[Pair]:
    """All cells of a kind that both sheets have."""
    other = {(row.age, row.year): row for row in found[1].whole[kind]}
    both = [(row, other[row.age, row.year]) for row in found[0].whole[kind] if (row.age, row.year) in other]
    return list(pairs(*zip(*both)))


def differences_part(found: List[Found], asked: Asked, whole: Dict[str, List[Pair]]) -> Iterator[str]:
    """The differences of two sheets: all cells counted, and those of the list one by one."""
    titles = ("cells", "print alike, differ", "print alike, near", "print differently", "open", "refused")
    lines = [summary_line(kind, of_kind, asked.rate) for kind, of_kind in whole.items()]
    caption = "All ages and all years that both have: how many cells there are; behind ≤ the most that such values differ by."
    yield pages.table("differences-all", caption, [Column("", True), *map(Column, titles)], [lines], "ruled")
    closed = ", ".join(f"{kind} {sum(pair.closed() for pair in of_kind):,}" for kind, of_kind in whole.items())
    yield pages.paragraph(f"Cells with a figure that the fine grid closed: {closed}.", id="differences-closed") if whole else ""
    yield pages.paragraph("Cell by cell at the chosen ages and years:")
    size = len(asked.ages) * len(asked.years)
    every = list(pairs(found[0].listed, found[1].listed))
    for place, kind in enumerate(LISTED):
        yield differences(f"differences-{kind}", kind_title(kind, asked.rate), part(every, place, size), asked)


def at_least_half(curves: List[pictures.Curve]) -> str:
    """How long each chance is proved to be at least one half."""
    told = []
    for curve in curves:
        last = max(span for span, lower in enumerate(curve.lowers) if 2 * lower >= pictures.ONE)
        told.append(f"{last} {'year' if last == 1 else 'years'} from age {curve.age}")
    return ", ".join(told)


def survival_part(found: List[Found], asked: Asked) -> Iterator[str]:
    """Survival from the chosen ages, as curves and as figures."""
    curves = [list(one.curves(place)) for place, one in enumerate(found)]
    if any(curves):
        yield survival_figure(found, asked, curves)
    else:
        yield pages.paragraph("There is no curve to draw: a chance is given at none of the ages.")
    yield survival_table(found, asked)
    yield noted(row for one in found for of_age in one.survivals.values() for row in of_age)


def survival_figure(found: List[Found], asked: Asked, curves: List[List[pictures.Curve]]) -> str:
    """The survival curves."""
    title = f"Chance to be alive, along the cohort, from 1 January {asked.curve_year}"
    halves = [f"{one.name}: {at_least_half(of_sheet)}" for one, of_sheet in zip(found, curves) if of_sheet]
    told = "The chance is proved to be at least one half for: " + "; ".join(halves) + "."
    names = [f"{word}: {one.name}" for word, one in zip(("first", "second"), found)]
    picture = pictures.survival("survival-picture", title, told, [curve for of_sheet in curves for curve in of_sheet], names)
    said = [f"{title}. Each curve has the age at its beginning on it."]
    if len(asked.curve_ages) < len(asked.ages):
        said.append(f"{len(asked.curve_ages)} of the {len(asked.ages)} ages have one.")
    if len(found) > 1:
        said.append("The first sheet's curves are whole, the second's dashed.")
    return pages.figure(picture, plain(" ".join([*said, "Drawn from the lower ends.", told])))


def survival_table(found: List[Found], asked: Asked) -> str:
    """Some of the chances that the curves go through."""
    spans = [span for span in SPANS if span <= LAST_AGE - min(asked.curve_ages, default=LAST_AGE)]
    if not spans:
        return ""
    groups = {age: [[row_at(one.survivals[age], span) for span in spans] for one in found] for age in asked.curve_ages}
    caption = f"{kind_title('coh', asked.rate)}, after so many years from 1 January {asked.curve_year}"
    return figures("survival-table", caption, spans, groups)


def row_at(found: List[Row], place: int) -> Optional[Row]:
    return found[place] if place < len(found) else None


def told_cell(row: Row) -> str:
    """A cell of q in words, with its ends."""
    low, high = row.ends()
    return f"age {row.age} in {row.year}, between {low} and {high}"


def q_picture(place: int, one: Found) -> str:
    """The map of a sheet's q."""
    found = one.whole["q"]
    given = [row for row in found if not row.no]
    title = f"One-year death probability q by age and calendar year: {one.name}"
    if not given:
        return pages.paragraph(f"{plain(one.name)}: there is no map to draw, every q is refused.")
    least, most = min(given, key=Row.finely), max(given, key=Row.finely)
    opened, closed = sum(row.text == OPEN for row in given), sum(row.closed for row in given)
    told = (f"The least lower end is that of {told_cell(least)}; the greatest that of {told_cell(most)}. Of {len(found):,} "
            f"figures {opened:,} are open, {closed:,} closed by the fine grid, {len(found) - len(given):,} refused.")
    cells = {(row.age, row.year): row for row in found}
    picture = pictures.q_map(f"q-picture-{place + 1}", title, told, cells, one.sheet.q_years)
    shades = ("The scale is logarithmic: darker is higher, from a colour to the next twice or 2.5 times as high; each power of "
              "ten has a line. A square has the colour of its lower end, and a diamond if its figure is open, a hollow one if the "
              "fine grid closed it.")
    return pages.figure(picture, f"{plain(title)}. {shades} {plain(told)}")


def relation_picture(found: List[Found], whole: List[Pair]) -> str:
    """Where the q of two sheets differ."""
    count = {word: sum(1 for pair in whole if pair.values and pair.values.relation == word) for word in pictures.RELATIONS}
    title = "Where the first sheet's q is below, near or above the second's"
    told = (f"Of {len(whole):,} cells the first is proved to be below in {count['below']:,} and above in {count['above']:,}; "
            f"in {count['near']:,} the ends touch.")
    cells = {(pair.first.age, pair.first.year): pair.values for pair in whole}
    both = shared(one.sheet.q_years for one in found)
    picture = pictures.relation_map("relation-picture", title, told, cells, range(both[0], both[-1] + 1))
    return pages.figure(picture, f"{plain(title)}. {plain(told)}")


def q_part(found: List[Found], asked: Asked, whole: Optional[List[Pair]]) -> Iterator[str]:
    """q by age and year, as a map of each sheet and of the differences, and as figures."""
    for place, one in enumerate(found):
        yield q_picture(place, one)
    if whole is not None:
        yield relation_picture(found, whole)
    groups = by_age([one.q_listed for one in found], asked.ages, len(asked.q_years))
    yield figures("q-table", kind_title("q", asked.rate), asked.q_years, groups)
    yield noted(row for one in found for row in one.q_listed)


def width_line(kind: str, found: List[Row], rate: int) -> List[Any]:
    """How many figures of a kind the fine grid closed, are open or refused, and the widest ends."""
    given = [row for row in found if not row.no]
    name = f"{kind} {percent(rate)}" if KINDS[kind].rate else kind
    numbers = len(found), sum(row.closed for row in given), sum(row.text == OPEN for row in given), len(found) - len(given)
    counts = [Cell(f"{count:,}") for count in numbers]
    if not given:
        return [Head(name, 1, True), *counts, Cell("–"), Cell("–", "words")]
    widest = max(given, key=Row.width)
    where = Cell(f"age {widest.age} in {widest.year}", "words")
    return [Head(name, 1, True), *counts, Cell(apart(widest)), where]


def apart(row: Row) -> str:
    """How far the ends lie apart, with the decimals of their unit."""
    return amount(row.upper - row.lower, row.unit)


def fine_table(place: int, one: Found) -> Iterator[str]:
    """The figures of a sheet that were worked again, with their ends: first those that are open all the same."""
    found = [row for kind in ("ecoh", "eper", "acoh", "q") for row in one.whole[kind] if row.unit == FINE]
    if not found:
        yield pages.paragraph("No figure of these kinds was worked again.")
        return
    found.sort(key=lambda row: row.closed)
    columns = [Column("kind", True), *map(Column, ("age", "year", "figure", "low", "high", "width"))]
    lines = [[Head(row.kind, 1, True), Cell(str(row.age)), Cell(str(row.year)), shown(row), *map(Cell, (*row.ends(), apart(row)))]
             for row in found[:MOST_FINE]]
    more = f"; the first {MOST_FINE} of {len(found):,}" if len(found) > MOST_FINE else ""
    caption = f"The figures that were worked again on the fine grid, with their ends, the open ones first{more}"
    yield pages.table(f"fine-table-{place + 1}", caption, columns, [lines], "ruled")


def widest_of(found: List[Row]) -> Dict[int, Row]:
    """By age the row with the widest ends of the years that are not refused."""
    out: Dict[int, Row] = {}
    for row in found:
        if not row.no and (row.age not in out or row.width() > out[row.age].width()):
            out[row.age] = row
    return out


def width_picture(place: int, one: Found, rate: int) -> str:
    """The width of the ends by age; nothing where all is refused."""
    every = ((kind, widest_of(of_kind)) for kind, of_kind in one.whole.items())
    found = {kind: by_age for kind, by_age in every if by_age}
    if not found:
        return ""
    title = f"Width of the ends by age, the widest of all years: {one.name}"
    widest = {kind: max(by_age.values(), key=Row.width) for kind, by_age in found.items()}
    told = "The widest: " + "; ".join(f"{kind} {apart(row)} at age {row.age}" for kind, row in widest.items()) + "."
    widths = {kind: {age: row.width() for age, row in by_age.items()} for kind, by_age in found.items()}
    picture = pictures.widths(f"width-picture-{place + 1}", title, told, widths)
    drawn = f"acoh is at {percent(rate)}. A width of less than 10⁻⁹, the coarse unit, is drawn there."
    return pages.figure(picture, plain(f"{title}. {drawn} {told}"))


def open_part(found: List[Found], asked: Asked) -> Iterator[str]:
    """Where figures are open and how wide the ends are, sheet by sheet."""
    yield pages.paragraph(
        "Where ends of nine decimals lie on both sides of a half step, the figure is worked again on the fine grid, with "
        "thirteen, which closes it or leaves it open. All ages and all years of the sheet are looked through."
    )
    titles = ("cells", "closed by the fine grid", "open", "refused", "widest ends")
    columns = [Column("", True), *map(Column, titles), Column("where", True)]
    for place, one in enumerate(found):
        if len(found) > 1:
            yield element("h3", f"{('First', 'Second')[place]}: {plain(one.name)}")
        lines = [width_line(kind, of_kind, asked.rate) for kind, of_kind in one.whole.items()]
        yield pages.table(f"width-table-{place + 1}", "Figures and their ends, by kind", columns, [lines], "ruled")
        yield width_picture(place, one, asked.rate)
        yield from fine_table(place, one)
