"""The pictures of a report, drawn from the lower ends: survival curves, maps of q by age and year, and the width of the ends.

A lower end is off the exact value by less than a line's width. The figures stand in the report's tables, not here.
"""
import bisect
from typing import Any, Callable, Dict, Iterable, Iterator, List, NamedTuple, Optional, Tuple

from .lists import OPEN, Row
from .sheets import Comparison
from .svg import INK, PAPER, Axis, Picture, Point, Scale, box, element, haloed, label, line, number
from .units import COARSE, FINE, text

# Lower ends and widths are given in units of 10^-13, whichever unit a quote has.
ONE = 10**FINE
OLDEST = 120
WIDTH, LONGEST_NAME = 720, 36
# The stroke and the dashes of the first and the second sheet, which differ without colours too.
STROKES = (("#1f4e79", None), ("#b35900", "7 4"))
# The steps of the map of q, from 10^-6 on: 1, 2 and 5 times each power of ten. Below the first is a step of its own.
STEPS = [digit * 10**power for power in range(FINE - 6, FINE) for digit in (1, 2, 5)] + [ONE]
CONTOURS = [10**power for power in range(FINE - 5, FINE)]
# Light to dark, so that the order is seen without colours.
COLOURS = ("ffffd9", "edf8b1", "c7e9b4", "7fcdbb", "41b6c4", "1d91c0", "225ea8", "253494", "081d58")
RELATIONS = {"below": ("#2c5f9e", "the first is below the second"), "near": ("#eeeeee", "near: the ends touch"),
             "above": ("#f0a860", "the first is above the second")}
HATCH = "#8c8c8c"
# The diamonds of figures that the fine grid closed, and of open ones.
MARKS = {"closed": PAPER, "open": INK}
Cell = Tuple[int, int]


# ---- survival

class Curve(NamedTuple):
    """The chances to survive 0, 1, 2 and more years from an age, by one of the sheets, as lower ends."""
    sheet: int
    age: int
    lowers: List[int]

    def at(self, chance: float) -> Point:
        """Where the curve comes down to a chance; its last point where it does not."""
        for span, (before, after) in enumerate(zip(self.lowers, self.lowers[1:])):
            if after < chance * ONE <= before:
                return span + (before - chance * ONE) / (before - after), chance
        return len(self.lowers) - 1, self.lowers[-1] / ONE


def curve_line(curve: Curve, picture: Picture) -> str:
    points = [(picture.x.scale.at(span), picture.y.scale.at(lower / ONE)) for span, lower in enumerate(curve.lowers)]
    stroke, dashes = STROKES[curve.sheet]
    return line(points, class_="curve", stroke=stroke, stroke_width=1.75, stroke_dasharray=dashes)


def survival(name: str, title: str, description: str, curves: List[Curve], sheets: List[str]) -> str:
    """Survival curves over the years passed, each with its age beside it."""
    longest = max(len(curve.lowers) for curve in curves) - 1
    across = Scale(0, longest, 70, WIDTH - 20)
    up = Scale(0, 1, 360, 40 if len(sheets) > 1 else 16)
    every = 10 if longest > 30 else 5 if longest > 10 else 1
    x = Axis(across, "years passed (span)", [(span, str(span)) for span in range(0, longest + 1, every)])
    y = Axis(up, "chance to be alive", [(tenth / 10, f"{tenth / 10:.1f}") for tenth in range(0, 11, 2)])
    picture = Picture(name, title, description, (WIDTH, 410), x, y)
    for curve in reversed(curves):
        picture.add(curve_line(curve, picture))
    named = {curve.age: curve for curve in reversed(curves)}
    for place, curve in enumerate(sorted(named.values(), key=lambda curve: curve.age)):
        span, chance = curve.at((0.8, 0.5, 0.2)[place % 3])
        picture.add(haloed(across.at(span), up.at(chance), str(curve.age)))
    if len(sheets) > 1:
        picture.add(line_key(sheets, [{"stroke": stroke, "stroke_dasharray": dashes} for stroke, dashes in STROKES]))
    return picture.text()


def line_key(names: List[str], looks: List[Dict[str, Any]]) -> str:
    """Which line is which, over the plot."""
    room = (WIDTH - 90) / max(2, len(names))
    parts = []
    for place, (word, look) in enumerate(zip(names, looks)):
        left = 70 + place * room
        fitting = word if len(word) <= LONGEST_NAME else word[: LONGEST_NAME - 1] + "…"
        parts.append(line([(left, 18), (left + 34, 18)], stroke_width=1.75, **look))
        parts.append(label(left + 42, 22, fitting, "start", class_="name"))
    return element("g", "".join(parts), class_="key")


# ---- maps by age and year

class Map:
    """A map with a square for each age and year."""
    SIDE, LEFT, TOP = 3, 70, 16

    def __init__(self, name: str, title: str, description: str, years: range) -> None:
        self.years = years
        right, bottom = self.LEFT + self.SIDE * len(years), self.TOP + self.SIDE * (OLDEST + 1)
        x = Axis(Scale(years[0] - 0.5, years[-1] + 0.5, self.LEFT, right), "calendar year",
                 [(year, str(year)) for year in years if year % 20 == 0])
        y = Axis(Scale(-0.5, OLDEST + 0.5, bottom, self.TOP), "age", [(age, str(age)) for age in range(0, OLDEST + 1, 10)])
        self.picture = Picture(name, title, description, (WIDTH, bottom + 50), x, y, grid=False)
        self.key_left = right + 24
        self.refused = {"fill": f"url(#{name}-refused)", "class_": "refused"}
        lines = element("path", d="M0 0v5", stroke=HATCH, stroke_width=3)
        turned = {"patternUnits": "userSpaceOnUse", "patternTransform": "rotate(45)"}
        pattern = element("pattern", lines, id=f"{name}-refused", width=5, height=5, **turned)
        self.picture.add(element("defs", pattern))

    def corner(self, age: int, year: int) -> Tuple[int, int]:
        """The upper left corner of a square."""
        return self.LEFT + self.SIDE * (year - self.years[0]), self.TOP + self.SIDE * (OLDEST - age)

    def paint(self, sort: Callable[[Cell], Any], looks: Dict[Any, Dict[str, str]]) -> None:
        """Each square in the look of its sort; squares side by side go together."""
        paths: Dict[Any, List[str]] = {key: [] for key in looks}
        for age in range(OLDEST + 1):
            for key, first, count in self.runs(sort, age):
                paths[key].append(box(*self.corner(age, first), self.SIDE * count, self.SIDE))
        drawn = [element("path", d="".join(paths[key]), **look) for key, look in looks.items() if paths[key]]
        self.picture.add(element("g", "".join(drawn), class_="squares", shape_rendering="crispEdges"))

    def runs(self, sort: Callable[[Cell], Any], age: int) -> Iterator[Tuple[Any, int, int]]:
        """The sorts along an age with their first year and how many years they go on."""
        first = self.years[0]
        for year in self.years[1:]:
            if sort((age, year)) != sort((age, first)):
                yield sort((age, first)), first, year - first
                first = year
        yield sort((age, first)), first, self.years[-1] + 1 - first

    def edge(self, inside: Dict[Cell, bool]) -> str:
        """The lines between squares that are inside and those that are not; a square that is neither has none."""
        side, path = self.SIDE, []
        for (age, year), here in inside.items():
            x, y = self.corner(age, year)
            if inside.get((age + 1, year), here) != here:
                path.append(f"M{x} {y}h{side}")
            if inside.get((age, year + 1), here) != here:
                path.append(f"M{x + side} {y}v{side}")
        return "".join(path)

    def key_square(self, place: int, look: Dict[str, str], word: str, top: int = 40) -> str:
        """A colour and what it stands for, beside the plot."""
        y = top + 22 * place
        square = element("path", d=box(self.key_left, y, 18, 14), stroke=INK, stroke_width=0.5, **look)
        return square + label(self.key_left + 26, y + 11, word, "start", class_="tick")


def step_of(lower: int) -> int:
    """The step of a lower end: 0 is below the first of STEPS."""
    return min(bisect.bisect_right(STEPS, lower), len(STEPS) - 1)


def step_colour(step: int) -> str:
    """The colour of a step, the same in every report."""
    place = step * (len(COLOURS) - 1) / (len(STEPS) - 1)
    first = min(int(place), len(COLOURS) - 2)
    both = [[int(COLOURS[first + more][i : i + 2], 16) for i in (0, 2, 4)] for more in (0, 1)]
    return "#" + "".join(f"{round(one + (other - one) * (place - first)):02x}" for one, other in zip(*both))


def diamond(x: float, y: float) -> str:
    """A mark around a point, as a part of a path."""
    return f"M{number(x)} {number(y - 3.5)}l3.5 3.5-3.5 3.5-3.5-3.5z"


def diamonds(cells: Iterable[Cell], drawn: Map, word: str) -> str:
    """A mark at the middle of each of some squares, in the look of a word."""
    middles = ((x + drawn.SIDE / 2, y + drawn.SIDE / 2) for x, y in (drawn.corner(*cell) for cell in cells))
    path = "".join(diamond(x, y) for x, y in middles)
    return element("path", d=path, class_=word, fill=MARKS[word], stroke=INK) if path else ""


def contour(drawn: Map, lowers: Dict[Cell, int], step: int) -> str:
    """The line along which q passes a step."""
    path = drawn.edge({cell: lower >= step for cell, lower in lowers.items()})
    return element("path", d=path, class_="contour", fill="none", stroke=INK, stroke_width=0.75) if path else ""


def contour_name(drawn: Map, lowers: Dict[Cell, int], step: int) -> str:
    """The step at its line, at the highest age of a year near the left side."""
    year = drawn.years[len(drawn.years) // 12]
    past = {age: lowers[age, year] >= step for age in range(OLDEST + 1) if (age, year) in lowers}
    ages = [age for age, here in past.items() if past.get(age + 1, here) != here]
    return haloed(*drawn.corner(ages[-1], year), text(step, FINE)) if ages else ""


def q_map(name: str, title: str, description: str, found: Dict[Cell, Row], years: range) -> str:
    """q by age and year, coloured by steps that grow as the logarithm does, with the figures marked that are open, or that the
    fine grid closed."""
    drawn = Map(name, title, description, years)
    lowers = {cell: row.finely()[0] for cell, row in found.items() if not row.no}
    steps = {cell: step_of(lower) for cell, lower in lowers.items()}
    used = sorted(set(steps.values()))
    looks: Dict[Optional[int], Dict[str, str]] = {step: {"fill": step_colour(step)} for step in used}
    looks[None] = drawn.refused
    drawn.paint(steps.get, looks)
    for step in CONTOURS:
        drawn.picture.add(contour(drawn, lowers, step))
    marked = {"closed": [cell for cell, row in found.items() if row.closed],
              "open": [cell for cell, row in found.items() if row.text == OPEN]}
    for word, cells in marked.items():
        drawn.picture.add(diamonds(cells, drawn, word))
    for step in CONTOURS:
        drawn.picture.add(contour_name(drawn, lowers, step))
    drawn.picture.add(step_key(drawn, used, [word for word in MARKS if marked[word]], len(lowers) < len(found)))
    return drawn.picture.text()


def step_key(drawn: Map, used: List[int], marks: List[str], has_refused: bool) -> str:
    """The colours from the least step that is used to the greatest, with the bounds between them, and the other marks."""
    left, parts = drawn.key_left, [label(drawn.key_left, 26, "q", "start", class_="name")]
    shown = range(used[0], used[-1] + 1)
    for place, step in enumerate(reversed(shown)):
        y = 38 + 15 * place
        look = {"fill": step_colour(step), "stroke": INK, "stroke_width": 0.5}
        parts.append(element("path", d=box(left, y, 18, 15), class_="step", **look))
        parts.append(label(left + 26, y + 4, text(STEPS[step], FINE), "start", class_="tick"))
    top = 38 + 15 * len(shown) + 14
    least = text(STEPS[shown[0] - 1], FINE) if shown[0] else "0"
    parts.append(label(left + 26, top - 10, least, "start", class_="tick"))
    for place, word in enumerate(marks):
        parts.append(element("path", d=diamond(left + 9, top + 7 + 22 * place), fill=MARKS[word], stroke=INK))
        parts.append(label(left + 26, top + 11 + 22 * place, word, "start", class_="tick"))
    if has_refused:
        parts.append(drawn.key_square(len(marks), drawn.refused, "refused", top))
    return element("g", "".join(parts), class_="key")


def relation_map(name: str, title: str, description: str, found: Dict[Cell, Optional[Comparison]], years: range) -> str:
    """Where the first sheet's q is proved to be below or above the second's, or the ends touch."""
    drawn = Map(name, title, description, years)
    looks = {word: {"fill": colour, "class_": word} for word, (colour, _) in RELATIONS.items()}
    looks[None] = drawn.refused
    drawn.paint(lambda cell: found[cell].relation if found[cell] else None, looks)
    words = [word for word in RELATIONS if any(values and values.relation == word for values in found.values())]
    parts = [drawn.key_square(place, {"fill": RELATIONS[word][0]}, word) for place, word in enumerate(words)]
    if not all(found.values()):
        parts.append(drawn.key_square(len(words), drawn.refused, "refused"))
    drawn.picture.add(element("g", "".join(parts), class_="key"))
    return drawn.picture.text()


# ---- widths

# The line of each kind.
LOOKS = {"q": {"stroke": INK}, "ecoh": {"stroke": "#1f4e79", "stroke_dasharray": "9 3"},
         "eper": {"stroke": "#b35900", "stroke_dasharray": "4 3"}, "acoh": {"stroke": "#4d7f17", "stroke_dasharray": "1.5 2.5"}}
POWERS = "⁰¹²³⁴⁵⁶⁷⁸⁹"


def widths(name: str, title: str, description: str, found: Dict[str, Dict[int, int]]) -> str:
    """By age the widest of the years, a line for each kind, on a scale of powers of ten from 10^-9, the coarse unit, up."""
    one = 10 ** (FINE - COARSE)
    most = max(max(by_age.values()) for by_age in found.values())
    powers = len(str(most // one))
    up = Scale(1, 10.0**powers, 300, 40, log=True)
    ticks = [(10.0**power, f"10⁻{POWERS[COARSE - power]}") for power in range(min(powers, COARSE) + 1)]
    across = Scale(0, OLDEST, 70, WIDTH - 20)
    x = Axis(across, "age", [(age, str(age)) for age in range(0, OLDEST + 1, 10)])
    picture = Picture(name, title, description, (WIDTH, 350), x, Axis(up, "width of the ends", ticks))
    for kind, by_age in found.items():
        points = [(across.at(age), up.at(max(1, width / one))) for age, width in by_age.items()]
        picture.add(line(points, class_="width", stroke_width=1.75, **LOOKS[kind]))
    picture.add(line_key(list(found), [LOOKS[kind] for kind in found]))
    return picture.text()
