"""Pictures as SVG: a plot with two axes, marks in it, and a title and a description for readers who do not see it.

A picture needs nothing beside it: no font, no script and no other file. Nothing here knows what is drawn.
"""
import html
import math
from typing import Any, Iterable, List, NamedTuple, Tuple

NAMESPACE = "http://www.w3.org/2000/svg"
INK, FAINT, PAPER = "#1a1a1a", "#d9d9d9", "#ffffff"
Point = Tuple[float, float]


def number(value: float) -> str:
    """A coordinate to a hundredth of a pixel."""
    text = f"{value:.2f}".rstrip("0").rstrip(".")
    return "0" if text == "-0" else text


def element(tag: str, content: str = "", **attributes: Any) -> str:
    """An element around its content, which is markup; `class_` is the class, and `stroke_width` is stroke-width."""
    named = [tag]
    for key, value in attributes.items():
        if value is not None:
            text = number(value) if isinstance(value, float) else str(value)
            named.append(f'{key.rstrip("_").replace("_", "-")}="{html.escape(text)}"')
    return f"<{' '.join(named)}>{content}</{tag}>"


def label(x: float, y: float, text: str, anchor: str = "middle", **attributes: Any) -> str:
    """Text at a point."""
    return element("text", html.escape(text), x=float(x), y=float(y), text_anchor=anchor, **attributes)


def haloed(x: float, y: float, text: str) -> str:
    """Text that is read on top of lines and colours."""
    halo = {"paint_order": "stroke", "stroke": PAPER, "stroke_width": 4, "stroke_linejoin": "round"}
    return label(x, y + 4, text, class_="name", **halo)


def line(points: Iterable[Point], **attributes: Any) -> str:
    """A line through points."""
    path = "L".join(f"{number(x)} {number(y)}" for x, y in points)
    return element("path", d=f"M{path}", fill="none", **attributes)


def box(x: float, y: float, width: float, height: float) -> str:
    """A rectangle as a part of a path."""
    return f"M{number(x)} {number(y)}h{number(width)}v{number(height)}h{number(-width)}z"


class Scale(NamedTuple):
    """Values from first to last, laid out from one pixel to another, evenly or by their logarithms."""
    first: float
    last: float
    start: float
    end: float
    log: bool = False

    def at(self, value: float) -> float:
        """The pixel of a value."""
        if self.log:
            part = math.log(value / self.first) / math.log(self.last / self.first)
        else:
            part = (value - self.first) / (self.last - self.first)
        return self.start + part * (self.end - self.start)


class Axis(NamedTuple):
    """A scale with its title, which names the unit, and its ticks: values and what is written at them."""
    scale: Scale
    title: str
    ticks: List[Tuple[float, str]]


class Picture:
    """A plot with its axes: x along the bottom, y up the left side. Parts are added in the order in which they are drawn."""

    def __init__(
        self, name: str, title: str, description: str, size: Tuple[int, int], x: Axis, y: Axis, grid: bool = True
    ) -> None:
        self.name, self.title, self.description, self.size = name, title, description, size
        self.x, self.y, self.grid = x, y, grid
        self.parts: List[str] = []

    def add(self, part: str) -> None:
        self.parts.append(part)

    def area(self) -> Tuple[float, float, float, float]:
        """The plot's left, top, width and height."""
        x, y = self.x.scale, self.y.scale
        return x.start, y.end, x.end - x.start, y.start - y.end

    def _axis_x(self) -> Iterable[str]:
        left, top, width, height = self.area()
        for value, text in self.x.ticks:
            at = self.x.scale.at(value)
            yield line([(at, top + height), (at, top + height + 5)], stroke=INK)
            yield label(at, top + height + 19, text, class_="tick")
        yield label(left + width / 2, top + height + 40, self.x.title, class_="axis-title")

    def _axis_y(self) -> Iterable[str]:
        left, top, width, height = self.area()
        for value, text in self.y.ticks:
            at = self.y.scale.at(value)
            yield line([(left - 5, at), (left, at)], stroke=INK)
            yield label(left - 9, at + 4, text, "end", class_="tick")
        middle = top + height / 2
        turned = f"rotate(-90 14 {number(middle)})"
        yield label(14, middle, self.y.title, class_="axis-title", transform=turned)

    def _lines(self) -> Iterable[str]:
        left, top, width, height = self.area()
        for value, _ in self.y.ticks if self.grid else ():
            yield line([(left, self.y.scale.at(value)), (left + width, self.y.scale.at(value))], stroke=FAINT)

    def text(self) -> str:
        """The whole picture."""
        left, top, width, height = self.area()
        frame = element("path", d=box(left, top, width, height), fill="none", stroke=INK, class_="frame")
        said = (("title", self.title), ("desc", self.description))
        named = [element(tag, html.escape(text), id=f"{self.name}-{tag}") for tag, text in said]
        grid = element("g", "".join(self._lines()), class_="grid")
        axes = [element("g", "".join(self._axis_x()), class_="x-axis"), element("g", "".join(self._axis_y()), class_="y-axis")]
        across, down = self.size
        sizes = {"viewBox": f"0 0 {across} {down}", "width": across, "height": down}
        read = {"role": "img", "aria_labelledby": f"{self.name}-title {self.name}-desc"}
        parts = [*named, grid, *filter(None, self.parts), frame, *axes]
        return element("svg", "\n".join(parts), xmlns=NAMESPACE, id=self.name, **sizes, **read)
