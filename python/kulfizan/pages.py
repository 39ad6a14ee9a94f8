"""Pages as HTML that stand by themselves: one column, system fonts, no network, no script; they print as they read.

Content that is passed on is markup; `plain` makes it of text.
"""
import html
from typing import Any, Iterable, List, NamedTuple, Sequence

from .svg import element

STYLE = """
:root { color-scheme: light; }
* { box-sizing: border-box; }
body { margin: 2rem auto 4rem; padding: 0 1.25rem; max-width: 47.5rem; background: #fff; color: #1a1a1a;
  font: 16px/1.5 system-ui, -apple-system, "Segoe UI", Roboto, "Helvetica Neue", "DejaVu Sans", Arial, sans-serif; }
h1, .lead, h3, figcaption, caption { overflow-wrap: anywhere; }
h1 { font-size: 1.75rem; line-height: 1.25; margin: 0 0 .25rem; }
h2 { font-size: 1.25rem; margin: 3rem 0 .5rem; padding-top: .5rem; border-top: 2px solid #1a1a1a; break-after: avoid; }
h3 { font-size: 1rem; margin: 1.75rem 0 .25rem; break-after: avoid; }
p, ul { margin: .5rem 0; }
ul { padding-left: 1.25rem; }
nav ul { list-style: none; padding: 0; display: flex; flex-wrap: wrap; gap: .25rem 1.25rem; }
a { color: #1f4e79; }
code { font: .875em/1.5 ui-monospace, "SF Mono", Menlo, Consolas, "DejaVu Sans Mono", monospace; overflow-wrap: anywhere; }
.lead { color: #444; margin: 0 0 1rem; }
.scroll { overflow-x: auto; margin: 1rem 0 1.5rem; }
table { border-collapse: collapse; font-size: .875rem; line-height: 1.35; font-variant-numeric: tabular-nums; }
caption { text-align: left; padding: 0 0 .375rem; color: #444; }
th, td { padding: .1875rem .625rem; text-align: right; font-weight: normal; vertical-align: baseline; white-space: nowrap; }
th:first-child, td:first-child { padding-left: 0; }
thead th { font-weight: 600; border-bottom: 1.5px solid #1a1a1a; }
tbody th { font-weight: 600; }
tbody + tbody > tr:first-child > *, table.ruled tr + tr > * { border-top: 1px solid #d9d9d9; }
.words { text-align: left; }
thead th, .facts th, .facts td { white-space: normal; overflow-wrap: break-word; }
.two td { position: relative; }
.two td, .two thead th:nth-child(n + 3) { padding-left: .25rem; padding-right: 1.25rem; }
.two tr + tr > th:first-child { padding-left: .625rem; }
.open { font-style: italic; }
.refused { color: #5c5c5c; }
.alike-differs { background: #fff3d6; }
abbr { position: absolute; text-decoration: none; font-weight: 700; padding-left: .1875rem; }
figure { margin: 1rem 0 1.5rem; break-inside: avoid; }
figcaption { font-size: .875rem; color: #444; }
svg { display: block; max-width: 100%; height: auto; font-size: 12px; line-height: normal; }
svg text { fill: #1a1a1a; }
svg .axis-title { font-size: 13px; }
svg .name { font-weight: 600; }
footer { margin-top: 3rem; padding-top: .5rem; border-top: 1px solid #d9d9d9; font-size: .875rem; color: #444; }
@media print {
  @page { margin: 18mm 16mm; }
  body { margin: 0; padding: 0; max-width: none; font-size: 10pt; }
  nav { display: none; }
  tr { break-inside: avoid; }
  thead { display: table-header-group; }
  .scroll { overflow: visible; }
  svg, .alike-differs { print-color-adjust: exact; -webkit-print-color-adjust: exact; }
}
"""
# The browser itself then refuses a script and whatever would come from elsewhere.
POLICY = "default-src 'none'; style-src 'unsafe-inline'"


def plain(text: Any) -> str:
    """Text as markup."""
    return html.escape(str(text))


def paragraph(content: str, **attributes: Any) -> str:
    return element("p", content, **attributes)


def bullets(items: Iterable[str]) -> str:
    return element("ul", "\n".join(element("li", item) for item in items))


def section(name: str, title: str, *parts: str) -> str:
    """A section with its heading."""
    heading = element("h2", plain(title), id=f"{name}-heading")
    return element("section", "\n".join([heading, *filter(None, parts)]), id=name, aria_labelledby=f"{name}-heading")


def figure(picture: str, caption: str) -> str:
    """A picture with what it shows in words."""
    return element("figure", f"{picture}\n{element('figcaption', caption)}")


class Head(NamedTuple):
    """A heading cell of a row: its markup, over how many rows it goes, and whether it is words rather than a number."""
    content: str
    rows: int = 1
    words: bool = False

    def text(self) -> str:
        scope = "rowgroup" if self.rows > 1 else "row"
        rows = self.rows if self.rows > 1 else None
        return element("th", self.content, scope=scope, rowspan=rows, class_="words" if self.words else None)


class Cell(NamedTuple):
    """A cell: its markup and its class."""
    content: str
    class_: Any = None

    def text(self) -> str:
        return element("td", self.content, class_=self.class_)


class Column(NamedTuple):
    """A column's heading, and whether words rather than numbers stand in it."""
    title: str
    words: bool = False

    def text(self) -> str:
        return element("th", plain(self.title), scope="col", class_="words" if self.words else None)


def table(name: str, caption: str, columns: Sequence[Column], groups: Iterable[Iterable[List[Any]]], class_: Any = None) -> str:
    """A table with its caption, a line of headings, and its rows in groups, each row of Heads and Cells."""
    head = element("thead", element("tr", "".join(column.text() for column in columns)))
    bodies = [[element("tr", "".join(cell.text() for cell in row)) for row in rows] for rows in groups]
    parts = [element("caption", caption), head, *(element("tbody", "\n".join(lines)) for lines in bodies)]
    whole = element("table", "\n".join(parts), id=name, class_=class_)
    return element("div", whole, class_="scroll")


def page(title: str, lead: str, sections: Sequence[Any], footer: str) -> str:
    """A page of sections, each given as its name, its title and its parts."""
    links = bullets(element("a", plain(words), href=f"#{name}") for name, words, *_ in sections)
    nav = element("nav", links, aria_label="Sections")
    top = element("header", "\n".join([element("h1", plain(title)), paragraph(lead, class_="lead"), nav]))
    main = element("main", "\n".join(section(*one) for one in sections))
    return f"""<!DOCTYPE html>
<html lang="en">
<head>
<meta charset="utf-8">
<meta http-equiv="Content-Security-Policy" content="{POLICY}">
<meta name="viewport" content="width=device-width, initial-scale=1">
<title>{plain(title)}</title>
<style>{STYLE}</style>
</head>
<body>
{top}
{main}
{element("footer", footer)}
</body>
</html>
"""
