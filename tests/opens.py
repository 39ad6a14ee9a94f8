"""Counts the open figures of each kind on the coarse grid alone, and with the fine one, with the mean width of the coarse ends that
settle a figure, the widest of them of q, and the widest fine ones; by the built programs `ends` and `couples`. The example sheets,
at every age and in every quote year, survivals over 1, 10 and 20 years, to a day 10 years on, and prices at 3%; couples of a woman
and a man of three years more.

A quote with fine ends is one that the coarse grid leaves open. It compares nothing, so it is no test: it tells what a grid leaves
open. KULFIZAN_BIN names another folder of programs.
"""
import pathlib
import sys

import programs
from couples import COUPLES, JOINT, LAST
from quotes import ANNUITIES, DAY, FIRST_YEAR, KINDS, LAST_FITTED, LAST_YEAR, OLDEST, SURVIVALS, UNRATED
from reader import LONGEST

EXAMPLES = pathlib.Path(__file__).resolve().parent.parent / "examples"
SHEETS = ("men", "women", "women-b")
SPANS = (1, 10, 20)
YEARS_ON, MIDYEAR = 10, 701
PARTS = ("ages 0 to 90", "ages 91 to 120")
RATE = 30_000
OLDER = 3
FINE = "13"


def queries():
    for year in range(FIRST_YEAR, LAST_YEAR + 1):
        for age in range(OLDEST + 1):
            for kind in UNRATED + ANNUITIES:
                for span in SPANS if kind in SURVIVALS else (0,):
                    if span <= OLDEST + 1 - age:
                        rate = f" rate={RATE}" if kind in ANNUITIES else ""
                        yield f"kind={kind} age={age} year={year} span={span}{rate}\n".encode()
            if age + YEARS_ON <= OLDEST:
                yield f"kind={DAY} age={age} year={year} date={(year + YEARS_ON) * 10**4 + MIDYEAR}\n".encode()


def couples():
    for year in range(FIRST_YEAR, LAST_YEAR + 1):
        for age in range(OLDEST + 1 - OLDER):
            for kind in COUPLES:
                for span in SPANS if kind in (JOINT, LAST) else (0,):
                    if span <= OLDEST + 1 - age - OLDER:
                        yield f"kind={kind} age={age} age2={age + OLDER} year={year} span={span}\n".encode()


def runs(head, lines):
    """The lines with the sheets before them, as many to a run as the input takes."""
    text = head
    for line in lines:
        if len(text) + len(line) > LONGEST:
            yield text
            text = head
        text += line
    yield text


def answers(program, names, lines):
    """Kind, age, unit and width of the ends, and whether the figure is open, of each query."""
    head = b"".join((EXAMPLES / f"{name}.sheet").read_bytes() for name in names)
    for data in runs(head, lines):
        status, out = programs.run(program, data)
        if status:
            raise SystemExit(f"{program} ended with {status}")
        for line in out.decode().splitlines():
            told = dict(part.split("=") for part in line.split())
            yield told["kind"], int(told["age"]), told["unit"] == FINE, int(told["hi"]) - int(told["lo"]), told["fig"] == "open"


class Seen:
    """What is counted of a kind's quotes: all, those with fine ends, those that stay open, and the widths."""
    count = again = opens = coarse = widest = widest_fine = 0

    def take(self, fine, width, is_open):
        self.count, self.again, self.opens = self.count + 1, self.again + fine, self.opens + is_open
        if fine:
            self.widest_fine = max(self.widest_fine, width)
        else:
            self.coarse, self.widest = self.coarse + width, max(self.widest, width)

    def text(self):
        mean = self.coarse / max(1, self.count - self.again)
        widths = f"coarse ends {mean:8.1f} units apart in the mean, fine ones at most {self.widest_fine}"
        return f"{self.again:5} open on the coarse grid, {self.opens:2} with the fine one, of {self.count:6}; {widths}"


def main():
    gone = programs.missing("ends", "couples")
    if gone:
        print(gone)
        return 1
    seen = {(kind, part): Seen() for kind in KINDS + COUPLES for part in PARTS}
    for program, names, lines in [("ends", [name], queries) for name in SHEETS] + [("couples", ["women", "men"], couples)]:
        for kind, age, *told in answers(program, names, lines()):
            seen[kind, PARTS[age > LAST_FITTED]].take(*told)
    for (kind, part), one in seen.items():
        print(f"{kind:6} {part:15} {one.text()}")
    again, opens, count = (sum(getattr(one, what) for one in seen.values()) for what in ("again", "opens", "count"))
    print(f"all: {again} open on the coarse grid, {opens} with the fine one, of {count}")
    for part in PARTS:
        print(f"widest coarse ends of q, {part}: {seen['q', part].widest} units")
    return 0


if __name__ == "__main__":
    sys.exit(main())
