"""Every end of q against two implementations of its own: the grid in whole numbers, end for end, and the exact value to many
digits, which must lie between the ends. Asks the program `ends` for every age in some years of flat, realistic and extreme
sheets, steep cells too. Cells whose figure the coarse ends leave open have fine ones."""
import concurrent.futures
import random
import re
import sys

import exact
import grid
import programs
import sheets
from quotes import OLDEST, STEEP, Quotes, quoted, width
from reader import LONGEST

SEED = 20142184
FIRST, LAST = 2014, 2184
COLUMNS = 1680
AGES = range(OLDEST + 1)
ANSWER = re.compile(r" lo=([0-9]+) hi=([0-9]+) unit=(9|13) fig=.*")


def plan():
    """Pairs of a set and the years to work it in."""
    draw = random.Random(SEED)
    pairs = [(grid.flat(), [2014, 2020, 2064, 2184])]
    for offset in (0, 1, 2):
        pairs.append((sheets.at_edge(draw, 2014, offset), [2014, 2184]))
    edges = [10**8, -(10**8), 10**8 - 1, -(10**8) + 1, 0, 1, -1, 5 * 10**7, -5 * 10**7]
    while sum(len(years) for _, years in pairs) < COLUMNS:
        kind = draw.randrange(3)
        if kind == 0:
            pairs.append((sheets.realistic(draw), sorted(draw.sample(range(FIRST, LAST + 1), 6))))
        else:
            year = draw.randrange(FIRST, LAST + 1)
            spread = draw.choice([1.0, 0.3, 0.05])
            years = sorted({year, min(LAST, year + 1), draw.randrange(FIRST, LAST + 1)})
            pairs.append((sheets.extreme(draw, draw.choice(edges), year, spread), years))
    return pairs


def query(age, year):
    return f"kind=q age={age} year={year} span=0"


def asked(params, years):
    """The answers to every age in the years, in one run, without their echo, and what is wrong with the run."""
    queries = [query(x, year) for year in years for x in AGES]
    data = sheets.text(params) + "".join(line + "\n" for line in queries).encode()
    assert len(data) <= LONGEST
    status, out = programs.run("ends", data)
    lines = out.decode("ascii", "replace").splitlines()
    if status or len(lines) != len(queries) or any(not line.startswith(echo) for echo, line in zip(queries, lines)):
        return None, f"{len(lines)} lines for {len(queries)} queries, exit status {status}, or another echo"
    return [line[len(echo) :] for echo, line in zip(queries, lines)], None


def cell_complaints(answer, want, exactly, age):
    """What is wrong with the answer for a cell, given the quote, None where it is steep, and the exact value."""
    if want is None:
        if answer != f" no={STEEP}":
            yield "not steep"
        return
    got = ANSWER.fullmatch(answer)
    if not got or tuple(map(int, got.groups())) != want[:3]:
        yield f"ends are not those of {want}"
    if not want.lower <= exactly * 10**want.unit <= want.upper:
        yield f"{exactly} is not between the ends of {want}"
    if want.upper - want.lower > width(want.unit, "q", age, None, 0):
        yield f"{want.upper - want.lower} units wide"


def with_fine(given, q, age, year):
    """The quote of a cell with coarse ends of q, and fine ones where these leave it open."""
    return quoted(lambda on: q if on is grid.COARSE else given.ends("q", age, year, 0, grid=on), "q")


def compare(job):
    """Counts of (cells, steep cells), and what is wrong."""
    params, years = job
    steep, wrong = 0, []
    answers, said = asked(params, years)
    if said:
        return 0, 0, [said]
    kappas, given = grid.COARSE.kappas(params, max(years) - params["start"]), Quotes(params)
    for i, year in enumerate(years):
        ends = grid.column(params, year, kappas[year - params["start"]])
        want = [q and with_fine(given, q, x, year) for x, q in enumerate(ends)]
        digits = exact.column(params, year)
        steep += want.count(None)
        for x, answer in zip(AGES, answers[i * len(AGES) :]):
            bad = list(cell_complaints(answer, want[x], None if want[x] is None else digits[x], x))
            if bad:
                wrong.append(f"year {year} age {x}: {answer}: {', '.join(bad)}")
    return len(answers), steep, wrong


def main():
    print(f"seed {SEED}")
    gone = programs.missing("ends")
    if gone:
        print(gone)
        return 1
    cells = steep = 0
    wrong = []
    with concurrent.futures.ProcessPoolExecutor(2) as pool:
        for compared, out_of_range, bad in pool.map(compare, plan(), chunksize=8):
            cells += compared
            steep += out_of_range
            wrong += bad
    for message in wrong[:20]:
        print(message)
    print(f"{cells} cells, {steep} of them steep")
    print(f"{max(0, cells - len(wrong))} passed, {len(wrong)} failed")
    return 1 if wrong else 0


if __name__ == "__main__":
    sys.exit(main())
