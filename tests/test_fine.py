"""Quotes of every kind, of one life and of couples, whose coarse ends leave the figure open, so that they are worked again on the
fine grid: by the programs `ends` and `couples`, against the second implementation, and against the exact values to many digits.

Some are found at random; most are placed beside a rounding edge by edges.py, as far beyond a half step as coarse ends are wide, or
as fine ones are, so that some figures stay open on the fine grid too. The ends, their unit and the figure are compared number for
number; the exact value must lie between the ends and round to the printed figure; fine ends are at most a thousandth as far apart
as coarse ones may be; and where both grids' ends settle an expectancy to a tenth, it must be the same one. Sheets are of both
tables, with any start year, realistic and extreme. An argument is taken as the seed.
"""
import collections
import concurrent.futures
import random
import sys

import programs
import sheets
import whole_run
from couples import COUPLES, JOINT, LAST, SINGLE, Couple, widest
from edges import Edges, closure_placed
from grid import COARSE, FINE, START
from quotes import CHANCES, COHORT, DAY, EXPECTANCIES, KINDS, LAST_FITTED, OLDEST, OPEN, SUMS, SURVIVALS, Quotes, figure
from quotes import GridCells, grid_ends, in_units, number_of, path, rounded, step, term, width, years_of
from reader import LAST_START, LONGEST
from test_couples import any_span as couple_span, line_of as couple_line
from test_quotes import ONE_DAY, any_query, any_rate, line_of, mild

SEED = 20141013
EVERY = KINDS + COUPLES
ONE_YEAR = ("q", "per", "eper", "aper")
NEAR = 5
# What the sheets must give: quotes that are open on the coarse grid, in all and of each kind, and that are on the fine one too.
LEAST, LEAST_EACH, LEAST_OPEN = 3000, 60, 20

# What sort of quotes they are, the sets, one or a couple's two, and queries that break no limit.
Case = collections.namedtuple("Case", "sort params queries")


def single(kind):
    """The kind of a single life with a kind's step."""
    return SINGLE.get(kind, kind)


# ---- quotes at a half step

# Some widths of fine and of coarse ends, in units of 10^-13: how far from a half step quotes are placed.
WIDTHS = {"q": (30, 10**5), **dict.fromkeys(CHANCES, (200, 10**6)), **dict.fromkeys(SUMS, (8000, 2 * 10**7))}


def beyond(draw, kind):
    """A distance from a half step, in units of 10^-13, which the fine ends may leave open, or the coarse ones."""
    fine, coarse = WIDTHS[single(kind)]
    return draw.choice((0, draw.randint(-fine, fine), draw.randint(-coarse, coarse), draw.randint(-coarse, coarse)))


def any_set(draw):
    """A realistic set with no steep cell, of either table."""
    return mild(draw, draw.randint(START, LAST_START)) if draw.randrange(2) else mild(draw)


def lasting(draw, kind, age, year):
    """The span or date, and the rate, of a query that needs the first year whole."""
    if kind == DAY:
        first, last = term(age, year)
        return (number_of(first + draw.randint(366, (last - first).days) * ONE_DAY),)
    return draw.randint(1, OLDEST + 1 - age) if kind in SURVIVALS else 0, *any_rate(draw, kind)


def placed(draw, params, queries, other=None):
    """The set with as many of the queries as can be at a half step, each by its first age, and these queries."""
    edges = Edges(params)
    return edges.params, [query for query in queries if edges.place(query, beyond(draw, query[0]), other)]


def down_a_cohort(draw, start):
    """Ages below 80 and quote years of one cohort, from the oldest down."""
    oldest, (first, last, _) = draw.randint(60, 79), years_of(start)
    return [(oldest - back, last - back) for back in range(min(oldest, last - first) + 1)]


def cohorts(draw):
    """Quotes of one cohort."""
    params = any_set(draw)
    lives = [(draw.choice(COHORT), *life) for life in down_a_cohort(draw, params["start"])]
    return Case("cohorts", *placed_alone(draw, params, lives))


def calendar_years(draw):
    """Quotes of one calendar year."""
    params = any_set(draw)
    year = draw.randint(*years_of(params["start"])[:2])
    lives = [(draw.choice(ONE_YEAR[1:]), age, year) for age in range(79, -1, -1)]
    return Case("calendar years", *placed_alone(draw, params, lives))


def extremes(draw):
    """Quotes of one calendar year of a set with large parameters, whose log forces are in that year of any size in the range."""
    start, a, spread = draw.randint(START, LAST_START), draw.choice((10**8, -(10**8), 10**8 - 1, 1)), draw.choice((1.0, 0.3, 0.05))
    year = draw.randint(*years_of(start)[:2])
    params = sheets.extreme_lilee(draw, a, start, year, spread)
    return Case("extremes", *placed_alone(draw, params, [(draw.choice(ONE_YEAR), age, year) for age in range(79, -1, -1)]))


def placed_alone(draw, params, lives):
    """One sheet with quotes at a half step, by their kinds, ages and years, of which none is refused."""
    moved, queries = placed(draw, params, [(*life, *lasting(draw, *life)) for life in lives])
    given = Quotes(moved)
    return [moved], [query for query in queries if not given.refusal(*query)]


def death_chances(draw):
    """q of all ages to 90 in one year."""
    params = any_set(draw)
    first, _, last = years_of(params["start"])
    year = draw.randint(first, last)
    moved, queries = placed(draw, params, [("q", age, year, 0) for age in range(LAST_FITTED, -1, -1)])
    return Case("death chances", [moved], queries)


def closures(draw):
    """A quote of an age above 90: along the cohort over a few years, else of any kind."""
    while True:
        params, kind, age = any_set(draw), draw.choice((*ONE_YEAR, "coh", DAY)), draw.randint(91, 117)
        year = draw.randint(*years_of(params["start"])[:2])
        span, *rate = lasting(draw, kind, draw.choice((age, 117)) if kind in ("coh", DAY) else age, year)
        moved = closure_placed(params, (kind, age, year, span, *rate), beyond(draw, kind))
        if moved:
            return Case("closures", [moved], [(kind, age, year, span, *rate)])


def two_lives(draw):
    """Quotes of two cohorts, by the first life's parameters."""
    params = any_set(draw)
    other = mild(draw, params["start"])
    apart, queries = draw.randint(-12, 12), []
    for age, year in down_a_cohort(draw, params["start"]):
        if age + apart >= 0:
            kind, ages = draw.choice(COUPLES), (age, age + apart)
            queries.append((kind, *ages, year, max(1, couple_span(draw, kind, ages)) if kind in (JOINT, LAST) else 0))
    moved, queries = placed(draw, params, queries, Edges(other))
    return Case("two lives", [moved, other], queries)


# ---- fine ends at a half step

def fine_edges(draw):
    """An expectancy or a price with a fine end, the lower or the upper, within some units of a half step: placed by the distance
    that is left, until it is. Of the cells on the fine grid the first alone moves."""
    side, kind = draw.randrange(2), draw.choice(SUMS)
    while True:
        params, age = any_set(draw), draw.randint(40, 79)
        query = (kind, age, draw.randint(*years_of(params["start"])[:2]), *lasting(draw, kind, age, None))
        (first, *others), fine = path(params["start"], *query[:4]), GridCells(params, FINE)
        later, at, size = [fine.p(*cell) for cell in others], 0, step(kind, FINE)
        edges = Edges(params)
        for _ in range(30):
            if not edges.place(query, at):
                break
            end = grid_ends(FINE, kind, [GridCells(edges.params, FINE).p(*first), *later], *query[4:])[side]
            off = (end % size) - size // 2
            if abs(off) <= NEAR:
                return Case("fine edges", [edges.params], [query])
            at -= off


# ---- quotes at random

def at_random(draw):
    """Queries of all kinds, of one cohort and one calendar year."""
    params = any_set(draw)
    (first, last, end), out = years_of(params["start"]), []
    year, begun = draw.randint(first, last), draw.randint(0, 70)
    for _ in range(160):
        age, on = draw.randint(0, OLDEST), draw.randint(0, last - first)
        out += [any_query(draw, kind, age, year) for kind in ("per", "per", "eper", "aper")]
        out += [any_query(draw, kind, begun + on, first + on) for kind in COHORT + ("coh", DAY)]
    columns = (year, draw.randint(first, end), draw.randint(first, end))
    return Case("at random", [params], sorted({*out, *(("q", age, of, 0) for age in range(OLDEST + 1) for of in columns)}))


def couples_at_random(draw):
    """Queries of two cohorts."""
    params = any_set(draw)
    lives, (first, last, _) = [params, mild(draw, params["start"])], years_of(params["start"])
    begun, out = [draw.randint(0, 70), draw.randint(0, 70)], set()
    for _ in range(100):
        on = draw.randint(0, last - first)
        ages = [age + on for age in begun]
        out |= {(kind, *ages, first + on, couple_span(draw, kind, ages)) for kind in COUPLES}
    return Case("couples at random", lives, sorted(out))


# ---- comparing

def asked(case, queries):
    """Each query with its line and the line that is printed for it, as many to a run as the input takes."""
    name, line = ("couples", couple_line) if len(case.params) == 2 else ("ends", line_of)
    head, lines = b"".join(map(sheets.text, case.params)), [line(query) for query in queries]
    most, out = (LONGEST - len(head)) // max(map(len, lines), default=1), []
    for at in range(0, len(lines), most):
        part = lines[at : at + most]
        status, got = programs.run(name, head + b"".join(part))
        got = got.decode("ascii", "replace").splitlines()
        out += got if status == 0 and len(got) == len(part) else [f"{len(got)} lines, exit status {status}"] * len(part)
    return zip(queries, lines, out)


def unlike_at_old_step(kind, quote, coarse):
    """Whether the ends of both grids settle an expectancy to a tenth of a year, and not the same."""
    if kind not in EXPECTANCIES or quote.unit == COARSE.digits:
        return False
    steps = [figure(ends, "acoh", grid) for ends, grid in ((coarse, COARSE), (quote[:2], FINE))]
    return OPEN not in steps and steps[0] != steps[1]


def complaints(given, query, quote):
    """What is wrong with a quote, of the exact value and of the widths that are allowed."""
    kind, value = single(query[0]), given.value(*query)
    most = widest(quote.unit, query[0]) if query[0] in COUPLES else width(quote.unit, *query)
    if not quote.lower <= in_units(value, quote.unit) <= quote.upper:
        yield f"the exact value {value:.20f} is not between the ends"
    if quote.steps not in (OPEN, rounded(value, kind)):
        yield f"the exact value {value:.20f} rounds to {rounded(value, kind)} steps"
    if quote.upper - quote.lower > most:
        yield f"{quote.upper - quote.lower} units apart"
    if unlike_at_old_step(kind, quote, given.ends(*query)):
        yield "another tenth than by the coarse ends"


def count_quote(counts, kind, quote):
    """Counts what the second implementation says of a quote that the coarse grid leaves open."""
    size = step(single(kind), FINE)
    counts[kind, "coarse"] += 1
    counts[kind, "fine"] += quote.steps == OPEN
    counts[kind, "near"] += any(min((end + size // 2) % size, -(end + size // 2) % size) <= NEAR for end in quote[:2])
    counts[kind, "widest"] = max(counts[kind, "widest"], quote.upper - quote.lower)


def quotes_of(case, given, counts):
    """The quotes of a case's queries, of those at random the ones that are open on the coarse grid."""
    out = {}
    for query in case.queries:
        quote, kind = given.quote(*query), query[0]
        again = quote.unit == FINE.digits
        counts[case.sort, kind, "asked"] += 1
        counts[case.sort, kind, "coarse"] += again
        counts[case.sort, kind, "fine"] += quote.steps == OPEN
        if again:
            count_quote(counts, kind, quote)
        if again or case.sort not in RANDOM:
            out[query] = quote
    return out


def compare(job):
    """Counts, how many lines were compared, and what is wrong."""
    make, seed = job
    case, counts, wrong = make(random.Random(seed)), collections.Counter(), []
    lives = [Quotes(params) for params in case.params]
    given = Couple(*lives) if len(lives) == 2 else lives[0]
    refused = [query for query in case.queries if given.refusal(*query)]
    if refused:
        return counts, 0, [f"{case.sort}: refused, {refused}"]
    quotes = quotes_of(case, given, counts)
    for query, line, got in asked(case, list(quotes)):
        want = whole_run.shown(line, single(query[0]), (0, quotes[query]), with_ends=True)
        bad = [*complaints(given, query, quotes[query]), *([f"not {want!r}"] if got != want else [])]
        if bad:
            wrong.append(f"{case.sort}: {got!r}: {', '.join(bad)}")
    return counts, len(quotes), wrong


RANDOM = ("at random", "couples at random")
JOBS = {
    cohorts: 22, calendar_years: 12, extremes: 12, death_chances: 7, closures: 80, two_lives: 14, fine_edges: 20,
    at_random: 20, couples_at_random: 6,
}


def merge(counts, found):
    for key, value in found.items():
        counts[key] = max(counts[key], value) if key[-1] == "widest" else counts[key] + value


def missing(counts):
    """What should have been met and has not."""
    out = [f"{LEAST_EACH} of {kind}" for kind in EVERY if counts[kind, "coarse"] < LEAST_EACH]
    out += [f"{LEAST_OPEN} of {kind} that stay open" for kind in EVERY if counts[kind, "fine"] < LEAST_OPEN]
    out += [f"{kind} with a fine end at a half step" for kind in KINDS if not counts[kind, "near"]]
    return out + ([f"{LEAST} in all"] if sum(counts[kind, "coarse"] for kind in EVERY) < LEAST else [])


def report(counts, lines):
    for sort in RANDOM:
        each = [(kind, *(counts[sort, kind, what] for what in ("coarse", "fine", "asked"))) for kind in EVERY]
        told = [f"{kind} {coarse} and {fine} of {count}" for kind, coarse, fine, count in each if count]
        print(f"{sort}, open on the coarse grid and on the fine one:", ", ".join(told))
    for kind in EVERY:
        coarse, fine, near, apart = (counts[kind, what] for what in ("coarse", "fine", "near", "widest"))
        print(f"{kind}: {coarse} open on the coarse grid, {fine} on the fine one;", end=" ")
        print(f"{near} with a fine end within {NEAR} units of a half step; fine ends at most {apart} units apart")
    coarse, fine = (sum(counts[kind, what] for kind in EVERY) for what in ("coarse", "fine"))
    print(f"{lines} quotes, {coarse} of them open on the coarse grid and {fine} on the fine one")


def main():
    seed = int(sys.argv[1]) if len(sys.argv) > 1 else SEED
    print(f"seed {seed}")
    gone = programs.missing("ends", "couples")
    if gone:
        print(gone)
        return 1
    draw, counts, lines, wrong = random.Random(seed), collections.Counter(), 0, []
    jobs = [(make, draw.random()) for make, count in JOBS.items() for _ in range(count)]
    with concurrent.futures.ProcessPoolExecutor(2) as pool:
        for found, compared, bad in pool.map(compare, jobs, chunksize=4):
            merge(counts, found)
            lines += compared
            wrong += bad
    report(counts, lines)
    absent = missing(counts)
    wrong += [f"no case of: {', '.join(absent)}"] if absent else []
    for message in wrong[:20]:
        print(message)
    print(f"{max(0, lines + 1 - len(wrong))} passed, {len(wrong)} failed")
    return 1 if wrong else 0


if __name__ == "__main__":
    sys.exit(main())
