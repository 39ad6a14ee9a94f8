"""Survival to a day, by the program `ends`, against the second implementation: the refusal, both ends and the figure, number for
number, and the exact value to many digits, which must lie between the ends and round to the printed figure.

Sheets are flat, realistic, extreme and steep at one age. Dates are the first and last of each term, the days before and after
it, days around 29 February in leap years and in 2100, and 1 January and 31 December of the years in which ages about 90 and 120
are held. Where a year has one force at all ages, figures are also held against a plain formula; on 1 January the answer must be
that of `coh`; and of one sheet every day from 2014 to 2184 is asked. Numbers and days are tests/test_dates.py. An argument is
taken as the seed.
"""
import calendar
import collections
import concurrent.futures
import datetime
import itertools
import random
import sys
from decimal import Decimal

import programs
import sheets
import whole_run
from grid import HIGHEST, LOWEST, START, UNIT, flat
from quotes import DAY, FIRST_YEAR, LAST_CELL, LAST_YEAR, OLDEST, Quotes, day_of, number_of, rounded, term
from reader import SIZES, params_of, read
from test_quotes import EVEN, NO_DAYS, ONE_DAY, SORTS, YEARLY, accepted, asked, case, complaints, dates_near, line_of, mild
from whole_run import figure_text

SEED = 20410315
LEAST_DAYS = 3000
SHEET = programs.ROOT / "examples" / "women.sheet"
LEAPS = (2096, 2100, 2104)
HELD = (89, 90, 91, 92, 119, 120)
REFUSALS = (1, 2, 3, 4, 10, 5, 6)


# ---- dates

def in_year(year):
    """The ends of a year, the days about the end of its February, and one past it."""
    return [year * 10**4 + date for date in (101, 102, 228, 229, 230, 301, 701, 1230, 1231, 1232)]


def asked_of(draw, age, year):
    """Queries of a life about the ends of its term, about ages of it and about 29 February, and on any day; with the cohort's
    of each 1 January."""
    first, last = term(age, year)
    dates = dates_near(age, year)
    for held in HELD:
        if held >= age:
            dates += in_year(year + held - age)
    for leap in LEAPS:
        dates += in_year(leap)
    dates += [number_of(first + draw.randint(0, (last - first).days) * ONE_DAY) for _ in range(12)]
    return with_cohorts([(DAY, age, year, date) for date in dates])


def with_cohorts(queries):
    """Queries, and the cohort's of each 1 January among them."""
    out = set(queries)
    for _, age, year, date in queries:
        span = date // 10**4 - year
        if date % 10**4 == 101 and 0 <= span <= OLDEST - age:
            out.add(("coh", age, year, span))
    return sorted(out)


# ---- sheets

def flat_cases(draw):
    for age, year in itertools.product((0, 30, 88, 89, 90, 91, 119, 120), (2014, 2016, 2063, 2064)):
        yield case(f"flat, {age} in {year}", flat(), asked_of(draw, age, year))


def lives(draw, count):
    """Ages and years, among them those that hold 90 and 91 soon, and 120."""
    for _ in range(count):
        age = draw.choice((draw.randint(0, 80), draw.randint(81, 92), draw.randint(93, 120)))
        yield age, draw.choice((draw.randint(FIRST_YEAR, LAST_YEAR), 2015, 2016, LAST_YEAR))


def realistic_cases(draw, count):
    for i in range(count):
        params = mild(draw) if i % 4 else sheets.realistic(draw)
        for age, year in lives(draw, 3):
            yield case(f"realistic {i}, {age} in {year}", params, asked_of(draw, age, year))


def extreme_cases(draw, count):
    """Steady ones, whose cells lie in the range in all years, and some at the very ends of it."""
    for i in range(count):
        year = draw.randint(FIRST_YEAR, LAST_YEAR)
        params = sheets.extreme(draw, draw.choice((10**8, 10**8 - 1)), year, draw.choice((1.0, 0.3)), draw.choice((40, 10**6)))
        params.update(theta=0, K=sheets.clamp(params["K"] + params["theta"] * (year - START), SIZES["K"]))
        if i % 3 == 0:
            params = sheets.at_edge(draw, FIRST_YEAR, 0)
        for age, _ in lives(draw, 2):
            yield case(f"extreme {i}, {age} in {year}", params, asked_of(draw, age, year))


def steep_cases(draw):
    """A cell a unit past the range at one age: survival to 1 January of the year that holds it is accepted, and to the day after
    it is not; the ages 80 to 90 are needed by all above 90."""
    for steep, (end, past) in itertools.product((1, 40, 79, 80, 85, 90), ((HIGHEST, 1), (LOWEST, -1))):
        params = dict(flat(), A=[end + past * (x == steep) for x in range(91)])
        year = draw.randint(FIRST_YEAR, LAST_YEAR)
        rows = {}
        for back in {0, 1, draw.randint(0, steep)}:
            for on, date, no in ((0, 101, ""), (0, 102, "no=6"), (0, 1231, "no=6"), (1, 101, "no=6"), (0, 1301, "no=10")):
                rows[DAY, steep - back, year, (year + back + on) * 10**4 + date] = no
            rows[DAY, steep - back, year, number_of(term(steep - back, year)[1] + ONE_DAY)] = "no=5"
        if steep >= 80:
            rows |= {(DAY, 91, year, year * 10**4 + date): no for date, no in ((101, "fig=1.00000"), (102, "no=6"))}
        yield case(f"steep at {steep}", params, with_cohorts(list(rows)), rows)


def refused_cases(draw):
    """Two refusals at once, and all, in their order: the sheet's, the age's, the year's, the date's, the term's, a cell's."""
    steep, off = dict(flat(), A=[0] * 91), dict(flat(), a=SIZES["a"] + 1)
    bad = [*NO_DAYS, *in_year(2100)[3:5]]
    for name, params in (("flat", flat()), ("steep", steep)):
        rows = {}
        for age, year in ((-1, 2013), (-1, 2020), (121, 2020), (121, 2065)):
            rows |= {(DAY, age, year, date): "no=3" for date in (*bad, 20200101, 10000101, 20410315)}
        for age, year in ((0, 2013), (120, 2065), (65, 2065)):
            rows |= {(DAY, age, year, date): "no=4" for date in (*bad, *dates_near(age, year))}
        for age, year in ((0, 2014), (120, 2064), (65, 2020)):
            rows |= {(DAY, age, year, date): "no=10" for date in bad}
            outside = dates_near(age, year)
            rows |= {(DAY, age, year, date): "no=5" for date in (outside[0], *outside[5:])}
            rows[DAY, age, year, outside[1]] = "fig=1.00000"
            rows[DAY, age, year, outside[2]] = "no=6" if name == "steep" else ""
        yield case(f"{name}, refusals in order", params, list(rows), rows)
    whole, queries = sheets.text(flat()), [(DAY, 121, 2065, 0), (DAY, 65, 2020, 20410315), (DAY, 65, 2020, draw.choice(bad))]
    yield case("off scale", off, queries, dict.fromkeys(queries, "no=2"))
    for data in (b"", whole[:-1], sheets.text(off).replace(b"sex=", b"Sex=", 1)):
        yield case("torn", flat(), queries, dict.fromkeys(queries, "no=1"))._replace(data=data)


# ---- one force at all ages

def even_value(force_in, year, day):
    """Survival to a day where a year has one force at all ages, in units."""
    of = 366 if calendar.isleap(day.year) else 365
    passed = sum(force_in[y] for y in range(year, day.year)) + force_in[day.year] * (day.timetuple().tm_yday - 1) / of
    return (-passed).exp() * UNIT


def even_end(value):
    """The figure of a value that is so far from a half step that no ends leave it open."""
    past_half = (value / 10**4 + Decimal("0.5")) % 1
    return f"fig={figure_text(rounded(value, DAY), DAY)}" if Decimal("0.05") < past_half < Decimal("0.95") else ""


def even_cases(draw):
    for level, rise in EVEN:
        params = dict(flat(), A=[level] * 91, B=[YEARLY] * 91, theta=10 * rise)
        logs = {year: level + rise * (year - START) for year in range(FIRST_YEAR, LAST_CELL + 1)}
        force_in = {year: (Decimal(log) / UNIT).exp() for year, log in logs.items()}
        rows = {}
        for age, year in [(0, LAST_YEAR), (0, FIRST_YEAR), (OLDEST, LAST_YEAR), *lives(draw, 4)]:
            for query in asked_of(draw, age, year):
                day = day_of(query[3]) if query[0] == DAY else None
                if day and term(age, year)[0] <= day <= term(age, year)[1]:
                    needed = range(year, day.year + (day != datetime.date(day.year, 1, 1)))
                    steep = any(not LOWEST <= logs[y] <= HIGHEST for y in needed)
                    rows[query] = "no=6" if steep else even_end(even_value(force_in, year, day))
        yield case(f"flat, {level} and {rise} a year", params, with_cohorts(list(rows)), rows)


# ---- comparing

def unlike_cohorts(answers, counts):
    """Which answers of 1 January are not those of the cohort over the whole years, ends, figure or refusal."""
    for (kind, age, year, date), line in answers.items():
        cohort = answers.get(("coh", age, year, date // 10**4 - year))
        if kind == DAY and date % 10**4 == 101 and cohort is not None:
            counts["1 January"] += 1
            if line != cohort:
                yield f"{age} in {year} to {date}: {line!r}, and of the cohort {cohort!r}"


def compare(one):
    """Counts, how many answers were compared, and what is wrong."""
    counts = collections.Counter()
    no, read_set = read(one.data)
    given = None if no else Quotes(params_of(read_set))
    answers, wrong = asked(one, no)
    for query, line in zip(one.queries, answers):
        bad = list(complaints(given, no, query, line, counts))
        if not line.endswith(one.fixed.get(query, "")):
            bad.append(f"does not end in {one.fixed[query]}")
        if bad:
            wrong.append(f"{one.name}, {' '.join(map(str, query))}: {line!r}: {', '.join(bad)}")
        if query[0] == DAY and not no and not given.refusal(*query):
            meet(counts, *query[1:])
    wrong += [f"{one.name}, {said}" for said in unlike_cohorts(dict(zip(one.queries, answers)), counts)]
    counts[one.name.split()[0].rstrip(",")] += accepted(counts, [DAY])
    return counts, len(answers), wrong


def meet(counts, age, year, date):
    """Counts what an accepted query is a case of."""
    day = day_of(date)
    counts["first of the term"] += day == term(age, year)[0]
    counts["last of the term"] += day == term(age, year)[1]
    counts["31 December"] += date % 10**4 == 1231
    counts["held", age + day.year - year] += 1
    counts["leap", day.year] += date % 10**4 == 229


# ---- every day of one sheet

def life_to(year):
    """An age and a quote year for the days of a year, in which the life holds any age from 40 on, if it is not born too late."""
    begun = max(FIRST_YEAR, min(LAST_YEAR, year - 1 - year % 3))
    return max(0, 40 + year % 81 - year + begun), begun


def every_day(year):
    """As `compare`, of each day of a year by one sheet, with no exact values."""
    sheet, (age, begun) = SHEET.read_bytes(), life_to(year)
    first, last = datetime.date(year, 1, 1), datetime.date(year, 12, 31)
    lines = [line_of((DAY, age, begun, number_of(first + i * ONE_DAY))) for i in range((last - first).days + 1)]
    status, got = programs.run("ends", sheet + b"".join(lines))
    want = whole_run.ends(sheet + b"".join(lines))
    wrong = [f"{SHEET.name}: {a!r} and not {b!r}" for a, b in itertools.zip_longest(got.split(b"\n"), want.split(b"\n")) if a != b]
    wrong += [f"exit status {status}"] if status else []
    return collections.Counter({"every day": want.count(b" fig=")}), len(lines), wrong


def cases(draw):
    out = list(flat_cases(draw)) + list(even_cases(draw)) + list(realistic_cases(draw, 16)) + list(extreme_cases(draw, 16))
    return out + list(steep_cases(draw)) + list(refused_cases(draw))


def missing(counts):
    """What the cases should have met and have not."""
    wanted = ["day printed", "day fine", "1 January", "31 December", "first of the term", "last of the term", *SORTS]
    wanted += [f"refused {no}" for no in REFUSALS] + [("held", held) for held in HELD] + [("leap", 2096), ("leap", 2104)]
    out = [str(what) for what in wanted if not counts[what]]
    if sum(counts[sort] for sort in SORTS) < LEAST_DAYS:
        out.append(f"{LEAST_DAYS} days")
    first, last = datetime.date(FIRST_YEAR, 1, 1), datetime.date(LAST_CELL, 12, 31)
    return out + (["every day"] if counts["every day"] != (last - first).days + 1 else [])


def report(counts, total):
    by_sort = ", ".join(f"{counts[sort]} of {sort} sheets" for sort in SORTS)
    print(f"{total} quotes; {accepted(counts, [DAY])} to a day, of which {counts['day fine']} are printed by the fine grid: {by_sort}")
    print(f"{counts['1 January']} on 1 January held against the cohort's; {counts['every day']} days of one sheet")
    print("refused:", *(f"no={no} {counts[f'refused {no}']}" for no in REFUSALS))


def main():
    seed = int(sys.argv[1]) if len(sys.argv) > 1 else SEED
    print(f"seed {seed}")
    gone = programs.missing("ends")
    if gone:
        print(gone)
        return 1
    counts, checks, wrong = collections.Counter(), 0, []
    with concurrent.futures.ProcessPoolExecutor(2) as pool:
        found = [pool.map(compare, cases(random.Random(seed)), chunksize=2)]
        found.append(pool.map(every_day, range(FIRST_YEAR, LAST_CELL + 1), chunksize=4))
        for met, answered, bad in itertools.chain(*found):
            counts += met
            checks += answered
            wrong += bad
    report(counts, checks)
    absent = missing(counts)
    wrong += [f"no case of: {', '.join(absent)}"] if absent else []
    for message in wrong[:20]:
        print(message)
    print(f"{max(0, checks + 1 - len(wrong))} passed, {len(wrong)} failed")
    return 1 if wrong else 0


if __name__ == "__main__":
    sys.exit(main())
