"""The package python/kulfizan: the module's types, figures and errors; `sheet` and `csv` over generated fits, there and back; what
`sheet` refuses, rounds and warns of; `check` over damaged files, held against the library's calls; helps, exit statuses and errors;
the wheel, and the stack that the header promises.

An argument is taken as the seed.
"""
import base64
import contextlib
import csv
import hashlib
import importlib
import io
import os
import pathlib
import random
import re
import subprocess
import sys
import tempfile
import zipfile
from decimal import ROUND_HALF_UP, Decimal

import c_interface
import grid
import quotes
import sheets
import whole_run
from c_interface import ROOT
from edges import Edges
from reader import LONGEST

SEED = 20142065
FITS, DAMAGED, TRIES = 300, 20_000, 400
EXAMPLES = ROOT / "examples"
WOMEN = (EXAMPLES / "women.sheet").read_bytes()
RESEARCH = (EXAMPLES / "research.sheet").read_bytes()
DECIMALS = {"A": 9, "B": 8, "alpha": 9, "beta": 8, "a": 8, "theta": 9, "K": 9, "k": 9, "start": 0, "c": 9}
KEYS = {"A": "A", "B": "B", "alpha": "al", "beta": "be"}


class Count(c_interface.Count):
    """Counts where anything that holds is taken as good, a match too."""

    def take(self, good, said):
        super().take(bool(good), said)


def command(*arguments):
    """The exit status of a command line, in this process, with what it writes on standard output and error."""
    from kulfizan import cli

    out, error = io.TextIOWrapper(io.BytesIO(), "utf-8"), io.StringIO()
    with contextlib.redirect_stdout(out), contextlib.redirect_stderr(error):
        try:
            status = cli.main([str(one) for one in arguments])
        except SystemExit as exit_of_parser:
            status = exit_of_parser.code
    out.flush()
    return status, out.buffer.getvalue().decode(), error.getvalue()


def error_of(call, *given, **named):
    """What a call raises, or None."""
    try:
        call(*given, **named)
    except Exception as error:
        return error
    return None


# ---- the module

def compare_types(count, module):
    """Anything but a sheet or bytes is a TypeError that says what is wanted, and a str or a path is refused by name."""
    sheet = module.Sheet(WOMEN)
    calls = [
        lambda one: module.read(one), lambda one: module.Sheet(one), lambda one: module.quote(one, "q", 65, 2020),
        lambda one: module.day(one, 65, 2020, 20210101), lambda one: module.couple(one, WOMEN, "last", 65, 65, 2020),
        lambda one: module.couple(WOMEN, one, "last", 65, 65, 2020), lambda one: module.target_year(one, 65, 0),
        lambda one: module.verdict(one, 2020, b""), lambda one: module.verdict(WOMEN, 2020, one), lambda one: module.run(one),
    ]
    for wrong in (7, [1, 2], "women.sheet", None, 1.5, pathlib.Path("women.sheet"), (1,), {}):
        for place, call in enumerate(calls):
            error = error_of(call, wrong)
            said = isinstance(error, TypeError) and "bytes" in str(error) and type(wrong).__name__ in str(error)
            count.take(said, f"call {place} of {wrong!r} raises {error!r}")
    for good in (WOMEN, bytearray(WOMEN), memoryview(WOMEN), sheet):
        for place, call in enumerate(calls):
            if place in (8, 9) and good is not WOMEN:
                continue
            error = error_of(call, good)
            count.take(not isinstance(error, TypeError), f"call {place} of {type(good).__name__} raises {error!r}")
    for wrong in (1, b"q", None):
        count.take(isinstance(error_of(sheet.quote, wrong, 65, 2020), TypeError), f"the kind {wrong!r} is no TypeError")
    for wrong in (1, b"kind=q age=65 year=2020 span=0"):
        error = error_of(lambda one: list(sheet.run([one])), wrong)
        count.take(isinstance(error, TypeError), f"the query {wrong!r} raises {error!r}")
    count.take(isinstance(error_of(lambda: list(sheet.run(["a\nb"]))), ValueError), "a query of two lines is no ValueError")


def compare_sheet(count, module):
    """A sheet's numbers by their names, its years, and a refused file with its name."""
    for data in (WOMEN, RESEARCH):
        sheet, values = module.Sheet(data), module.read(data)
        head = dict(zip(module.HEAD, values))
        got = [getattr(sheet, name) for name in ("a", "theta", "K", "k", "start", "c")]
        count.take(got == [head[name] for name in ("a", "theta", "K", "k", "start", "c")], "the series of a Sheet differ")
        runs = [number for age in range(91) for number in (sheet.level[age], sheet.slope[age], sheet.alpha[age], sheet.beta[age])]
        count.take(runs == values[8:] and sheet.values == values, "the numbers of a Sheet differ")
        count.take((sheet.table, sheet.sex) == (module.TABLES[head["table"]], "F"), "the table or sex of a Sheet differs")
        count.take(sheet.years == range(sheet.start + 1, sheet.start + 52), "the years of a Sheet differ")
        count.take(sheet.q_years == range(sheet.start + 1, sheet.start + 172), "the years of q differ")
        count.take(bytes(sheet) == sheet.data == data and module.write(sheet.values) == data, "the bytes of a Sheet differ")
        again = module.Sheet(data)
        count.take(sheet == again and hash(sheet) == hash(again) and sheet != data, "two Sheets of the same bytes are not equal")
    count.take(module.Sheet.load(EXAMPLES / "women.sheet") == module.Sheet(WOMEN), "load gives another sheet")
    for data, number in ((WOMEN[:-1], 1), (b"", 1), (WOMEN.replace(b"a=97200000", b"a=972000000"), 2), (WOMEN * 20, 1)):
        with tempfile.NamedTemporaryFile() as file:
            pathlib.Path(file.name).write_bytes(data)
            error = error_of(module.Sheet.load, file.name)
            count.take(getattr(error, "number", None) == number and file.name in str(error), f"a refused file raises {error!r}")
            status, _, said = command("csv", file.name)
            count.take(status == 1 and file.name in said and f"refused as {number}" in said, f"csv of a refused file: {said}")
    count.take(isinstance(error_of(module.Sheet.load, "/no/such/file"), OSError), "a missing file is no OSError")


def edge_sheet(draw, module):
    """A sheet with expectancies of two ages at half steps: the figure at 60 is open, and that at 50 the fine grid closes."""
    while True:
        edges = Edges(sheets.realistic(draw))
        if all(edges.place(("ecoh", age, 2020, 0), beyond) for age, beyond in ((60, 0), (50, 10**6))):
            sheet = module.Sheet(sheets.text(edges.params))
            answers = [error_of(sheet.quote, "ecoh", age, 2020) or sheet.quote("ecoh", age, 2020) for age in (60, 50)]
            if [getattr(one, "unit", 9) for one in answers] == [13, 13] and [one.steps is None for one in answers] == [True, False]:
                return sheet


def compare_fine(count, draw, module):
    """Quotes that are worked again: their unit, ends, figure and decimals, against the second implementation and the run."""
    sheet = edge_sheet(draw, module)
    given = quotes.Quotes(whole_run.params_of(whole_run.read(sheet.data)[1]))
    for age in (60, 50):
        quote, wanted = sheet.quote("ecoh", age, 2020), given.quote("ecoh", age, 2020, 0)
        steps = None if wanted.steps == quotes.OPEN else wanted.steps
        count.take(quote == (wanted.lower, wanted.upper, steps, 2, 13), f"worked again: {quote}, not {wanted}")
        line = f"kind=ecoh age={age} year=2020 span=0"
        count.take(list(sheet.run([line])) == [f"{line} lo={quote.lower} hi={quote.upper} unit=13 fig={quote.text}"], f"run of {line}")
        ends = tuple(Decimal(end).scaleb(-13) for end in quote[:2])
        count.take((quote.low, quote.high) == ends, f"the ends of {quote} as decimals")
        for decimals in range(16):
            compare_rounded(count, quote, decimals)
    count.take(sheet.quote("ecoh", 60, 2020).text == "open", "no open figure")
    status, out, _ = command("list", "-", "--help")
    count.take(status == 0 and "13" in out, "the help of `list` does not tell the finer unit")


def compare_quotes(count, draw, module):
    """Figures as the programs print them, ends as decimals, and figures with any decimals where both ends round alike."""
    sheet = module.Sheet(WOMEN)
    for _ in range(TRIES):
        kind = draw.choice([word for word in module.KINDS if word != "day"])
        age, year = draw.randrange(121), draw.choice(sheet.years)
        span = draw.randrange(122 - age) if module.KINDS[kind].span else 0
        rate = draw.randrange(200_001) if module.KINDS[kind].rate else None
        line = f"kind={kind} age={age} year={year} span={span}" + ("" if rate is None else f" rate={rate}")
        quote = sheet.quote(kind, age, year, span, rate)
        (answer,) = sheet.run([line])
        wanted = f"{line} lo={quote.lower} hi={quote.upper} unit={quote.unit} fig={quote.text}"
        count.take(answer == wanted, f"the run says {answer} and not {wanted}")
        (answer,) = sheet.run(iter([line]), ends=False)
        count.take(answer == f"{line} fig={quote.text}", f"the run without ends says {answer}")
        ends = tuple(Decimal(end).scaleb(-quote.unit) for end in quote[:2])
        count.take((quote.low, quote.high) == ends, f"the ends of {quote} as decimals")
        for decimals in range(12):
            compare_rounded(count, quote, decimals)
    closed = sheet.quote("ecoh", 55, 2030)
    count.take(closed == (317050008753657, 317050008764842, 3171, 2, 13) and closed.text == "31.71", f"worked again: {closed}")
    tenth = sheet.quote("ecoh", 69, 2029)
    count.take((tenth.text, tenth.unit, tenth.rounded(1)) == ("18.65", 9, None), f"open to a tenth alone: {tenth}")
    count.take(isinstance(error_of(sheet.quote("q", 65, 2020).rounded, -1), ValueError), "-1 decimals are no ValueError")
    for kind, words in {**module.KINDS, **module.COUPLE_KINDS}.items():
        count.take(words.decimals == {"e": 2, "a": 1}.get(kind[0], 5) and words.title, f"{kind} has the words {words}")


def compare_rounded(count, quote, decimals):
    step = Decimal(1).scaleb(-decimals)
    low, high = (end.quantize(step, ROUND_HALF_UP) for end in (quote.low, quote.high))
    wanted = f"{low:f}" if low == high else None
    count.take(quote.rounded(decimals) == wanted, f"{quote} with {decimals} decimals: {quote.rounded(decimals)} and not {wanted}")
    if decimals == quote.decimals:
        count.take((quote.rounded(decimals) or "open") == quote.text, f"{quote} rounds to another figure than its own")


def compare_comparisons(count, draw, module):
    """Two quotes compared, as the second implementation of the program `compare` does."""
    for _ in range(TRIES):
        units = [draw.choice((9, 13)) for _ in range(2)]
        ends = [sorted(draw.randrange(12 * 10 ** (unit - 9)) for _ in range(2)) for unit in units]
        if draw.randrange(3) == 0:
            ends[1][0] = ends[1][1] = ends[0][1] * 10 ** (13 - units[0]) + draw.randrange(-1, 2)
            units[1] = 13
        relation, least, most, unit = module.compare(*(module.Quote(*pair, None, 5, one) for pair, one in zip(ends, units)))
        got = f" values={relation}" + ("" if least is None else f" least={least}") + f" most={most} unit={unit}"
        wanted = whole_run.values(*(quotes.Quote(*pair, one, quotes.OPEN) for pair, one in zip(ends, units)))
        count.take(got == wanted, f"{ends} in {units}: {got} and not {wanted}")
    one, other = module.Quote(1, 1, 0, 5, 9), module.Quote(1, 1, 0, 1, 9)
    count.take(isinstance(error_of(module.compare, one, other), ValueError), "a probability is compared with years")
    count.take(isinstance(error_of(module.compare, one, (1, 1)), TypeError), "a pair is taken as a quote")


def compare_runs(count, draw, module):
    """More queries than a run takes: the answers are those of each line alone; a line that no run takes is torn."""
    sheet = module.Sheet(RESEARCH)
    lines = [f"kind=q age={age} year={year} span=0" for year in range(2022, 2052) for age in range(0, 121)]
    lines[17:17] = ["", "kind=q", "x" * LONGEST, "kind=q age=121 year=2022 span=0", "\u20ac", "\udcff", "kind=q age=1 year=2022\r"]
    answers = list(sheet.run(lines))
    count.take(len(answers) == len(lines), f"{len(lines)} lines have {len(answers)} answers")
    for place in [*range(30), *(draw.randrange(len(lines)) for _ in range(200))]:
        alone = list(sheet.run([lines[place]]))
        count.take(alone == [answers[place]], f"line {place} says {answers[place]}, and alone {alone}")
    count.take(answers[17:20] == ["no=1"] * 3 and answers[20].endswith(" no=3"), f"torn lines say {answers[17:21]}")
    data = b"".join(line.encode() + b"\n" for line in lines[40:900])
    count.take(module.run(RESEARCH + data, True).decode().splitlines() == answers[40:900], "a run of many lines differs")
    count.take(list(sheet.run([])) == [], "no queries have answers")


def compare_missing(count):
    """Without a library the error says how it is built, from the module and from a command."""
    environment = {**os.environ, "KULFIZAN_LIBRARY": "/no/such/library.so", "PYTHONPATH": str(ROOT / "python")}
    for given in (["-c", "import kulfizan; kulfizan.read(b'')"], ["-m", "kulfizan", "csv", EXAMPLES / "women.sheet"]):
        done = subprocess.run([sys.executable, "-B", *given], env=environment, capture_output=True, text=True, check=False)
        said = "make lib" in done.stderr and "/no/such/library.so" in done.stderr
        count.take(done.returncode == (1 if given[0] == "-c" else 2) and said, f"a missing library says {done.stderr}")
        count.take(given[0] == "-c" or done.stderr.count("\n") == 1, f"a missing library says {done.stderr}")
    done = subprocess.run([sys.executable, "-B", "-m", "kulfizan", "--help"], env=environment, capture_output=True, check=False)
    count.take(done.returncode == 0, "the help wants the library")


CALLS = ("read", "write", "quote", "annuity", "day", "couple", "target", "verdict", "run")


def compare_earlier(count, here, module):
    """A library that wants other room for a run, as the one before units did, is not taken."""
    for number in (0, 7):
        source, library = here / f"earlier{number}.c", here / f"earlier{number}.so"
        source.write_text("".join(f"unsigned char kulfizan_{name}(void) {{ return {number}; }}\n" for name in CALLS))
        done = subprocess.run(["gcc", "-shared", "-fPIC", "-o", library, source], capture_output=True, text=True, check=False)
        count.take(done.returncode == 0, f"an earlier library: {done.stderr}")
        error = error_of(module.load, library)
        count.take(isinstance(error, module.Missing) and "another version" in str(error), f"an earlier library raises {error!r}")


# ---- fits

def written(value, decimals, draw, comma):
    """A number of units as a decimal, in one of the forms in which files have it."""
    text = f"{Decimal(value).scaleb(-decimals):f}"
    if "." in text and draw.randrange(2):
        text = text.rstrip("0").rstrip(".")
    elif draw.randrange(4) == 0:
        text = text + "0" * draw.randrange(3) if "." in text else text + "." + "0" * draw.randrange(1, 3)
    elif draw.randrange(8) == 0:
        text = f"{Decimal(value).scaleb(-decimals):E}"
    if not text.startswith("-") and draw.randrange(12) == 0:
        text = "+" + text
    return text.replace(".", ",") if comma else text


def csv_file(rows, draw, comma):
    """Rows as a CSV file of one of the forms that are taken."""
    delimiter = draw.choice(";\t") if comma and draw.randrange(3) else draw.choice(",;\t") if not comma else ","
    end, out = draw.choice(("\n", "\r\n")), io.StringIO()
    quoting = csv.QUOTE_ALL if draw.randrange(4) == 0 else csv.QUOTE_MINIMAL
    writer = csv.writer(out, delimiter=delimiter, lineterminator=end, quoting=quoting)
    if draw.randrange(8) == 0:
        out.write(f"sep={delimiter}{end}")
    for row in rows:
        writer.writerow(row)
        if draw.randrange(60) == 0:
            out.write(end)
    text = out.getvalue()
    text = text[: -len(end)] if draw.randrange(4) == 0 else text
    return (b"\xef\xbb\xbf" if draw.randrange(3) == 0 else b"") + text.encode()


def fit_file(params, draw):
    """The CSV file of a fit's ages, with columns and rows in any order, and its numbers by age and name."""
    comma, names = draw.randrange(2), ["age", "A", "B", "alpha", "beta"]
    if draw.randrange(3) == 0:
        draw.shuffle(names)
    heads = {name: draw.choice((name, name, name.upper(), name.lower())) for name in names}
    heads["age"] = draw.choice(("age", "Age", "leeftijd"))
    rows = []
    for age in range(91):
        cells = {name: written(params[KEYS[name]][age], DECIMALS[name], draw, comma) for name in KEYS}
        rows.append([str(age) if name == "age" else cells[name] for name in names])
    if draw.randrange(4) == 0:
        draw.shuffle(rows)
    numbers = {(int(row[names.index("age")]), name): number(row[names.index(name)]) for row in rows for name in KEYS}
    return csv_file([[heads[name] for name in names], *rows], draw, comma), numbers


def series_file(params, draw, names):
    """The CSV file of a series, as one row or as a row for each number, and its numbers by name."""
    comma = draw.randrange(2)
    cells = {name: written(params[name], DECIMALS[name], draw, comma) for name in names}
    numbers, order = {name: number(text) for name, text in cells.items()}, list(names)
    draw.shuffle(order)
    if draw.randrange(2):
        return csv_file([order, [cells[name] for name in order]], draw, comma), numbers
    rows = [[draw.choice((name, "kappa")) if name == "k" else name, cells[name]] for name in order]
    return csv_file(([["name", "value"]] if draw.randrange(2) else []) + rows, draw, comma), numbers


def number(text):
    return Decimal(text.replace(",", "."))


def generated(draw):
    """A fit of either table: of sizes as they occur, or of any size."""
    start = draw.choice((None, None, 2013, 2020, 2033))
    if draw.randrange(3) == 0:
        a, spread = draw.randrange(-(10**8), 10**8 + 1), draw.choice((0.01, 0.3, 1))
        return sheets.extreme(draw, a, 2030, spread) if start is None else sheets.extreme_lilee(draw, a, start, start + 9, spread)
    return sheets.realistic(draw) if start is None else sheets.realistic_lilee(draw, start)


def read_back(path, names):
    rows = list(csv.reader(path.read_text().splitlines()))
    return rows[0] == names, [dict(zip(names, map(Decimal, row))) for row in rows[1:]]


def compare_fits(count, draw, here):
    """`sheet` gives the sheet of the numbers, and `csv` the numbers of the files, exactly."""
    fit, series, sheet = here / "fit.csv", here / "series.csv", here / "out.sheet"
    for place in range(FITS):
        params = generated(draw)
        late = params["table"] == "LILEE"
        names = ["a", "theta", "K", "k"] + (["start", "c"] if late and draw.randrange(2) else [])
        (data, ages), (more, numbers) = fit_file(params, draw), series_file(params, draw, names)
        fit.write_bytes(data)
        series.write_bytes(more)
        options = ["--table", "LILEE"] * late
        if late and "c" not in names:
            options += [f"--start={params['start']}", f"--c={written(params['c'], 9, draw, draw.randrange(2))}"]
        status, out, said = command("sheet", fit, series, "--sex", params["sex"], *options, "-o", sheet)
        right = status == 0 and sheet.read_bytes() == sheets.text(params) and not out
        count.take(right, f"fit {place}: status {status}, {said} {data[:80]} {more[:80]}")
        if not right:
            continue
        status, out, said = command("csv", sheet, "--fit", here / "back.csv", "--series", here / "back-series.csv")
        named, rows = read_back(here / "back.csv", ["age", *KEYS])
        same = named and {(int(row["age"]), name): row[name] for row in rows for name in KEYS} == ages
        count.take(status == 0 and same, f"fit {place}: csv gives other numbers; {said}")
        named, rows = read_back(here / "back-series.csv", ["a", "theta", "K", "k"] + ["start", "c"] * late)
        same = named and len(rows) == 1 and {name: rows[0][name] for name in names} == numbers
        count.take(same, f"fit {place}: csv gives another series: {rows}")


FIT_TEXT, SERIES_TEXT = (EXAMPLES / "fit.csv").read_text(), (EXAMPLES / "series.csv").read_text()


def of_files(here, fit, series, *options):
    """What `sheet` says of two files' texts, and the sheet on standard output."""
    for name, text in (("fit.csv", fit), ("series.csv", series)):
        (here / name).write_bytes(text if isinstance(text, bytes) else text.encode())
    return command("sheet", here / "fit.csv", here / "series.csv", "--sex", "F", *options)


def changed(text, line, column, value, delimiter=","):
    """A CSV text with one field changed."""
    rows = [row.split(delimiter) for row in text.splitlines()]
    rows[line - 1][column] = value
    return "".join(delimiter.join(row) + "\n" for row in rows)


def faults():
    """Files that are refused: the name, both texts, the options, the exit status, and what the message has."""
    fit, series = FIT_TEXT, SERIES_TEXT
    yield "digits", changed(fit, 12, 2, "0.123456789"), series, (), 1, r"fit\.csv:12: column B: 0\.123456789 .*10\^-8.*--round"
    yield "digits twice", changed(changed(fit, 12, 2, "0.123456789"), 13, 1, "-4.0000000001"), series, (), 1, r"and 1 more such"
    yield "digits of the series", fit, "a,theta,K,k\n0.972,-1,-22,1.80000000009\n", (), 1, r"series\.csv:2: column k: .*10\^-9"
    late = "--table", "LILEE", "--start", "2020"
    yield "digits of --c", fit, series, (*late, "--c", "0.1234567891"), 1, r"column c: 0\.1234567891"
    yield "no number", changed(fit, 30, 4, "0.0x"), series, (), 2, r"fit\.csv:30: column beta: found '0\.0x'"
    yield "digits without end", changed(fit, 30, 4, "0." + "1" * 5000), series, (), 2, r"fit\.csv:30: column beta: found '0\.111"
    yield "nothing", changed(fit, 30, 3, ""), series, (), 2, r"fit\.csv:30: column alpha: found nothing"
    yield "two marks", fit.replace(",", ";").replace(".", ",", 1), series, (), 2, r"fit\.csv:2: column B: .* has `\.`, .* line 2"
    yield "age twice", changed(fit, 9, 0, "3"), series, (), 2, r"fit\.csv:9: column age: age 3 stands in line 5 already"
    yield "age 91", changed(fit, 92, 0, "91"), series, (), 2, r"fit\.csv:92: column age: found '91'"
    yield "age 1.5", changed(fit, 9, 0, "1.5"), series, (), 2, r"fit\.csv:9: column age: found '1\.5'"
    yield "no age", "".join(fit.splitlines(True)[:-1]), series, (), 2, r"fit\.csv:91: no row of age 90"
    yield "no column", fit.replace("alpha", "gamma", 1), series, (), 2, r"fit\.csv:1: no column alpha"
    yield "column twice", fit.replace("alpha", "beta", 1), series, (), 2, r"fit\.csv:1: column beta stands twice"
    yield "a field too few", fit.replace(",0.017\n", "\n", 1), series, (), 2, r"fit\.csv:2: found 4 fields, and 5 are wanted"
    yield "decimal commas", fit.replace(".", ","), series, (), 2, r"fit\.csv:2: found 8 fields.*decimal comma wants `;`"
    yield "empty", "", series, (), 2, r"fit\.csv:1: the file is empty"
    yield "UTF-16", fit.encode("utf-16"), series, (), 2, r"fit\.csv:1: the file is UTF-16"
    yield "quotes", fit + '"', series, (), 2, r"fit\.csv:93: "
    yield "no theta", fit, "a,K,k\n0.9,1,2\n", (), 2, r"series\.csv:1: no column theta"
    yield "no k", fit, "a,0.9\ntheta,-1\nK,2\n", (), 2, r"series\.csv:3: no k"
    yield "two rows", fit, series + "1,2,3,4\n", (), 2, r"series\.csv:3: found 2 rows"
    yield "k twice", fit, "a,0.9\ntheta,-1\nK,2\nk,2\nkappa,2\n", (), 2, r"series\.csv:5: k stands in line 4 already"
    yield "another name", fit, "a,0.9\ntheta,-1\nK,2\nk,2\nz,2\n", (), 2, r"series\.csv:5: found 'z'"
    yield "start of AG2014", fit, series, ("--start", "2020"), 2, r"--start 2020: a sheet of AG2014"
    yield "c of AG2014", fit, "a,theta,K,k,c\n0.9,-1,2,2,1\n", (), 2, r"series\.csv:2: column c: a sheet of AG2014"
    yield "no start", fit, series, ("--table", "LILEE", "--c", "0"), 2, r"series\.csv: no start"
    yield "two starts", fit, "a,theta,K,k,start,c\n0.9,-1,2,2,2021,0\n", late, 2, r"series\.csv:2: column start: has another start"
    yield "A past its size", changed(fit, 12, 1, "-41"), series, (), 1, r"fit\.csv:12: column A: A\.10 is off scale: .*-41.*40"
    yield "theta too steep", fit, "a,theta,K,k\n0.9,-3,-22,2\n", (), 1, r"series\.csv:2: column theta: .*K \+ 171\*theta = -535"
    yield "kappa", fit, "a,theta,K,k,c\n1,-1,2,2,1\n", late, 1, r"series\.csv:2: column k: .*kappa in 2069"
    yield "start 2034", fit, series, ("--table", "LILEE", "--start", "2034", "--c", "0"), 1, r"--start 2034: start is off scale"


def compare_faults(count, here):
    for name, fit, series, options, status, wanted in faults():
        got, out, said = of_files(here, fit, series, *options)
        last = said.splitlines()[-1] if said else ""
        count.take(got == status and re.search(wanted, last) and not out, f"{name}: status {got}, {said!r}")
    long = changed(changed(FIT_TEXT, 12, 2, "0.0123456789"), 13, 1, "-4.00000000051")
    status, out, said = of_files(here, long, SERIES_TEXT, "--round")
    count.take(status == 0 and "2 numbers are rounded" in said, f"rounding says {said!r}, status {status}")
    lines = out.splitlines()
    count.take("B.10=1234568" in lines and "A.11=-4000000001" in lines, "numbers are rounded to others")
    noted = FIT_TEXT.replace("\n", ",\n").replace("beta,", "beta,note", 1)
    status, out, said = of_files(here, noted, SERIES_TEXT)
    count.take(status == 0 and "column 'note' is not used" in said and out.encode() == WOMEN, f"another column: {status}, {said!r}")
    for fit, series in (("fit.csv", "series.csv"), ("fit-nl.csv", "series-nl.csv")):
        status, out, said = command("sheet", EXAMPLES / fit, EXAMPLES / series, "--sex", "F")
        count.take((status, out.encode(), said) == (0, WOMEN, ""), f"{fit} gives another sheet, status {status}: {said}")
    (here / "w.sheet").write_bytes(WOMEN)
    status, _, said = command("csv", here / "w.sheet")
    count.take(status == 0 and (here / "w-fit.csv").read_text() == FIT_TEXT, "csv writes another fit beside the sheet")
    count.take((here / "w-series.csv").read_text() == SERIES_TEXT, "csv writes another series beside the sheet")
    status, _, said = command("csv", here / "w.sheet")
    count.take(status == 2 and "w-fit.csv: the file is there already" in said, f"csv writes over a file: {said}")
    status, out, said = command("csv", here / "w.sheet", "--excel-nl", "--fit", "-", "--series", here / "nl.csv")
    count.take(out == (EXAMPLES / "fit-nl.csv").read_text(), "csv --excel-nl gives another fit")
    count.take((here / "nl.csv").read_text() == (EXAMPLES / "series-nl.csv").read_text(), "csv --excel-nl gives another series")


# What `sheet` says where one parameter of examples/fit.csv and series.csv is times 10 or over 10, with --round.
SLIPS = {
    ("A", 10): (1, "A.0 is off scale"), ("A", -10): (0, "refused as 6, steep"), ("B", 10): (1, "B.0 is off scale"),
    ("B", -10): (0, "the sum of B is 0.1,"), ("alpha", 10): (0, "alpha has the size 0.49 on average"), ("alpha", -10): (0, ""),
    ("beta", 10): (1, "be.0 is off scale"), ("beta", -10): (0, "the sum of beta is 0.09"), ("a", 10): (1, "a is off scale"),
    ("a", -10): (0, "a is 0.0972"), ("theta", 10): (1, "K + 171*theta = -1732"), ("theta", -10): (0, "changes by about 0.4"),
    ("K", 10): (0, "K is 220 times theta"), ("K", -10): (0, ""), ("k", 10): (0, ""), ("k", -10): (0, ""),
}


def scaled(text, name, factor):
    """A CSV text with one column times 10, or over 10."""
    head, *rows = [row.split(",") for row in text.splitlines()]
    for row in rows if name in head else ():
        at = head.index(name)
        row[at] = f"{Decimal(row[at]) * 10 if factor > 0 else Decimal(row[at]) / 10:f}"
    return "".join(",".join(row) + "\n" for row in (head, *rows))


def compare_slips(count, here):
    for (name, factor), (status, wanted) in SLIPS.items():
        texts = scaled(FIT_TEXT, name, factor), scaled(SERIES_TEXT, name, factor)
        got, out, said = of_files(here, *texts, "--round")
        count.take(got == status and bool(out) == (status == 0), f"{name} by {factor}: status {got}, {said}")
        count.take(wanted in said if wanted else "warning" not in said, f"{name} by {factor}: {said}")
        digits = factor < 0 and name in KEYS
        got, out, said = of_files(here, *texts)
        count.take((got == 1 and "more digits" in said) == digits, f"{name} by {factor} without --round: status {got}, {said}")


# ---- check

def number_of(module, what, data):
    """The library's refusal of a file of a kind, else 0: straight from its calls."""
    def refused(call, *given):
        return getattr(error_of(call, *given), "number", 0)

    if what == "sheet":
        return refused(module.read, data)
    if what == "column":
        year = YEAR.match(data)
        if data.startswith(b"year=") and not year:
            return 1
        entries = data[year.end() :] if year else data
        numbers = [refused(module.verdict, flat, int(year[1]) if year else 2034, entries) for flat in FLATS]
        return 0 if 0 in numbers else numbers[0]
    front, rest = (b"", data) if what == "queries" else whole_parts(data)
    if what == "sheet+column":
        year = YEAR.match(rest)
        if len(data) > LONGEST or not year:
            return refused(module.read, front) or 1
        return refused(module.verdict, front, int(year[1]), rest[year.end() :])
    if what == "queries":
        return first_refused(*(module.run(flat + data) for flat in FLATS))
    answers = module.run(data)
    return int(answers[3:]) if refused(module.read, front) or len(data) > LONGEST else first_refused(answers)


def first_refused(*runs):
    """The first refusal of a line in the answers of runs, where none of them accepts it; 4 counts only where each run has it."""
    for answers in zip(*(run.splitlines() for run in runs)):
        numbers = [int(answer.rpartition(b"no=")[2]) if b"no=" in answer else 0 for answer in answers]
        if all(numbers):
            return max(numbers, key=lambda no: no != 4)
    return 0


def whole_parts(data):
    front, rest = whole_run.parted(whole_run.lines_in(data))
    return front, b"".join(rest)


FLAT = sheets.text(grid.flat())
FLATS = [sheets.text(sheets.of_lilee(grid.flat(), start)) for start in (2013, 2033)]
YEAR = re.compile(rb"year=(0|-?[1-9][0-9]{0,14})\n")
ODD = (b"", b"0", b"-0", b"00", b"+1", b"1.5", b"0,97", b" 1", b"1 ", b"1\r", b"x", b"1e3", b"9" * 15, b"9" * 16, b"-" + b"9" * 15)
SIZES = (10**7, 10**8, 10**10, 40 * 10**9, 50 * 10**9, 500 * 10**9, 2013, 2033, 2034, 120, 121, 200_000, 20_240_229)


def any_value(draw):
    """A value for a line: odd, or at a limit and one past it."""
    if draw.randrange(3) == 0:
        return draw.choice(ODD)
    return b"%d" % (draw.choice((1, -1)) * (draw.choice(SIZES) + draw.choice((-1, 0, 1))))


def damaged_line(draw, line):
    """One line damaged: a value, a byte, the spaces, the case or its end."""
    way = draw.randrange(7)
    if way < 3 and b"=" in line:
        fields = re.split(rb"(=[^ \n]*)", line)
        places = range(1, len(fields), 2)
        fields[draw.choice(places)] = b"=" + any_value(draw)
        return b"".join(fields)
    at = draw.randrange(len(line) + 1)
    if way == 3:
        return line[:at] + bytes([draw.choice((draw.randrange(256), 32, 48, 61, 10, 13))]) + line[at + draw.randrange(2) :]
    if way == 4:
        return line.replace(b" ", draw.choice((b"  ", b"", b"\t")), 1) if b" " in line else line + b" "
    return line.swapcase() if way == 5 else line[:at]


def damaged(draw, data):
    """A file with some damage, which may leave it right."""
    lines = data.split(b"\n")
    for _ in range(draw.choice((1, 1, 1, 2, 3))):
        way, at = draw.randrange(12), draw.randrange(len(lines))
        if draw.randrange(3) == 0:
            at = min(at, draw.randrange(8))
        if way < 6:
            lines[at] = damaged_line(draw, lines[at])
        elif way == 6:
            del lines[at : at + draw.choice((1, 1, 2, 4))]
            lines = lines or [b""]
        elif way == 7:
            lines.insert(draw.randrange(len(lines) + 1), lines[at])
        elif way == 8:
            other = draw.randrange(len(lines))
            lines[at], lines[other] = lines[other], lines[at]
        elif way == 9:
            lines[at] += draw.choice((b"\r", b" ", b"\t", b"\0"))
        elif way == 10:
            lines.insert(at, draw.choice((b"", b" ", b"# note", b"\xff", b"kind=q age=1 year=2030 span=0")))
        else:
            return whole_damage(draw, b"\n".join(lines))
    return b"\n".join(lines)


def whole_damage(draw, data):
    """Damage of a whole file."""
    way = draw.randrange(8)
    if way < 2:
        return data.replace(b"\n", (b"\r\n", b"\r")[way])
    if way == 2:
        return b"\xef\xbb\xbf" + data
    if way == 3:
        return data[: draw.randrange(len(data) + 1)]
    if way == 4:
        return data + data[: draw.randrange(len(data) + 1)]
    if way == 5:
        return data.rstrip(b"\n")
    if way == 6:
        return data + b"\n" * draw.choice((1, 1, 2, 1, 1, 2, 1, 1, 1, 1, 2, LONGEST))
    return bytes(draw.randrange(256) for _ in range(draw.randrange(60)))


def query(draw, start):
    """A query's line, mostly a good one."""
    kind = draw.choice(quotes.KINDS)
    age, year = draw.choice((*range(0, 121, 5), 121)), start + draw.choice((*range(1, 52, 5), 52, 171))
    numbers = f"kind={kind} age={age} year={year}"
    if kind == "day":
        return f"{numbers} date={year + draw.randrange(4)}{draw.choice(('0101', '0315', '0229', '1231', '1301'))}\n".encode()
    span = draw.choice((0, 0, 0, 1, draw.randrange(122))) if kind in quotes.SURVIVALS else draw.randrange(12) == 0
    rate = f" rate={draw.choice((0, 1, 20_000, 30_000, 200_000, 200_001))}" if kind in quotes.ANNUITIES else ""
    return f"{numbers} span={int(span)}{rate}\n".encode()


def column(draw, module, sheet, year):
    """A column of a year, as a sheet's figures have it, now and then in another order."""
    lines = []
    for age in range(121):
        quote = error_of(sheet.quote, "q", age, year) is None and sheet.quote("q", age, year)
        text = quote.text if quote and quote.steps is not None else "0.00001"
        lines.append(f"age={age} q={text}\n".encode())
    if draw.randrange(6) == 0:
        draw.shuffle(lines)
    return b"".join(lines)


def sources(draw, module):
    """Right files of each kind, by what they are."""
    params = [sheets.realistic(draw) for _ in range(4)] + [sheets.extreme(draw, draw.randrange(10**8), 2030) for _ in range(3)]
    params += [sheets.realistic_lilee(draw, start) for start in (2013, 2020, 2033)] + [dict(grid.flat(), A=[0] * 91)]
    every = [WOMEN, RESEARCH, FLAT, *map(sheets.text, params)]
    out = {"sheet": every, "column": [], "queries": [], "sheet+queries": [], "sheet+column": []}
    for data in every:
        sheet = module.Sheet(data)
        year = draw.choice(sheet.years)
        entries = column(draw, module, sheet, year)
        out["column"] += [entries, b"year=%d\n" % draw.choice((2013, 2014, 2184, 2185, 2204, 2205)) + entries]
        out["sheet+column"].append(data + b"year=%d\n" % year + entries)
        for _ in range(4):
            lines = [query(draw, sheet.start) for _ in range(draw.choice((1, 1, 2, 5)))]
            out["sheet+queries"].append(data + b"".join(lines))
            out["queries"].append(b"".join(query(draw, 2013) for _ in range(draw.choice((1, 1, 2, 8)))))
    return out


def compare_checks(count, draw, module):
    """Over damaged files: something is found exactly where the library refuses, and the number is the library's."""
    from kulfizan import checking

    ready = sources(draw, module)
    kinds = ["sheet"] * 4 + ["column"] * 3 + ["queries"] * 3 + ["sheet+queries"] * 2 + ["sheet+column"]
    met = dict.fromkeys(((what, bool(no)) for what in ready for no in (0, 1)), 0)
    for place in range(DAMAGED):
        what = draw.choice(kinds)
        data = draw.choice(ready[what])
        data = damaged(draw, data) if draw.randrange(8) else data
        done, number = checking.checked(data, what), number_of(module, what, data)
        met[what, bool(number)] += 1
        count.take(done.number == number, f"{what} {place}: {done.number}, and the library {number}; {data[-60:]}")
        count.take(bool(done.findings) == bool(number), f"{what} {place}: no={number}, {done.findings[:2]}, {data[-60:]}")
        if what in ("queries", "column") and place % 3 == 0:
            compare_by_sheet(count, draw, module, what, data, draw.choice(ready["sheet"]))
        guessed = done if checking.what_is(data) == what else checking.checked(data)
        same = bool(guessed.findings) == bool(guessed.number) == bool(checking.refused_by(data, guessed.what, None))
        count.take(same, f"{what} {place} as {guessed.what}: {guessed.number}, {guessed.findings[:2]}")
    for (what, refused), times in met.items():
        count.take(times >= 30, f"{what}, {'refused' if refused else 'accepted'}: {times} only")
    print(f"{DAMAGED} damaged files:", *(f"{what} {'refused' if no else 'accepted'} {times};" for (what, no), times in met.items()))


def compare_by_sheet(count, draw, module, what, data, sheet):
    """Queries, or a column mostly with its year, held against a sheet: refused exactly where the two in one file are."""
    from kulfizan import checking

    given = module.Sheet(sheet)
    if what == "column" and not data.startswith(b"year=") and draw.randrange(9):
        data = b"year=%d\n" % draw.choice((*given.years, 1, given.start + 172)) + data
    done, number = checking.checked(data, what, given), number_of(module, f"sheet+{what}", sheet + data)
    same = bool(done.findings) == bool(done.number) == bool(number)
    count.take(same, f"{what} by a sheet: {done.number}, and the library {number}; {done.findings[:2]}, {data[:60]}")


SAID = (
    ("CRLF", lambda data: data.replace(b"\n", b"\r\n"), r":1: found CR LF at the end of 370 lines"),
    ("BOM", lambda data: b"\xef\xbb\xbf" + data, r":1: found a byte order mark"),
    ("a decimal", lambda data: data.replace(b"a=97200000", b"a=0.972"), r":3: a: found '0\.972', wanted a whole .*97200000"),
    ("a decimal comma", lambda data: data.replace(b"K=-22000000000", b"K=-22,5"), r":5: K: found '-22,5'.*-22500000000"),
    ("no last line feed", lambda data: data[:-1], r":370: found no line feed at the end"),
    ("too long", lambda data: data + b"\n" * LONGEST, r"found 7[0-9],[0-9]{3} bytes, wanted at most 65,536"),
    ("a line missing", lambda data: re.sub(rb"B\.3=.*\n", b"", data), r":20: B\.3: found al\.3=, wanted B\.3= \(1 line is missing"),
    ("a line twice", lambda data: re.sub(rb"(B\.3=.*\n)", rb"\1\1", data), r":21: al\.3: found 'B\.3=.*above already"),
    ("the end missing", lambda data: data[: data.index(b"A.90=")], r":366: A\.90: found the end.*4 lines are missing"),
    ("an empty line", lambda data: data + b"\n", r":371: found nothing, wanted nothing after be\.90 \(an empty line"),
    ("another table", lambda data: data.replace(b"AG2014", b"AG2016"), r":1: table: found 'AG2016', wanted AG2014 or LILEE"),
    ("off scale", lambda data: re.sub(rb"B\.3=.*", b"B.3=10000001", data), r":20: B\.3: found 10000001, that is 0\.10000001"),
    ("theta", lambda data: data.replace(b"theta=-1000000000", b"theta=-3000000000"), r":4: theta: found K \+ 171\*theta = -535"),
    ("empty", lambda data: b"", r": found an empty file"),
    ("UTF-16", lambda data: data.decode().encode("utf-16"), r":1: found UTF-16"),
)


def compare_said(count, here):
    """What `check` says of files with one mistake, by file, line and key, and of right ones."""
    file = here / "one.sheet"
    for name, change, wanted in SAID:
        file.write_bytes(change(WOMEN))
        status, out, said = command("check", file)
        first = out.splitlines()[0] if out else ""
        right = first.startswith(str(file)) and re.search(wanted, first)
        count.take(status == 1 and right and not said, f"{name}: {first!r} {said}")
    queries = b"kind=ecoh age=65 year=2065 span=0", b"kind=acoh age=65 year=2020 span=0", b"kind=q age=65 year=2020 span=0"
    file.write_bytes(WOMEN + b"".join(line + b"\n" for line in queries))
    status, out, _ = command("check", file)
    right = ":371: year: found 2065, wanted 2014 to 2064" in out and ":372: rate: found the end of the line" in out
    count.take(status == 1 and right and ":373:" not in out, f"queries: {out}")
    status, out, _ = command("check", EXAMPLES / "women.sheet", EXAMPLES / "65.queries", EXAMPLES / "women-2020.column")
    count.take(status == 0 and out.count(": accepted\n") == 3, f"right files: {out}")
    status, out, _ = command("check", "--sheet", EXAMPLES / "women.sheet", EXAMPLES / "desk.queries")
    count.take(status == 1 and ":14: year: found 2065" in out, f"queries by a sheet: {out}")
    file.write_bytes(b"".join(b"age=%d q=0,00100\n" % age for age in range(121)))
    status, out, _ = command("check", file)
    count.take(status == 1 and ":1: q: found '0,00100', wanted one digit" in out and "and 111 more" in out, f"a column: {out}")


def compare_steep(count, draw, module):
    """The cells of a query are those of the second implementation, and the one that `check` names for a query refused as 6 is the
    first of them out of range."""
    from kulfizan import cells, checking

    flat, found = quotes.Quotes(grid.flat()), 0
    for asked in (whole_run.query_of(query(draw, 2013)) for _ in range(TRIES)):
        if not flat.refusal(*asked):
            wanted = [cell[:2] for cell in quotes.path(2013, *asked[:4])]
            count.take(list(cells.path(2013, *asked[:4])) == wanted, f"the cells of {asked} are others")
    while found < 60:
        params = sheets.extreme(draw, draw.randrange(10**8), draw.randrange(2014, 2064), draw.choice((0.05, 0.3)))
        given = quotes.Quotes(params)
        for line in [query(draw, 2013) for _ in range(40)]:
            asked = whole_run.query_of(line)
            if not given.in_limits or given.refusal(*asked) != 6:
                continue
            found += 1
            (finding,) = checking.checked(sheets.text(params) + line, "sheet+queries").findings
            wanted = steep_cell(params, asked)
            count.take(finding.line == 371 and f"age {wanted[0]} in {wanted[1]}: its log" in finding.hint, f"{line}: {finding}")
    print(f"{found} steep queries")


def steep_cell(params, asked):
    """The first cell out of range on a query's path."""
    kappas = grid.COARSE.kappas(params, 171)
    for age, year, *_ in quotes.path(params["start"], *asked[:4]):
        for needed in (age,) if age <= 90 else quotes.CLOSURE:
            passed = year - params["start"]
            force = grid.COARSE.log_force(params, needed, params["K"] + passed * params["theta"], kappas[passed])
            if not grid.in_range(force):
                return needed, year
    return None


# ---- helps, exit statuses, errors

def compare_helps(count):
    """Each help fits a screen and has an example, and the first lists every command."""
    from kulfizan import cli

    status, out, _ = command("--help")
    names = re.findall(r"^    ([a-z]+) ", out, re.M)
    count.take(status == 0 and names[:3] == ["sheet", "csv", "check"], f"the commands are {names}")
    for name in ("", *names):
        status, out, _ = command(*filter(None, [name]), "--help")
        lines = out.splitlines()
        count.take(status == 0 and len(lines) <= 50, f"{name} --help has {len(lines)} lines")
        count.take(max(map(len, lines)) <= cli.WIDTH, f"{name} --help has {max(map(len, lines))} columns")
        count.take(not name or f"\n  kulfizan {name} " in out[out.index("example") :], f"{name} --help has no example")
    for arguments in ((), ("nothing",), ("sheet",), ("check",), ("sheet", "a", "b", "--sex", "X")):
        status, out, said = command(*arguments)
        count.take(status == 2 and not out and said, f"{arguments}: status {status}")
    status, out, _ = command("--version")
    count.take(status == 0 and re.fullmatch(r"kulfizan [0-9.]+\n", out), f"the version is {out}")


def compare_errors(count, here):
    """A file that cannot be read or written is one line that names it, with status 2; a broken pipe is quiet."""
    fit, series, sheet = EXAMPLES / "fit.csv", EXAMPLES / "series.csv", EXAMPLES / "women.sheet"
    rows = (
        (("sheet", "/no/fit.csv", series, "--sex", "F"), "/no/fit.csv: No such file"),
        (("sheet", fit, "/no/series.csv", "--sex", "F"), "/no/series.csv: No such file"),
        (("sheet", fit, series, "--sex", "F", "-o", "/no/out.sheet"), "/no/out.sheet: No such file"),
        (("csv", "/no/sheet"), "/no/sheet: No such file"), (("csv", sheet, "--fit", here, "--series", "-"), f"{here}: Is a directory"),
        (("check", here), f"{here}: Is a directory"), (("check", "/no/file"), "/no/file: No such file"),
    )
    for arguments, wanted in rows:
        status, out, said = command(*arguments)
        one = said.count("\n") == 1 and said.startswith(f"kulfizan: {wanted}")
        count.take(status == 2 and one, f"{arguments[0]}: status {status}, {said!r}")
    environment = {**os.environ, "PYTHONPATH": str(ROOT / "python")}
    shown = [sys.executable, "-B", "-m", "kulfizan"]
    with subprocess.Popen([*shown, "sheet", fit, series, "--sex", "F"], env=environment, stdout=subprocess.PIPE,
                          stderr=subprocess.PIPE) as process:
        process.stdout.close()
        said = process.stderr.read()
    count.take(said == b"" and process.returncode == 2, f"a broken pipe says {said}, status {process.returncode}")
    with open("/dev/full", "wb") as full:
        done = subprocess.run([*shown, "check", sheet], env=environment, stdout=full, stderr=subprocess.PIPE, check=False)
    count.take(done.returncode == 2 and done.stderr.count(b"\n") == 1, f"a full disk says {done.stderr}, status {done.returncode}")
    done = subprocess.run([*shown, "check", "-"], env=environment, input=WOMEN, capture_output=True, check=False)
    count.take(done.returncode == 0 and b"standard input: a sheet: accepted" in done.stdout, f"standard input: {done.stdout}")


# ---- the wheel

def compare_wheel(count, here, library):
    """The wheel has the package, the library and what RECORD says, twice the same; without a library there is none."""
    sys.path.insert(0, str(ROOT / "python" / "backend"))
    backend = importlib.import_module("kulfizan_build")
    os.environ["KULFIZAN_LIBRARY"] = str(library)
    try:
        names = [backend.build_wheel(here / folder) for folder in ("one", "two") if (here / folder).mkdir() is None]
        data = [(here / folder / names[0]).read_bytes() for folder in ("one", "two")]
        count.take(data[0] == data[1] and names[0].endswith("-py3-none-linux_x86_64.whl"), f"the wheels are {names}")
        os.environ["KULFIZAN_LIBRARY"] = "/no/such/library.so"
        error = None
        try:
            backend.build_wheel(here)
        except SystemExit as stopped:
            error = str(stopped)
        count.take(error is not None and "make lib" in error, f"without a library the wheel says {error}")
    finally:
        del os.environ["KULFIZAN_LIBRARY"]
    with zipfile.ZipFile(here / "one" / names[0]) as wheel:
        files = {name: wheel.read(name) for name in wheel.namelist()}
    count.take(files["kulfizan/libkulfizan.so"] == library.read_bytes(), "the wheel has another library")
    count.take({"kulfizan/py.typed", "kulfizan/cli.py", "kulfizan/__main__.py"} <= files.keys(), f"the wheel has {sorted(files)}")
    (record,) = (name for name in files if name.endswith("/RECORD"))
    rows = {row[0]: row[1:] for row in csv.reader(files[record].decode().splitlines())}
    for name, content in files.items():
        digest = base64.urlsafe_b64encode(hashlib.sha256(content).digest()).decode().rstrip("=")
        wanted = ["", ""] if name == record else [f"sha256={digest}", str(len(content))]
        count.take(rows.get(name) == wanted, f"RECORD says of {name}: {rows.get(name)}")
    count.take(rows.keys() == files.keys(), "RECORD has other files")


def compare_install(count, here, library):
    """`pip install .` in a fresh environment, with no index: the command and the module work from there."""
    environment = {**os.environ, "KULFIZAN_LIBRARY": str(library)}
    environment.pop("PYTHONPATH", None)
    run = {"env": environment, "capture_output": True, "text": True, "check": False, "cwd": here}
    made = subprocess.run([sys.executable, "-m", "venv", here / "venv"], **run)
    pip = subprocess.run([here / "venv" / "bin" / "pip", "--version"], **run) if made.returncode == 0 else made
    if pip.returncode:
        print("no virtual environment with pip can be made here: the installation is not tried")
        return
    done = subprocess.run([here / "venv" / "bin" / "pip", "install", "--no-index", ROOT / "python"], **run)
    count.take(done.returncode == 0, f"pip install says {done.stdout[-300:]} {done.stderr[-300:]}")
    del environment["KULFIZAN_LIBRARY"]
    done = subprocess.run([here / "venv" / "bin" / "kulfizan", "check", EXAMPLES / "women.sheet"], **run)
    count.take(done.returncode == 0 and "accepted" in done.stdout, f"the installed command says {done.stdout} {done.stderr}")
    script = "import kulfizan, sys; print(kulfizan.Sheet.load(sys.argv[1]).quote('ecoh', 65, 2015).text, kulfizan.path())"
    done = subprocess.run([here / "venv" / "bin" / "python", "-c", script, EXAMPLES / "women.sheet"], **run)
    count.take(done.stdout.startswith(f"21.38 {here / 'venv'}"), f"the module says {done.stdout} {done.stderr}")


# ---- the stack

def compare_stack(count, here):
    """Each call needs less of a thread's stack than the header says."""
    promised = re.search(r"a call needs less than\s+([0-9]+) kB", (ROOT / "include" / "kulfizan.h").read_text())
    most, source, library = int(promised[1]) * 1000, ROOT / "tests" / "stack.c", ROOT / "target" / "lib" / "libkulfizan.a"
    built = ["gcc", "-std=c11", "-D_GNU_SOURCE", "-O2", f"-I{ROOT / 'include'}", "-o", here / "stack", source, library, "-lpthread"]
    done = subprocess.run(built, capture_output=True, text=True, check=False)
    count.take(done.returncode == 0, f"tests/stack.c: {done.stderr}")
    (here / "input").write_bytes(WOMEN + (EXAMPLES / "desk.queries").read_bytes())
    (here / "column").write_bytes((EXAMPLES / "women-2022.column").read_bytes().partition(b"\n")[2])
    files = EXAMPLES / "women.sheet", EXAMPLES / "men.sheet", here / "input", here / "column"
    done = subprocess.run([here / "stack", *files], capture_output=True, text=True, check=False)
    rows = re.findall(r"^([a-z]+) no=([0-9]+) bytes=([0-9]+)$", done.stdout, re.M)
    count.take(len(rows) == 9, f"the calls that were measured: {done.stdout}")
    for name, number, used in rows:
        count.take(number == "0" and 1000 < int(used) < most, f"{name}: no={number}, {used} bytes of stack, {most} are promised")
    print("stack:", *(f"{name} {used};" for name, _, used in rows))


def main():
    seed = int(sys.argv[1]) if len(sys.argv) > 1 else SEED
    print(f"seed {seed}")
    count, draw, module = Count(), random.Random(seed), c_interface.built()
    count.take(module is not None, "the library is not built")
    if module is None:
        return count.close()
    with tempfile.TemporaryDirectory() as folder:
        here = pathlib.Path(folder).resolve()
        compare_types(count, module)
        compare_sheet(count, module)
        compare_quotes(count, draw, module)
        compare_fine(count, draw, module)
        compare_comparisons(count, draw, module)
        compare_runs(count, draw, module)
        compare_missing(count)
        compare_earlier(count, here, module)
        compare_fits(count, draw, here)
        compare_faults(count, here)
        compare_slips(count, here)
        compare_checks(count, draw, module)
        compare_said(count, here)
        compare_steep(count, draw, module)
        compare_helps(count)
        compare_errors(count, here)
        compare_wheel(count, here, module.path())
        compare_install(count, here, module.path())
        compare_stack(count, here)
    return count.close()


if __name__ == "__main__":
    sys.exit(main())
