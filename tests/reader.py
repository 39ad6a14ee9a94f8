"""The sheet's reader and writer once more, written from paper 01, "Parameter sheet", and its refusals 1, 2 and 7, and from paper 02
for the sheets of the table LILEE."""
import collections
import functools
import re

from grid import AG2014, COARSE, LILEE, START

ACCEPTED, TORN, OFF_SCALE, SHORT = 0, 1, 2, 7
LONGEST = 65_536
YEARS = 171
FIRST_START, LAST_START = START, 2033
RUNS = ("A", "B", "al", "be")
# The keys that the sheets of both tables have, and all of each table's, in the sheet's order.
KEYS = ["a", "theta", "K", "k"] + [f"{run}.{age}" for age in range(91) for run in RUNS]
KEYS_OF = {AG2014: KEYS, LILEE: KEYS[:4] + ["start", "c"] + KEYS[4:]}
SIZES = {"a": 10**8, "theta": 10**10, "K": 500 * 10**9, "k": 50 * 10**9, "c": 10**10}
SIZES.update({"A": 40 * 10**9, "al": 40 * 10**9, "B": 10**7, "be": 10**7})
LIMITS = [SIZES[key.split(".")[0]] for key in KEYS]
NUMBER = re.compile(rb"0|-?[1-9][0-9]{0,14}")
TABLES = {b"table=AG2014": AG2014, b"table=LILEE": LILEE}

# A set: its sex, the numbers of KEYS, its table, its start year and its constant.
Set = collections.namedtuple("Set", "sex numbers table start c", defaults=(AG2014, START, 0))
BLANK = Set("M", (0,) * len(KEYS))


def set_from(params):
    """The set of a dict."""
    numbers = tuple(params[key] for key in KEYS[:4]) + tuple(params[run][age] for age in range(91) for run in RUNS)
    return Set(params["sex"], numbers, params["table"], params["start"], params["c"])


def params_of(which):
    """The dict of a set."""
    out = {"table": which.table, "start": which.start, "sex": which.sex, **dict(zip(KEYS[:4], which.numbers)), "c": which.c}
    out.update((run, list(which.numbers[4 + i :: 4])) for i, run in enumerate(RUNS))
    return out


@functools.lru_cache(10_000)
def kappa_within(a, k, c):
    """Whether kappa's ends lie within k's limit in all years from the start to 171 years after it."""
    return all(abs(end) <= SIZES["k"] for ends in COARSE.kappas({"a": a, "k": k, "c": c}, YEARS) for end in ends)


def table_within(which):
    """Whether the start year and c are of the set's table and within their limits."""
    if which.table == AG2014:
        return (which.start, which.c) == (START, 0)
    return FIRST_START <= which.start <= LAST_START and abs(which.c) <= SIZES["c"]


def in_limits(which):
    a, theta, period, kappa = which.numbers[:4]
    sized = all(abs(v) <= most for v, most in zip(which.numbers, LIMITS)) and abs(period + YEARS * theta) <= SIZES["K"]
    return sized and table_within(which) and kappa_within(a, kappa, which.c)


def set_of(data):
    """The set of a sheet's bytes, or None where they break its form."""
    *lines, rest = data.split(b"\n")
    table = TABLES.get(lines[0]) if lines else None
    if table is None or rest or len(data) > LONGEST or len(lines) != 2 + len(KEYS_OF[table]):
        return None
    if lines[1] not in (b"sex=M", b"sex=F"):
        return None
    values = {"start": START, "c": 0}
    for key, line in zip(KEYS_OF[table], lines[2:]):
        start = key.encode() + b"="
        value = line[len(start):]
        if not line.startswith(start) or not NUMBER.fullmatch(value):
            return None
        values[key] = int(value)
    return Set(lines[1].decode()[-1], tuple(values[key] for key in KEYS), table, values["start"], values["c"])


def read(data):
    got = set_of(data)
    if got is None:
        return TORN, BLANK
    return (ACCEPTED, got) if in_limits(got) else (OFF_SCALE, BLANK)


def text(lines):
    return b"".join(line + b"\n" for line in lines)


def lines_of(which):
    values = {**dict(zip(KEYS, which.numbers)), "start": which.start, "c": which.c}
    head = [b"table=" + which.table.encode(), b"sex=" + which.sex.encode()]
    return head + [b"%s=%d" % (key.encode(), values[key]) for key in KEYS_OF[which.table]]


@functools.lru_cache(100)
def sheet_of(which):
    return text(lines_of(which))


def write(which, buffer):
    """The refusal, the length and the buffer after."""
    if not in_limits(which):
        return OFF_SCALE, 0, buffer
    sheet = sheet_of(which)
    if len(sheet) > len(buffer):
        return SHORT, 0, buffer
    return ACCEPTED, len(sheet), sheet + buffer[len(sheet):]
