"""Writes the example sheets: synthetic Li-Lee parameters of the sizes that a fit gives, by the formulas below.

They are nobody's table. The force of the start year is a sum of a child's, an accident's and an old age's part (Heligman and
Pollard's shape); the common trend weighs less at higher ages; the country's own deviation fades, or goes to the level that a
constant sets.
"""
import math
import pathlib

HERE = pathlib.Path(__file__).resolve().parent
AGES = range(91)
NANO, RATE = 10**9, 10**8
START = 2013
RUNS = ("A", "B", "al", "be")


def force(x, child, accident, level, slope):
    """The force of the start year at an age: child, accident = (size, age, width), and exp(level + slope·x) for old age."""
    size, at, width = accident
    young = child * math.exp(-2.4 * x**0.55)
    hump = size * math.exp(-((math.log((x + 1) / at) / width) ** 2))
    return young + hump + math.exp(level + slope * x)


def trend(x, young, old):
    """B: the share of the common trend, from young to old ages, before it is scaled to a sum of 1."""
    return old + (young - old) / (1 + math.exp((x - 62) / 9))


def parameters(sex, child, accident, level, slope, young, old, theta, k, a, whole=round, **later):
    """A set, in the sheet's units, each number made whole by one rule, whose force of the start year is the one above; `later` is
    the start year and the constant of one of the table LILEE. K has gone from 0 by theta each year since 1991."""
    shares = [trend(x, young, old) for x in AGES]
    b = [whole(RATE * share / sum(shares)) for share in shares]
    period = (later.get("start", START) - 1991) * theta
    alpha = [whole(NANO * 0.08 * math.sin(x / 14)) for x in AGES]
    beta = [whole(RATE * (0.011 + 0.006 * math.cos(x / 17))) for x in AGES]
    now = [math.log(force(x, child, accident, level, slope)) for x in AGES]
    levels = [whole(NANO * now[x] - b[x] / RATE * period - alpha[x] - beta[x] / RATE * k) for x in AGES]
    return {"sex": sex, "a": a, "theta": theta, "K": period, "k": k, **later, "A": levels, "B": b, "al": alpha, "be": beta}


def flat():
    """Every A = −1000000000, all else 0."""
    zero = [0] * 91
    return {"sex": "M", "a": 0, "theta": 0, "K": 0, "k": 0, "A": [-NANO] * 91, "B": zero, "al": zero, "be": zero}


WOMEN = ("F", 0.0033, (0.00010, 20, 0.40), -12.032, 0.1118, 1.5, 0.60, -1_000_000_000, 1_800_000_000, 97_200_000)

SETS = {
    "flat": flat(),
    "men": parameters(
        "M", 0.0040, (0.00030, 22, 0.35), -11.43, 0.1085, 1.6, 0.75, -1_150_000_000, 2_300_000_000, 96_500_000
    ),
    "women": parameters(*WOMEN),
    "women-b": parameters(
        "F", 0.0033, (0.00011, 21, 0.40), -12.006, 0.1112, 1.5, 0.80, -800_000_000, -900_000_000, 98_100_000
    ),
    "women-c": parameters(*WOMEN, whole=math.trunc),
    "research": parameters(
        "F", 0.0028, (0.00009, 20, 0.40), -12.115, 0.1119, 1.5, 0.65, -1_050_000_000, 1_300_000_000, 94_500_000,
        start=2021, c=-45_000_000,
    ),
}


def sheet(params):
    table, more = ("LILEE", ("start", "c")) if "start" in params else ("AG2014", ())
    lines = [f"table={table}", f"sex={params['sex']}"] + [f"{key}={params[key]}" for key in ("a", "theta", "K", "k", *more)]
    lines += [f"{run}.{x}={params[run][x]}" for x in AGES for run in RUNS]
    return "".join(line + "\n" for line in lines)


if __name__ == "__main__":
    for name, params in SETS.items():
        (HERE / f"{name}.sheet").write_text(sheet(params))
