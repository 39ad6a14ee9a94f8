"""Parameter sets and their sheets, for the tests: written from paper 01, "Parameter sheet", and from paper 02."""
from grid import COARSE, HIGHEST, LILEE, LOWEST, OF_AG2014, RATE, START, flat
from reader import SIZES, kappa_within, set_from, sheet_of

AGES = 91


def text(params):
    """The one sheet of a set."""
    return sheet_of(set_from(params))


def clamp(value, size):
    return max(-size, min(size, value))


def series(draw, a, spread):
    """a, theta, K and k, of a given a, with sizes up to the spread's share of the limits."""
    theta = draw.randrange(-int(spread * 2 * 10**9), int(spread * 2 * 10**9) + 1)
    start = draw.randrange(-int(spread * 10**11), int(spread * 10**11) + 1)
    start = clamp(start, SIZES["K"] - 171 * abs(theta)) if 171 * abs(theta) < SIZES["K"] else 0
    kappa = draw.randrange(-int(spread * SIZES["k"]), int(spread * SIZES["k"]) + 1)
    return {"a": a, "theta": theta, "K": start, "k": kappa}


def realistic(draw):
    """Parameters of the sizes that a fit gives."""
    out = {**OF_AG2014, "sex": draw.choice("MF")}
    out.update(a=draw.randrange(85 * 10**6, 10**8), theta=-draw.randrange(10**9, 28 * 10**8), K=-draw.randrange(10**10), k=draw.randrange(-(10**10), 10**10))
    base = [-(85 * 10**8) + x * 85 * 10**6 + draw.randrange(-(10**8), 10**8) for x in range(AGES)]
    out["A"] = [clamp(b, 4 * 10**10) for b in base]
    out["B"] = [draw.randrange(5 * 10**5, 2 * 10**6) for _ in range(AGES)]
    out["al"] = [draw.randrange(-(3 * 10**8), 3 * 10**8) for _ in range(AGES)]
    out["be"] = [draw.randrange(-(2 * 10**6), 2 * 10**6) for _ in range(AGES)]
    return out


def large(draw, a, spread):
    """Large parameters of a set, but for A and al."""
    out = {**OF_AG2014, "sex": draw.choice("MF"), **series(draw, a, spread)}
    out["B"] = [draw.randrange(-(10**7), 10**7 + 1) for _ in range(AGES)]
    out["be"] = [draw.randrange(-(10**7), 10**7 + 1) for _ in range(AGES)]
    return out


def centred(draw, out, period, kappa, margin):
    """The set with A and al such that its cells lie in the range with these K and kappa, some within a margin of its very ends."""
    out["A"], out["al"] = [], []
    for x in range(AGES):
        drift = int((out["B"][x] * period + out["be"][x] * kappa) / RATE)
        target = draw.choice([LOWEST + margin, HIGHEST - margin, draw.randrange(LOWEST + 100, HIGHEST - 100), -(10**9)])
        base = target - drift
        first = clamp(base, 4 * 10**10)
        out["A"].append(first)
        out["al"].append(clamp(base - first, 4 * 10**10))
    return out


def extreme(draw, a, year, spread=1.0, margin=40):
    """A set with large parameters whose cells lie in the range in one year, some within a margin of its very ends."""
    out, n = large(draw, a, spread), year - START
    return centred(draw, out, out["K"] + n * out["theta"], out["k"] * (out["a"] / RATE) ** n, margin)


def any_constant(draw, a, kappa, most=SIZES["c"]):
    """A constant, of a size that is halved until kappa keeps within its limit."""
    c = draw.randint(-most, most)
    while not kappa_within(a, kappa, c):
        c = int(c / 2)
    return c


def of_lilee(params, start, c=0):
    """The set as one of the table LILEE, with a start year and a constant."""
    return dict(params, table=LILEE, start=start, c=c)


def realistic_lilee(draw, start):
    """As `realistic`, of the table LILEE, with a constant that takes kappa to at most 10 in the long run."""
    out = realistic(draw)
    return of_lilee(out, start, any_constant(draw, out["a"], out["k"], 100 * (RATE - out["a"])))


def extreme_lilee(draw, a, start, year, spread, margin=40):
    """As `extreme`, of the table LILEE, with a constant as large as kappa's limit allows, or some halves of it."""
    out, n = large(draw, a, spread), year - start
    out = of_lilee(out, start, any_constant(draw, a, out["k"]))
    return centred(draw, out, out["K"] + n * out["theta"], COARSE.kappas(out, n)[n][0], margin)


def at_edge(draw, year, offset):
    """A set with no drift whose cells all lie within a unit of an end of the range."""
    out = dict(flat())
    out["A"] = [draw.choice([LOWEST, HIGHEST]) + draw.choice([-1, 0, 1]) * offset for _ in range(AGES)]
    return out
