"""A sheet's keys and their units: decimals to whole units and back, exactly.

A sheet has whole numbers: A, alpha, theta, K, kappa and c count 10^-9, B, beta and a count 10^-8, and the start is a year.
"""
from decimal import Context, Decimal, ROUND_HALF_EVEN
from typing import Dict, List, NamedTuple, Tuple

AGES = range(91)
# The decimals of the units of ends: 10^-9, and 10^-13 where a figure that the coarser ends leave open is worked again.
COARSE, FINE = 9, 13


class Unit(NamedTuple):
    """A parameter: its key in a sheet, its name in a fit, the decimals of its unit, and its largest size in units."""
    key: str
    name: str
    decimals: int
    limit: int


# The numbers of the series, in the sheet's order; start and c stand in a sheet of LILEE alone.
SERIES: Tuple[Unit, ...] = (
    Unit("a", "a", 8, 10**8), Unit("theta", "theta", 9, 10**10), Unit("K", "K", 9, 500 * 10**9), Unit("k", "k", 9, 50 * 10**9),
)
LATER: Tuple[Unit, ...] = (Unit("start", "start", 0, 2033), Unit("c", "c", 9, 10**10))
FIRST_START, LAST_START = 2013, 2033
# The numbers of an age, in the sheet's order.
RUNS: Tuple[Unit, ...] = (
    Unit("A", "A", 9, 40 * 10**9), Unit("B", "B", 8, 10**7), Unit("al", "alpha", 9, 40 * 10**9), Unit("be", "beta", 8, 10**7),
)
UNITS: Dict[str, Unit] = {unit.key: unit for unit in (*SERIES, *LATER, *RUNS)}


def keys(table: str) -> List[str]:
    """The keys of a table's sheet after its first two lines, in their order."""
    series = [unit.key for unit in (SERIES if table == "AG2014" else SERIES + LATER)]
    return series + [f"{unit.key}.{age}" for age in AGES for unit in RUNS]


def unit_of(key: str) -> Unit:
    """The unit of a key, `A.65` included."""
    return UNITS[key.split(".")[0]]


def whole(value: Decimal, unit: Unit) -> Tuple[int, bool]:
    """A decimal in whole units, and whether it was that already; else it is rounded to the nearest, a half to the even one.
    The way of rounding matters to nobody but the fit's maker, who is told that numbers were rounded."""
    digits = len(value.as_tuple().digits) + abs(value.adjusted()) + unit.decimals + 2
    exactly = Context(prec=digits)
    scaled = value.scaleb(unit.decimals, exactly)
    rounded = scaled.to_integral_value(ROUND_HALF_EVEN)
    return int(rounded), rounded == scaled


def decimal(number: int, decimals: int) -> Decimal:
    """A number of units as a decimal with as many places as its unit has, exactly."""
    return Decimal((number < 0, tuple(map(int, str(abs(number)))), -decimals))


def text(number: int, decimals: int) -> str:
    """A number of units as a plain decimal without needless zeros."""
    plain = f"{decimal(number, decimals):f}"
    return plain.rstrip("0").rstrip(".") if "." in plain else plain
