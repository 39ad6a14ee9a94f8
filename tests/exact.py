"""The exact value of a cell, to many digits, written from the paper's text: nothing is rounded to the grid."""
from decimal import Decimal, getcontext

from grid import weight

getcontext().prec = 80
ONE = Decimal(1)
NANO, RATE = Decimal(10) ** -9, Decimal(10) ** -8


def kappas(params, years):
    """Kappa in each year from the start year on: a times that of the year before, and c."""
    a, c = params["a"] * RATE, params["c"] * NANO
    out = [params["k"] * NANO]
    for _ in range(years):
        out.append(a * out[-1] + c)
    return out


def log_force(params, x, year, kappa):
    period = (params["K"] + (year - params["start"]) * params["theta"]) * NANO
    fixed = (params["A"][x] + params["al"][x]) * NANO
    return fixed + params["B"][x] * RATE * period + params["be"][x] * RATE * kappa


def young_force(m):
    return m.exp()


def inverse_logistic(m, u):
    return m - (ONE - u).ln()


def old_force(x, fitted):
    g = sum(weight(x, 80 + i) * h for i, h in enumerate(fitted)) / 110
    return ONE / (ONE + (-g).exp())


def part_of(force, days, of):
    return force * days / of


def survival(force):
    return (-force).exp()


def column(params, year):
    """q at ages 0 to 120 in a year, to age 90 where a force of the closure's ages is not below 1."""
    now = kappas(params, year - params["start"])[-1]
    ms = [log_force(params, x, year, now) for x in range(91)]
    forces = [young_force(m) for m in ms]
    if all(u < 1 for u in forces[80:]):
        fitted = [inverse_logistic(m, u) for m, u in zip(ms[80:], forces[80:])]
        forces += [old_force(x, fitted) for x in range(91, 121)]
    return [ONE - survival(u) for u in forces]
