"""The two grids: the coarse one of paper 01, with the half steps of paper 02, E4, and the fine one of E11; and the sets of both
tables, with the start years and the constant of E7. In whole numbers, written from the papers' text."""
from fractions import Fraction

# A set is a dict with its table, its start year, its sex, a, theta, K, k, the constant c and the runs A, B, al, be of 91 numbers.
# The unit of A, al, theta, K, k and c, and what one of a, B and be is in theirs.
UNIT = 10**9
RATE = 10**8
# The range of a needed cell's log force, in that unit.
LOWEST, HIGHEST = -30 * 10**9, -7 * 10**8
# The two tables, the start year of the first, and what all its sets have.
AG2014, LILEE = "AG2014", "LILEE"
START = 2013
OF_AG2014 = {"table": AG2014, "start": START, "c": 0}


def down(a, b):
    """a / b rounded toward minus infinity, b > 0."""
    return a // b


def up(a, b):
    """a / b rounded toward plus infinity, b > 0."""
    return -((-a) // b)


def whole_part(unit, n):
    """The whole part of unit·e^-(n/2): e^(n/2) from a Taylor sum with a remainder that is too small to matter."""
    total, term = Fraction(0), Fraction(1)
    for i in range(1, 200):
        total += term
        term = term * n / (2 * i)
    low, high = unit / (total + 2 * term), unit / total
    if low // 1 != high // 1:
        raise ArithmeticError(n)
    return int(high // 1)


def products(c, ends):
    """The least and the greatest product of c with a number between the ends."""
    both = (c * ends[0], c * ends[1])
    return min(both), max(both)


def weight(x, y):
    return 10 + (y - 85) * (x - 85)


def in_range(m):
    """Whether the coarse ends of a log force are in the range: no other grid's are judged."""
    return m[0] >= LOWEST and m[1] <= HIGHEST


class Grid:
    """A grid of 10^-digits: every end is a whole number of its units, a lower one rounded down and an upper one up."""

    def __init__(self, digits, cutoff, last_lower, last_upper, log_terms):
        self.digits, self.unit, self.step = digits, 10**digits, 10**digits // 2
        # How many of its units a parameter's has.
        self.scale = self.unit // UNIT
        self.cutoff, self.last_lower, self.last_upper, self.log_terms = cutoff, last_lower, last_upper, log_terms
        wholes = [whole_part(self.unit, n) for n in range(1, 2 * cutoff)]
        self.constants = [(self.unit, self.unit)] + [(whole, whole + 1) for whole in wholes]

    # ---- chances

    def times(self, one, other):
        """The ends of the product of two chances."""
        return down(one[0] * other[0], self.unit), up(one[1] * other[1], self.unit)

    def against(self, chance):
        """The ends of the chance that something does not happen."""
        return self.unit - chance[1], self.unit - chance[0]

    # ---- the exponential

    def exp_ends(self, z):
        """The two ends of the exponential of -z, z >= 0 in units."""
        if z >= self.cutoff * self.unit:
            return 0, 1
        n, f = divmod(z, self.step)
        low, high = [self.unit], [self.unit]
        for k in range(1, self.last_lower + 1):
            low.append(down(low[-1] * f, k * self.unit))
            high.append(up(high[-1] * f, k * self.unit))
        lower = sum(low[k] if k % 2 == 0 else -high[k] for k in range(self.last_lower + 1))
        upper = sum(high[k] if k % 2 == 0 else -low[k] for k in range(self.last_upper + 1))
        return self.times((lower, min(upper, self.unit)), self.constants[n])

    def exp_between(self, z):
        """For a z with two ends, the larger z gives the lower end."""
        return self.exp_ends(z[1])[0], self.exp_ends(z[0])[1]

    # ---- one cell of the table

    def kappas(self, params, years):
        """Kappa's ends in each year from the start year on: each year's product outward, and then c added."""
        ends, c = (params["k"] * self.scale,) * 2, params["c"] * self.scale
        out = [ends]
        for _ in range(years):
            least, greatest = products(params["a"], ends)
            ends = (down(least, RATE) + c, up(greatest, RATE) + c)
            out.append(ends)
        return out

    def log_force(self, params, x, period, kappa):
        """The log force of a year with a K, in the parameter's unit, and the ends of kappa."""
        least, greatest = products(params["be"][x], kappa)
        base = (params["A"][x] + params["al"][x]) * self.scale
        fixed = params["B"][x] * period * self.scale
        return base + down(fixed + least, RATE), base + up(fixed + greatest, RATE)

    def young_force(self, m):
        return self.exp_between((-m[1], -m[0]))

    def log_sum(self, u, rounded):
        """The sum of u^k/k, each power and quotient rounded, and the last power."""
        power, total = self.unit, 0
        for k in range(1, self.log_terms + 1):
            power = rounded(u * power, self.unit)
            total += rounded(power, k)
        return total, power

    def inverse_logistic(self, m, u):
        lower, _ = self.log_sum(u[0], down)
        upper, power = self.log_sum(u[1], up)
        power = up(u[1] * power, self.unit)
        return m[0] + lower, m[1] + upper + up(2 * power, self.log_terms + 1)

    def logistic(self, ends):
        unit, (low, high) = self.unit, ends
        if low >= 0:
            lower = down(unit * unit, unit + self.exp_ends(low)[1])
        else:
            e = self.exp_ends(-low)[0]
            lower = down(e * unit, unit + e)
        if high >= 0:
            upper = up(unit * unit, unit + self.exp_ends(high)[0])
        else:
            e = self.exp_ends(-high)[1]
            upper = up(e * unit, unit + e)
        return lower, upper

    def old_force(self, x, fitted):
        sums = [products(weight(x, 80 + i), h) for i, h in enumerate(fitted)]
        return self.logistic((down(sum(s[0] for s in sums), 110), up(sum(s[1] for s in sums), 110)))

    def part_of(self, force, days, of):
        """The exponent of a part year, days of so many: each end of force·days/of rounded outward (paper 02, E6)."""
        return down(force[0] * days, of), up(force[1] * days, of)


COARSE = Grid(digits=9, cutoff=21, last_lower=13, last_upper=12, log_terms=28)
FINE = Grid(digits=13, cutoff=30, last_lower=17, last_upper=16, log_terms=41)
GRIDS = {grid.digits: grid for grid in (COARSE, FINE)}


def column(params, year, kappa=None):
    """The coarse ends of q at ages 0 to 120 in a year, None where a needed cell is steep."""
    n = year - params["start"]
    period = params["K"] + n * params["theta"]
    kappa = kappa or COARSE.kappas(params, n)[n]
    ms = [COARSE.log_force(params, x, period, kappa) for x in range(91)]
    forces = [COARSE.young_force(m) if in_range(m) else None for m in ms]
    if all(forces[80:]):
        fitted = [COARSE.inverse_logistic(m, force) for m, force in zip(ms[80:], forces[80:])]
        forces += [COARSE.old_force(x, fitted) for x in range(91, 121)]
    else:
        forces += [None] * 30
    return [force and COARSE.against(COARSE.exp_between(force)) for force in forces]


def flat():
    """The flat sheet: every A = −1000000000, all else 0."""
    zero = [0] * 91
    series = {"a": 0, "theta": 0, "K": 0, "k": 0}
    return {**OF_AG2014, "sex": "M", **series, "A": [-(10**9)] * 91, "B": zero, "al": zero, "be": zero}
