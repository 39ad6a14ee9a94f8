"""The cases of crates/exp_cases: some hundred z and the exponential's coarse ends there.

With --write it writes the program's table and its expected output anew. Without, it tests that the stored files are those
of the grid in tests/grid.py, and that e^-z to 60 digits lies between the ends, those of the fine grid too.
"""
import decimal
import pathlib
import random
import sys

from grid import COARSE, FINE

CRATE = pathlib.Path(__file__).resolve().parent.parent / "crates" / "exp_cases"
LARGEST = 2**64 - 1


def cases(grid):
    """The first places of a grid, those about each half step and about the cut-off, and any others."""
    end = grid.cutoff * grid.unit
    zs = {0, 1, 2, 7 * grid.unit // 10, end - 1, end, end + 1, LARGEST}
    for z in range(0, end + 1, grid.step):
        zs |= {z, z + 1} | ({z - 1} if z else set())
    draw = random.Random(2014)
    zs |= {draw.randrange(end) for _ in range(40)}
    zs |= {draw.randrange(grid.unit) for _ in range(20)}
    return sorted(zs)


def source(zs):
    rows = "".join(f"    {z},\n" for z in zs)
    return (
        "// The places at which the ends are printed. Written by tests/test_exp_cases.py.\n"
        f"pub const CASES: [u64; {len(zs)}] = [\n{rows}];\n"
    )


def output(zs):
    return "".join("%d %d %d\n" % (z, *COARSE.exp_ends(z)) for z in zs)


def main():
    zs = cases(COARSE)
    files = {CRATE / "src" / "cases.rt": source(zs), CRATE / "stdout": output(zs)}
    if "--write" in sys.argv:
        for path, text in files.items():
            path.write_text(text)
        return 0
    passed = failed = 0
    for path, text in files.items():
        good = path.read_text() == text
        passed, failed = passed + good, failed + (not good)
        if not good:
            print(f"{path.name} is not what the grid gives")
    decimal.getcontext().prec = 60
    for grid, z in [(COARSE, z) for z in zs] + [(FINE, z) for z in cases(FINE)]:
        lower, upper = grid.exp_ends(z)
        exact = (-decimal.Decimal(min(z, 10**3 * grid.unit)) / grid.unit).exp() * grid.unit
        good = lower <= exact <= upper and upper - lower <= 30
        passed, failed = passed + good, failed + (not good)
        if not good:
            print(f"z = {z} of 10^-{grid.digits}: {exact} is not between {lower} and {upper}")
    print(f"{passed} passed, {failed} failed")
    return 1 if failed else 0


if __name__ == "__main__":
    sys.exit(main())
