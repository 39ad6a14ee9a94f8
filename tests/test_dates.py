"""Which numbers are days: the library's call kulfizan_day against Python's datetime, on every number from 9,990,101 to 100,000,101
whose last four digits are a month and a day or just past one, and on numbers of 64 bits of any length, drawn and near the ends of
64 and 32 bits. No day is 10, a day outside the term 5, a day of it 0.

`dates.c` makes the calls, some four million, with an age and a year of which the term is one year. An argument is taken as the
seed.
"""
import array
import datetime
import itertools
import pathlib
import random
import subprocess
import sys
import tempfile

import c_interface
import sheets
from c_interface import GREATEST, LEAST, ROOT
from grid import flat
from quotes import LAST_YEAR, NO_DATE, NO_SPAN, OLDEST, number_of

SEED = 10009999
FIRST, LAST = 9_990_101, 100_000_101
FIRST_DAY, LAST_DAY = datetime.date(1000, 1, 1), datetime.date(9999, 12, 31)
DRAWN = 200_000
TOGETHER = 500
SAID = {0: "a day of the term", NO_SPAN: "a day outside it", NO_DATE: "no day"}


# ---- numbers, and what they are

def in_form():
    """Every number of the range with a month from 0 to 13 and a day from 0 to 32."""
    years = range(FIRST // 10**4, LAST // 10**4 + 1)
    ends = [100 * month + day for month in range(14) for day in range(33)]
    return [number for year in years for end in ends if FIRST <= (number := 10**4 * year + end) <= LAST]


def any_numbers(draw):
    """Numbers of 64 bits of any length, those that are a day but for bits above it, and those near the ends of 32 and 64 bits."""
    out = [draw.randint(LEAST, GREATEST) >> draw.randrange(64) for _ in range(DRAWN)]
    days = [10**4 * year + end for year in (LAST_YEAR, 2000, 9999) for end in (101, 229, 1231)]
    above = [high << bits for high in range(-3, 4) for bits in (32, 40, 60)]
    out += [sign * day + high for day, sign, high in itertools.product(days, (1, -1), above)]
    out += [day * 10**power for day in days for power in range(1, 11)] + [day // 10**power for day in days for power in range(1, 9)]
    for end in (LEAST, -(2**32), -(2**31), 0, 2**31, 2**32, GREATEST):
        out += [end + by for by in range(-40, 41)]
    return [number for number in out if LEAST <= number <= GREATEST]


def said():
    """What is said of each number that is a day: 0 in the one year of the term, else 5."""
    out = {}
    for ordinal in range(FIRST_DAY.toordinal(), LAST_DAY.toordinal() + 1):
        day = datetime.date.fromordinal(ordinal)
        out[number_of(day)] = 0 if day.year == LAST_YEAR else NO_SPAN
    return out


# ---- the calls

def built(folder):
    """The program of dates.c, over the library."""
    program = pathlib.Path(folder) / "dates"
    library = ROOT / "target" / "lib" / "libkulfizan.a"
    options = ["-std=c11", "-O2", "-Wall", "-Wextra", f"-I{ROOT / 'include'}"]
    subprocess.run(["gcc", *options, "-o", program, ROOT / "tests" / "dates.c", library], check=True)
    return program


def answers(folder, program, numbers):
    """The byte that is given for each number."""
    sheet = pathlib.Path(folder) / "sheet"
    sheet.write_bytes(sheets.text(flat()))
    given = array.array("q", numbers).tobytes()
    return subprocess.run([program, sheet, str(OLDEST), str(LAST_YEAR)], input=given, stdout=subprocess.PIPE, check=True).stdout


def compare(count, numbers, days, got):
    """Each number's answer against the day that it is, some to a check; every answer that there is must be met."""
    want = bytes([days.get(number, NO_DATE) for number in numbers])
    count.take(len(got) == len(want), f"{len(got)} answers to {len(want)} numbers")
    for at in range(0, len(want), TOGETHER):
        part = slice(at, at + TOGETHER)
        bad = [f"{number} gives {a} and is {SAID[b]}" for number, a, b in zip(numbers[part], got[part], want[part]) if a != b]
        count.take(got[part] == want[part], ", ".join(bad[:3]))
    for no, what in SAID.items():
        print(f"{what}: {want.count(no)}")
        count.take(no in want, f"no case of: {what}")


def main():
    seed = int(sys.argv[1]) if len(sys.argv) > 1 else SEED
    print(f"seed {seed}")
    count, module = c_interface.Count(), c_interface.built()
    count.take(module is not None, "the library is not built")
    if module:
        numbers, days = in_form() + any_numbers(random.Random(seed)), said()
        met = len(set(numbers) & days.keys())
        count.take(met == len(days) == (LAST_DAY - FIRST_DAY).days + 1, f"{met} days asked of {len(days)}")
        with tempfile.TemporaryDirectory() as folder:
            compare(count, numbers, days, answers(folder, built(folder), numbers))
    return count.close()


if __name__ == "__main__":
    sys.exit(main())
