"""The calendar: the program day_cases against Python's datetime, on every number from 9,990,101 to 100,000,101 whose last four
digits are a month and a day or just past one, and on the numbers of any length of test_dates.py: whether a number is a day, and
of a day its year, the days of the year and the days since 1 January.

An argument is taken as the seed.
"""
import array
import datetime
import random
import sys

import programs
from c_interface import Count
from test_dates import FIRST_DAY, LAST_DAY, SEED, any_numbers, in_form
from quotes import number_of

TOGETHER = 32_768


def cases():
    """The word of each number that is a day: YYYYDDDddd."""
    out = {}
    for ordinal in range(FIRST_DAY.toordinal(), LAST_DAY.toordinal() + 1):
        day = datetime.date.fromordinal(ordinal)
        of_year = (datetime.date(day.year, 12, 31) - datetime.date(day.year, 1, 1)).days + 1
        out[number_of(day)] = 10**6 * day.year + 10**3 * of_year + (day - datetime.date(day.year, 1, 1)).days
    return out


def main():
    gone = programs.missing("day_cases")
    if gone:
        print(gone)
        return 1
    seed = int(sys.argv[1]) if len(sys.argv) > 1 else SEED
    print(f"seed {seed}")
    count, days = Count(), cases()
    numbers = in_form() + any_numbers(random.Random(seed))
    for at in range(0, len(numbers), TOGETHER):
        part = numbers[at : at + TOGETHER]
        status, out = programs.run("day_cases", array.array("q", part).tobytes())
        got, want = array.array("Q", out).tolist(), [days.get(number, 0) for number in part]
        bad = [f"{number} gives {a} and is {b}" for number, a, b in zip(part, got, want) if a != b]
        count.take(status == 0 and got == want, ", ".join(bad[:3]) or f"{len(got)} answers to {len(want)} numbers")
    met = sum(number in days for number in set(numbers))
    count.take(met == len(days), f"{met} days asked of {len(days)}")
    return count.close()


if __name__ == "__main__":
    sys.exit(main())
