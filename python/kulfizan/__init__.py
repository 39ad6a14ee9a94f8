"""Kulfizan for Python: the AG2014 table, or a later fit of the same model, with the parameters of a sheet, worked so that every
printed digit is proved.

    sheet = kulfizan.Sheet.load("women.sheet")
    sheet.quote("ecoh", 65, 2015).text          # '21.38'

It calls the proved library through the standard `ctypes`, and the library is the only judge: this package prepares what it asks
and presents what it answers. The library is the file that the environment variable KULFIZAN_LIBRARY names, else libkulfizan.so in
the package, else the one that `make lib` writes into target/lib. `python -m kulfizan` and `kulfizan` are the commands.

A sheet is a `Sheet` or its bytes. As a set it is a list of 372 whole numbers: first those that `HEAD` names, the table (0 for
AG2014, 1 for LILEE), the sex (0 for M, 1 for F), a, theta, K, k, the start year and the constant c, and then for ages 0 to 90 A, B,
alpha and beta, in the sheet's units; so `dict(zip(kulfizan.HEAD, kulfizan.read(sheet)))` has the first ones by their names. A set
of AG2014 has the start year 2013 and c 0. Years count from the start: a quote takes those from start + 1 to start + 51, q and a
column those to start + 171. Earlier the list had 369 numbers, with neither table, start nor c.

A `Quote` has the two ends, the figure's number of steps, None where it is open, the decimals of a step and the unit of the ends:
9, or 13 where ends in units of 10^-9 leave the figure open, so that it was worked again in units of 10^-13. Earlier it had no unit,
since its ends were in units of 10^-9 always, and an expectancy had one decimal where it has two now. A `Comparison` gained its unit
likewise.

A couple is two lives, each with its own sheet and age; both sheets have one start year. Of a couple each refusal is tried on the
first life, then on the second, before the next number: 1, 2, 11, 3, 4, 5, 6.

The year in which the period expectancy at an age reaches a target is `target_year`: the earliest of the 51 quote years, start + 1
to start + 51, whose exact expectancy is at least the target, in units of 10^-9.

A refused call raises `Refused`, which has the refusal's number: also where a number is past 64 bits, since out of the table is out
of the table, however far. A target may be any number. Anything that is no number, no word or no sheet is a TypeError.

Calls may be made from several threads at once: the library has no state of its own.
"""
from typing import Any

from .library import (
    HEAD, LONGEST_INPUT, LONGEST_SHEET, QUOTE_LENGTH, REFUSALS, SET_LENGTH, SEXES, TABLES, Missing, Refused, load, path,
)
from .sheets import (
    COUPLE_KINDS, KINDS, VERDICTS, Comparison, Kind, Quote, Sheet, compare, couple, day, quote, read, run, target_year, verdict,
    write,
)

__version__ = "2.0.0"

__all__ = [
    "COUPLE_KINDS", "Comparison", "HEAD", "KINDS", "Kind", "LONGEST_INPUT", "LONGEST_SHEET", "Missing", "QUOTE_LENGTH", "Quote",
    "REFUSALS", "Refused", "SET_LENGTH", "SEXES", "Sheet", "TABLES", "VERDICTS", "compare", "couple", "day", "load", "path",
    "quote", "read", "run", "target_year", "verdict", "write",
]


def __getattr__(name: str) -> Any:
    """LIBRARY, the loaded library, is loaded when it is first asked for."""
    if name == "LIBRARY":
        from .library import calls

        return calls()
    raise AttributeError(f"module {__name__!r} has no attribute {name!r}")
