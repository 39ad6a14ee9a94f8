"""The shared library by `ctypes`: where it is, its nine calls, and a call that is refused.

The library is the file that the environment variable KULFIZAN_LIBRARY names, else libkulfizan.so beside this file, else the one
that `make lib` writes into target/lib. It is loaded at the first call.
"""
import array
import ctypes
import functools
import operator
import os
import pathlib
from typing import Any, Iterable, Optional, Tuple

# The names of a set's first numbers, in their order, and of the tables and the sexes by their numbers.
HEAD = ("table", "sex", "a", "theta", "K", "k", "start", "c")
TABLES = ("AG2014", "LILEE")
SEXES = ("M", "F")
SET_LENGTH = len(HEAD) + 4 * 91
QUOTE_LENGTH = 5
LONGEST_SHEET = 8_528
LONGEST_INPUT = 65_536
# The room that a run wants, beside five bytes for each byte of its input.
RUN_ROOM = 159
LEAST, GREATEST = -(2**63), 2**63 - 1
SHORT = 7

REFUSALS = {
    1: "torn: a sheet, the kind's word or the list of numbers breaks its form",
    2: "off scale: a parameter, K + 171*theta or kappa is past its size, or the start year or c is none of the table's",
    3: "no such age: an age is outside 0 to 120",
    4: "no such year: the year is outside the kind's range, which counts from the start year",
    5: "no such span: the span is outside 0 to 121 - age; for q, expectancies and annuities, not 0; a date is outside its term",
    6: "steep: a needed cell's log force leaves its range",
    7: "short: what is lent has too little room",
    8: "no such rate: the rate is outside 0 to 200,000",
    9: "torn column: the column breaks its form",
    10: "no such date: the date is no day YYYYMMDD by the Gregorian rule, from the year 1000 to 9999",
    11: "starts differ: the sheets of a couple have different start years",
}


class Refused(Exception):
    """A refused call, with the refusal's number and, where the sheet came from a file, that file."""

    def __init__(self, number: int, where: Optional[str] = None) -> None:
        super().__init__(f"{where}: refused as {number}, {REFUSALS[number]}" if where else f"{number}, {REFUSALS[number]}")
        self.number = number
        self.where = where


class Missing(OSError):
    """The library's file is missing or cannot be loaded."""


def path() -> pathlib.Path:
    """Where the library is looked for."""
    named = os.environ.get("KULFIZAN_LIBRARY")
    if named:
        return pathlib.Path(named)
    here = pathlib.Path(__file__).resolve().parent
    beside = here / "libkulfizan.so"
    return beside if beside.exists() else here.parent.parent / "target" / "lib" / "libkulfizan.so"


def load(where: Any) -> ctypes.CDLL:
    """The library's calls, as include/kulfizan.h declares them."""
    try:
        library = declared(ctypes.CDLL(str(where)))
    except (OSError, AttributeError) as error:
        raise Missing(f"{where}: no such library ({error}): `make lib` builds it, and KULFIZAN_LIBRARY names another") from None
    if not current(library):
        raise Missing(f"{where}: the library of another version, whose quotes may have no unit; version 2 is wanted")
    return library


def current(library: ctypes.CDLL) -> bool:
    """Whether a library is of this version: an earlier one wants other room for a run."""
    buffer, length = ctypes.create_string_buffer(RUN_ROOM), ctypes.c_uint64()
    return [library.kulfizan_run(b"", 0, 0, buffer, room, length) for room in (RUN_ROOM - 1, RUN_ROOM)] == [SHORT, 0]


def declared(library: ctypes.CDLL) -> ctypes.CDLL:
    """The library with the types of its calls; an AttributeError where it lacks one."""
    data, numbers, size = ctypes.c_char_p, ctypes.POINTER(ctypes.c_int64), ctypes.c_size_t
    counts, number = ctypes.POINTER(ctypes.c_uint64), ctypes.c_int64
    library.kulfizan_read.argtypes = [data, size, numbers, size]
    library.kulfizan_write.argtypes = [numbers, size, data, size, counts]
    library.kulfizan_quote.argtypes = [data, size, data, size, *[number] * 3, counts, size]
    library.kulfizan_annuity.argtypes = [data, size, data, size, *[number] * 4, counts, size]
    library.kulfizan_day.argtypes = [data, size, *[number] * 3, counts, size]
    library.kulfizan_couple.argtypes = [*[data, size] * 3, *[number] * 4, counts, size]
    library.kulfizan_target.argtypes = [data, size, *[number] * 2, counts, numbers]
    library.kulfizan_verdict.argtypes = [data, size, number, data, size, counts]
    library.kulfizan_run.argtypes = [data, size, ctypes.c_uint8, data, size, counts]
    for name in ("read", "write", "quote", "annuity", "day", "couple", "target", "verdict", "run"):
        getattr(library, f"kulfizan_{name}").restype = ctypes.c_uint8
    return library


@functools.lru_cache(None)
def calls() -> ctypes.CDLL:
    """The library, loaded once."""
    return load(path())


def accepted(number: int) -> None:
    """Raises a refusal."""
    if number:
        raise Refused(number)


def signed(values: Iterable[int]) -> Tuple[Any, int]:
    """Numbers of 64 bits for a call, of at least one place, so that the pointer is never one to nothing. A number past 64 bits
    goes in as the nearest that fits: both ends of 64 bits are outside every age, year, span and rate of the table, no table, sex,
    start year or date and past every parameter's size, so that the refusal is the same; and no expectancy is there, so that a
    target's answer is the same."""
    checked = array.array("q", (max(LEAST, min(GREATEST, operator.index(value))) for value in values))
    return (ctypes.c_int64 * max(1, len(checked)))(*checked), len(checked)


def written(call: Any, *given: Any, room: int) -> bytes:
    """What a call writes into a buffer of so many bytes."""
    buffer, length = ctypes.create_string_buffer(room), ctypes.c_uint64()
    accepted(call(*given, buffer, room, ctypes.byref(length)))
    return buffer.raw[: length.value]


def quoted(call: Any, *given: Any) -> Tuple[int, int, Optional[int], int]:
    """The two ends, the steps, None where the figure is open, and the unit of the ends, that a call writes."""
    numbers = (ctypes.c_uint64 * QUOTE_LENGTH)()
    accepted(call(*given, numbers, QUOTE_LENGTH))
    lower, upper, printed, steps, unit = numbers
    return lower, upper, steps if printed else None, unit
