"""The library's calls, as tests use them: built by make, found by the package python/kulfizan, and handed numbers and bytes of which
all are compared afterwards, with one more behind the last that is lent."""
import array
import ctypes
import fcntl
import os
import pathlib
import subprocess
import sys

from grid import AG2014, LILEE

ROOT = pathlib.Path(__file__).resolve().parent.parent
EXAMPLE = ROOT / "target" / "examples" / "quote"
LEAST, GREATEST = -(2**63), 2**63 - 1
GUARD = 0x5A
SET_LENGTH, QUOTE_LENGTH = 372, 5


def built():
    """The package python/kulfizan over the library as it is built from the sources, by one test at a time, or None."""
    make, folder = ["make", "--no-print-directory", "lib", "examples"], ROOT / "target" / "lib"
    folder.mkdir(parents=True, exist_ok=True)
    with open(folder / "lock", "w") as lock:
        fcntl.flock(lock, fcntl.LOCK_EX)
        done = subprocess.run(make, cwd=ROOT, stdout=subprocess.PIPE, stderr=subprocess.STDOUT, check=False)
    if done.returncode:
        print(done.stdout.decode(errors="replace"))
        return None
    os.environ.pop("KULFIZAN_LIBRARY", None)
    sys.path.insert(0, str(ROOT / "python"))
    import kulfizan

    return kulfizan


def listed(which):
    """A set as the library has it: the table, the sex, a, theta, K, k, the start year, c and the numbers of the ages."""
    head = [(AG2014, LILEE).index(which.table), "MF".index(which.sex), *which.numbers[:4], which.start, which.c]
    return head + list(which.numbers[4:])


class Count:
    passed = failed = 0

    def take(self, good, said):
        self.passed, self.failed = self.passed + good, self.failed + (not good)
        if not good and self.failed <= 20:
            print(said)

    def close(self):
        print(f"{self.passed} passed, {self.failed} failed")
        return 1 if self.failed else 0


def held(code, values):
    """Numbers of 64 bits, signed (q) or not (Q), to be lent, with a guard behind them."""
    kind = ctypes.c_int64 if code == "q" else ctypes.c_uint64
    return (kind * (len(values) + 1)).from_buffer(array.array(code, [*values, GUARD]))


def kept(values, before):
    """The numbers that were lent, as far as the guard is as it was."""
    return list(values)[: len(before)] if values[len(before)] == GUARD else "written past the end"


def read(library, sheet, before):
    """The number that reading a sheet gives, and the numbers after it."""
    values = held("q", before)
    number = library.kulfizan_read(sheet, len(sheet), values, len(before))
    return number, kept(values, before)


def into(call, *given, before, length):
    """The number that a writing call gives, and the length and the bytes after it."""
    buffer, told = ctypes.create_string_buffer(before + bytes([GUARD]), len(before) + 1), ctypes.c_uint64(length)
    number = call(*given, buffer, len(before), ctypes.byref(told))
    after = buffer.raw
    return number, told.value, after[:-1] if after[-1] == GUARD else "written past the end"


def write(library, numbers, before, length):
    return into(library.kulfizan_write, held("q", numbers), len(numbers), before=before, length=length)


def run(library, data, ends, before, length):
    return into(library.kulfizan_run, data, len(data), ends, before=before, length=length)


def quote(library, sheet, word, *numbers, before):
    """The number that a query of age, year and span gives, or an annuity's that has a rate too, and the numbers after it."""
    call, values = library.kulfizan_annuity if len(numbers) == 4 else library.kulfizan_quote, held("Q", before)
    number = call(sheet, len(sheet), word, len(word), *numbers, values, len(before))
    return number, kept(values, before)


def day(library, sheet, age, year, date, before):
    """The number that survival to a date gives, and the numbers after it."""
    values = held("Q", before)
    number = library.kulfizan_day(sheet, len(sheet), age, year, date, values, len(before))
    return number, kept(values, before)


def couple(library, sheet, other_sheet, word, *numbers, before):
    """The number that a query of two lives gives, of two ages, a year and a span, and the numbers after it."""
    values = held("Q", before)
    lent = sheet, len(sheet), other_sheet, len(other_sheet), word, len(word)
    number = library.kulfizan_couple(*lent, *numbers, values, len(before))
    return number, kept(values, before)


def target(library, sheet, age, asked, found, year):
    """The number that a target gives, and the two numbers after it, which are lent between guards."""
    memory = (ctypes.c_uint64 * 5)(GUARD, found, GUARD, year % 2**64, GUARD)
    places = ctypes.c_uint64.from_buffer(memory, 8), ctypes.c_int64.from_buffer(memory, 24)
    number = library.kulfizan_target(sheet, len(sheet), age, asked, *map(ctypes.byref, places))
    return (number, *(place.value for place in places)) if memory[::2] == [GUARD] * 3 else "written beside the places"


def verdict(library, sheet, year, column, before):
    """The number that a verdict on a column gives, and the verdict's own number after it."""
    told = held("Q", [before])
    number = library.kulfizan_verdict(sheet, len(sheet), year, column, len(column), told)
    return number, kept(told, [before])[0]
