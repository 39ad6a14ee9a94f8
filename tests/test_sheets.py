"""The sheet's reader and writer against a second reader and writer, written from the papers, over both tables.

It hands sheets and sets by the thousand to the library's calls and compares the refusal, every number or byte that was lent,
and the length. Sheets are damaged at every place in a word of eight bytes, and lent so that reading past their end is seen. An
argument is taken as the seed, so that a run can be repeated.
"""
import collections
import ctypes
import faulthandler
import itertools
import mmap
import random
import re
import sys
import time

import c_interface
from c_interface import GREATEST, LEAST, SET_LENGTH, listed
from grid import AG2014, LILEE, START, flat
from reader import ACCEPTED, FIRST_START, KEYS, KEYS_OF, LAST_START, LIMITS, LONGEST, OFF_SCALE, SHORT, SIZES, TORN, YEARS
from reader import Set, in_limits, lines_of, read, set_from, sheet_of, text, write
from sheets import any_constant

FILL = b"\xaa"
LARGEST_ROOM, LARGEST_SHEET = 16_384, 70_000
UNTOLD = 2**64 - 2
NO_ACCESS = 0

# ---- sets

def flat_set():
    return set_from(flat())


def changed(which, key, v, *more):
    if key in KEYS:
        at = KEYS.index(key)
        out = which._replace(numbers=which.numbers[:at] + (v,) + which.numbers[at + 1 :])
    else:
        out = which._replace(**{key: v})
    return changed(out, *more) if more else out


def line_of(which, key):
    """The place of a key's line in a set's sheet."""
    return 2 + KEYS_OF[which.table].index(key)


def edges_of(key):
    """The least and the greatest value of a key."""
    size = SIZES.get(key.split(".")[0])
    return (FIRST_START, LAST_START) if key == "start" else (-size, size)


def signed(draw, size):
    """A number of any length up to the size's, either side of zero."""
    return draw.choice((-1, 1)) * draw.randrange(min(size, 10 ** draw.randint(1, 12)) + 1)


def random_set(draw):
    numbers = [signed(draw, most) for most in LIMITS]
    theta = KEYS.index("theta")
    while not in_limits(Set("M", tuple(numbers))):
        numbers[theta] //= 2
        numbers[KEYS.index("K")] //= 2
    return Set(draw.choice("MF"), tuple(numbers))


def lilee_set(draw):
    """Such a set of the table LILEE, with any start year and a constant of any length."""
    which = random_set(draw)
    a, kappa = which.numbers[0], which.numbers[3]
    c = any_constant(draw, a, kappa, 10 ** draw.randint(1, 10))
    return which._replace(table=LILEE, start=draw.randint(FIRST_START, LAST_START), c=c)


def of_each_table(draw):
    """A name and a set for each table."""
    return ("random", random_set(draw)), ("LILEE", lilee_set(draw))


def edge_set(sign):
    """Every number at its limit, but for theta."""
    return changed(Set("F", tuple(sign * most for most in LIMITS)), "theta", 0)


# ---- the sheets of the test

def any_room(draw, which):
    """A room of exactly what is written, one less, some more, or none."""
    length = len(sheet_of(which))
    return draw.choice((length, length - 1, length + 1, length + draw.randrange(300), length, 0))


def any_places(draw):
    """Some more numbers than a set has, one less, or any."""
    return draw.choice((SET_LENGTH + 1, SET_LENGTH + draw.randrange(30), SET_LENGTH - 1, 0, draw.randrange(SET_LENGTH)))


def torn_at(draw, name, sheet):
    """Bytes changed, deleted and doubled: all of the first 20 lines and of the last 10, and some others."""
    ends = [i for i, b in enumerate(sheet) if b == 10]
    places = set(range(ends[19] + 1)) | set(range(ends[-11] + 1, len(sheet)))
    places = sorted(places | set(draw.sample(range(ends[19] + 1, ends[-11] + 1), 200)))
    for i in places:
        head, byte, tail = sheet[:i], sheet[i:i + 1], sheet[i + 1:]
        other = bytes([draw.choice([b for b in range(256) if b != byte[0]])])
        near = bytes([draw.choice([b for b in b"\n\r=-+.0123456789 ABaelbktMF" if b != byte[0]])])
        yield f"{name}: byte {i} changed", head + other + tail
        yield f"{name}: byte {i} changed to {near}", head + near + tail
        yield f"{name}: byte {i} deleted", head + tail
        yield f"{name}: byte {i} doubled", head + byte + byte + tail


def lines_moved(draw, name, sheet):
    lines = sheet.split(b"\n")[:-1]
    for i in range(len(lines)):
        yield f"{name}: line {i} left out", text(lines[:i] + lines[i + 1:])
        yield f"{name}: line {i} twice", text(lines[:i + 1] + lines[i:])
        yield f"{name}: line {i} empty", text(lines[:i] + [b""] + lines[i + 1:])
        j = draw.choice([j for j in range(len(lines)) if j != i])
        for k in ((i + 1) % len(lines), j):
            moved = list(lines)
            moved[i], moved[k] = moved[k], moved[i]
            yield f"{name}: lines {i} and {k} swapped", text(moved)


VALUES = [
    b"", b"-", b"+", b"+1", b"-0", b"+0", b"00", b"007", b"-007", b"01", b"--1", b"1-", b"0-", b" 1", b"1 ", b"1\r", b"\r1",
    b"\t1", b"1e3", b"0x1", b"1.0", b"1,000", b"1_000", b"a", b"=1", b"1=", b"1\x00", b"\x001", "\uff11".encode(),
    "\u22121".encode(), b"0", b"1", b"-1", b"9" * 15, b"-" + b"9" * 15, b"1" + b"0" * 15, b"-1" + b"0" * 15, b"9" * 16,
    b"9" * 19, b"9" * 20, b"0" * 15, b"0" * 16, b"18446744073709551616", b"9223372036854775808", b"-9223372036854775808",
    b"1" * 400,
]


def limits_tried(name, which):
    for key in KEYS_OF[which.table]:
        least, most = edges_of(key)
        for v in (most, most + 1, least, least - 1):
            yield f"{name}: {key}={v}", text(lines_of(changed(which, key, v)))


def values_tried(draw, name, which):
    """Every form of a number, in some lines."""
    keys = KEYS_OF[which.table]
    for key in keys[:10] + keys[-4:] + draw.sample(keys[10:-4], 4):
        lines, i = lines_of(which), line_of(which, key)
        least, most = edges_of(key)
        for value in VALUES + [b"%d" % v for v in (most - 1, least + 1)]:
            line = key.encode() + b"=" + value
            yield f"{name}: {line}", text(lines[:i] + [line] + lines[i + 1:])


def sums_tried():
    """K + 171·theta at its limits and one past them, and with K itself at or past its own."""
    size, zero = SIZES["K"], Set("F", (0,) * len(KEYS))
    thetas = (2_923_976_608, 2_923_976_609, 1, 10**9, 5 * 10**9, 5_847_953_216, 5_847_953_217, 10**10, 10**10 + 1)
    for theta in thetas + tuple(-theta for theta in thetas):
        periods = {0, size, -size, size + 1, -size - 1}
        periods |= {end - YEARS * theta + d for end in (size, -size) for d in (-1, 0, 1)}
        for period in sorted(periods):
            yield f"K={period} theta={theta}", sheet_of(changed(zero, "K", period, "theta", theta))


FIRST_LINES = (
    b"table=AG2012", b"table=AG20144", b"table=ag2014", b"Table=AG2014", b"table=", b"table", b"", b"table=AG2014",
    b"table=LILEE", b"table=LILEE ", b" table=LILEE", b"table= LILEE", b"table=LILEE\r", b"table=LILEE\0", b"table=LILE",
    b"table=LILEEE", b"table=lilee", b"table=LI-LEE", b"Table=LILEE", b"table=LILEE2014", b"table=AG2014LILEE", b"LILEE",
)


def whole_inputs(draw, name, sheet):
    """Inputs that are not a sheet's lines, or not all of them, or more."""
    lines = sheet.split(b"\n")[:-1]
    yield name, sheet
    yield "empty", b""
    yield "a line feed", b"\n"
    yield f"{name}: carriage returns", sheet.replace(b"\n", b"\r\n")
    yield f"{name}: carriage returns alone", sheet.replace(b"\n", b"\r")
    for i in (0, 1, 2, 100, len(lines) - 1):
        yield f"{name}: carriage return in line {i}", text(lines[:i] + [lines[i] + b"\r"] + lines[i + 1:])
    yield f"{name}: no last line feed", sheet[:-1]
    for more in (b"\n", b"\x00", b"0", b" ", b"\r", b"b", b"\xaa", b"be.91=0\n", sheet):
        yield f"{name}: and {more[:20]}", sheet + more
        yield f"{name}: after {more[:20]}", more + sheet
    for more in (b"\xef\xbb\xbf", b"#\n"):
        yield f"{name}: after {more}", more + sheet
    for line in FIRST_LINES:
        yield f"{name}: {line}", text([line] + lines[1:])
    for line in (b"sex=m", b"sex=X", b"sex=MF", b"sex=", b"sex", b"Sex=M", b"sex=\x00", b"sex= M"):
        yield f"{name}: {line}", text([lines[0], line] + lines[2:])
    yield f"{name}: upper case", sheet.upper()
    yield f"{name}: lower case", sheet.lower()
    yield f"{name}: backwards", sheet[::-1]
    for key in (b"be.91", b"A.00", b"A.-0", b"A0", b"A.0.", b"al.0"):
        yield f"{name}: {key} for A.0", sheet.replace(b"A.0=", key + b"=")
    for size in (LONGEST - 1, LONGEST, LONGEST + 1, LARGEST_SHEET):
        yield f"{name}: line feeds to {size} bytes", sheet.ljust(size, b"\n")
        yield f"{name}: a long number to {size} bytes", sheet[:-1].ljust(size - 1, b"0") + b"\n"
        yield f"{name}: and itself to {size} bytes", (sheet * (size // len(sheet) + 1))[:size]
        yield f"{size} random bytes", draw.randbytes(size)
    for _ in range(100):
        yield f"{name}: its start", sheet[:draw.randrange(len(sheet))]
        yield f"{name}: its end", sheet[1 + draw.randrange(len(sheet) - 1):]
        yield "random bytes", draw.randbytes(draw.randrange(6000))
        yield "random bytes of sheets", bytes(draw.choices(b"0123456789=-.\nABalbethkKMF", k=draw.randrange(6000)))


def torn_and_off_scale(draw, which):
    """Refusal 1 is decided over the whole sheet before 2."""
    keys = KEYS_OF[which.table]
    for key in keys[:10] + draw.sample(keys[10:], 30):
        least, most = edges_of(key)
        sheet = text(lines_of(changed(which, key, draw.choice((least - 1, most + 1)))))
        yield f"{key} off scale", sheet
        yield f"{key} off scale and no last line feed", sheet[:-1]
        yield f"{key} off scale and a byte more", sheet + b"0"
        yield f"{key} off scale and the last number empty", sheet[:sheet.rindex(b"=") + 1] + b"\n"
        yield f"{key} off scale and the sex torn", sheet.replace(b"sex=", b"sex=x")


def sheets(draw):
    both = of_each_table(draw)
    for name, which in (("flat", flat_set()), *both):
        sheet = sheet_of(which)
        yield from torn_at(draw, name, sheet)
        yield from whole_inputs(draw, name, sheet)
        yield from values_tried(draw, name, which)
    for name, which in both:
        yield from lines_moved(draw, name, sheet_of(which))
        yield from limits_tried(name, which)
    for name, which in (*both, ("upper edge", edge_set(1)), ("lower edge", edge_set(-1))):
        yield name, sheet_of(which)
        yield from torn_and_off_scale(draw, which)
    yield from sums_tried()
    for i in range(600):
        yield f"random set {i}", sheet_of((random_set, lilee_set)[i % 2](draw))


# ---- sheets damaged at the places of words of eight bytes

WORD = 8
AT_END, BEHIND = 3 * WORD, 2 * WORD
MOST_DIGITS = 15
NEAR = b"/:09-=\n\r \x00\xff" + bytes(range(0xB0, 0xBA))
LINE = re.compile(rb"(?P<name>[A-Za-z]+)(?:\.(?P<age>[0-9]+))?=(?P<minus>-?)(?P<number>[0-9]+)\n")


def number_of(draw, digits):
    return draw.randrange(10 ** (digits - 1), 10**digits)


def kinds_of(sheet):
    """The places of each kind of byte, in all lines but the first two."""
    out = collections.defaultdict(list)
    for line in LINE.finditer(sheet):
        name, age, number = line.span("name"), line.span("age"), line.span("number")
        out["first byte of a key"].append(name[0])
        out["last byte of a name"].append(name[1] - 1)
        if line["age"]:
            out["dot"].append(name[1])
            out["first digit of an age"].append(age[0])
            out["last digit of an age"].append(age[1] - 1)
        out["equals sign"].append(line.start("minus") - 1)
        if line["minus"]:
            out["minus"].append(line.start("minus"))
        out["first digit"].append(number[0])
        out["middle digit"].append(sum(number) // 2)
        out["last digit"].append(number[1] - 1)
        out["line feed"].append(number[1])
    return out


def damaged(draw, name, sheet, i, others=NEAR):
    """A byte changed to others and to itself with its high bit, taken out, and two bytes put in before it."""
    head, byte, tail = sheet[:i], sheet[i], sheet[i + 1:]
    for other in {*others, byte | 0x80} - {byte}:
        yield f"{name}: byte {i} is {other}", head + bytes([other]) + tail
    yield f"{name}: byte {i} taken out", head + tail
    for more in draw.sample(NEAR + b"5.", 2):
        yield f"{name}: {more} put in at byte {i}", head + bytes([more]) + sheet[i:]


def places_tried(draw, sheet):
    """Each kind of byte at each place in a word, and all bytes of the first two lines."""
    for kind, places in kinds_of(sheet).items():
        for place in range(WORD):
            for i in draw.sample([i for i in places if i % WORD == place], 3):
                yield from damaged(draw, f"{kind} at {place}", sheet, i)
    for i in range(sheet.index(b"a=")):
        yield from damaged(draw, "first two lines", sheet, i)


def ends_tried(draw, which):
    """The last 24 bytes, with all values at the last 8, of sheets of each length modulo 8, by the digits of the last number."""
    for digits in range(1, WORD + 1):
        sheet = sheet_of(changed(which, "be.90", min(number_of(draw, digits), SIZES["be"])))
        for far in range(1, AT_END + 1):
            others = range(256) if far <= WORD else NEAR
            yield from damaged(draw, f"{digits} digits, {far} before the end", sheet, len(sheet) - far, others)


def digits_tried(draw, which, key):
    """Each digit of numbers of 1 to 16 digits, and the line feed after them."""
    for digits in range(1, MOST_DIGITS + 2):
        sheet = sheet_of(changed(which, key, draw.choice((-1, 1)) * number_of(draw, digits)))
        end = sheet.index(b"\n", sheet.index(f"\n{key}=".encode()) + 1)
        for i in range(end - digits, end + 1):
            yield from damaged(draw, f"{key} of {digits} digits", sheet, i)


def damaged_sheets(draw):
    which, other = random_set(draw), lilee_set(draw)
    yield from places_tried(draw, sheet_of(which))
    yield from ends_tried(draw, which)
    for key in (draw.choice(KEYS[:-4]), "be.90"):
        yield from digits_tried(draw, which, key)
    yield from places_tried(draw, sheet_of(other))
    for key in ("start", "c"):
        yield from digits_tried(draw, other, key)


def of_each_length(draw):
    """A set of each table for each length of a sheet modulo 8, by the digits of A at age 0."""
    for rest, make in itertools.product(range(WORD), (random_set, lilee_set)):
        which = changed(make(draw), "A.0", 1)
        digits = 1 + (rest - len(sheet_of(which))) % WORD
        yield changed(which, "A.0", number_of(draw, digits))


def counts_tried(draw, which, key):
    """Numbers of 1 to 17 digits, with and without a minus and a leading zero, and their refusals."""
    lines, i = lines_of(which), line_of(which, key)
    for digits in range(1, MOST_DIGITS + 3):
        for size in (10 ** (digits - 1), 10**digits - 1, number_of(draw, digits)):
            for v in (size, -size):
                out = changed(which, key, v)
                good = ACCEPTED if in_limits(out) else OFF_SCALE
                yield f"{key}={v}", sheet_of(out), TORN if digits > MOST_DIGITS else good
        for value in (b"0%d" % size, b"-0%d" % size, b"0" * (digits + 1), b"-" + b"0" * digits):
            line = key.encode() + b"=" + value
            yield f"{line}", text(lines[:i] + [line] + lines[i + 1:]), TORN


def known_sheets(draw):
    """Sheets of each length modulo 8, cut short and with more behind them, and numbers of any count of digits, with their
    refusals."""
    for which in of_each_length(draw):
        sheet = sheet_of(which)
        name = f"{len(sheet)} bytes"
        yield name, sheet, ACCEPTED
        for n in range(1, AT_END + 1):
            yield f"{name}, {n} of them cut", sheet[:-n], TORN
        for n in range(1, BEHIND + 1):
            for more in (b"\n" * n, b"0" * n, bytes(n), b"\xff" * n, (b"be.91=0\n" * 2)[:n], draw.randbytes(n)):
                yield f"{name} and {more}", sheet + more, TORN
        yield from counts_tried(draw, which, "be.90")
    for _, which in of_each_table(draw):
        keys = KEYS_OF[which.table]
        for key in keys[:10] + draw.sample(keys[10:-4], 8):
            yield from counts_tried(draw, which, key)


def parts(draw):
    """Inputs with the bytes that lie behind them: sheets of each length modulo 8, their last bytes cut off or lying behind, and
    starts of a sheet."""
    for which in of_each_length(draw):
        sheet = sheet_of(which)
        for n in range(AT_END + 1):
            data, rest = sheet[: len(sheet) - n], sheet[len(sheet) - n:]
            yield f"{len(data)} bytes of {len(sheet)}", data, b""
            yield f"{len(data)} bytes of {len(sheet)}, and the rest behind", data, rest
        for behind in (b"0" * BEHIND, b"\n" * BEHIND, sheet):
            yield f"{len(sheet)} bytes, and {behind[:BEHIND]} behind", sheet, behind
    for n in range(100):
        yield f"{n} bytes", sheet[:n], b""


# ---- the sets of the test

def raw_sets(draw):
    """Sets with the room for each: in limits at every kind of room, and past them at any number."""
    for i in range(300):
        which = (random_set, lilee_set)[i % 2](draw)
        length = len(sheet_of(which))
        rooms = (length, length - 1, length + 1, length + draw.randrange(1000), draw.randrange(length), 0, LARGEST_ROOM)
        for room in rooms[:3] + (draw.choice(rooms[3:]),):
            yield f"random set {i}", which, room
    for sign in (1, -1):
        which = edge_set(sign)
        length = len(sheet_of(which))
        for room in (length, length - 1, length + 1, LARGEST_ROOM, 1, 0):
            yield f"edge set {sign}", which, room
    for (name, base), more in zip(of_each_table(draw), (KEYS, ["start", "c"])):
        for key in more:
            least, most = edges_of(key)
            for v in (GREATEST, LEAST, most + 1, least - 1, draw.randint(LEAST, GREATEST)):
                yield f"{name}: {key} is {v}", changed(base, key, v), draw.choice((0, 5000, 9000))
    zero = Set("M", (0,) * len(KEYS))
    most = GREATEST // YEARS
    for theta in (GREATEST, LEAST, most, most + 1, -most, -most - 1, 2_923_976_608, -2_923_976_609):
        for period in (0, GREATEST, LEAST, SIZES["K"], -SIZES["K"], 400):
            yield f"K is {period} and theta {theta}", changed(zero, "K", period, "theta", theta), 9000
    for i in range(100):
        numbers = tuple(draw.randint(LEAST, GREATEST) for _ in KEYS)
        which = Set(draw.choice("MF"), numbers, draw.choice((AG2014, LILEE)), *(draw.randint(LEAST, GREATEST) for _ in "12"))
        yield f"random numbers {i}", which, draw.choice((0, 9000))
    for start, c in itertools.product((START, 2012, 2014, LAST_START, 0, LEAST, GREATEST), (0, 1, -1, SIZES["c"], GREATEST)):
        which = random_set(draw)._replace(start=start, c=c)
        yield f"of AG2014, start {start} and c {c}", which, draw.choice((0, 9000))


def no_sets(draw):
    """Lists that are no set: too few or too many numbers, a first that is no table or a second that is no sex."""
    for _, which in of_each_table(draw):
        numbers = listed(which)
        for count in (0, 1, 2, 4, 5, 8, *range(SET_LENGTH - 5, SET_LENGTH), SET_LENGTH + 1, SET_LENGTH + 4, 2 * SET_LENGTH):
            yield f"{count} numbers", (numbers * 2)[:count]
        for at, what in enumerate(("table", "sex")):
            for v in (2, -1, 3, 256, 2**32, 2**32 + 1, 2**62, GREATEST, LEAST, LEAST + 1, draw.randint(2, GREATEST)):
                other = numbers[:at] + [v] + numbers[at + 1 :]
                yield f"the {what} is {v}", other
                yield f"the {what} is {v}, and a number is off scale", other[:-1] + [GREATEST]


# ---- comparing

def compare_reading(count, library, name, data, places, meant=None):
    no, which = read(data)
    if meant is not None:
        count.take(no == meant, f"{name}: the second reader gives {no} and not {meant}")
    before = list(range(-3, places - 3))
    if not no and places < SET_LENGTH:
        no = SHORT
    after = before if no else listed(which) + before[SET_LENGTH:]
    got = c_interface.read(library, data, before)
    count.take(got == (no, after), f"{name}, {places} places: read as {got[0]} and not {no}, or other numbers")


class Fence:
    """Memory with a page behind it that must not be read: whoever does ends the run."""

    def __init__(self, size):
        self.pages = mmap.mmap(-1, size + mmap.PAGESIZE)
        self.start, self.size = ctypes.addressof(ctypes.c_char.from_buffer(self.pages)), size
        page = ctypes.c_void_p(self.start + size), ctypes.c_size_t(mmap.PAGESIZE)
        self.stands = ctypes.CDLL(None).mprotect(*page, NO_ACCESS) == 0

    def put(self, data):
        """The address of bytes that end where the page begins."""
        at = self.size - len(data)
        self.pages[at:self.size] = data
        return self.start + at


def compare_fenced(count, library, fence, name, data, behind):
    no, which = read(data)
    before = list(range(SET_LENGTH))
    after = before if no else listed(which)
    values = c_interface.held("q", before)
    address = ctypes.c_char_p(fence.put(data + behind))
    got = library.kulfizan_read(address, len(data), values, SET_LENGTH), c_interface.kept(values, before)
    count.take(got == (no, after), f"{name}: read as {got[0]} and not {no}, or other numbers")


def compare_writing(count, library, name, which, room):
    no, length, buffer = write(which, FILL * room)
    got = c_interface.write(library, listed(which), FILL * room, UNTOLD)
    good = got == (no, UNTOLD if no else length, buffer)
    count.take(good, f"{name}, room {room}: written as {got[:2]} and not {no, length}, or other bytes")


def compare_none(count, library, name, numbers):
    for room in (0, LARGEST_ROOM):
        got = c_interface.write(library, numbers, FILL * room, UNTOLD)
        count.take(got == (TORN, UNTOLD, FILL * room), f"{name}, room {room}: written as {got[:2]}")


def main():
    seed = int(sys.argv[1]) if len(sys.argv) > 1 else time.time_ns() % 10**9
    print(f"seed {seed}")
    count, draw, module = c_interface.Count(), random.Random(seed), c_interface.built()
    count.take(module is not None, "the library is not built")
    if module:
        for name, data in sheets(draw):
            for places in (SET_LENGTH, any_places(draw)):
                compare_reading(count, module.LIBRARY, name, data, places)
            which = read(data)[1]
            compare_writing(count, module.LIBRARY, name, which, any_room(draw, which))
        for name, data in damaged_sheets(draw):
            compare_reading(count, module.LIBRARY, name, data, SET_LENGTH)
        for name, data, no in known_sheets(draw):
            compare_reading(count, module.LIBRARY, name, data, SET_LENGTH, no)
        faulthandler.enable()
        fence = Fence(2 * LARGEST_ROOM)
        count.take(fence.stands, "no memory that must not be read")
        for name, data, behind in parts(draw):
            compare_fenced(count, module.LIBRARY, fence, name, data, behind)
        for name, which, room in raw_sets(draw):
            compare_writing(count, module.LIBRARY, name, which, room)
        for name, numbers in no_sets(draw):
            compare_none(count, module.LIBRARY, name, numbers)
    return count.close()


if __name__ == "__main__":
    sys.exit(main())
