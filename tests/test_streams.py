"""What the programs do with their streams: outputs several times as long as the longest input, slow pipes, and reads and writes
that fail, are interrupted or move few bytes.

Every output is held against the second implementation in whole_run.py, byte for byte, and so is what stands on standard error:
nothing after a whole run, and one line where a read or a write failed. `faults.c` is preloaded to make single calls fail.
"""
import errno
import itertools
import os
import pathlib
import re
import subprocess
import sys
import tempfile
import threading
import time

import whole_run
import programs
import sheets
from grid import flat
from reader import LONGEST

EXAMPLES = programs.ROOT / "examples"
PATIENCE = 20
FLAT = sheets.text(flat())
READ, WRITE = "reading standard input failed", "writing standard output failed"
QUERIES = (
    b"kind=q age=65 year=2020 span=0\n", b"kind=coh age=119 year=2020 span=2\n", b"kind=q age=121 year=2020 span=0\n",
    b"kind=ecoh age=120 year=2064 span=0\n", b"kind=acoh age=120 year=2064 span=0 rate=0\n",
    b"kind=day age=119 year=2020 date=20211231\n", b"kind=day age=65 year=2020 date=21000229\n",
)


COUPLE_QUERIES = (
    b"kind=joint age=119 age2=118 year=2020 span=2\n", b"kind=last age=65 age2=119 year=2064 span=2\n",
    b"kind=ejoint age=120 age2=119 year=2064 span=0\n", b"kind=elast age=119 age2=120 year=2064 span=0\n",
    b"kind=last age=119 age2=65 year=2020 span=3\n", b"kind=joint age=65 age2=121 year=2020 span=0\n",
)
TARGET_QUERIES = (
    b"age=110 target=2000000000\n", b"age=120 target=3000000000\n", b"age=65 target=-1\n", b"age=121 target=0\n",
)
WITH_QUERIES = ("quotes", "ends", "compare", "couples", "targets")


def head_of(name):
    """What stands before the queries of a program's input."""
    return FLAT * 2 if name in ("compare", "couples") else FLAT


def queries_of(name):
    return {"couples": COUPLE_QUERIES, "targets": TARGET_QUERIES}.get(name, QUERIES)


def short_run(name):
    """An input with some lines of output, and one that is torn."""
    if name == "verdict":
        return (EXAMPLES / "women.sheet").read_bytes() + (EXAMPLES / "women-2020.column").read_bytes()
    queries = queries_of(name)
    return head_of(name) + b"".join(queries) + b"\n" + queries[0]


def line_feeds(name, size):
    """So many bytes: line feeds after the sheets, each of them a torn line."""
    head = head_of(name)
    return head + b"\n" * (size - len(head))


def mixed(name, size):
    """So many bytes: queries among line feeds, and at the end a line without one."""
    body = head_of(name)
    for query in itertools.cycle(queries_of(name)):
        if len(body) + len(query) + 400 > size:
            break
        body += query + b"\n" * 300
    return body + b"\n" * (size - len(body) - 1) + b"x"


def complaint(what, want, done, error):
    """What is wrong with a run: its output, its status, or what it says on standard error."""
    if done.stdout != want:
        return f"{what}: {len(done.stdout)} bytes of output {done.stdout[:80]!r}, not {len(want)} {want[:80]!r}"
    if done.returncode != 0:
        return f"{what}: exit status {done.returncode}"
    said = b"" if error is None else f"{error[0]}: {os.strerror(error[1])}\n".encode()
    return None if done.stderr == said else f"{what}: {done.stderr!r} on standard error, not {said!r}"


def run(name, **streams):
    streams = {"stdout": subprocess.PIPE, "stderr": subprocess.PIPE} | streams
    done = subprocess.run([programs.path(name)], check=False, timeout=PATIENCE, **streams)
    return subprocess.CompletedProcess(done.args, done.returncode, done.stdout or b"", done.stderr)


# ---- long outputs

def long_runs():
    for name in WITH_QUERIES:
        for make, size in itertools.product((line_feeds, mixed), (LONGEST - 1, LONGEST)):
            data = make(name, size)
            want, queries = whole_run.PROGRAMS[name](data), len(whole_run.lines_in(data)) - len(whole_run.lines_in(head_of(name)))
            what, lines = f"{name}, {make.__name__}, {size} bytes", want.count(b"\n")
            yield complaint(what, want, run(name, input=data), None)
            yield None if len(want) > 3 * LONGEST else f"{what}: the output has {len(want)} bytes only"
            yield None if lines == queries else f"{what}: {lines} lines for {queries} queries"
        yield complaint(f"{name}, too long", b"no=1\n", run(name, input=mixed(name, LONGEST + 1)), None)


# ---- slow pipes

def trickle(end, data, size, pause):
    for at in range(0, len(data), size):
        os.write(end, data[at : at + size])
        time.sleep(pause)
    os.close(end)


def slow_pipes():
    for name, size in itertools.product(whole_run.PROGRAMS, (1, 3, 700)):
        data = short_run(name)
        out, end = os.pipe()
        feeder = threading.Thread(target=trickle, args=(end, data, size, 0.0001 if size < 10 else 0.01))
        feeder.start()
        done = run(name, stdin=out)
        os.close(out)
        feeder.join()
        yield complaint(f"{name}, {size} bytes at a time", whole_run.PROGRAMS[name](data), done, None)


# ---- streams that fail

def failing():
    for name in whole_run.PROGRAMS:
        data = short_run(name)
        with open("/dev/full", "wb") as full:
            yield complaint(f"{name}, a full device", b"", run(name, input=data, stdout=full), (WRITE, errno.ENOSPC))
        place = os.open("/", os.O_RDONLY)
        yield complaint(f"{name}, a directory as input", b"", run(name, stdin=place), (READ, errno.EISDIR))
        yield complaint(f"{name}, a directory as output", b"", run(name, input=data, stdout=place), (WRITE, errno.EBADF))
        os.close(place)
        shut = run(name, input=data, preexec_fn=lambda: os.close(1))
        yield complaint(f"{name}, a closed output", b"", shut, (WRITE, errno.EBADF))
        shut = run(name, preexec_fn=lambda: os.close(0))
        yield complaint(f"{name}, a closed input", b"", shut, (READ, errno.EBADF))


def heads():
    """The output into `head -n 1`: its line is the first, and all programs of the pipe end."""
    for name in WITH_QUERIES:
        start = head_of(name) + queries_of(name)[0]
        data = start + line_feeds(name, LONGEST)[len(start) :]
        done = subprocess.run(["sh", "-c", '"$0" | head -n 1', programs.path(name)], input=data, check=False, timeout=PATIENCE,
                              stdout=subprocess.PIPE, stderr=subprocess.PIPE)
        first = whole_run.PROGRAMS[name](data).partition(b"\n")[0] + b"\n"
        yield complaint(f"{name}, into head", first, done, None)


# ---- single calls that fail, are interrupted or move few bytes

def preloaded(folder):
    """The library of faults.c."""
    library = pathlib.Path(folder) / "faults.so"
    source = programs.ROOT / "tests" / "faults.c"
    subprocess.run(["gcc", "-O2", "-Wall", "-shared", "-fPIC", "-o", library, source, "-ldl"], check=True)
    return library


READ_FAULTS = {
    # interrupted before, between and after pieces of the input
    "-4,-4,100,-4,1,2,3,-4,4000,-4": None,
    "7+": None,
    ",".join(["-4"] * 999): None,
    # failed at the first call, in the middle, after an interruption and at the end
    "-5": errno.EIO,
    "100,3000,-5": errno.EIO,
    "5000,-4,-5": errno.EIO,
    f"{LONGEST},-5": errno.EIO,
    # interrupted without end
    "10,-4+": errno.EINTR,
}
WRITE_FAULTS = {
    "-4,-4,1,-4,2,-4,30,-4,5": (None, None),
    "1+": (None, None),
    ",".join(["-4"] * 999): (None, None),
    "-28": (errno.ENOSPC, 0),
    "10,-4,-28": (errno.ENOSPC, 10),
    "1,2,3,-5": (errno.EIO, 6),
    "7,-4+": (errno.EINTR, 7),
}


def faulty(library):
    for name in whole_run.PROGRAMS:
        data = short_run(name)
        want = whole_run.PROGRAMS[name](data)
        for faults, error in READ_FAULTS.items():
            env = os.environ | {"LD_PRELOAD": str(library), "READ_FAULTS": faults}
            told = (READ, error) if error else None
            yield complaint(f"{name}, reads {faults[:40]}", b"" if error else want, run(name, input=data, env=env), told)
        for faults, (error, count) in WRITE_FAULTS.items():
            env = os.environ | {"LD_PRELOAD": str(library), "WRITE_FAULTS": faults}
            told = (WRITE, error) if error else None
            yield complaint(f"{name}, writes {faults[:40]}", want[:count], run(name, input=data, env=env), told)
        # a write that takes nothing and tells no error
        done = run(name, input=data, env=os.environ | {"LD_PRELOAD": str(library), "WRITE_FAULTS": "3,0"})
        told = re.fullmatch(f"{WRITE}: .*\n".encode(), done.stderr) and done.stdout == want[:3]
        yield None if told else f"{name}, a write of nothing: {done.stdout!r}, {done.stderr!r}"


def main():
    gone = programs.missing(*whole_run.PROGRAMS)
    if gone:
        print(gone)
        return 1
    with tempfile.TemporaryDirectory() as folder:
        found = [*long_runs(), *slow_pipes(), *failing(), *heads(), *faulty(preloaded(folder))]
    wrong = [said for said in found if said]
    for message in wrong[:20]:
        print(message)
    print(f"{len(found) - len(wrong)} passed, {len(wrong)} failed")
    return 1 if wrong else 0


if __name__ == "__main__":
    sys.exit(main())
