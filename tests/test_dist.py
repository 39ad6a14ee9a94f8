"""What `make dist` packs, used on a machine without the kit: the archive is unpacked into a folder of its own, and README's
commands are run there as they stand, with a PATH that has no `rt`. What they write is held against the programs of the archive;
the library, its header and its pkg-config file serve a C program; and the Python package is imported from the archive alone.
"""
import csv
import os
import pathlib
import re
import shutil
import subprocess
import sys
import tarfile
import tempfile

import c_interface

ROOT = pathlib.Path(__file__).resolve().parent.parent
COMMANDS = ("sheet", "check", "list", "compare", "report")
PROGRAMS = ("quotes", "ends", "compare", "couples", "targets", "verdict")
C_PROGRAM = """#include <kulfizan.h>
#include <stdio.h>
int main(void) { return kulfizan_read((const uint8_t *)"", 0, (int64_t[1]){0}, 1) == KULFIZAN_TORN ? puts("torn") < 0 : 1; }
"""


class Count:
    def __init__(self):
        self.passed = self.failed = 0

    def hold(self, what, held, more=""):
        if held:
            self.passed += 1
        else:
            self.failed += 1
            print(f"FAILED: {what}{f': {more}' if more else ''}")


def packed(folder):
    """The unpacked archive of a fresh `make dist`."""
    c_interface.built()
    subprocess.run(["make", "--no-print-directory", "-C", str(ROOT), "dist"], check=True, capture_output=True)
    (archive,) = (ROOT / "target" / "dist").glob("*.tar.gz")
    with tarfile.open(archive) as tar:
        tar.extractall(folder)
    (tree,) = pathlib.Path(folder).iterdir()
    return tree


def without_kit(tree):
    """An environment in which nothing of the repository or the kit is found."""
    python = pathlib.Path(sys.executable).parent
    return {"PATH": f"{tree / 'bin'}:{python}:/usr/bin:/bin", "HOME": str(tree), "LC_ALL": "C.UTF-8"}


def readme_commands(tree):
    """The first lines `kulfizan ...` of README.md, in their order."""
    found = re.findall(r"^(?:\$ )?(kulfizan (\w+) .*)$", (tree / "README.md").read_text(), re.MULTILINE)
    return [(line, name) for line, name in found if name in COMMANDS][: len(COMMANDS)]


def run_readme(count, tree, environment):
    """README's five commands, one after the other."""
    lines = readme_commands(tree)
    count.hold("README begins with the five commands", [name for _, name in lines] == list(COMMANDS), lines)
    for line, name in lines:
        done = subprocess.run(line, shell=True, cwd=tree, env=environment, capture_output=True, text=True)
        count.hold(f"`{line}`", done.returncode == 0 and "Traceback" not in done.stderr, done.stderr or done.stdout[-300:])
    for line, shown in re.findall(r"^\$ (kulfizan .*)\n((?:(?!```|\$ ).*\n)+)", (tree / "README.md").read_text(), re.MULTILINE):
        done = subprocess.run(line, shell=True, cwd=tree, env=environment, capture_output=True, text=True)
        count.hold(f"what `{line}` prints", done.stdout == shown, done.stdout)
    return dict((name, line) for line, name in lines)


def compare_list(count, tree, environment, line):
    """The list that was written, row by row against the program `quotes` of the archive."""
    sheet = re.search(r"kulfizan list (\S+)", line)[1]
    path = tree / re.search(r"-o (\S+)", line)[1]
    rows = list(csv.DictReader(path.read_text().splitlines()))
    count.hold("the list has rows", len(rows) > 100, str(len(rows)))
    for row in rows:
        query = f"kind={row['kind']} age={row['age']} year={row['year']} span={row['span'] or 0}"
        query += f" rate={round(10_000 * float(row['rate'].rstrip('%')))}" if row["rate"] else ""
        done = subprocess.run(["quotes"], cwd=tree, env=environment, capture_output=True,
                              input=(tree / sheet).read_bytes() + query.encode() + b"\n")
        figure = re.search(rb"fig=(\S+)", done.stdout)
        count.hold(f"{query}", figure and figure[1].decode() == row["figure"], f"{row} {done.stdout}")


def compile_c(count, tree, environment):
    """A C program by pkg-config, against the shared library under its soname."""
    (tree / "torn.c").write_text(C_PROGRAM)
    environment = {**environment, "PKG_CONFIG_PATH": str(tree / "lib" / "pkgconfig"), "LD_LIBRARY_PATH": str(tree / "lib")}
    flags = (tree / "lib" / "pkgconfig" / "kulfizan.pc").read_text()
    named = [flag.replace("${libdir}", "lib").replace("${includedir}", "include")
             for key in ("Cflags", "Libs") for flag in re.search(rf"^{key}: (.*)$", flags, re.MULTILINE)[1].split()]
    done = subprocess.run(["gcc", "-Wall", "-o", "torn", "torn.c", *named], cwd=tree, env=environment, capture_output=True, text=True)
    count.hold("a C program compiles by the pkg-config file", done.returncode == 0, done.stderr)
    done = subprocess.run(["./torn"], cwd=tree, env=environment, capture_output=True, text=True)
    count.hold("and runs", (done.returncode, done.stdout) == (0, "torn\n"), done.stderr)
    soname = subprocess.run(["readelf", "-d", "lib/libkulfizan.so"], cwd=tree, env=environment, capture_output=True, text=True).stdout
    wanted = re.search(r"soname: \[(\S+)\]", soname)
    count.hold("the library has its soname", wanted and (tree / "lib" / wanted[1]).exists(), soname)


def import_package(count, tree, environment):
    """The package by the archive's own folder, with its own library."""
    code = "import kulfizan; print(kulfizan.Sheet.load('examples/women.sheet').quote('ecoh', 65, 2015).text, kulfizan.path())"
    done = subprocess.run([sys.executable, "-c", code], cwd=tree, env={**environment, "PYTHONPATH": "python"}, capture_output=True, text=True)
    count.hold("the package answers", done.stdout.startswith(f"21.38 {tree}"), done.stdout + done.stderr)


def main():
    count = Count()
    with tempfile.TemporaryDirectory() as folder:
        tree = packed(folder).resolve()
        environment = without_kit(tree)
        count.hold("no kit is found", shutil.which("rt", path=environment["PATH"]) is None)
        count.hold("every program is there", all(os.access(tree / "bin" / name, os.X_OK) for name in (*PROGRAMS, "kulfizan")))
        lines = run_readme(count, tree, environment)
        if "list" in lines:
            compare_list(count, tree, environment, lines["list"])
        compile_c(count, tree, environment)
        import_package(count, tree, environment)
    print(f"{count.passed} passed, {count.failed} failed")
    return count.failed


if __name__ == "__main__":
    sys.exit(1 if main() else 0)
