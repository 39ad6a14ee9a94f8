"""What has to be believed, by tools/believed: the definitions that the public contracts reach stand apart from laws and nothing
else stands with them, README.md has their number, and the tool sees a law that a definition imports, a word of an inner contract,
and a call that is not there."""
import pathlib
import re
import shutil
import subprocess
import sys
import tempfile

ROOT = pathlib.Path(__file__).resolve().parent.parent
MOST_FILES, MOST_LINES = 90, 3900


def believed(root):
    """The tool's exit status and its lines, on a tree."""
    done = subprocess.run([sys.executable, str(ROOT / "tools" / "believed"), str(root)], capture_output=True, text=True)
    return done.returncode, (done.stdout + done.stderr).strip().split("\n")


def copied(folder):
    """A copy of what the tool reads."""
    shutil.copy(ROOT / "README.md", folder)
    for part in ("specs", "proofs", "src"):
        for old in (ROOT / "crates").glob(f"*/{part}"):
            shutil.copytree(old, pathlib.Path(folder, "crates", old.parent.name, part))
    return pathlib.Path(folder)


def main():
    passed = failed = 0

    def hold(what, held):
        nonlocal passed, failed
        if held:
            passed += 1
        else:
            failed += 1
            print(f"FAILED: {what}")

    status, lines = believed(ROOT)
    total = re.fullmatch(r"(\d+) files, (\d+) lines", lines[-1])
    hold("the contracts reach definitions alone", status == 0 and total)
    files, count = map(int, total.groups()) if total else (0, 0)
    hold("few enough to read", 0 < files <= MOST_FILES and 0 < count <= MOST_LINES)
    hold("README.md has the number", f"{files} files of {count:,} lines" in (ROOT / "README.md").read_text())
    hold("each file once, with its lines", sum(int(line.split()[0]) for line in lines[:-1]) == count and len(set(lines)) == files + 1)

    reached = {line.split()[1] for line in lines[:-1]}
    above = {str(path.relative_to(ROOT)) for path in (ROOT / "crates").glob("*/specs/*.antt")}
    lists = {"Lib.antt", "code.antt", "laws.antt", "examples.antt"}
    hold("no other file stands with the definitions", {path for path in above if pathlib.Path(path).name not in lists} == reached)

    law = "use Rattle.number_exponential.proofs.laws.Soundness.{lower-sound}\n"
    word = "use Rattle.text_printing.specs.code.Put.{Put}\n"
    for what, path, more in (
        ("a law in a definition", "crates/quote_kinds/specs/Kinds.antt", law),
        ("a law far below", "crates/number_fraction/specs/Ratio.antt", law),
        ("a word of inner contracts", "crates/run/specs/Run.antt", word),
        ("a call that is not there", "README.md", None),
    ):
        with tempfile.TemporaryDirectory() as folder:
            tree = copied(folder)
            text = (tree / path).read_text()
            (tree / path).write_text(text.replace("`run::run`", "`run::ran`") if more is None else more + text)
            status, lines = believed(tree)
            hold(f"{what} is seen", status != 0 and (more is None or "no definition" in lines[-1]))

    print(f"{passed} passed, {failed} failed")
    return failed


if __name__ == "__main__":
    sys.exit(1 if main() else 0)
