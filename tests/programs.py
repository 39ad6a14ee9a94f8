"""The built programs, for the tests: in target/bin, or in the folder that the variable KULFIZAN_BIN names."""
import os
import pathlib
import subprocess

ROOT = pathlib.Path(__file__).resolve().parent.parent
FOLDER = pathlib.Path(os.environ.get("KULFIZAN_BIN", ROOT / "target" / "bin")).resolve()
PATIENCE = 60


def path(name):
    return str(FOLDER / name)


def missing(*names):
    """Which of the programs are not there, as a failed test's last lines; empty where all are."""
    gone = [path(name) for name in names if not (FOLDER / name).exists()]
    return "".join(f"{name} is not there\n" for name in gone) + f"0 passed, {len(gone)} failed" if gone else ""


def run(name, data):
    """A program's exit status and output for an input."""
    done = subprocess.run([path(name)], input=data, stdout=subprocess.PIPE, check=False, timeout=PATIENCE)
    return done.returncode, done.stdout
