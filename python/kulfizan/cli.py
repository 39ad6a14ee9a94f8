"""The commands: their arguments, exit statuses, progress and errors.

A command's module has `add(commands)`, which adds its parser, and its `run(args)` gives the exit status: 0, or 1 where something is
refused, wrong or differing. What is wrong with the usage or a file is a `Fault`, one line on standard error, with status 2.
"""
import argparse
import contextlib
import importlib
import importlib.util
import os
import sys
import time
from typing import Any, Iterator, List, Optional, Union

from . import __version__
from .library import LONGEST_INPUT, Refused
from .sheets import Sheet

# The modules of the commands, in the order in which the help lists them.
MODULES = ("fits", "checking", "lists", "comparing", "judging", "report")
DESCRIPTION = """From a client's decimals to a price list, over the proved library of AG2014 and of later fits.

The library is the only judge: each figure, refusal and verdict is its answer. The commands prepare
what it is asked and present what it says, and never round a figure that the proved ends leave open."""
EPILOG = """exit status: 0; 1 where something is refused, wrong or differing; 2 for wrong usage, or a file that
cannot be read or written. `kulfizan COMMAND --help` has an example of each."""
WIDTH = 100


class Fault(Exception):
    """What is wrong with the usage or with a file, as a line for standard error."""

    def __init__(self, message: str, status: int = 2) -> None:
        super().__init__(message)
        self.status = status


class Help(argparse.RawDescriptionHelpFormatter):
    """Help with its own line breaks, of one width on every terminal."""

    def __init__(self, prog: str) -> None:
        super().__init__(prog, max_help_position=26, width=WIDTH)


def command(commands: Any, name: str, summary: str, description: str, example: str) -> argparse.ArgumentParser:
    """The parser of a command, with an example at its end."""
    epilog = "example:\n" + "\n".join(f"  {line}" for line in example.splitlines())
    return commands.add_parser(name, help=summary, description=description, epilog=epilog, formatter_class=Help)


def parser() -> argparse.ArgumentParser:
    """The parser with all commands that are there."""
    out = argparse.ArgumentParser(prog="kulfizan", description=DESCRIPTION, epilog=EPILOG, formatter_class=Help)
    out.add_argument("--version", action="version", version=f"kulfizan {__version__}")
    commands = out.add_subparsers(title="commands", metavar="COMMAND", dest="command", required=True)
    for name in MODULES:
        if importlib.util.find_spec(f"{__package__}.{name}"):
            importlib.import_module(f".{name}", __package__).add(commands)
    return out


# ---- files

def said(path: Any, error: OSError) -> Fault:
    """A file's error in one line."""
    return Fault(f"{path}: {error.strerror or error}")


def read(path: Any, most: int = -1) -> bytes:
    """A file's bytes, or with `-` those of standard input; at most so many, where a number is given."""
    try:
        if path == "-":
            return sys.stdin.buffer.read(most)
        with open(path, "rb") as file:
            return file.read(most)
    except OSError as error:
        raise said("standard input" if path == "-" else path, error) from None


def sheet(path: Any) -> Sheet:
    """A file's sheet, or with `-` that of standard input. A refused one ends the command with status 1."""
    data = read(path, LONGEST_INPUT + 1)
    try:
        return Sheet(data)
    except Refused as refused:
        raise refused_file(path, refused) from None


def refused_file(path: Any, refused: Refused) -> Fault:
    """A refused sheet in one line."""
    return Fault(f"{path}: refused as {refused.args[0]}; `kulfizan check {path}` says where", 1)


def write(path: Any, content: Union[str, bytes]) -> None:
    """Text or bytes to a file, or with `-` to standard output; a line feed stays a line feed."""
    data = content.encode("utf-8") if isinstance(content, str) else content
    try:
        if path == "-":
            sys.stdout.flush()
            sys.stdout.buffer.write(data)
            sys.stdout.buffer.flush()
        else:
            with open(path, "wb") as file:
                file.write(data)
    except BrokenPipeError:
        raise
    except OSError as error:
        raise said("standard output" if path == "-" else path, error) from None


def tell(message: str) -> None:
    """A line on standard error."""
    print(message, file=sys.stderr, flush=True)


# ---- progress

class Progress:
    """A line on standard error, rewritten in place, where that is a terminal and more than a second has passed."""

    def __init__(self, total: int, what: str) -> None:
        self.total, self.what, self.done = total, what, 0
        self.shown = False
        self.next = time.monotonic() + 1
        self.terminal = sys.stderr is not None and sys.stderr.isatty()

    def step(self, count: int = 1) -> None:
        """So many more are done."""
        self.done += count
        if self.terminal and time.monotonic() >= self.next:
            self.next = time.monotonic() + 0.2
            self.shown = True
            print(f"\r{self.what}: {self.done:,} of {self.total:,}", end="", file=sys.stderr, flush=True)

    def close(self) -> None:
        """The line goes."""
        if self.shown:
            print("\r\x1b[K", end="", file=sys.stderr, flush=True)


@contextlib.contextmanager
def progress(total: int, what: str) -> Iterator[Progress]:
    """Progress over so many steps: `with progress(9, "cells") as shown: shown.step()`."""
    shown = Progress(total, what)
    try:
        yield shown
    finally:
        shown.close()


# ---- the run

def quietly() -> int:
    """The reader of standard output is gone: nothing is said, and nothing is written at the exit either."""
    with contextlib.suppress(OSError, ValueError):
        os.dup2(os.open(os.devnull, os.O_WRONLY), sys.stdout.fileno())
    return 2


def main(arguments: Optional[List[str]] = None) -> int:
    """The exit status of a command line."""
    with contextlib.suppress(AttributeError):
        sys.stdout.reconfigure(errors="backslashreplace")
    try:
        args = parser().parse_args(arguments)
        status = args.run(args)
        sys.stdout.flush()
        return status
    except BrokenPipeError:
        return quietly()
    except Fault as fault:
        tell(f"kulfizan: {fault}")
        return fault.status
    except Refused as refused:
        tell(f"kulfizan: {refused}")
        return 1
    except OSError as error:
        tell(f"kulfizan: {f'{error.filename}: {error.strerror}' if error.filename else error}")
        return 2
    except KeyboardInterrupt:
        tell("kulfizan: interrupted")
        return 2
