"""Shared by the tools: their options, and how they exit."""

from __future__ import annotations

import argparse
import contextlib
import os
import re
import sys
from collections.abc import Callable, Iterator
from typing import Any, NoReturn, TextIO, cast

from .. import places
from ..version import VERSION
from .printable import Printable, shortened
from .script import Fault, Refused

# The maximum number of digits of a number on the command line.
MOST_DIGITS = 18
# The maximum of --limit: for a script, which may run forever, and for a recording.
MOST_OF_SCRIPT, MOST_STEPS = 100_000, 100_000_000


def called(text: str) -> str:
    """Adapts the commands in a help text to the installation: `tools/nicview` in a clone, `nicview` if installed."""
    return text if places.clone() else re.sub(r"(?<![\w/.])(?:tools/|\./)(?=nic|pcap2nic)", "", text)


def add_version(parser: argparse.ArgumentParser, name: str) -> None:
    """Adds the option that prints the package's version."""
    parser.add_argument("--version", action="version", version=f"{name} {VERSION}", help="print the version")


class Parser(argparse.ArgumentParser):
    """Supports --version, and reports invalid arguments in one line, with status 3."""

    def __init__(self, **how: Any) -> None:
        super().__init__(**how)
        add_version(self, self.prog)

    def error(self, message: str) -> NoReturn:
        print(f"{self.prog}: {message}; {self.prog} --help lists the options", file=sys.stderr)
        sys.exit(3)


def number(low: int, high: int) -> Callable[[str], int]:
    """Returns a parser of numbers from `low` to `high`."""

    def read(word: str) -> int:
        value = int(word) if word.isascii() and word.isdigit() and len(word) <= MOST_DIGITS else -1
        if not low <= value <= high:
            raise argparse.ArgumentTypeError(f"{shortened(word)} isn't a number from {low} to {high}")
        return value

    return read


def limit(parser: argparse.ArgumentParser, default: int, what: str) -> None:
    """Adds the option for the number of steps."""
    which = number(1, MOST_STEPS)
    parser.add_argument("--limit", metavar="N", type=which, default=default, help=f"{what} ({default})")


def limit_of_script(asked: int) -> int:
    """Returns a script's number of steps. Exits with status 3 if it is above the maximum."""
    if asked > MOST_OF_SCRIPT:
        print(f"{asked} is more than the {MOST_OF_SCRIPT} steps that --limit allows for a script", file=sys.stderr)
        sys.exit(3)
    return asked


def sizes(parser: argparse.ArgumentParser) -> None:
    """Adds the options for the device's sizes."""
    parser.add_argument("--vfs", type=number(0, 63), metavar="N", help="number of virtual functions of the device (0)")
    parser.add_argument(
        "--fifo", type=number(1, 4_096), metavar="N", help="number of frames that may wait to be received (64)"
    )


def drop_output() -> None:
    """Discards the rest of the output; otherwise Python would try to write it once more at exit."""
    os.dup2(os.open(os.devnull, os.O_WRONLY), sys.stdout.fileno())


def ended(main: Callable[[], int], name: str, unwritten: int = 2) -> int:
    """Runs a tool and returns its status. An error is one line on standard error; `unwritten` is the status if the
    output can't be written."""
    if sys.stdout is None:  # standard output is closed
        sys.stdout = open(os.devnull, "w")  # noqa: SIM115
    with printable_output():
        return _ended(main, name, unwritten)


@contextlib.contextmanager
def printable_output() -> Iterator[None]:
    """Escapes printed text that may come from a file, so that none of it controls the terminal."""
    former = sys.stdout, sys.stderr
    sys.stdout, sys.stderr = (cast("TextIO", Printable(it) if it else it) for it in former)
    try:
        yield
    finally:
        sys.stdout, sys.stderr = former


def _ended(main: Callable[[], int], name: str, unwritten: int) -> int:
    try:
        try:
            return main()
        finally:
            # even after --help and --version
            sys.stdout.flush()
    except Refused as refused:
        print(called(f"{name}: {refused}: run tools/niclint SCRIPT for details"), file=sys.stderr)
        return 2
    except Fault as fault:
        print(f"{name}: {fault}", file=sys.stderr)
        return 4 if fault.is_of_program else 2
    except BrokenPipeError:
        drop_output()
        return 0
    except OSError as fault:
        # The code that opens a file reports its errors, so this one is usually about standard output.
        what = "standard output can't be written" if fault.filename is None else fault.filename
        print(f"{name}: {what} ({fault.strerror})", file=sys.stderr)
        drop_output()
        return unwritten
    except MemoryError:
        print(f"{name}: out of memory", file=sys.stderr)
        return 2
    except KeyboardInterrupt:
        return 130
