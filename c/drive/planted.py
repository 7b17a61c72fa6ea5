"""Faults planted in correct drivers. corpus/planted.txt lists the lines that each fault replaces.

check.py checks that the card finds them. `c/drive/planted.py NAME` prints the driver with one of them.
"""

from __future__ import annotations

import hashlib
import re
import subprocess
import sys
from dataclasses import dataclass, field
from pathlib import Path

HERE = Path(__file__).resolve().parent
TABLE = HERE / "corpus/planted.txt"
DRIVERS = {
    "driver.c": HERE / "corpus/driver.c",
    "pages.c": HERE / "corpus/pages.c",
    "small.py": HERE.parents[1] / "python/examples/small.py",
}


class Unplanted(Exception):
    """The table is malformed, or doesn't match its driver."""


@dataclass
class Fault:
    """A fault in the table: the row that finds it and the reported cause, or why no row finds it."""

    name: str
    driver: str
    row: str = ""
    cause: str = ""
    memory: str = "strong"
    missed: str = ""
    what: str = ""
    hunks: list[tuple[list[str], list[str]]] = field(default_factory=list)

    def take(self, line: str) -> None:
        """Parses one line of the fault's entry."""
        if line.startswith("-"):
            if not self.hunks or self.hunks[-1][1]:
                self.hunks.append(([], []))
            self.hunks[-1][0].append(line[1:])
        elif line.startswith("+") and self.hunks:
            self.hunks[-1][1].append(line[1:])
        elif found := re.fullmatch(r"(row|cause|memory|missed|what): (.+)", line):
            setattr(self, found[1], found[2])
        elif line:
            raise Unplanted(f"{TABLE.name}: {self.name} has a malformed line: {line}")

    def source(self) -> str:
        """Returns the driver's source with the planted fault."""
        text = DRIVERS[self.driver].read_text()
        for old, new in self.hunks:
            if text.count("\n".join(old)) != 1:
                said = f"{self.name}: these lines don't occur exactly once in {self.driver}:\n"
                raise Unplanted(said + "\n".join(old))
            text = text.replace("\n".join(old), "\n".join(new))
        return text.replace('"bugs.h"', f'"{HERE}/corpus/bugs.h"')


def faults() -> list[Fault]:
    """Returns all faults in the table, in order."""
    found: list[Fault] = []
    for line in TABLE.read_text().splitlines():
        if head := re.fullmatch(r"\[(\w+)\] (\S+)", line):
            found.append(Fault(head[1], head[2]))
        elif found:
            found[-1].take(line)
    for fault in found:
        if fault.driver not in DRIVERS or not fault.hunks or bool(fault.row and fault.cause) == bool(fault.missed):
            raise Unplanted(f"{TABLE.name}: {fault.name} needs a driver, lines, and either a row "
                            "with its cause or the reason why it is missed")
    return found


def sample(count: int | None) -> list[Fault]:
    """Returns `count` of the faults that a row finds, selected by the hash of HEAD; all such faults if None."""
    words = ["git", "-C", HERE, "rev-parse", "HEAD"]
    head = subprocess.run(words, capture_output=True, text=True, check=False).stdout.strip()
    named = [fault for fault in faults() if fault.row]
    return sorted(named, key=lambda it: hashlib.sha256(f"{head} {it.name}".encode()).digest())[:count]


def main() -> int:
    for fault in faults():
        if sys.argv[1:] == [fault.name]:
            print(fault.source(), end="")
            return 0
    print(*(f"{fault.name:30} {fault.what}" for fault in faults()), sep="\n")
    return 0 if not sys.argv[1:] else 2


if __name__ == "__main__":
    sys.exit(main())
