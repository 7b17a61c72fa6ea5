#!/usr/bin/env python3
"""Writes the skeletons in course/ from the answers in c/drive/tests/course: the same text, with a hole in place of the
lines between each `TODO N: ..` comment and the next `END`. The text after the colon in `END: ..` fills the hole, one
statement per line. For tests, `at` returns the text with the holes filled up to a milestone.

    dev/course_skeletons.py [--check]
"""

from __future__ import annotations

import re
import sys
from collections.abc import Iterator
from pathlib import Path

sys.dont_write_bytecode = True
from generated import ROOT, keep  # noqa: E402

ANSWERS, COURSE = ROOT / "c/drive/tests/course", ROOT / "course"
SKELETONS = {
    "driver.c": COURSE / "c/driver.c",
    "driver.py": COURSE / "python/driver.py",
    "driver.rs": COURSE / "rust/src/main.rs",
}
TODO = re.compile(r"\s*(/\*|//|#) TODO ([1-6]): ")
END = re.compile(r"(\s*)(?:/\*|//|#) END(?:: (.*?))?(?: \*/)?\n")


def comment(first: str, mark: str, lines: Iterator[str]) -> tuple[list[str], str]:
    """Returns the lines of a comment whose first line was already read, and the line after the comment."""
    found, line = [first], next(lines)
    if mark == "/*":
        while not found[-1].rstrip().endswith("*/"):
            found.append(line)
            line = next(lines)
        return found, line
    while line.strip().startswith(mark) and not END.fullmatch(line):
        found.append(line)
        line = next(lines)
    return found, line


def hole(line: str, lines: Iterator[str]) -> tuple[list[str], list[str]]:
    """Returns the lines that fill a hole, and the lines that replace them in a skeleton."""
    inside = []
    while not (end := END.fullmatch(line)):
        inside.append(line)
        line = next(lines)
    instead = re.findall(r"[^;]+;|[^;]+$", end[2] or "")
    return inside, [f"{end[1]}{one.strip()}\n" for one in instead]


def at(text: str, milestone: int) -> str:
    """Returns an answer's text with the holes of milestones up to this one filled; 0 returns the skeleton."""
    lines, made = iter(text.splitlines(keepends=True)), []
    for line in lines:
        if not (todo := TODO.match(line)):
            made.append(line)
            continue
        says, line = comment(line, todo[1], lines)
        inside, instead = hole(line, lines)
        made += inside if int(todo[2]) <= milestone else says + instead
    return "".join(made)


def texts() -> dict[Path, str]:
    return {path: at((ANSWERS / name).read_text(), 0) for name, path in SKELETONS.items() if (ANSWERS / name).exists()}


if __name__ == "__main__":
    keep(__doc__, texts)
