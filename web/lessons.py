#!/usr/bin/env python3
"""The lessons on the page; web/lessons/NN-name.txt are their only source.

    web/lessons.py check                     each answer solves its lesson, but no starting script does
    web/lessons.py grade FILE.. > class.csv  runs submitted files again: a line for each lesson in each file

A submitted file is what the page saves: a JSON object with `student` and `lessons`, which maps numbers to `script` and
`outcome`. ./nicbench determines the outcome again, whatever the file says.

Status 0: done; 1: an answer doesn't solve its lesson, or a file can't be read (its line says why); 2: there is no
nicbench; 3: wrong arguments.
"""

from __future__ import annotations

import argparse
import csv
import json
import re
import sys
from dataclasses import dataclass, field
from pathlib import Path
from typing import Any

HERE = Path(__file__).resolve().parent
sys.path.insert(0, str(HERE.parent / "python"))
LIMIT = 4096
# The maximum sizes in bytes of a student's file and of a script.
MOST_FILE, MOST_SCRIPT = 1 << 22, 1 << 18
PARTS = ("text", "task", "start", "check", "wants", "hint", "answer")


class Bad(Exception):
    """A lesson or a file that can't be read."""


@dataclass
class Lesson:
    """A lesson: its text, its task, the editor's initial contents, the lines that check it, the required output, a
    hint, an answer."""

    number: int
    title: str
    vfs: int | None
    parts: dict[str, str] = field(default_factory=dict)

    @property
    def wants(self) -> list[str]:
        return [line for line in self.parts["wants"].splitlines() if line]


def read_one(path: Path) -> Lesson:
    """Reads a lesson from its file: `NUMBER TITLE`, optionally `vfs N`, then its parts, each after a `--- NAME`
    line."""
    head, *rest = re.split(r"^--- (\w+)\n", path.read_text(encoding="utf-8"), flags=re.M)
    first, *more = head.strip().splitlines()
    number, _, title = first.partition(" ")
    vfs = next((int(line.split()[1]) for line in more if line.startswith("vfs ")), None)
    parts = {name: text.strip("\n") for name, text in zip(rest[::2], rest[1::2])}
    if missing := set(PARTS) ^ set(parts):
        raise Bad(f"{path.name}: missing or unknown: {', '.join(sorted(missing))}")
    read = {name: joined(text) if name in ("text", "task", "hint") else f"{text}\n" for name, text in parts.items()}
    return Lesson(int(number), title, vfs, read)


def joined(text: str) -> str:
    """Joins the lines of each paragraph into one."""
    return "\n\n".join(" ".join(one.split()) for one in re.split(r"\n\s*\n", text))


def read() -> list[Lesson]:
    """Returns all lessons, in order."""
    found = [read_one(path) for path in sorted((HERE / "lessons").glob("*.txt"))]
    if [it.number for it in found] != list(range(1, len(found) + 1)):
        raise Bad("the lessons' numbers aren't in order")
    return found


def as_data(it: Lesson) -> dict[str, Any]:
    """Returns a lesson for the page."""
    head = {"number": it.number, "title": it.title, "sizes": {"vfs": it.vfs, "fifo": None}}
    return head | it.parts | {"wants": it.wants}


def outcome(it: Lesson, script: str) -> str:
    """Returns `solved`, or why a script doesn't solve a lesson; web/model.js does the same in the page."""
    from nic82599.tools.script import Bench, Fault, Refused, of_text

    if len(script) > MOST_SCRIPT:
        return "the script is too long"
    bench, whole = Bench(it.vfs), f"{script.rstrip()}\n{it.parts['check']}\nr STATUS\n"
    try:
        loaded = of_text(bench, "lesson", whole)
        *printed, last = bench.run(whole, LIMIT)
    except Refused as refused:
        return f"refused {refused.name} at line {refused.line}"
    except Fault as fault:
        return str(fault)
    end = len(loaded.instructions) - 1
    if not last.startswith("ok") or not any(line.startswith(f"{end} word ") for line in printed):
        return last if last.startswith("failed") else "the script doesn't reach its end"
    replies = {line.partition(" ")[2] for line in printed}
    return next((f"the output lacks the line: {want}" for want in it.wants if want not in replies), "solved")


def check() -> int:
    faults = 0
    for it in read():
        for name, wanted in (("answer", True), ("start", False)):
            said = outcome(it, it.parts[name])
            if (said == "solved") != wanted:
                print(f"lesson {it.number}, {it.title}: the result of its {name} is: {said}")
                faults += 1
    print(f"lessons: {len(read())}, {faults} faults")
    return 1 if faults else 0


def cell(text: str) -> str:
    """Returns a string for a cell, changed if a spreadsheet would read it as a formula."""
    return f"'{text}" if text[:1] in ("=", "+", "-", "@", "\t", "\r") else text


def handed_in(path: Path) -> tuple[str, dict[str, Any]]:
    """Returns the student's name in a file, and its lessons. Raises Bad."""
    try:
        if path.stat().st_size > MOST_FILE:
            raise Bad(f"the file is longer than {MOST_FILE:,} bytes")
        found = json.loads(path.read_text(encoding="utf-8"))
        student, lessons = found["student"], found["lessons"]
        if not isinstance(student, str) or not isinstance(lessons, dict):
            raise Bad("the file isn't one that the page saves")
        return student, lessons
    except (OSError, ValueError, KeyError, TypeError, RecursionError) as fault:
        raise Bad(f"the file isn't one that the page saves ({type(fault).__name__})") from None


def grade(files: list[Path]) -> int:
    """Writes the class as CSV: file, student, lesson, the outcome in the file, the outcome of a run here."""
    out, known, status = csv.writer(sys.stdout, lineterminator="\n"), read(), 0
    out.writerow(["file", "student", "lesson", "title", "said", "checked"])
    for path in files:
        try:
            student, lessons = handed_in(path)
        except Bad as fault:
            out.writerow([cell(path.name), "", "", "", "", cell(str(fault))])
            status = 1
            continue
        for it in known:
            one = lessons.get(str(it.number))
            one = one if isinstance(one, dict) else {}
            script, said = one.get("script"), one.get("outcome")
            checked = outcome(it, script) if isinstance(script, str) else "not handed in"
            row = [path.name, student[:200], str(it.number), it.title, str(said or "")[:20], checked]
            out.writerow(map(cell, row))
    return status


def main() -> int:
    parser = argparse.ArgumentParser(description=__doc__, formatter_class=argparse.RawDescriptionHelpFormatter)
    parser.add_argument("what", choices=("check", "grade"))
    parser.add_argument("files", nargs="*", type=Path, metavar="FILE")
    try:
        given = parser.parse_args()
    except SystemExit as end:
        return 3 if end.code else 0
    try:
        return check() if given.what == "check" else grade(given.files)
    except Bad as fault:
        print(f"web/lessons.py: {fault}", file=sys.stderr)
        return 1


if __name__ == "__main__":
    sys.exit(main())
