#!/usr/bin/env python3
"""Writes the verdicts of runs, as junit.sh records them, as JUnit XML.

    drivers/common/junit.py FOLDER FILE SUITE

FOLDER contains one numbered file for each run: its name, seconds and status on a line each, then its output. Status 0:
FILE is written; 2: FOLDER can't be read or FILE can't be written; 3: wrong arguments."""

from __future__ import annotations

import re
import sys
from dataclasses import dataclass
from pathlib import Path
from xml.etree import ElementTree

NOT_XML = re.compile("[^\t\n\x20-\uD7FF\uE000-\uFFFD]")  # characters that XML 1.0 forbids
STOPPED = re.compile(r" ended on SIG|hasn't ended after")


@dataclass
class Run:
    """A finished run."""

    name: str
    seconds: float
    status: int
    said: str

    @property
    def cause(self) -> str:
        """The first line that names a problem, or the last line. If the run crashed or hung, also the line before; if
        the run knows the reason, also that."""
        lines = [line for line in self.said.splitlines() if line.strip()] or [f"status {self.status}"]
        at = next((k for k, line in enumerate(lines) if line.startswith("wrong")), len(lines) - 1)
        is_stopped = at > 0 and STOPPED.search(lines[at])
        before = f"; the line before: {lines[at - 1].strip()}" if is_stopped else ""
        why = next((f"; {line}" for line in lines if line.startswith("why: ")), "")
        return lines[at] + before + why


def run_of(path: Path) -> Run:
    """Reads a run from its record."""
    text = path.read_bytes().decode(errors="replace")
    name, seconds, status, said = NOT_XML.sub("?", text).split("\n", 3)
    return Run(name, float(seconds), int(status), said)


def add_case(suite: ElementTree.Element, run: Run) -> None:
    """Adds a test case: a failure if the run failed, an error if it couldn't run."""
    case = ElementTree.SubElement(
        suite, "testcase", classname=suite.get("name", ""), name=run.name, time=f"{run.seconds:.3f}"
    )
    if run.status == 0:
        ElementTree.SubElement(case, "system-out").text = run.said
        return
    kind = "failure" if run.status == 1 else "error"
    ElementTree.SubElement(case, kind, type=f"status {run.status}", message=run.cause).text = run.said


def write(runs: list[Run], path: Path, name: str) -> None:
    """Writes all runs as one suite."""
    suite = ElementTree.Element("testsuite", name=name, tests=str(len(runs)))
    suite.set("failures", str(sum(run.status == 1 for run in runs)))
    suite.set("errors", str(sum(run.status > 1 for run in runs)))
    suite.set("time", f"{sum(run.seconds for run in runs):.3f}")
    for run in runs:
        add_case(suite, run)
    ElementTree.indent(suite)
    ElementTree.ElementTree(suite).write(path, encoding="UTF-8", xml_declaration=True)


def main(words: list[str]) -> int:
    """Runs the command."""
    if len(words) != 3:
        print(__doc__, file=sys.stderr)
        return 3
    folder, path, name = words
    try:
        files = sorted((it for it in Path(folder).iterdir() if it.name.isdigit()), key=lambda it: int(it.name))
        write([run_of(it) for it in files], Path(path), name)
    except (OSError, ValueError) as error:
        print(f"junit.py: {error}", file=sys.stderr)
        return 2
    return 0


if __name__ == "__main__":
    sys.exit(main(sys.argv[1:]))
