"""Lists of rows that a driver must pass, with points: reads the files of --require and computes the results."""

from __future__ import annotations

import difflib
import re
import xml.etree.ElementTree as ElementTree
from dataclasses import dataclass
from pathlib import Path

from nic82599.tools.printable import shortened

from .rows import NOT_APPLICABLE, PASSED, Refused, Row

MOST_BYTES, MOST_POINTS = 1 << 20, 1000
LINE = re.compile(r"([a-z0-9-]{1,60})(?:\s+([0-9]{1,5}))?")


@dataclass(frozen=True)
class Wanted:
    """A row in a list."""

    row: str
    points: int
    line: int


@dataclass(frozen=True)
class Milestone:
    """A list: the rows of a file, in order."""

    path: Path
    wanted: tuple[Wanted, ...]

    @property
    def name(self) -> str:
        return self.path.stem

    @property
    def most(self) -> int:
        return sum(one.points for one in self.wanted)


@dataclass(frozen=True)
class Mark:
    """A row of a list, and why it earned no points; "" if it passed."""

    wanted: Wanted
    cause: str
    seconds: float


@dataclass(frozen=True)
class Result:
    """A driver's results for a list."""

    milestone: Milestone
    marks: tuple[Mark, ...]

    @property
    def points(self) -> int:
        return sum(mark.wanted.points for mark in self.marks if not mark.cause)

    @property
    def missed(self) -> list[Mark]:
        return [mark for mark in self.marks if mark.cause]


def _text(path: Path) -> str:
    """Returns the contents of a list's file. Raises Refused unless it is a regular file below a size limit, because a
    pipe might never end."""
    if not path.is_file():
        raise Refused(f"{path}: no file: --require takes a file with a row and its points on each line")
    try:
        with path.open("rb") as file:
            given = file.read(MOST_BYTES + 1)
        if len(given) > MOST_BYTES:
            raise Refused(f"{path}: too long: a list of rows is at most {MOST_BYTES:,} bytes long")
        return given.decode("utf-8")
    except (OSError, UnicodeDecodeError) as fault:
        raise Refused(f"{path}: unreadable: {shortened(str(fault), 160)}") from fault


def _wanted(place: str, number: int, text: str) -> Wanted:
    """Parses a line. Raises Refused if it is malformed."""
    found = LINE.fullmatch(text)
    points = int(found[2] or 1) if found else 0
    if not found or not 1 <= points <= MOST_POINTS:
        say = f"a line is a row's name and its points, 1 to {MOST_POINTS:,} (1 by default)"
        raise Refused(f"{place}: malformed line: {shortened(repr(text), 80)}: {say}")
    return Wanted(found[1], points, number)


def read(path: Path) -> Milestone:
    """Reads the list in a file. Raises Refused with the line and the problem if it isn't a valid list."""
    wanted: dict[str, Wanted] = {}
    for number, line in enumerate(_text(path).splitlines(), 1):
        text = line.partition("#")[0].strip()
        if not text:
            continue
        one = _wanted(f"{path}:{number}", number, text)
        if one.row in wanted:
            raise Refused(f"{path}:{number}: duplicate row: {one.row} is already on line {wanted[one.row].line}")
        wanted[one.row] = one
    if not wanted:
        raise Refused(f"{path}: no rows: write a row's name on each line (`nicdrive --list` prints the rows)")
    return Milestone(path, tuple(wanted.values()))


def check_names(milestones: list[Milestone], rows: list[Row]) -> None:
    """Raises Refused if a list names a row that the card doesn't contain."""
    names = [row.name for row in rows]
    for milestone in milestones:
        for one in milestone.wanted:
            if one.row in names:
                continue
            near = difflib.get_close_matches(one.row, names, 1, 0.5)
            say = f"; did you mean {near[0]}?" if near else "; `nicdrive --list` prints the rows"
            raise Refused(f"{milestone.path}:{one.line}: unknown row: the card contains no row {one.row}{say}")


def named(milestones: list[Milestone]) -> set[str]:
    """Returns the names of the rows in all lists."""
    return {one.row for milestone in milestones for one in milestone.wanted}


def _cause(row: Row) -> str:
    if row.state == PASSED:
        return ""
    return f"{NOT_APPLICABLE}: {row.lack}" if row.state == NOT_APPLICABLE else row.cause or row.state


def results(milestones: list[Milestone], rows: list[Row]) -> list[Result]:
    """Returns the results of the given rows. A row that isn't applicable earns no points."""
    made = {row.name: row for row in rows}
    return [
        Result(it, tuple(Mark(one, _cause(made[one.row]), made[one.row].seconds) for one in it.wanted))
        for it in milestones
    ]


def _points(count: int) -> str:
    return f"{count:,} point{'' if count == 1 else 's'}"


def text(given: list[Result]) -> str:
    """Formats a line for each list, followed by a line for each row that earned no points."""
    lines = []
    for result in given:
        lines.append(f"{result.milestone.name}: {result.points:,} of {_points(result.milestone.most)}")
        lines += [f"  {one.wanted.row:26} {_points(one.wanted.points)} lost: {one.cause}" for one in result.missed]
    if len(given) > 1:
        most = sum(result.milestone.most for result in given)
        lines.append(f"all lists: {sum(result.points for result in given):,} of {_points(most)}")
    return "\n".join(lines) + "\n"


def _properties(parent: ElementTree.Element, **values: int) -> None:
    properties = ElementTree.SubElement(parent, "properties")
    for name, value in values.items():
        ElementTree.SubElement(properties, "property", name=name, value=str(value))


def write_junit(given: list[Result], path: Path) -> None:
    """Writes a suite for each list. A row that didn't pass is a failure, even if it isn't applicable."""
    suites = ElementTree.Element("testsuites")
    for result in given:
        name = result.milestone.name
        suite = ElementTree.SubElement(suites, "testsuite", name=name, tests=str(len(result.marks)))
        suite.set("failures", str(len(result.missed)))
        suite.set("time", f"{sum(mark.seconds for mark in result.marks):.3f}")
        _properties(suite, points=result.points, points_of=result.milestone.most)
        for mark in result.marks:
            case = ElementTree.SubElement(
                suite, "testcase", classname=name, name=mark.wanted.row, time=f"{mark.seconds:.3f}"
            )
            _properties(case, points=0 if mark.cause else mark.wanted.points, points_of=mark.wanted.points)
            if mark.cause:
                kind, _, message = mark.cause.partition(": ")
                ElementTree.SubElement(case, "failure", type=kind, message=message or mark.cause)
    ElementTree.indent(suites)
    ElementTree.ElementTree(suites).write(path, encoding="UTF-8", xml_declaration=True)


def write(given: list[Result], folder: Path) -> None:
    """Writes points.txt and points.xml."""
    (folder / "points.txt").write_text(text(given))
    write_junit(given, folder / "points.xml")
