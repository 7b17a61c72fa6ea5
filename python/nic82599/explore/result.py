"""The result of a schedule, parsed from the engine's output."""

from __future__ import annotations

import re
from collections.abc import Iterable
from dataclasses import dataclass, field
from pathlib import Path

# enum nicx_outcome
OUTCOMES = (
    "fine", "end", "always", "deadlock", "endless", "fault", "memory", "check", "misuse", "crash", "hang", "race",
)  # fmt: skip
_POINT = re.compile(r"(.+?) +# (.*)")
_PLACED = re.compile(r"(.*) at ([^<]+:\d+(?: < [^<]+:\d+)*)")
_TURN = re.compile(
    r"# point of no return: if (.*) (?:acted|were chosen) here instead, the run could still succeed; "
    r"after this step all (\d+) tried schedules fail"
)
_ALL_FAIL = re.compile(r"# all (\d+) tried schedules fail: .*")
_REPLAYED = re.compile(r" *\d+  (\S.*)")
_ON_AND_ON = re.compile(r" +and so on: the last (\d+) points repeat")
_PARTS = re.compile(r"\S+: the run departs from the schedule here, at (.*):(\d+)(?: \(.*\))?")
_WAS = re.compile(r"\S+:   it (?:was: |is:  )(.*)")


@dataclass
class Turn:
    """A failure's point of no return: the point; the actor at this point in a schedule that succeeded; and how many
    schedules were tried after it, all of which failed. If `point` is None, all tried schedules fail, so the order of
    the steps doesn't matter. `line` is the comment about it in the schedule's file."""

    point: int | None
    other: str
    tried: int
    line: str


@dataclass
class Parting:
    """Where a driver diverges from a schedule's file: the `point` of the schedule, the file's line, what the point was,
    and what it is now. `point` is None if the driver never diverges."""

    path: str
    point: int | None = None
    line: int = 0
    was: str = ""
    now: str = ""

    def __str__(self) -> str:
        if self.point is None:
            return "the run follows the whole schedule"
        return f"the run departs from the schedule at {self.path}:{self.line}; it was: {self.was}; it is: {self.now}"


@dataclass
class Result:
    """The result of a schedule. `outcome` is one of the outcomes in docs/explore.md, `fine` if nothing is wrong;
    `words` says what is wrong; `points` are the actor and the action at each point."""

    outcome: str = "fine"
    words: str = ""
    points: list[tuple[str, str]] = field(default_factory=list)
    without: frozenset[str] = frozenset()  # what the schedule leaves out: "task a", "handler b", "frame 2", "link 0"
    cycle: int = 0  # number of points at the end that repeat forever; 0 if none do
    places: list[str] = field(default_factory=list, compare=False)  # the source line of each point
    parting: Parting | None = field(default=None, compare=False)  # where a lenient replay diverges from the file
    turn: Turn | None = field(default=None, compare=False)  # the point of no return of a failure that a search found
    traceback: str = field(default="", compare=False)  # traceback of the task that raised

    @property
    def actors(self) -> list[str]:
        return [name for name, _ in self.points]

    @property
    def switches(self) -> int:
        """The number of points at which the actor differs from the actor at the previous point. Chosen values don't
        count."""
        names = [name for name in self.actors if not name.startswith("value ")]
        return sum(one != other for one, other in zip(names, names[1:]))

    @property
    def values(self) -> int:
        """The sum of the chosen values."""
        return sum(int(name.split()[1]) for name in self.actors if name.startswith("value "))

    def _add(self, line: str) -> None:
        """Adds a point from a line of a schedule's file."""
        found = _POINT.fullmatch(line)
        name, words = (found[1], found[2]) if found else (line.rstrip(), "")
        placed = _PLACED.fullmatch(words)
        self.points.append((name, placed[1] if placed else words))
        self.places.append(placed[2] if placed else "")

    def read_run(self, lines: Iterable[str]) -> None:
        """Adds the points of a schedule that was run."""
        for line in lines:
            self._add(line)

    def read_replay(self, lines: Iterable[str], path: str) -> None:
        """Parses the output of a replay: its points, its cycle, and where it diverges from the file."""
        parting = Parting(path)
        for line in lines:
            if found := _REPLAYED.fullmatch(line):
                self._add(found[1])
            elif found := _ON_AND_ON.fullmatch(line):
                self.cycle = int(found[1])
            elif found := _PARTS.fullmatch(line):
                parting.point, parting.line = len(self.points), int(found[2])
            elif found := _WAS.fullmatch(line):
                parting.was, parting.now = (parting.was, found[1]) if parting.was else (found[1], "")
        self.parting = parting

    def read_file(self, path: Path) -> None:
        """Parses the file of a schedule."""
        begin = None
        for line in path.read_text().splitlines():
            if found := _TURN.match(line):
                self.turn = Turn(len(self.points), found[1], int(found[2]), line)
            elif found := _ALL_FAIL.fullmatch(line):
                self.turn = Turn(None, "", int(found[1]), line)
            elif line.startswith("without "):
                self.without |= {line.removeprefix("without ")}
            elif line.startswith("cycle "):
                begin = len(self.points)
            elif not line.startswith(("#", "scenario ", "memory ", "points ")):
                self._add(line)
        self.cycle = 0 if begin is None else len(self.points) - begin

    def lines(self) -> list[str]:
        """Returns the schedule as lines: what it leaves out, its points, and its cycle."""
        lines = [f"without {name}" for name in sorted(self.without)]
        begin = len(self.points) - self.cycle if self.cycle else None
        for number, ((name, words), place) in enumerate(zip(self.points, self.places)):
            if self.turn and number == (self.turn.point or 0):
                lines.append(self.turn.line)
            if number == begin:
                lines.append(f"{'cycle':<24} # repeats from here on:")
            lines.append(f"{name:<24} # {words}{f' at {place}' if place else ''}")
        return lines
