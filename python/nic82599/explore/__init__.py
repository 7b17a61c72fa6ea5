"""Searches for an order of steps that breaks a driver in Python, as docs/explore.md describes it for C.

A `Scenario` is a driver's code as tasks and interrupt handlers that use one controller. Each access by a task is a
point: another task, a handler, a step of the device, the next frame or a link change may come first. `search` runs
schedules until one fails; `replay` runs one from a file. Python and C share the engine, so a schedule found for the
same scenario in C can be replayed here, and vice versa. Tested, not proved.

Tasks are functions on threads, only one of which runs at any time. A schedule therefore needs no lock around the
driver's memory, and code between two points isn't interrupted. A search runs in its own processes, forked after the
device is up. This process doesn't see what a scenario stores outside the schedule. A replay runs in this process.
"""

from __future__ import annotations

import os
import re
import tempfile
from collections.abc import Callable
from contextlib import AbstractContextManager, nullcontext
from dataclasses import dataclass
from pathlib import Path

from ..stacks import Mutex
from ..tools.printable import printable
from .kit import TCP, UDP, Flow, Mailbox, frame_number, numbered_frame
from .result import OUTCOMES, Parting, Result, Turn
from .scenario import AT_REST, BESIDE, MEMORY, Scenario
from .session import Misused, Session

__all__ = [
    "AT_REST", "BESIDE", "TCP", "UDP", "BadSchedule", "BadWord", "Failure", "Flow", "Mailbox", "Mutex", "Parting",
    "Report", "Result", "Scenario", "Search", "Turn", "Vacuous", "frame_number", "numbered_frame", "replay", "search",
]  # fmt: skip

KINDS = tuple(MEMORY)
STRATEGIES = ("random", "priorities", "mixed", "exhaustive")
MOST_SHARDS = 65_536


class BadSchedule(ValueError):
    """A schedule file is invalid or doesn't fit the scenario; the message says where and why."""

    def __init__(self, words: str) -> None:
        super().__init__(printable(words))


class BadWord(ValueError):
    """An argument of `search` is invalid; the message says which and why."""


class Failure(AssertionError):
    """A schedule failed. The message includes its points, its file if there is one, and the traceback if a task
    raised."""

    def __init__(self, result: Result, description: str, path: Path | None) -> None:
        shown = "".join(f"    {line}\n" for line in result.lines())
        where = f"the schedule, also in {path}" if path else "the schedule"
        super().__init__(f"{result.outcome}: {result.words}\n{description}; {where}:\n{shown}{result.traceback}")
        self.result, self.path = result, path


class Vacuous(AssertionError):
    """A strict search found no failure, but parts of the scenario never ran."""


@dataclass
class Report:
    """The report of a search that found no failure: the number of distinct schedules (an estimate above 65,536), the
    number of faults, and a line for everything that the scenario names but that never happened."""

    distinct: int
    faults: int
    never: list[str]


class Search:
    """A scenario with its device up, for running single schedules in this process. Closed by `close`, or at the end of
    a `with` block. Only one can be open."""

    def __init__(self, scenario: Scenario, hang: float = 10, memory: str | None = None) -> None:
        self._session = Session(scenario, hang, memory)
        self.is_cut = False

    def close(self) -> None:
        self._session.close()

    def __enter__(self) -> Search:
        return self

    def __exit__(self, *_fault: object) -> None:
        self.close()

    def run(self, choose: Callable[[list[str]], str | None]) -> Result:
        """Runs a schedule. At each point `choose` is called with the names of the runnable actors, as in a schedule's
        file; the actor of the previous point comes first. `choose` returns one of these names. If it returns None, the
        schedule ends and `is_cut` is true."""
        result, self.is_cut = self._session.run(choose)
        return result


# --- the arguments of a search ---

# The numeric arguments and their ranges.
RANGES = {
    "runs": (1, 1 << 62),
    "seed": (0, (1 << 64) - 1),
    "depth": (1, 16),
    "preemptions": (0, 1_000),
    "jobs": (1, 256),
}


def check_number(name: str, value: object) -> None:
    """Raises BadWord if an argument of `search` is outside its range."""
    least, most = RANGES[name]
    if not isinstance(value, int) or isinstance(value, bool) or not least <= value <= most:
        raise BadWord(f"{name}: {value!r} isn't a whole number from {least:,} to {most:,}")


def check_seconds(name: str, seconds: object, most: int) -> None:
    if not isinstance(seconds, (int, float)) or isinstance(seconds, bool) or not 0 < seconds <= most:
        raise BadWord(f"{name}: {seconds!r} isn't a number of seconds above 0 and up to {most:,}")


def check_hang(hang: object) -> None:
    check_seconds("hang", hang, 86_400)


def check_out(out: object) -> None:
    """Raises BadWord if a failure's files couldn't be written to this folder."""
    if not isinstance(out, (str, os.PathLike)) or not Path(out).is_dir() or not os.access(Path(out), os.W_OK):
        raise BadWord(f"out: no such folder, or it isn't writable: {out!r}")


def check_shard(shard: object) -> None:
    """Raises BadWord unless the shard is (K, N): machine K of N, counted from 1."""
    is_pair = isinstance(shard, tuple) and len(shard) == 2 and all(type(one) is int for one in shard)
    if not isinstance(shard, tuple) or not is_pair or not 1 <= shard[0] <= shard[1] <= MOST_SHARDS:
        raise BadWord(f"shard: {shard!r} isn't (K, N) with K from 1 to N and N from 1 to {MOST_SHARDS:,}")


@dataclass
class _Plan:
    """The arguments of a search."""

    runs: int | None
    seed: int
    strategy: str
    depth: int | None
    preemptions: int
    jobs: int
    shard: tuple[int, int]
    seconds: float | None
    hang: float
    memory: str | None

    def check(self) -> None:
        """Raises BadWord if an argument is invalid."""
        if self.strategy not in STRATEGIES:
            raise BadWord(f"strategy: {self.strategy!r} isn't one of {', '.join(STRATEGIES)}")
        for name in RANGES:
            has_end = self.strategy == "exhaustive" or self.seconds is not None
            may_be_none = name == "depth" or (name == "runs" and has_end)
            if getattr(self, name) is not None or not may_be_none:
                check_number(name, getattr(self, name))
        check_shard(self.shard)
        if self.seconds is not None:
            check_seconds("seconds", self.seconds, 1_000_000_000)
        check_hang(self.hang)
        if self.memory not in (None, *KINDS):
            raise BadWord(f"memory: {self.memory!r} isn't one of {', '.join(KINDS)}")

    def options(self, folder: str, shrink: bool) -> list[str]:
        """Returns the arguments as options of the engine."""
        given = {
            "runs": self.runs, "seed": self.seed, "strategy": self.strategy, "depth": self.depth,
            "preemptions": self.preemptions, "jobs": self.jobs, "seconds": self.seconds,
            "shard": f"{self.shard[0]}/{self.shard[1]}", "hang": max(1, int(-(-self.hang // 1))), "out": folder,
        }  # fmt: skip
        words = [word for name, value in given.items() if value is not None for word in (f"--{name}", str(value))]
        return [*words, "--quiet", *([] if shrink else ["--no-shrink"])]


def search(
    scenario: Scenario, runs: int | None = 1_000, *, seed: int = 1, strategy: str = "mixed", depth: int | None = None,
    preemptions: int = 2, hang: float = 10, out: str | Path | None = None, shrink: bool = True, jobs: int = 1,
    strict: bool = False, memory: str | None = None, shard: tuple[int, int] = (1, 1), seconds: float | None = None,
) -> Report:  # fmt: skip
    """Runs up to `runs` schedules. If `runs` is None, the exhaustive search runs every schedule with at most
    `preemptions` preemptions. With `seconds` the search ends after that many elapsed seconds; `runs` may then be None
    with any strategy. `jobs` processes share the work; the failure found doesn't depend on their number. If N machines
    share a search, machine K is given the `shard` (K, N). A task that reaches no point for `hang` seconds counts as
    hung. `memory` (strong, weak or tso) overrides the scenario's memory model; None keeps it.

    Raises Failure at the first schedule that fails, after shrinking it. The folder `out` receives the schedule as
    NAME.schedule, the device's events as NAME.nic (a script for nicview), and a page as NAME.html. If nothing fails,
    the report lists what never ran; with `strict`, Vacuous is raised if anything didn't run. Raises BadWord if an
    argument is invalid."""
    plan = _Plan(runs, seed, strategy, depth, preemptions, jobs, shard, seconds, hang, memory)
    plan.check()
    if out is not None:
        check_out(out)
    files: AbstractContextManager[str] = tempfile.TemporaryDirectory() if out is None else nullcontext(os.fspath(out))
    with files as folder, Session(scenario, hang, memory) as session:
        found = session.search([scenario.name, *plan.options(folder, shrink)])
        if not found.is_there:
            report = Report(found.distinct, found.faults, found.lines())
            if strict and report.never:
                raise Vacuous("no failure was found, but part of the scenario never ran: " + "; ".join(report.never))
            return report
        result = Result(OUTCOMES[found.outcome], found.text("words"), traceback=found.text("traceback"))
        path = Path(folder) / f"{scenario.name}.schedule"
        result.read_file(path)
    raise Failure(result, f"found by {found.text('where')} of seed {seed}", path if out is not None else None)


def replay(
    scenario: Scenario, path: str | Path, hang: float = 10, *, lenient: bool = False,
) -> Result:  # fmt: skip
    """Replays a schedule file exactly, in this process. Raises BadSchedule if it doesn't fit the scenario. With
    `lenient`, a changed driver follows the file as far as it can; the result's `parting` says where it diverges."""
    check_hang(hang)
    with Session(scenario, hang, None) as session:
        try:
            result = session.replay(os.fspath(path), lenient)
        except Misused as fault:
            raise BadSchedule(str(fault)) from None
    left_out = re.findall(r"^[ \t]*without[ \t]+([^#\n]*)", Path(path).read_text(), re.M)
    result.without = frozenset(" ".join(words.split()) for words in left_out)
    return result
