"""The scenarios of a driver's program, each searched in its own process."""

from __future__ import annotations

import re
import signal
import xml.etree.ElementTree
from collections.abc import Callable
from concurrent.futures import ThreadPoolExecutor
from dataclasses import asdict, dataclass, field
from pathlib import Path
from typing import Any

from nic82599.tools.printable import printable

from .processes import TooLong, end_all, ran

LIST_SECONDS = 120
PASSED, FAILED, NOT_REACHED, NOT_APPLICABLE = "passed", "failed", "not reached", "not applicable"


class Refused(Exception):
    """The driver or the command line can't be used."""


@dataclass
class Budget:
    """How long to search a row: first random schedules, then exhaustively with at most one preemption."""

    runs: int = 2000
    seconds: float = 7
    every: int = 20000
    every_seconds: float = 2.5
    hang: int = 3
    seed: int = 1
    memory: str = "strong"


@dataclass
class Row:
    """A scenario and its result."""

    name: str
    family: str
    lack: str
    title: str
    rule: str
    source: str
    reaches: str = ""  # what it must reach
    state: str = ""
    schedules: int = 0
    distinct: str = ""
    points: int = 0
    every: int = -1  # all schedules with at most this many preemptions were run; -1: not all
    seconds: float = 0
    cause: str = ""
    schedule: str = ""
    schedule_file: str = ""
    again: str = ""
    page: str = ""  # page of the schedule, at the failing point
    run: str = ""  # page of the device's run, step by step
    reached: dict[str, int] = field(default_factory=dict)  # requirement: how often it was reached
    never: dict[str, str] = field(default_factory=dict)  # requirement: what to report if it was never reached
    excuses: list[str] = field(default_factory=list)  # why the driver can't reach it
    notes: list[str] = field(default_factory=list)
    delivered: int = 0
    sent: int = 0
    registers: dict[str, int] = field(default_factory=dict)
    replies: dict[str, int] = field(default_factory=dict)

    def data(self) -> dict[str, Any]:
        return asdict(self)


def listed(program: Path) -> list[Row]:
    """Returns the scenarios that a driver's program lists."""
    try:
        made = ran([program, "--list"], LIST_SECONDS)
    except OSError as fault:
        raise Refused(f"{program}: can't be run: {fault.strerror}") from fault
    except TooLong as fault:
        raise Refused(f"{program} --list doesn't exit: does its main call nicd_main?") from fault
    if made.status:
        raise Refused((made.errors.strip() or f"{program} --list exits with status {made.status}").splitlines()[0])
    lines = [line.split("\t") for line in made.printed.splitlines()]
    if not lines or any(len(line) != 7 for line in lines):
        raise Refused(f"{program} --list prints no scenarios: does its main call nicd_main?")
    return [Row(line[0], line[1], "" if line[2] == "-" else line[2], *line[3:6], reaches=line[6]) for line in lines]


def name_of(program: Path) -> str:
    try:
        return ran([program, "--name"], LIST_SECONDS).printed.strip() or program.name
    except TooLong as fault:
        raise Refused(f"{program} --name doesn't exit: does its main call nicd_main?") from fault


def blindness_of(program: Path) -> str:
    """Returns what its author can do if accesses to the driver's own memory aren't observed in the program; an empty
    string if they are."""
    try:
        printed = ran([program, "--accesses"], LIST_SECONDS).printed.strip()
    except (OSError, TooLong):
        printed = ""  # if the program can't be run, listing its rows reports it
    return "" if printed == "seen" else printed.removeprefix("not seen: ")


class Runner:
    """Runs rows of a program and writes their files to a folder."""

    def __init__(self, program: Path, folder: Path, budget: Budget) -> None:
        self.program, self.folder, self.budget = program.resolve(), folder, budget
        self.hangs = 0

    def words(self, row: Row, more: list[object]) -> list[str]:
        budget = self.budget
        words: list[object] = [self.program, "--row", row.name, "--quiet", "--jobs", 1, "--seed", budget.seed]
        words += ["--memory", budget.memory, "--hang", budget.hang, "--out", self.folder]
        words += ["--junit", self.folder / f"{row.name}.xml"]
        if self.hangs > 2:  # each attempt to shorten the schedule would wait for the hang again
            words.append("--no-shrink")
        return [str(word) for word in [*words, "--coverage", self.folder / f"{row.name}.seen", *more]]

    def limit(self, seconds: float) -> float:
        """Returns the limit in elapsed seconds for a search of `seconds`: shrinking takes extra time, and --hang allows
        more on a busy machine."""
        return 3 * seconds + 20 * max(self.budget.hang, 3)

    def search(self, row: Row, more: list[object], seconds: float) -> bool:
        """Searches a row once. Returns whether the search may continue."""
        limit = self.limit(seconds)
        try:
            made = ran(self.words(row, more), limit)
        except TooLong:
            before = "a call before the first schedule doesn't return"
            fail(row, f"hang: no result in {limit:.0f} s: {before}, or the machine is busy (--hang)")
            return False
        self.read_seen(row)
        self.read_junit(row)
        row.notes += [found for found in re.findall(r": note: (.+)", made.printed) if found not in row.notes]
        if made.status == 1:
            self.read_failure(row, made.printed)
        elif made.status == 4:
            row.state, row.lack = NOT_APPLICABLE, row.lack or "the driver lacks something that the row needs"
        elif made.status < 0:
            fail(row, f"crash: before the first schedule: {signal.strsignal(-made.status)}")
        elif made.status == 5:
            fail(row, made.errors.strip().splitlines()[-1])
        elif made.status:
            fail(row, "refused: " + (made.errors.strip() or f"status {made.status}").splitlines()[-1])
        self.hangs += row.cause.startswith("hang")
        if found := re.search(r"searched all schedules(?: with at most (\d+) preemptions?)?", made.printed):
            row.every = int(found[1]) if found[1] else 1000
        return not made.status

    def make(self, row: Row) -> Row:
        if row.lack:
            row.state = NOT_APPLICABLE
            return row
        budget = self.budget
        by_chance: list[object] = ["--runs", budget.runs, "--seconds", budget.seconds]
        every: list[object] = ["--strategy", "exhaustive", "--runs", budget.every, "--seconds", budget.every_seconds]
        if self.search(row, by_chance, budget.seconds):
            if not self.search(row, [*every, "--preemptions", 1], budget.every_seconds):
                return row
            judge_reached(row)
        return row

    def read_junit(self, row: Row) -> None:
        path = self.folder / f"{row.name}.xml"
        try:
            suite = xml.etree.ElementTree.parse(path).getroot()
        except (OSError, xml.etree.ElementTree.ParseError):
            return
        path.unlink()
        properties = {one.get("name"): one.get("value", "") for one in suite.iter("property")}
        row.schedules += int(properties.get("schedules") or 0)
        row.points += int(properties.get("points") or 0)
        row.distinct = row.distinct or properties.get("distinct") or ""
        row.seconds += float(suite.get("time") or 0)
        if (failure := suite.find("testcase/failure")) is not None:
            row.schedule = printable(failure.text or "")

    def read_failure(self, row: Row, printed: str) -> None:
        found = re.search(r": FAILED (.+)", printed)
        fail(row, found[1] if found else "it failed")
        if (traceback := self.folder / f"{row.name}.traceback").exists():  # what a Python driver raised
            row.schedule = f"{printable(traceback.read_text()).rstrip()}\n\n{row.schedule}"
        row.schedule_file = f"{row.name}.schedule"
        row.page = page_of(self.folder / f"{row.name}.html")
        memory = " --memory weak" if self.budget.memory == "weak" else ""
        row.again = f"{self.program} --row {row.name}{memory} --replay {self.folder / row.schedule_file}"

    def read_seen(self, row: Row) -> None:
        path = self.folder / f"{row.name}.seen"
        if not path.exists():
            return
        excuses: list[str] = []
        for line in path.read_text().splitlines():
            kind, *rest = line.split()
            if kind == "reached":
                name, _, never = " ".join(rest[1:]).partition(" | ")
                row.reached[name] = row.reached.get(name, 0) + int(rest[0])
                row.never[name] = never
            elif kind == "excused":
                excuses.append(" ".join(rest))
            elif kind == "reply":
                name = " ".join(rest[1:])
                row.replies[name] = row.replies.get(name, 0) + int(rest[0])
            elif kind == "delivered":
                row.delivered += int(rest[0])
            elif kind == "sent":
                row.sent += int(rest[0])
            else:
                name = f"{kind} {rest[0]}"
                row.registers[name] = row.registers.get(name, 0) + int(rest[1])
        row.excuses = list(dict.fromkeys(excuses))
        path.unlink()


def page_of(path: Path) -> str:
    """Returns the link to the explorer's page of a schedule, at the failing point if known, otherwise at the last
    one."""
    if not path.exists():
        return ""
    text = path.read_text()
    turn = re.search(r'"turn":(\d+),', text)
    points = len(re.findall(r'^\{"actor":', text, re.M))
    return f"{path.name}#p{int(turn[1]) if turn else max(points - 1, 0)}"


def missed(row: Row) -> list[str]:
    """Returns the descriptions of the requirements that the row never reached."""
    return [row.never.get(name, f"never: {name}") for name, count in row.reached.items() if not count]


def judge_reached(row: Row) -> None:
    """Judges a row in which nothing failed: it passes if it reached all its requirements."""
    if not missed(row):
        row.state = PASSED
    elif row.excuses:
        row.state, row.lack = NOT_APPLICABLE, "; ".join(row.excuses)
    else:
        row.state, row.cause = NOT_REACHED, f"not reached: {'; '.join(missed(row))}"


def fail(row: Row, cause: str) -> None:
    row.state, row.cause = FAILED, cause


def make_all(runner: Runner, rows: list[Row], jobs: int, tell: Callable[[Row], None]) -> None:
    """Runs all rows, `jobs` at a time."""
    with ThreadPoolExecutor(jobs) as pool:
        try:
            for row in pool.map(runner.make, rows):
                tell(row)
        except BaseException:  # includes Ctrl-C: running rows are in their own process groups
            pool.shutdown(wait=False, cancel_futures=True)
            end_all()
            raise
