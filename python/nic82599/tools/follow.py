"""Follows a growing file for a page: a recording while its program writes it, or a script that is rewritten.

A page shows a part of a recording: its last events or earlier ones. A part is the page's data as nicview writes it. The
controller is saved after some of the earlier events, so that showing an earlier part replays few events. About 35 bytes
are kept per line, so a long recording needs little memory.
"""

from __future__ import annotations

import copy
import os
import stat
from bisect import bisect_left, bisect_right
from dataclasses import dataclass, field, replace
from typing import Any

from nic82599 import BLOCK_BYTES, Snapshot

from .lines import Source
from .page import Data
from .printable import shortened
from .recording import RESTARTS, Held, Player, Recording, cut, is_recording, read, take, trace
from .run import bench_of, of_script, of_trace
from .script import Bench, Fault, Refused, text_of

# The maximum number of bytes that are read from the file in one go.
TURN = 4 << 20
# A longer incomplete line can't be part of a recording.
LONGEST_LINE = 1 << 20
# The maximum length of a line, a comment or a reply in a part, in characters.
MOST_SHOWN = 2_000
# niclint checks a whole recording up to this many events; checking a longer one again and again would take too long.
MOST_WARNED = 20_000
# The controller is saved after every APART events, in at most ROOM bytes.
APART, ROOM = 20_000, 64 << 20
# To detect that a file was replaced, this many bytes at its start and at the end of what was read are compared.
SAME_BYTES = 4_096


class NotThere(Exception):
    """The file doesn't exist, or its first line isn't complete yet."""


@dataclass
class Mark:
    """A player's state after some events, to continue from."""

    at: int
    directed: int
    others: int
    nic: Snapshot
    held: Held
    snapshots: dict[str, Snapshot]

    def size(self, blocks: int) -> int:
        """Returns an upper bound on the bytes that the mark needs. A snapshot that several marks share is counted for
        each of them."""
        return (1 + len(self.snapshots)) * (blocks * BLOCK_BYTES + (1 << 16)) + self.held.size


class KeepingPlayer(Player):
    """A player that can go back to marks. A snapshot is freed when no mark refers to it."""

    def __init__(self, recording: Recording) -> None:
        super().__init__(recording)
        self.first = self.mark()
        self.marks = [self.first]
        self.apart = APART

    def mark(self) -> Mark:
        held = copy.deepcopy(self.held)
        return Mark(self.at, self.directed, self.others, self.nic.snapshot(), held, dict(self.snapshots))

    def back(self, mark: Mark) -> None:
        """Restores the state at a mark."""
        self.nic.restore(mark.nic)
        self.at, self.directed, self.others = mark.at, mark.directed, mark.others
        self.held, self.snapshots = copy.deepcopy(mark.held), dict(mark.snapshots)

    def bring(self, before: int, begin: int) -> None:
        """Replays from the nearest earlier mark up to an event and a line, and adds marks on the way."""
        made = self.recording
        done = bisect_right([number for number, _ in made.directives], begin)
        near = [mark for mark in self.marks if mark.at <= before and mark.directed <= done]
        self.back(near[-1])
        while (end := (self.at // self.apart + 1) * self.apart) < before:
            self.play_to(end, made.line_of[end - 1])
            self.keep()
        self.play_to(before, begin)

    def keep(self) -> None:
        """Adds a mark of the current state. If the marks take too much memory, removes every other one."""
        place = bisect_left([mark.at for mark in self.marks], self.at)
        if place < len(self.marks) and self.marks[place].at == self.at:
            return
        self.marks.insert(place, self.mark())
        while len(self.marks) > 2 and sum(mark.size(self.nic.blocks) for mark in self.marks) > ROOM:
            self.marks = [self.first, *self.marks[2::2]]
            self.apart *= 2

    def _directive(self, words: list[str]) -> None:
        if words[:1] == ["drop"]:
            self.snapshots.pop(words[1])
            self.held.drop(words[1])
        else:
            super()._directive(words)


@dataclass
class Part:
    """The part of a recording that a page shows: the events from `before` up to `until`, and their data."""

    data: dict[str, Any]
    before: int
    until: int


class Recorded:
    """A growing recording."""

    def __init__(self, path: str, source: Source, limit: int) -> None:
        self.path, self.limit, self.source = path, limit, source
        source.size = min(source.size, TURN)
        self.made = read(path, source)
        self.player = KeepingPlayer(self.made)
        self.start = 0
        self.stopped: Fault | None = None
        self.most = 1 << 62  # the number of valid events
        self._bad()

    @property
    def total(self) -> int:
        return min(len(self.made.line_of), self.most)

    def grow(self) -> bool:
        """Reads more of the file. Returns whether there was any."""
        if self.stopped or not self.source.grow(TURN):
            return False
        lines = self.made.lines
        try:
            take(self.made, lines.read(), len(lines) + 1)
            if len(lines.rest) > LONGEST_LINE:
                raise Fault(f"{self.path}:{len(lines) + 1}: recording lines are at most {LONGEST_LINE:,} bytes long")
        except Fault as fault:
            self._stop(fault, len(self.made.line_of))
        self._bad()
        return True

    def _bad(self) -> None:
        if self.made.bad and not self.stopped:
            first = self.made.bad[0]
            self._stop(first, bisect_left(self.made.line_of, first.number))

    def _stop(self, fault: Fault, events: int) -> None:
        """Hides everything after this many events."""
        self.stopped = self.stopped or fault
        self.most = min(self.most, events)

    def part(self, end: int | None) -> Part:
        """Returns the last events, or the ones up to `end`."""
        while True:
            until = self.total if end is None else max(0, min(end, self.total))
            try:
                return self._part(until, end is None)
            except Fault as fault:
                number = getattr(fault, "number", 0)
                events = bisect_left(self.made.line_of, number) if number else until - 1
                if not 0 <= events < until:
                    raise
                self._stop(fault, events)

    def _part(self, until: int, is_last: bool) -> Part:
        limit = self.limit
        if is_last:
            # The first event stays the same for a while, so that the steps keep their numbers.
            if until - self.start > limit or until < self.start:
                self.start = max(0, until - limit // 2)
            limit = until - self.start
        made = replace(self.made, begin=0, before=0, until=until, notes=[], bad=[])
        made.warns = until == len(self.made.line_of) <= MOST_WARNED
        cut(made, limit)
        self.player.recording = made
        self.player.bring(made.before, made.begin)
        if is_last:
            self.player.keep()
        run = of_trace(trace(self.player))
        return Part(shorter(Data(run).whole()), made.before, until)


class Written:
    """A script that is written in one go, such as the explorer's script of a failure."""

    def __init__(self, path: str, source: Source, limit: int, sizes: tuple[int | None, int | None]) -> None:
        raw = source.whole()
        text = text_of(path, raw)
        self.stopped: Fault | Refused | None = None
        run = of_script(bench_of(Bench(*sizes), text), path, limit, raw)
        self.total = len(run.steps)
        self.made = Part(shorter(Data(run).whole()), 0, self.total)

    def grow(self) -> bool:
        return False

    def part(self, _end: int | None) -> Part:
        return self.made


def shorter(data: dict[str, Any]) -> dict[str, Any]:
    """Shortens the strings in the data that are too long to show."""
    for key in ("lines", "comments", "texts", "shown", "notes"):
        data[key] = [shortened(text, MOST_SHOWN) for text in data[key]]
    return data


@dataclass
class State:
    """The state of a followed file. `number` increases when the file starts over. `total` is the number of its events,
    and `said` the message to show. `at` is the file's last stat result, and `same` are bytes at a few offsets, which
    identify the file."""

    number: int = 0
    total: int = 0
    said: str = ""
    at: os.stat_result | None = field(default=None, repr=False)
    same: dict[int, bytes] = field(default_factory=dict, repr=False)


class Following:
    """A file that is polled. It may not exist yet, and may be replaced."""

    def __init__(self, path: str, limit: int, sizes: tuple[int | None, int | None] = (None, None)) -> None:
        self.path, self.limit, self.sizes = path, limit, sizes
        self.state = State(said=f"waiting for {path}")
        self.shown: Recorded | Written | None = None

    def look(self) -> bool:
        """Reads what is new. Returns whether anything changed."""
        former = (self.state.number, self.state.total, self.state.said)
        try:
            more = self._look()
        except NotThere as why:
            self._say(str(why))
            more = False
        except (Fault, Refused, OSError) as fault:
            self._say(f"{self.path}: {fault}" if isinstance(fault, Refused) else str(fault))
            more = False
        return more or former != (self.state.number, self.state.total, self.state.said)

    def _say(self, said: str) -> None:
        self.state.said = said

    def _look(self) -> bool:
        found = self._stat()
        if self._is_another(found):
            return self._open(found)
        assert self.shown is not None or self.state.at is not None
        if self.shown is None:
            return False
        if more := self.shown.grow():
            self._know()
        self.state.at = found
        self._say("")
        self._count()
        return more

    def _stat(self) -> os.stat_result:
        try:
            found = os.stat(self.path)
        except FileNotFoundError:
            gone = f"{self.path} no longer exists" if self.shown else f"waiting for {self.path}"
            raise NotThere(gone) from None
        except OSError as error:
            raise Fault(f"{self.path} can't be read ({error.strerror})") from None
        if not stat.S_ISREG(found.st_mode):
            raise Fault(f"{self.path} isn't a regular file: only a regular file can be followed")
        return found

    def _is_another(self, found: os.stat_result) -> bool:
        """Returns whether the file was replaced, truncated or rewritten. A script counts as new after any write."""
        before = self.state.at
        if before is None or (before.st_dev, before.st_ino) != (found.st_dev, found.st_ino):
            return True
        if isinstance(self.shown, Recorded) and found.st_size >= before.st_size:
            return found.st_mtime_ns != before.st_mtime_ns and not self._is_known()
        return (before.st_size, before.st_mtime_ns) != (found.st_size, found.st_mtime_ns)

    def _know(self) -> None:
        """Remembers how the file begins, and how the part that was read ends."""
        source = self.shown.source if isinstance(self.shown, Recorded) else None
        if source:
            size, some = source.size, min(source.size, SAME_BYTES)
            self.state.same = {0: source.at(0, some), size - some: source.at(size - some, size)}

    def _is_known(self) -> bool:
        with open(self.path, "rb") as file:
            return all(file.seek(at) == at and file.read(len(some)) == some for at, some in self.state.same.items())

    def _open(self, found: os.stat_result) -> bool:
        """Starts to follow a file, and reads what has been written so far."""
        source = Source(self.path)
        source.grow(0)
        if not source.size or (b"#: nic ".startswith(source.head[:7]) and b"\n" not in source.head):
            raise NotThere(f"{self.path} has no complete first line yet")
        self.state.at = found
        self.shown = None
        self.state.number += 1
        self.state.total = 0
        if is_recording(source):
            self.shown = Recorded(self.path, source, self.limit)
            self._know()
        else:
            self.shown = Written(self.path, source, self.limit, self.sizes)
        self._say("")
        self._count()
        return True

    def _count(self) -> None:
        """Updates how much of the file is shown, and the message if that isn't all."""
        if self.shown:
            self.state.total = self.shown.total
            self.state.said = str(self.shown.stopped or self.state.said)

    def part(self, end: int | None) -> Part | None:
        """Returns what a page shows, or None if there is nothing."""
        if self.shown is None:
            return None
        try:
            return self.shown.part(end)
        finally:
            self._count()
