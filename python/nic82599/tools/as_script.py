"""Converts a recording to a script that `nicbench` reads, from its beginning up to the first event that the script
can't reproduce.

Each block of a lent range has its own line, and equal data strings are merged. Restoring a snapshot removes the lines
since the snapshot was taken. `nicbench` then runs the script, and the script is cut before the first line whose reply
differs from the recorded one. The remaining lines therefore get the replies that their comments show.
"""

from __future__ import annotations

from dataclasses import dataclass, field
from pathlib import Path

from .. import BadFifo, TooManyVfs
from .recording import Recording, named, parts
from .script import Bench, Fault, Op

INSTRUCTIONS, STRINGS, LONGEST, BLOCKS = 4_096, 1_024, 16_384, 256
MOST_VFS, MOST_FIFO = 63, 4_096
COLUMN = 28


class End(Exception):
    """A script can't express a line; the message says why."""


@dataclass(frozen=True)
class Past:
    """An event's number, linked to the event before it."""

    event: int
    before: Past | None


@dataclass
class Made:
    """The script so far: its lines, and for each instruction the index of its line, its reply, and its line number in
    the recording."""

    lines: list[str] = field(default_factory=list)
    instructions: list[tuple[int, str, int]] = field(default_factory=list)
    names: dict[bytes, str] = field(default_factory=dict)
    ended: str = ""

    def end(self, number: int, why: str) -> None:
        self.ended = self.ended or f"line {number} of the recording: {why}"

    def add(self, text: str, reply: str, number: int, name: str = "") -> None:
        if len(self.instructions) == INSTRUCTIONS:
            raise End(f"a script has at most {INSTRUCTIONS:,} instructions")
        self.instructions.append((len(self.lines), reply, number))
        self.lines.append(f"{text:{COLUMN}} # {reply}" + (f"  # {name}" if name else ""))

    def name(self, data: bytes) -> str:
        """Returns the name of a data string, and adds its line if these bytes are new."""
        if data not in self.names:
            if len(self.names) == STRINGS:
                raise End(f"a script has at most {STRINGS:,} data strings")
            if len(data) > LONGEST:
                raise End(f"a data string is at most {LONGEST:,} bytes long")
            name = self.names[data] = f"d{len(self.names)}"
            self.lines.append(f"data {name} {data.hex()}" if data else f"data {name} 00  #: no bytes")
        return self.names[data]

    def cut(self, count: int) -> None:
        """Keeps only the first `count` instructions."""
        if count < len(self.instructions):
            del self.lines[self.instructions[count][0] :]
            del self.instructions[count:]


def _history(recording: Recording, made: Made) -> list[int]:
    """Returns the numbers of the events that produce the recording's final state, without those that restoring a
    snapshot undid."""
    here: Past | None = None
    kept: dict[str, Past | None] = {}
    at = 0
    last: tuple[int, list[str]] = (len(recording.lines), [])
    for number, words in [*recording.directives, last]:
        while at < len(recording.line_of) and recording.line_of[at] <= number:
            here = Past(at, here)
            at += 1
        match words:
            case ["snapshot", name]:
                kept[name] = here
            case ["restore", name] if name in kept:
                here = kept[name]
            case ["restore", _]:
                made.end(number, "it restores a snapshot that isn't in this recording")
                break
            case [("image" | "text"), *_]:
                made.end(number, "a script can't install an EEPROM image")
                break
    events = []
    while here is not None:
        events.append(here.event)
        here = here.before
    return events[::-1]


def _add(made: Made, recording: Recording, event: int) -> None:
    """Adds the script's lines for an event. Raises End."""
    (one, reply), number = recording.instructions.both(event), recording.line_of[event]
    if one.op == Op.LEND and reply == "done":
        first, last = one.blocks[0], one.blocks[-1]
        for block in range(first, min(last, BLOCKS - 1) + 1):
            made.add(f"lend {block}", reply, number)
        if last >= BLOCKS:
            made.lines.append(f"# omitted: lend {max(first, BLOCKS)} to {last}, because nicbench has {BLOCKS} blocks")
        return
    text, *_ = parts(recording.lines[number - 1])
    if one.op in (Op.POKE, Op.ARRIVE):
        text = " ".join([*text.split()[:-1], made.name(recording.data[one.x])])
    text, name = named(one, text)
    made.add(text, reply, number, name)


def _compared(made: Made, bench: Bench) -> None:
    """Runs the script with `nicbench`, and cuts it before the first line whose reply differs from the recorded one."""
    printed = bench.run("\n".join(made.lines) + "\n", INSTRUCTIONS)[:-1] if made.instructions else []
    for count, (line, (_, reply, number)) in enumerate(zip(printed, made.instructions)):
        answer = line.partition(" ")[2]
        if answer.rstrip() != reply.rstrip():
            made.cut(count)
            made.ended = ""
            made.end(number, f"nicbench prints `{answer}` instead of `{reply}`")
            return


def _refuse_sizes(recording: Recording) -> None:
    """Raises Fault if no controller can have the recording's sizes."""
    fault = TooManyVfs if recording.vfs > MOST_VFS else None if 1 <= recording.fifo <= MOST_FIFO else BadFifo
    if fault:
        sizes = f"{recording.vfs} virtual functions, {recording.fifo} frames, {recording.blocks} blocks"
        raise Fault(f"{recording.path} can't be replayed: {fault.__doc__} ({sizes})")


def script(recording: Recording) -> tuple[str, str]:
    """Returns the script, and why it ends before the recording does, or ""."""
    if recording.bad:
        raise recording.bad[0]
    _refuse_sizes(recording)
    made = Made()
    for event in _history(recording, made):
        try:
            _add(made, recording, event)
        except End as end:
            made.ended = ""
            made.end(recording.line_of[event], str(end))
            break
    _compared(made, Bench(recording.vfs, recording.fifo))
    name = Path(recording.path).name if recording.path != "-" else "standard input"
    head = f"# a recording as a script: {name}\n"
    words = f"nicbench run --vfs {recording.vfs} --fifo {recording.fifo}"
    sizes = f"# To give its device the recording's sizes, run: {words}\n"
    cut = f"# CUT: {made.ended}\n" if made.ended else ""
    return head + sizes + "".join(f"{line}\n" for line in made.lines) + cut, made.ended
