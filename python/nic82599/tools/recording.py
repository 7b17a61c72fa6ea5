"""Replays a recording made by the library (NIC82599_RECORD, nic_record) as a run.

A recording is a script of the calls that a program made on a controller, with the replies as comments. A script's
limits don't apply to it. Lines that begin with `#:` contain what a script can't express: the sizes, ranges of lent
blocks, snapshots, EEPROM images. The whole recording is replayed, but only the last steps after the last restored
snapshot or installed image are shown. If there were earlier steps, the first step shown reads STATUS, which changes
nothing and shows the state at that point.
"""

from __future__ import annotations

import contextlib
import copy
import re
from array import array
from bisect import bisect_left, bisect_right
from collections import deque
from collections.abc import Iterator, Sequence
from dataclasses import dataclass, field, replace
from itertools import islice

import nic82599
from nic82599 import BLOCK_BYTES, Nic, NicError, Snapshot

from .advice import Advice
from .again import Again
from .library import MOST_BLOCKS, Library, instruction, number_of, played
from .lines import Lines, Source
from .printable import shortened
from .regs import ENABLE, OFFSETS, REGISTERS, first, register_at
from .run import Run, bench_of, of_script, of_trace
from .script import HEAD, Bench, Fault, Instruction, Op, Script, text_of
from .tool import MOST_STEPS, limit_of_script
from .trace import Plan, Step, Trace
from .trace import trace as of_text

# The exceptions that an invalid line of a recording may raise.
BAD = (ValueError, KeyError, IndexError, OverflowError, TypeError, NicError)
EMPTY = ": no bytes"
# The maximum number of bytes of lent memory and frames, for the controller and its snapshots together.
MOST_HELD = 1 << 30
# The program's note about the next call (nic_note).
NOTE = "# note: "
# A virtual machine's note about a ring. It is valid until the next note about the same ring.
RING = re.compile(r"guest: the ring of (\S+ \d+) is at [^;]*")
# After these directives the steps start fresh.
RESTARTS = (["restore"], ["image"], ["text"])


MOST_WORD = 0xFFFF_FFFF
# The number of distinct lines to keep. For other lines, only the operation is kept and the rest is read from the file.
MOST_KEPT = 1 << 16
NOT_KEPT = 1 << 31
# Longer lines rarely repeat, and would take much memory.
LONGEST_KEPT = 200
# Starts of lines that rarely repeat, because they contain bytes or a data name.
COLLECT = Instruction(Op.COLLECT, 0, 0, 0, 0)
OF_BYTES = ("data ", "poke ", "arrive ")
WITH_BYTES = (*OF_BYTES, "peek ", "collect")


class BadLine(Fault):
    """A line of a recording that can't be replayed, with its number."""

    def __init__(self, line: str, number: int) -> None:
        super().__init__(line)
        self.number = number


def is_recording(source: Source) -> bool:
    """Returns whether a file is a recording, judging by its first line."""
    return source.head.startswith(b"#: nic ")


# --- the file ---


class Names:
    """The names of data strings, and their numbers in the order of their definitions. The library names them `d0`, `d1`
    and so on; other names are possible. A name may be redefined."""

    def __init__(self) -> None:
        self.count = 0
        self.next = "d0"
        self.others: dict[str, int] = {}
        self.not_in_row: set[int] = set()

    def add(self, name: str) -> None:
        if name != self.next:
            self.others[name] = self.count
            self.not_in_row.add(self.count)
        self.count += 1
        self.next = f"d{self.count}"

    def __getitem__(self, name: str) -> int:
        if name in self.others:
            return self.others[name]
        number = int(name[1:])
        if name != f"d{number}" or number >= self.count or number in self.not_in_row:
            raise KeyError(name)
        return number


class Only(dict[str, int]):
    """Maps every name to the same data."""

    def __init__(self, number: int) -> None:
        super().__init__()
        self.number = number

    def __missing__(self, _name: str) -> int:
        return self.number


class Data(Sequence[bytes]):
    """The data of a recording, read from the lines that define it."""

    def __init__(self, lines: Lines) -> None:
        self.lines, self.places = lines, array("I")

    def __len__(self) -> int:
        return len(self.places)

    def __getitem__(self, number: int) -> bytes:  # type: ignore[override]
        line = self.lines[self.places[number] - 1]
        words = line.split()
        if len(words) == 3:
            return bytes.fromhex(words[2])
        text, reply = parts(line)
        return bytes_of(text.split(), reply)


class Events(Sequence[Instruction]):
    """The instructions of a recording with their replies, and the line number of each."""

    def __init__(self, lines: Lines) -> None:
        self.lines = lines
        self.line_of, self.codes, self.uses = array("I"), array("I"), array("I")
        self.kept: list[tuple[Instruction, str]] = []

    def add(self, number: int, code: int, data: int = 0) -> None:
        self.line_of.append(number)
        self.codes.append(code)
        self.uses.append(data)

    def keep(self, one: Instruction, reply: str) -> int:
        """Keeps a line that may repeat, and returns its code."""
        self.kept.append((one, reply))
        return len(self.kept) - 1

    def both(self, event: int) -> tuple[Instruction, str]:
        """Returns an instruction and its reply."""
        if self.codes[event] < NOT_KEPT:
            return self.kept[self.codes[event]]
        words, reply = self.words(event)
        if len(words) == 1 and words[0] == "collect":
            return COLLECT, reply
        return instruction(words, Only(self.uses[event])), reply

    def words(self, event: int) -> tuple[list[str], str]:
        """Returns the words of a line that isn't kept, and its reply."""
        text, reply = parts(self.lines[self.line_of[event] - 1])
        return text.split(), reply

    def __len__(self) -> int:
        return len(self.codes)

    def __getitem__(self, event: int) -> Instruction:  # type: ignore[override]
        return self.both(event)[0]

    def only(self, ops: frozenset[Op], end: int | None = None, begin: int = 0) -> Iterator[tuple[int, Instruction]]:
        """Yields the instructions with these operations and their numbers, from event `begin` up to event `end`."""
        kept = [one if one.op in ops else None for one, _ in self.kept]
        for event, code in enumerate(islice(self.codes, begin, end), begin):
            if code < NOT_KEPT:
                if (one := kept[code]) is not None:
                    yield event, one
            elif code - NOT_KEPT in ops:
                yield event, self[event]


class Units:
    """The units of memory that a program wrote before an event. Continues from the previously requested event."""

    def __init__(self) -> None:
        self.end = 0
        self.found: set[int] = set()

    def before(self, events: Events, end: int) -> set[int]:
        if end < self.end:
            self.end, self.found = 0, set()
        self.found.update(one.a for _, one in events.only(frozenset((Op.POKE,)), end, self.end))
        self.end = end
        return set(self.found)


@dataclass
class Recording:
    """A recording file, parsed. `lines` lacks an incomplete last line. `instructions` also has their replies and line
    numbers, counted from 1; `directives` are the lines that a script can't express; `bad` are the invalid lines.
    `names` are the names of the data and `known` the lines that may repeat, both among the lines read so far."""

    path: str
    lines: Lines
    vfs: int
    fifo: int
    blocks: int
    instructions: Events
    data: Data
    directives: list[tuple[int, list[str]]] = field(default_factory=list)
    bad: list[BadLine] = field(default_factory=list)
    begin: int = 0  # lines before the shown part
    before: int = 0  # events before the shown part
    until: int | None = None  # events up to the end of what is shown; None for all
    notes: list[str] = field(default_factory=list)
    remarks: list[tuple[int, str]] = field(default_factory=list)  # the program's notes, with their line numbers
    rings: list[tuple[int, str]] = field(default_factory=list)  # the notes about a guest's rings
    names: Names = field(default_factory=Names)
    known: dict[str, int] = field(default_factory=dict)
    units: Units = field(default_factory=Units)
    warns: bool = True  # whether niclint checks the whole recording

    @property
    def line_of(self) -> array[int]:
        return self.instructions.line_of

    @property
    def ends(self) -> tuple[int, int]:
        """The numbers of events and lines up to the end of what is shown."""
        if self.until is None:
            return len(self.instructions), len(self.lines)
        return self.until, self.line_of[self.until - 1] if self.until else 1

    def fault(self, number: int, fault: Exception) -> BadLine:
        """Returns the error for a line."""
        what = shortened(f"{type(fault).__name__} {fault}".strip(), 160)
        return BadLine(f"{self.path}:{number}: this line of a recording can't be replayed ({what})", number)

    def script(self) -> Script:
        """Returns the whole recording as a script. Raises the error for the first bad line."""
        if self.bad:
            raise self.bad[0]
        made = self.instructions
        return Script(self.path, self.lines, made, self.data, made.line_of, {}, [])  # type: ignore[arg-type]


def parts(line: str) -> tuple[str, str]:
    """Splits a line into its instruction and its reply, which a register's name may follow. Ranges of lent blocks are
    on lines that a script reads as comments."""
    text, _, rest = (line[3:] if line.startswith("#: lend ") else line).partition("#")
    return text.strip(), rest.partition("#")[0].strip()


def named(one: Instruction, text: str) -> tuple[str, str]:
    """Replaces an access's address by the register's name. The second value is a comment with the name if the name
    can't replace the address: for a virtual function's offset, or an address other than the register's first."""
    if one.op in (Op.VF_WRITE, Op.VF_READ):
        return text, OFFSETS.get(one.a, "")
    register = register_at(one.a) if one.op in (Op.WRITE, Op.READ) else None
    if register is None or register.address != one.a:
        return text, register.name if register else ""
    word, _, *rest = text.split()
    return " ".join([word, register.name, *rest]), ""


def bytes_of(words: list[str], comment: str) -> bytes:
    """Returns the bytes that a `data` line defines. A script can't express empty data, so its line has one byte and a
    comment."""
    return b"" if comment == EMPTY else bytes.fromhex("".join(words[2:]))


def read(path: str, raw: Source | bytes) -> Recording:
    """Parses a recording; all of it is shown. Raises Fault."""
    lines = Lines(raw if isinstance(raw, Source) else Source.of(path, raw))
    each = lines.read()
    head = HEAD.fullmatch(next(each, ""))
    if not head:
        raise Fault(f"{path}:1: incomplete first line: a recording begins like `#: nic vfs 0 fifo 64 blocks 256`")
    vfs, fifo, blocks = map(int, head.groups())
    made = Recording(path, lines, vfs, fifo, blocks, Events(lines), Data(lines))
    take(made, each, 2)
    return made


def take(made: Recording, each: Iterator[str], first_number: int) -> None:
    """Adds lines to a recording; the first has this number."""
    names, known = made.names, made.known
    line_of, codes, uses = made.instructions.line_of, made.instructions.codes, made.instructions.uses
    for number, line in enumerate(each, first_number):
        code = known.get(line)
        if code is not None:
            line_of.append(number)
            codes.append(code)
            uses.append(0)
            continue
        try:
            if not (line.startswith(OF_BYTES) and _take_bytes(made, names, number, line)):
                _take_line(made, names, known, number, line)
        except BAD as fault:
            made.bad.append(made.fault(number, fault))


def _take_bytes(made: Recording, names: Names, number: int, line: str) -> bool:
    """Adds a line of a common kind in its usual form. Returns false if the line has another form."""
    words = line.split()
    if words[0] == "data" and len(words) == 3:
        bytes.fromhex(words[2])
        names.add(words[1])
        made.data.places.append(number)
    elif words[0] == "poke" and len(words) == 5 and words[3] == "#":
        number_of(words[1])
        made.instructions.add(number, NOT_KEPT | Op.POKE, names[words[2]])
    elif words[0] == "arrive" and len(words) == 4 and words[2] == "#":
        made.instructions.add(number, NOT_KEPT | Op.ARRIVE, names[words[1]])
    else:
        return False
    return True


def _take_line(made: Recording, names: Names, known: dict[str, int], number: int, line: str) -> None:
    """Adds a line that isn't among the known ones."""
    text, reply = parts(line)
    if not text:
        if line.startswith("#: "):
            made.directives.append((number, line[3:].split()))
        elif line.startswith(NOTE):
            made.remarks.append((number, line.removeprefix(NOTE)))
            if RING.search(line):
                made.rings.append(made.remarks[-1])
        return
    words = text.split()
    if text.startswith("data "):
        bytes_of(words, reply)
        names.add(words[1])
        made.data.places.append(number)
        return
    one = instruction(words, names)  # type: ignore[arg-type]
    if one.b > MOST_WORD:
        raise ValueError(f"0x{one.b:x} doesn't fit into 32 bits")
    code = NOT_KEPT | one.op
    is_short = len(line) <= LONGEST_KEPT and len(known) < MOST_KEPT
    if one.op != Op.JMP and is_short and not text.startswith(WITH_BYTES):
        code = known[line] = made.instructions.keep(one, reply)
    made.instructions.add(number, code, one.x if one.op in (Op.POKE, Op.ARRIVE, Op.JMP) else 0)


def in_place(made: Recording) -> set[int]:
    """Returns the blocks that the program lent in place at any time."""
    blocks: set[int] = set()
    for number, words in made.directives:
        if words[:2] == ["in", "place"]:
            which = words[2:3] if words[3:] == ["to", *words[2:3]] else words[2:]  # a single block is written `5 to 5`
            try:
                blocks.update(instruction(["lend", *which], {}).blocks)
            except BAD as fault:
                raise made.fault(number, fault) from None
    return blocks


def cut(made: Recording, limit: int) -> None:
    """Selects the last `limit` events after the last restored snapshot or installed image."""
    events, lines = made.ends
    last = max((number for number, words in made.directives if words[:1] in RESTARTS and number <= lines), default=0)
    made.before = max(events - limit, bisect_right(made.line_of, last), 0)
    made.begin = max(made.line_of[made.before - 1] if made.before else 0, last)
    if made.before:
        made.notes.append(f"{made.before:,} events precede the first step shown")


# The operations that change the number of bytes in use.
FOLLOWED = frozenset((Op.LEND, Op.UNLEND, Op.ARRIVE, Op.RX, Op.TX, Op.COLLECT))


class TooMuch(ValueError):
    """A recording needs more memory than the tools allow."""


class Held:
    """An upper bound on the bytes that a recording's controller and its snapshots need, derived from the replies: lent
    blocks, waiting frames, and transmitted frames. Raises TooMuch."""

    def __init__(self, fifo: int) -> None:
        self.lent = self.out = self.waiting = self.of_kept = 0
        self.frames: deque[int] = deque()
        self.fifo = fifo
        self.kept: dict[str, tuple[int, int, list[int]]] = {}

    @property
    def size(self) -> int:
        return self.lent + self.waiting + self.out

    def follow(self, one: Instruction, reply: str, data: Sequence[bytes]) -> None:
        """Accounts for an instruction."""
        if one.op == Op.LEND and reply == "done":
            self.lent += BLOCK_BYTES * len(one.blocks)
        elif one.op == Op.UNLEND and reply.startswith("taken"):
            self.lent -= BLOCK_BYTES
        elif one.op == Op.ARRIVE:
            self.arrives(reply, len(data[one.x]))
        elif one.op == Op.RX and self.frames and not reply.startswith("idle") and not reply.endswith(" more"):
            self.waiting -= self.frames.popleft()
        elif one.op == Op.TX and reply.startswith("sent"):
            self.out += int(reply.split()[-1])
            self._refuse()
        elif one.op == Op.COLLECT and reply.startswith("frame"):
            self.out -= min(len(reply.split()[-1]) // 2, self.out)

    def arrives(self, reply: str, length: int) -> None:
        """Accounts for an arriving frame. Resets, which discard all frames, are ignored: at most `fifo` frames are
        waiting in any case."""
        if reply != "done":
            return
        self.frames.append(length)
        self.waiting += length
        if len(self.frames) > self.fifo:
            self.waiting -= self.frames.popleft()

    def keep(self, name: str) -> None:
        """Accounts for a snapshot with this name."""
        self.drop(name)
        self.kept[name] = self.lent, self.out, list(self.frames)
        self.of_kept += self.size
        self._refuse()

    def back(self, name: str) -> None:
        """Accounts for restoring the snapshot with this name."""
        self.lent, self.out, frames = self.kept[name]
        self.frames, self.waiting = deque(frames), sum(frames)

    def drop(self, name: str) -> None:
        """Accounts for dropping the snapshot with this name."""
        if name in self.kept:
            lent, out, frames = self.kept.pop(name)
            self.of_kept -= lent + out + sum(frames)

    def _refuse(self) -> None:
        if self.of_kept + self.size > MOST_HELD:
            raise TooMuch(f"its snapshots and frames need more than {MOST_HELD >> 20:,} MiB, the tools' limit")


class Player:
    """Replays a recording line by line, up to the part that is shown."""

    def __init__(self, recording: Recording) -> None:
        self.recording = recording
        nic82599.record(None)  # otherwise NIC82599_RECORD may name the file being read
        try:
            self.nic = Nic(recording.vfs, recording.fifo, recording.blocks)
        except BAD as fault:
            raise Fault(f"{recording.path} can't be replayed: {fault}") from None
        self.again = Again(self.nic)
        self.snapshots: dict[str, Snapshot] = {}
        self.held = Held(recording.fifo)
        self.others = 0
        self.at = self.directed = 0  # events, and directives, replayed so far

    def play(self) -> None:
        """Replays the part that isn't shown."""
        self.play_to(self.recording.before, self.recording.begin)

    def play_to(self, before: int, begin: int) -> None:
        """Continues up to an event and a line: replays everything before both."""
        made = self.recording
        while self.directed < len(made.directives) and made.directives[self.directed][0] <= begin:
            number, words = made.directives[self.directed]
            self._events(min(bisect_right(made.line_of, number), before))
            try:
                self._directive(words)
            except BAD as fault:
                raise made.fault(number, fault) from None
            self.directed += 1
        self._events(before)

    def _events(self, end: int) -> None:
        made, at = self.recording, self.at
        try:
            for at in range(self.at, end):
                self._event(at)
        except BAD as fault:
            raise made.fault(made.line_of[at], fault) from None
        self.at = max(self.at, end)

    def _event(self, event: int) -> None:
        """Replays an event. Events with bytes, which are most of a recording, are replayed without building an
        instruction."""
        events, data, op = self.recording.instructions, self.recording.data, self.recording.instructions.codes[event]
        if op == NOT_KEPT | Op.POKE:
            words, recorded = events.words(event)
            reply = self.again.poke(number_of(words[1]), data[events.uses[event]])
        elif op == NOT_KEPT | Op.ARRIVE:
            (_, recorded), frame = events.words(event), data[events.uses[event]]
            reply = self.again.arrive(frame)
            self.held.arrives(reply, len(frame))
        else:
            one, recorded = events.both(event)
            reply = self.again.event(one, data)
            if one.op in FOLLOWED:
                self.held.follow(one, reply, data)
        self.others += reply != recorded

    def _directive(self, words: list[str]) -> None:
        match words:
            case ["snapshot", name]:
                self.held.keep(name)
                self.snapshots[name] = self.nic.snapshot()
            case ["restore", "0"]:
                raise ValueError("it restores a snapshot that isn't in this recording")
            case ["restore", name]:
                self.nic.restore(self.snapshots[name])
                self.held.back(name)
            case ["drop", name]:
                self.snapshots.pop(name).drop()
                self.held.drop(name)
            case ["image", *text]:
                self.nic.install_image(bytes.fromhex("".join(text)))
            case ["text", *text]:
                self.nic.install_text(bytes.fromhex("".join(text)).decode())


# --- the steps that are shown ---


def _line(remark: tuple[int, str]) -> int:
    return remark[0]


def _notes(recording: Recording) -> dict[int, str]:
    """Returns the program's notes about each shown event, keyed by the event's number from 0. An event's notes are
    between it and the previous event."""
    notes: dict[int, list[str]] = {}
    end, before = recording.ends[1], recording.before
    begin = bisect_right(recording.remarks, recording.line_of[before - 1], key=_line) if before else 0
    for number, text in recording.remarks[begin : bisect_right(recording.remarks, end, key=_line)]:
        notes.setdefault(bisect_right(recording.line_of, number), []).append(text)
    return {event: "; ".join(texts) for event, texts in notes.items()}


def _rings_before(recording: Recording) -> list[str]:
    """Returns the last note about each ring of a guest, before the events that are shown."""
    if not recording.before:
        return []
    first_lines = bisect_left(recording.rings, recording.line_of[recording.before - 1], key=_line)
    matches = (RING.finditer(text) for _, text in recording.rings[:first_lines])
    return list({one[1]: one[0] for found in matches for one in found}.values())


def _shown(recording: Recording) -> tuple[Script, list[str]]:
    """Returns the shown part as a script, and the recorded reply of each instruction."""
    end, last = recording.ends
    lines = [line[3:] if line.startswith("#: lend ") else line for line in recording.lines[recording.begin : last]]
    made = Script(recording.path, lines, [], [], [], {}, [], recording.begin)
    events = range(recording.before, end)
    replies = [recording.instructions.both(event)[1] for event in events]
    if recording.before:
        text = f"r 0x{first('STATUS'):05x}"
        lines.insert(0, f"{text}                    # after the {recording.before:,} earlier events")
        made.before -= 1
        made.instructions.append(instruction(text.split(), {}))
        made.line_of.append(1)
        replies.insert(0, "after")
    for event in events:
        one, number = recording.instructions[event], recording.line_of[event]
        if one.op in (Op.POKE, Op.ARRIVE):
            made.data.append(recording.data[one.x])
            one = replace(one, x=len(made.data) - 1)
        made.instructions.append(one)
        made.line_of.append(number - made.before)
    made.data_names = [f"d{number}" for number in range(len(made.data))]
    return made, replies


def _waiting(nic: Nic) -> int:
    """Returns how many frames are waiting to be received. Enables all queues, moves each tail outside its ring, and
    counts the receive steps that take a frame. This changes the controller."""
    nic.write32(first("CTRL"), 0)
    count = 0
    while True:
        for queue in range(128):
            nic.write32(first("RXDCTL", queue), ENABLE)
            nic.queue_step("rx", queue)
            nic.write32(first("RDT", queue), 0xFFFF)
        taken = 0
        while nic.rx_step() is not None:
            taken += 1
        if not taken:
            return count
        count += taken


def _lent(nic: Nic) -> set[int]:
    """Returns the lent blocks."""
    found = set()
    for block in range(min(nic.blocks, MOST_BLOCKS)):
        with contextlib.suppress(nic82599.NotLent):
            nic.memory.read(block * nic82599.BLOCK_BYTES, 1)
            found.add(block)
    return found


def in_rows(numbers: set[int]) -> Iterator[tuple[int, int]]:
    """Yields the first and last number of each consecutive range."""
    row: list[int] = []
    for number in sorted(numbers):
        if row and number == row[1] + 1:
            row[1] = number
        else:
            if row:
                yield row[0], row[1]
            row = [number, number]
    if row:
        yield row[0], row[1]


def _steps(player: Player, script: Script, bench: Library, start: dict[int, int], always: set[int]) -> list[Step]:
    """Runs the steps and returns them with the registers that each changed. After each step it checks the registers
    that this kind of step can change, and the registers in `always`."""
    nic, plan, words, steps = player.nic, Plan(bench, script, start), dict(start), []
    nic.restore(bench.kept)
    held = copy.deepcopy(player.held)
    for number, one in enumerate(script.instructions):
        try:
            step = Step(number, number, played(nic, one, script.data))
            held.follow(one, step.reply, script.data)
        except BAD as fault:
            raise player.recording.fault(script.before + script.line_of[number], fault) from None
        for address in sorted(set(plan.after(one, step.reply)) | always):
            word = nic.peek32(address) or 0
            if word != words[address]:
                step.changes.append((address, words[address], word))
                words[address] = word
        steps.append(step)
    return steps


def _comment(recording: Recording, script: Script, steps: list[Step], replies: list[str]) -> int:
    """Adds comments to the lines: the recorded reply if it differs from the new one, and the notes. Returns how many
    replies differ."""
    notes, others, extra = _notes(recording), 0, bool(recording.before)
    script.lines[:1] = ["; ".join([script.lines[0], *_rings_before(recording)])] if extra else script.lines[:1]
    for step, reply in zip(steps, replies):
        at = script.line_of[step.pc] - 1
        text, _, said = script.lines[at].partition("#")
        shown, name = named(script.instructions[step.pc], text.strip())
        note = notes.get(recording.before + step.pc - extra) if reply != "after" else None
        recorded = said.strip() if reply == "after" else reply if step.reply != reply else ""
        comment = "; ".join(filter(None, (recorded, name, note)))
        script.lines[at] = f"{shown}  # {comment}" if comment else shown
        others += step.reply != reply and reply != "after"
    return others


def trace(player: Player) -> Trace:
    """Returns the trace of the steps that are shown, starting from the controller's current state."""
    nic, recording = player.nic, player.recording
    script, replies = _shown(recording)
    bench = Library(nic, nic.snapshot())
    every = {address: nic.peek32(address) or 0 for address in REGISTERS}
    lent, out = _lent(nic), 0
    while nic.collect():
        out += 1
    waiting = _waiting(nic)
    always: set[int] = set()
    while True:
        steps = _steps(player, script, bench, every, always)
        left = dict(every)
        left.update({address: word for step in steps for address, _, word in step.changes})
        missed = {address for address, word in left.items() if (nic.peek32(address) or 0) != word}
        if not missed - always:
            break
        always |= missed
    bench.begin_debug(script, [step.reply for step in steps])
    player.others += _comment(recording, script, steps, replies)
    if recording.before:
        steps[0].lent = [("+", *row) for row in in_rows(lent)]
    if player.others:
        recording.notes.append(f"{player.others:,} events got replies that differ from the recorded ones")
    start = {a: word for a, word in every.items() if word != REGISTERS[a].row.reset}
    start |= {address: every[address] for step in steps for address, _, _ in step.changes}
    made = Trace(bench, script, steps, start, f"ok {len(steps)}", recording.notes)
    made.lent, made.memory_before, made.waiting, made.out = lent, bench.before, waiting, out
    made.in_place = in_place(recording)
    made.read = recording.units.before(recording.instructions, recording.before) if made.in_place else set()
    made.warnings = [(one.line, one.text) for one in Advice(recording.script()).all()] if recording.warns else []
    return made


@contextlib.contextmanager
def traced(recording: Recording, limit: int) -> Iterator[Trace]:
    """Yields the trace of at most `limit` of a recording's last events, while its controller exists."""
    recording.script()
    cut(recording, limit)
    player = Player(recording)
    with player.nic:
        player.play()
        yield trace(player)


def of_recording(path: str, limit: int = 4_096, raw: Source | bytes | None = None) -> Run:
    """Returns the run of at most `limit` of a recording's last events."""
    with traced(read(path, Source(path) if raw is None else raw), limit) as made:
        return of_trace(made)


def refuse_sizes(path: str, vfs: int | None, fifo: int | None) -> None:
    """Refuses size options, because a recording contains its sizes."""
    if vfs is not None or fifo is not None:
        raise Fault(f"{path} is a recording with its sizes in its first line: omit --vfs and --fifo")


@contextlib.contextmanager
def trace_of(path: str, vfs: int | None, fifo: int | None, limit: int | None) -> Iterator[Trace]:
    """Yields the trace of a script (up to 4,096 steps) or of a whole recording; with `limit`, of that many steps."""
    source = Source(path)
    if not is_recording(source):
        text = text_of(path, source.whole())
        yield of_text(bench_of(Bench(vfs, fifo), text), path, text, limit_of_script(limit or 4_096))
        return
    refuse_sizes(path, vfs, fifo)
    with traced(read(path, source), limit or MOST_STEPS) as made:
        yield made


def run_of(path: str, vfs: int | None, fifo: int | None, limit: int) -> Run:
    """Returns the run of a script, or of the last events of a recording."""
    source = Source(path)
    if not is_recording(source):
        return of_script(Bench(vfs, fifo), path, limit_of_script(limit), source.whole())
    refuse_sizes(path, vfs, fifo)
    return of_recording(path, limit, source)
