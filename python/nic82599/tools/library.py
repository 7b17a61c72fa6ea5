"""Runs instructions on the library, with the replies that `nicbench run` prints. Recordings are replayed with it.

A recording's instructions are consecutive, without jumps. What the debugger of `nicbench` would print therefore follows
from the replies. To show a register at an instruction, the controller is first moved to that instruction.
"""

from __future__ import annotations

from collections.abc import Sequence

import nic82599
from nic82599 import Nic, Snapshot
from nic82599.printed import printed

from .printable import shortened
from .script import Bench, Instruction, Op, Script

OPS = {
    "w": Op.WRITE, "r": Op.READ, "vw": Op.VF_WRITE, "vr": Op.VF_READ, "lend": Op.LEND, "unlend": Op.UNLEND,
    "poke": Op.POKE, "peek": Op.PEEK, "arrive": Op.ARRIVE, "rx": Op.RX, "tx": Op.TX, "int": Op.INT, "qstep": Op.QSTEP,
    "eestep": Op.EESTEP, "link": Op.LINK, "collect": Op.COLLECT, "jmp": Op.JMP,
}  # fmt: skip
# A snapshot is kept after every APART steps, or less often if the snapshots would exceed ROOM bytes.
APART, ROOM = 1_024, 128 << 20
MOST_BLOCKS = 65_536
# The maximum number of digits of a number in a recording.
MOST_DIGITS = 20


def number_of(word: str) -> int:
    """Parses a non-negative number. Raises ValueError."""
    if not word[:1].isdigit() or len(word) > MOST_DIGITS:
        raise ValueError(f"{shortened(word)} isn't a number")
    return int(word, 0)


def instruction(words: list[str], names: dict[str, int]) -> Instruction:
    """Parses an instruction's words; `names` maps data and labels to their numbers. Raises ValueError, KeyError or
    IndexError."""
    op = OPS[words[0]]
    if op in (Op.WRITE, Op.READ):
        return Instruction(op, 0, 0, number_of(words[1]), number_of(words[2]) if op == Op.WRITE else 0)
    if op in (Op.VF_WRITE, Op.VF_READ):
        word = number_of(words[3]) if op == Op.VF_WRITE else 0
        return Instruction(op, 0, number_of(words[1]), number_of(words[2]), word)
    if op == Op.POKE:
        return Instruction(op, 0, names[words[2]], number_of(words[1]), 0)
    if op == Op.PEEK:
        return Instruction(op, number_of(words[2]), 0, number_of(words[1]), 0)
    if op in (Op.ARRIVE, Op.JMP):
        return Instruction(op, 0, names[words[1]], 0, 0)
    if op == Op.INT:
        return Instruction(op, 0, 0, 0, 0) if words[1] == "pf" else Instruction(op, 1, number_of(words[1]), 0, 0)
    if op == Op.QSTEP:
        return Instruction(op, int(words[1] == "tx"), number_of(words[2]), 0, 0)
    if op == Op.LINK:
        return Instruction(op, int(words[1] == "up"), 0, 0, 0)
    if op == Op.LEND:
        return _lent(words)
    return Instruction(op, 0, number_of(words[1]) if op in (Op.UNLEND, Op.TX) else 0, 0, 0)


def _lent(words: list[str]) -> Instruction:
    """Parses `lend 3`, or a recording's `lend 0 to 255`."""
    first, last = number_of(words[1]), 0
    if len(words) > 2:
        last = number_of(words[3])
        if words[2] != "to" or len(words) > 4 or not first < last < MOST_BLOCKS:
            raise ValueError(f"a range of blocks looks like `lend 0 to 255`, with numbers below {MOST_BLOCKS}")
    return Instruction(Op.LEND, 0, first, last, 0)


def _word(word: nic82599.Word) -> str:
    return f"{'stray' if word.stray else 'word'} 0x{word.word:08x}"


def _written(is_there: bool) -> str:
    return "done" if is_there else "stray 0x00000000"


def _access(nic: Nic, one: Instruction) -> str:
    if one.op == Op.WRITE:
        return _written(nic.write32(one.a, one.b))
    if one.op == Op.READ:
        return _word(nic.read32(one.a))
    if one.op == Op.VF_WRITE:
        return _written(nic.vf(one.x).write32(one.a, one.b))
    return _word(nic.vf(one.x).read32(one.a))


def _of_memory(nic: Nic, one: Instruction) -> str:
    if one.op == Op.PEEK and one.a % 16:
        return "misaligned"  # the library accepts any address
    if one.op == Op.LEND:
        nic.lend(*one.blocks)
    elif one.op == Op.UNLEND:
        nic.take(one.x)
        return f"taken {one.x}"
    else:
        return f"bytes {nic.memory.read(one.a, 16).hex()}"
    return "done"


def _step(nic: Nic, one: Instruction) -> str:
    if one.op == Op.RX:
        return printed(nic.rx_step())
    if one.op == Op.TX:
        return printed(nic.tx_step(one.x))
    if one.op == Op.INT:
        return printed(nic.int_step(one.x if one.sub else None))
    if one.op == Op.COLLECT:
        return printed(nic.collect())
    if one.op == Op.QSTEP:
        done = nic.queue_step("tx" if one.sub else "rx", one.x)
    elif one.op == Op.EESTEP:
        done = nic.eeprom_step()
    else:
        done = nic.link(bool(one.sub))
    return "done" if done else "idle"


REFUSALS: dict[type[Exception], str] = {
    nic82599.NotLent: "not lent", nic82599.NoBlock: "no block", nic82599.NoQueue: "no queue",
    nic82599.NoGroup: "no group",
}  # fmt: skip
_REFUSED = tuple(REFUSALS)
_ACCESSES = (Op.WRITE, Op.READ, Op.VF_WRITE, Op.VF_READ)
_MEMORY = (Op.LEND, Op.UNLEND, Op.PEEK)


def poked(nic: Nic, bus: int, data: bytes) -> str:
    """Writes 16 bytes to lent memory and returns the reply."""
    if bus % 16:
        return "misaligned"
    try:
        nic.memory.write(bus, data)
    except _REFUSED as refused:
        return REFUSALS[type(refused)]
    return "done"


def arrived(nic: Nic, frame: bytes) -> str:
    """Delivers a frame to the controller and returns the reply."""
    return printed(nic.arrive(frame) or True)


def played(nic: Nic, one: Instruction, data: Sequence[bytes]) -> str:
    """Runs an instruction and returns the reply, as `nicbench run` prints it."""
    try:
        if one.op in _ACCESSES:
            return _access(nic, one)
        if one.op in _MEMORY:
            return _of_memory(nic, one)
        if one.op == Op.POKE:
            return poked(nic, one.a, data[one.x])
        if one.op == Op.ARRIVE:
            return arrived(nic, data[one.x])
        return _step(nic, one)
    except _REFUSED as refused:
        return REFUSALS[type(refused)]


def accumulated(one: Instruction, reply: str, acc: int) -> int:
    """Returns the accumulator after an instruction with this reply."""
    first, _, rest = reply.partition(" ")
    if one.op in (Op.READ, Op.VF_READ) and first in ("word", "stray"):
        return int(rest, 16)
    if one.op == Op.PEEK and first == "bytes":
        return int.from_bytes(bytes.fromhex(rest)[4 * one.sub : 4 * one.sub + 4], "little")
    return acc


class Library(Bench):
    """Runs scripts of any length on the library, starting from a snapshot, and debugs one of them. Traces use it
    instead of `nicbench`."""

    most = 1 << 40

    def __init__(self, nic: Nic, kept: Snapshot) -> None:
        super().__init__(nic.vfs, nic.fifo)
        self.nic, self.kept = nic, kept
        self.place: Place | None = None
        self.earlier: dict[int, bytes] = {}

    def before(self, unit: int) -> bytes:
        """Returns 16 bytes of lent memory as they were before the first step."""
        block, at = divmod(unit, nic82599.BLOCK_BYTES)
        if block not in self.earlier:
            self.nic.restore(self.kept)
            self._moved()
            self.earlier[block] = self.nic.memory.read(unit - at, nic82599.BLOCK_BYTES)
        return self.earlier[block][at : at + 16]

    def _moved(self) -> None:
        if self.place is not None:
            self.place.at = None

    def run(self, script: str, limit: int) -> list[str]:
        self.nic.restore(self.kept)
        self._moved()
        lines: list[list[str]] = []
        names: dict[str, int] = {}
        data: list[bytes] = []
        printed: list[str] = []
        for line in script.splitlines():
            words = line.split()
            if words[0] == "data":
                names[words[1]] = len(data)
                data.append(bytes.fromhex("".join(words[2:])))
            elif words[0].endswith(":"):
                names[words[0][:-1]] = len(lines)
            else:
                lines.append(words)
        instructions, at = [instruction(words, names) for words in lines], 0
        for _ in range(limit):
            if at == len(instructions):
                return [*printed, f"ok {len(printed)}"]
            one = instructions[at]
            if one.op != Op.JMP:
                printed.append(f"{at} {played(self.nic, one, data)}")
            at = one.x if one.op == Op.JMP else at + 1
        return [*printed, f"ok {len(printed)}" if at == len(instructions) else f"limit {at}"]

    def begin_debug(self, script: Script, replies: list[str]) -> None:
        """Selects the script for `debug`. Its instructions since the snapshot have these replies."""
        self.place = Place(self.nic, self.kept, script, replies)

    def debug(self, script: str, commands: list[str]) -> list[str]:
        assert self.place is not None
        return self.place.answers(commands)


class Place:
    """Computes what `nicbench debug` prints for consecutive instructions. To show a register at an instruction, the
    controller is moved there, from its current position or from the nearest earlier snapshot."""

    def __init__(self, nic: Nic, kept: Snapshot, script: Script, replies: list[str]) -> None:
        self.nic, self.script = nic, script
        self.at: int | None = None  # how many instructions the controller has run; None if unknown
        self.count = len(replies)
        snapshots = max(1, ROOM // (nic.blocks * nic82599.BLOCK_BYTES + 1))
        self.apart = max(APART, -(-self.count // snapshots))
        self.kept = {0: kept}
        self.accs = [0]
        for one, reply in zip(script.instructions, replies):
            self.accs.append(accumulated(one, reply, self.accs[-1]))

    def _bring(self, count: int) -> None:
        """Brings the controller to the state after `count` steps."""
        nearest = max(mark for mark in self.kept if mark <= count)
        if self.at is None or not nearest <= self.at <= count:
            self.nic.restore(self.kept[nearest])
            self.at = nearest
        while self.at < count:
            played(self.nic, self.script.instructions[self.at], self.script.data)
            self.at += 1
            if self.at % self.apart == 0 and self.at not in self.kept:
                self.kept[self.at] = self.nic.snapshot()

    def answers(self, commands: list[str]) -> list[str]:
        """Returns what these commands print, starting at the first step."""
        at, breaks = 0, set[int]()
        lines: list[str] = []
        for command in commands:
            name, *words = command.split()
            numbers = [int(word, 0) for word in words]
            if name in ("show", "showvf"):
                lines.append(self._shown(at, numbers))
                continue
            refused = self._refused(name, numbers[0], at, breaks)
            if refused:
                lines.append(f"refused {refused}")
                continue
            if name == "break":
                breaks.add(numbers[0])
            elif name == "clear":
                breaks.discard(numbers[0])
            else:
                at = self._led(name, numbers[0], at, breaks)
            lines.append(f"at {at} pc {at} acc 0x{self.accs[at]:08x} {'ended' if at == self.count else 'running'}")
        return lines

    def _refused(self, name: str, number: int, at: int, breaks: set[int]) -> str:
        if name == "back":
            return "AtStart" if number > at else ""
        if name == "break":
            is_there = number < self.count
            return "NoSuchPc" if not is_there else "TooManyBreaks" if len(breaks | {number}) > 32 else ""
        return "NoSuchPc" if name == "clear" and number not in breaks else ""

    def _led(self, name: str, number: int, at: int, breaks: set[int]) -> int:
        """Returns the position to which a command moves."""
        if name == "back":
            return at - number
        end = min(at + number, self.count)
        return end if name == "step" else min([one for one in breaks if at < one < end], default=end)

    def _shown(self, at: int, numbers: list[int]) -> str:
        """Returns the value that reading a register, or a virtual function's offset, would return."""
        self._bring(at)
        word = self.nic.peek32(numbers[0]) if len(numbers) == 1 else self.nic.vf(numbers[0]).peek32(numbers[1])
        return f"0x{numbers[-1]:05x} " + ("stray" if word is None else f"0x{word:08x}")
