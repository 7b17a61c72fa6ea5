"""Warnings about what a driver's author may have forgotten in a script that the bench accepts, and why the card needs
it.

They are derived from the object's instructions, in the order of the lines, and from the register table.
"""

from __future__ import annotations

from array import array
from bisect import bisect_left, bisect_right
from collections.abc import Iterator
from dataclasses import dataclass, field

from . import regs
from .known import ABSENT
from .reason_table import reason, rows
from .regs import ENABLE, Register
from .script import Instruction, Op, Script


@dataclass(frozen=True, order=True)
class Warning:
    """A warning and its line. For a stray access, `family` is the register family or the address: niclint prints one
    line for all accesses with the same `family`."""

    line: int
    text: str
    family: str = ""


@dataclass(frozen=True)
class Absent:
    """A register of the card that the bench doesn't have: its name, the name of its family, and what a driver should do
    about it."""

    name: str
    family: str
    what: str


def absent_at(address: int) -> Absent | None:
    """Returns the card's register at this address, if there is one that the bench doesn't have."""
    for what, runs in ABSENT:
        for first, last, stride, name in runs:
            if first <= address <= last and not (address - first) % stride:
                index = f"[{(address - first) // stride}]" if last > first and name.isidentifier() else ""
                return Absent(name + index, name, what)
    return None


# Values that drivers write to clear all causes or masks, whichever bits a register has.
ALL = (0x7FFF_FFFF, 0xFFFF_FFFF)
CLEARED = ("EICR", "EIMC", "PVTEICR", "PVTEIMC")
# The maximum number of values per register whose warnings are cached.
MOST_WORDS = 1 << 16


@dataclass(frozen=True)
class Access:
    """A register write: the instruction's number, the register, the value, and the virtual function that wrote it, or
    None."""

    pc: int
    register: Register
    word: int
    function: int | None


def _of_word(register: Register, word: int) -> Iterator[str]:
    """Yields the warnings about a value written to a register."""
    row, name = register.row, register.name
    if row.kind in ("Ro", "Rc", "Calc"):
        yield f"{name} is read-only: the write changes nothing"
        return
    rest = 0 if word in ALL and row.name in CLEARED else regs.reserved(row, word)
    if rest:
        yield f"{name}: bits 0x{rest:08x} are reserved: write 0, because later cards may use them"
    # Bits that read 1 after a reset get no warning: a driver that changes another bit writes them back unchanged.
    lost = word & ~row.mask & ~row.reset & ~rest & 0xFFFF_FFFF
    if row.kind in ("Rw", "Held") and lost:
        why = {
            "DLEN": "; a ring's length is a multiple of 128 bytes",
            "DBAL": "; a ring begins at a multiple of 128",
        }.get(row.name[1:], "")
        yield f"{name} doesn't keep bits 0x{lost:08x}{why}"


@dataclass
class Writes:
    """One function's writes to a register, in the order of their instructions. A recording may have millions."""

    register: Register
    function: int | None
    pcs: array[int] = field(default_factory=lambda: array("I"))
    words: array[int] = field(default_factory=lambda: array("I"))

    def each(self, first: int = 0, end: int | None = None) -> Iterator[Access]:
        """Yields the writes from index `first` up to `end`."""
        for at in range(first, len(self.pcs) if end is None else end):
            yield Access(self.pcs[at], self.register, self.words[at], self.function)


class Advice:
    """The warnings for a script."""

    def __init__(self, script: Script) -> None:
        self.script = script
        self.writes: dict[tuple[int, int | None], Writes] = {}
        self.strays = array("I")
        self.steps = {Op.QSTEP: list[tuple[int, Instruction]](), Op.INT: list[tuple[int, Instruction]]()}
        self._read_accesses()
        self.rows: dict[str, list[Writes]] = {}
        for one in self.writes.values():
            self.rows.setdefault(one.register.row.name, []).append(one)

    def _read_accesses(self) -> None:
        """Collects the writes, the stray accesses and the steps. For a virtual function's access, the last write to
        GCR_EXT before it determines how the pools divide the queues."""
        k, which = 0, (Op.WRITE, Op.READ, Op.VF_WRITE, Op.VF_READ, *self.steps)
        for pc, one in self.script.only(*which):
            if one.op in (Op.WRITE, Op.READ):
                register, function = regs.register_at(one.a), None
            elif one.op in (Op.VF_WRITE, Op.VF_READ):
                register, function = regs.function_register(k or 2, one.x, one.a), one.x
            else:
                self._take_step(pc, one)
                continue
            if register is None:
                self.strays.append(pc)
            elif one.op in (Op.WRITE, Op.VF_WRITE):
                self._take_write(pc, register, one.b, function)
                if register.row.name == "GCR_EXT":
                    k = regs.queues_of_pool(one.b)

    def _take_write(self, pc: int, register: Register, word: int, function: int | None) -> None:
        key = register.address, function
        if (mine := self.writes.get(key)) is None:
            mine = self.writes[key] = Writes(register, function)
        mine.pcs.append(pc)
        mine.words.append(word)

    def _take_step(self, pc: int, one: Instruction) -> None:
        """Records the queue steps, and the first message step of the physical function."""
        mine = self.steps[one.op]
        if one.op == Op.QSTEP or not (mine or one.sub):
            mine.append((pc, one))

    def all(self) -> list[Warning]:
        found = [
            *self._strays(),
            *self._words(),
            *self._queues("Receive"),
            *self._queues("Transmit"),
            *self._messages(),
            *self._causes(),
        ]
        return sorted(set(found))

    def _at(self, pc: int, text: str) -> Warning:
        return Warning(self.script.line_of[pc], text)

    def _of(self, name: str) -> list[Access]:
        found = [access for one in self.rows.get(name, []) for access in one.each()]
        return sorted(found, key=lambda one: one.pc)

    def _of_queue(self, name: str, queue: int) -> list[Writes]:
        """Returns the writes to a queue's register."""
        return [one for one in self.rows.get(name, []) if one.register.index == queue]

    def _strays(self) -> Iterator[Warning]:
        """Warns about accesses to addresses without a register."""
        for pc in self.strays:
            one, line = self.script.instructions[pc], self.script.line_of[pc]
            absent = absent_at(one.a)
            if one.op in (Op.VF_READ, Op.VF_WRITE):
                text = f"offset 0x{one.a:04x} of a virtual function isn't a register: the access is `stray`"
                yield Warning(line, text, text)
            elif absent:
                text = f"0x{one.a:05x} is {absent.name}, which the bench doesn't model: {absent.what}"
                yield Warning(line, text, absent.family)
            else:
                text = f"0x{one.a:05x} isn't a register: the access is `stray`"
                yield Warning(line, text, text)

    def _words(self) -> Iterator[Warning]:
        """Warns about written values with reserved bits or with bits that the register doesn't keep, and about writes
        to read-only registers."""
        for writes in self.writes.values():
            texts_of: dict[int, list[str]] = {}
            for pc, word in zip(writes.pcs, writes.words):
                if (texts := texts_of.get(word)) is None:
                    texts = list(_of_word(writes.register, word))
                    if len(texts_of) < MOST_WORDS:
                        texts_of[word] = texts
                for text in texts:
                    yield self._at(pc, text)

    def _queues(self, bank: str) -> Iterator[Warning]:
        """Warns if a side of a queue is set up incompletely or in the wrong order."""
        letter, side = ("R", "rx") if bank == "Receive" else ("T", "tx")
        enables = {one.register.index: one for one in reversed(self._of(letter + "XDCTL")) if one.word & ENABLE}
        switched: dict[int, list[int]] = {}
        for pc, one in self.steps[Op.QSTEP]:
            if bool(one.sub) == (side == "tx"):
                switched.setdefault(one.x, []).append(pc)
        sends = [one.pc for one in self._of("DMATXCTL") if one.word & 1]
        for queue, enable in enables.items():
            name = f"{letter}XDCTL[{queue}]"
            if side == "tx" and not [pc for pc in sends if pc < enable.pc]:
                yield self._at(
                    enable.pc,
                    f"{name}.ENABLE is written before DMATXCTL.TE is 1: set TE first, or the queue may not start",
                )
            on = next((pc for pc in switched.get(queue, []) if pc > enable.pc), None)
            if on is None:
                yield self._at(
                    enable.pc,
                    f"no `qstep {side} {queue}` follows, so the queue is never turned on",
                )
            yield from self._tails(letter, queue, enable, on)
            yield from self._held(bank, queue, on)
            if side == "rx":
                yield from self._buffers(queue, enable)

    def _tails(self, letter: str, queue: int, enable: Access, on: int | None) -> Iterator[Warning]:
        """Warns if a queue's tail is never written, or is written before the queue is enabled."""
        mine = self._of_queue(letter + "DT", queue)
        if not mine:
            text = f"{letter}DT[{queue}] is never written: the device owns no slot of the ring"
            yield self._at(enable.pc, text)
        lost = "the device may lose it" if letter == "R" else "the device may fetch from a ring that isn't set up"
        for writes in mine:
            for one in writes.each(0, bisect_left(writes.pcs, on if on is not None else enable.pc)):
                if one.word:
                    name, what = one.register.name, f"{letter}XDCTL[{queue}].ENABLE reads 1"
                    yield self._at(one.pc, f"{name} is written before {what}: write it afterwards, or {lost}")

    def _held(self, bank: str, queue: int, on: int | None) -> Iterator[Warning]:
        """Warns about writes to a ring's base, length or head while its queue is enabled."""
        if on is None:
            return
        off = min(
            (
                one.pc
                for writes in self._of_queue(("R" if bank == "Receive" else "T") + "XDCTL", queue)
                for one in writes.each(bisect_right(writes.pcs, on))
                if not one.word & ENABLE
            ),
            default=None,
        )
        for writes in self.writes.values():
            row = writes.register.row
            if row.kind != "Held" or row.bank != bank or writes.register.index != queue:
                continue
            end = len(writes.pcs) if off is None else bisect_right(writes.pcs, off)
            for one in writes.each(bisect_right(writes.pcs, on), end):
                text = f"{one.register.name} is locked while the queue is on: the write changes nothing"
                yield self._at(one.pc, text)

    def _buffers(self, queue: int, enable: Access) -> Iterator[Warning]:
        """Warns about the descriptor type and buffer size of a receive queue."""
        control = [one for writes in self._of_queue("SRRCTL", queue) for one in writes.each()]
        if not control:
            yield self._at(
                enable.pc,
                f"SRRCTL[{queue}] is never written: its reset value selects legacy descriptors, a fault on the bench",
            )
        for one in control:
            kind, size = one.word >> 25 & 7, one.word & 31
            if kind != 1:
                yield self._at(
                    one.pc,
                    f"SRRCTL[{queue}].DESCTYPE {kind}: receiving is a fault, because the bench supports only 1",
                )
            elif not size:
                yield self._at(
                    one.pc, f"SRRCTL[{queue}].BSIZEPACKET is 0: buffers have no room, so receiving is a fault"
                )

    def _messages(self) -> Iterator[Warning]:
        """Warns about messages that the card would send differently."""
        steps = [pc for pc, _ in self.steps[Op.INT]]
        if steps and not [one for one in self._of("GPIE") if one.word & 0x10]:
            yield self._at(steps[0], f"GPIE.Multiple_MSIX isn't set: {rows()['no_msix'].why}")

    def _causes(self) -> Iterator[Warning]:
        """Warns about causes that have no vector, are never enabled, or are never raised."""
        masks = self._of("EIMS")
        entries = [(one, byte, one.word >> 8 * byte & 0xFF) for one in self._of("IVAR") for byte in range(4)]
        masked = raised = 0
        for one in masks:
            masked |= one.word
        for one in self._of("EICS"):
            raised |= one.word
        for _, _, entry in entries:
            raised |= 1 << (entry & 63) if entry & 0x80 else 0
        yield from self._without_vector(masks)
        for one, byte, entry in entries:
            if entry:
                yield from self._unreported(one, byte, entry, masked)
        for one in masks:
            silent = one.word & 0xFFFF & ~raised
            if silent:
                yield self._at(one.pc, reason("pf_unraised", {}, silent).text)

    def _without_vector(self, masks: list[Access]) -> Iterator[Warning]:
        """Warns about unmasked causes, other than queues' causes, to which IVAR_MISC assigns no vector."""
        misc = [one.word for one in self._of("IVAR_MISC")]
        others, timer = any(word & 0x8000 for word in misc), any(word & 0x80 for word in misc)
        for one in masks:
            lost = one.word & (0 if others else 0x3FFF_0000) | one.word & (0 if timer else 1 << 30)
            if lost:
                names = ", ".join(regs.bits("EIMS", lost))
                yield self._at(one.pc, f"{names}: IVAR_MISC assigns no vector to these causes, so they send no message")

    def _unreported(self, one: Access, byte: int, entry: int, masked: int) -> Iterator[Warning]:
        """Warns about an IVAR entry that isn't valid, or names a cause that doesn't exist or that EIMS never
        enables."""
        queue, side = 2 * one.register.index + byte // 2, "tx" if byte & 1 else "rx"
        named = one.register.index, byte, side, queue
        if not entry & 0x80:
            yield self._at(one.pc, reason("pf_entry_off", {}, *named).text)
        elif entry & 63 > 15:
            yield self._at(one.pc, reason("pf_entry_high", {}, *named, entry & 63).text)
        elif not masked >> (entry & 63) & 1:
            yield self._at(
                one.pc,
                f"{side} {queue} raises cause {entry & 63}, which EIMS never enables: the cause sends no message",
            )
