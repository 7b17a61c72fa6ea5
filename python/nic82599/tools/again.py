"""Replays the most frequent calls in a long recording, and returns the replies that `nicbench run` prints.

This is a faster library.py: it skips the package's conveniences and reuses the ctypes objects of each call. Rare and
refused calls go through the package.
"""

from __future__ import annotations

import ctypes

import nic82599
from nic82599 import Nic, statuses
from nic82599.printed import printed

from .library import REFUSALS, arrived, played, poked
from .script import Instruction, Op

ROOM = 16_384
# Larger values don't fit the C parameters; the package refuses them.
MOST_BUS, MOST_QUEUE = 0xFFFF_FFFF, 0xFFFF


class Again:
    """Replays events on a controller."""

    def __init__(self, nic: Nic) -> None:
        self.nic, self.handle = nic, nic._handle
        self.outcome, self.word, self.unit = nic82599._Outcome(), ctypes.c_uint32(), ctypes.create_string_buffer(16)
        self.room = ctypes.create_string_buffer(ROOM)
        self.at_outcome, self.at_word = ctypes.byref(self.outcome), ctypes.byref(self.word)
        library = nic._library
        self.reads, self.writes = library.nic_read32, library.nic_write32
        self.peeks, self.pokes = library.nic_dma_read, library.nic_dma_write
        self.arrives, self.collects, self.next_out = library.nic_arrive, library.nic_collect, library.nic_next_out
        self.receives, self.transmits = library.nic_rx_step, library.nic_tx_step
        self.ways = {
            Op.READ: self._read, Op.WRITE: self._write, Op.PEEK: self._peek, Op.RX: self._rx, Op.TX: self._tx,
            Op.COLLECT: self._collect,
        }  # fmt: skip

    def event(self, one: Instruction, data: object) -> str:
        """Runs an instruction and returns the reply."""
        way = self.ways.get(one.op)
        return way(one) if way else played(self.nic, one, data)  # type: ignore[arg-type]

    def poke(self, bus: int, data: bytes) -> str:
        """Writes 16 bytes to lent memory and returns the reply."""
        if bus % 16 or bus > MOST_BUS:
            return poked(self.nic, bus, data)
        status = self.pokes(self.handle, bus, data, len(data))
        return "done" if status == statuses.DONE else self._refused(status)

    def arrive(self, frame: bytes) -> str:
        """Delivers a frame to the controller and returns the reply."""
        if len(frame) > ROOM:
            return arrived(self.nic, frame)
        status = self.arrives(self.handle, frame, len(frame), self.at_outcome)
        return "done" if status == statuses.DONE else self._reply(status, "tx")

    def _refused(self, status: int) -> str:
        refusal = nic82599._refused(status, "a replayed event")
        if type(refusal) not in REFUSALS:
            raise refusal
        return REFUSALS[type(refusal)]

    def _reply(self, status: int, step: str) -> str:
        """Formats the reply from what the call reported, for most events without building an object."""
        outcome = self.outcome
        if status == statuses.IDLE:
            return "idle"
        if status == statuses.WROTE:
            return f"wrote queue {outcome.queue} slot {outcome.slot} {'end' if outcome.end else 'more'}"
        if status == statuses.SENT:
            return f"sent queue {outcome.queue} len {outcome.len}"
        if status == statuses.ADVANCED:
            return f"advanced queue {outcome.queue} slot {outcome.slot}"
        if status not in nic82599._TELLERS:
            return self._refused(status)
        outcome.step = statuses.STEPS.index(step)
        return printed(nic82599._TELLERS[status](outcome))

    def _read(self, one: Instruction) -> str:
        if one.a > MOST_BUS:
            return played(self.nic, one, ())
        status = self.reads(self.handle, one.a, self.at_word)
        if status > statuses.STRAY:
            return self._refused(status)
        return f"{'stray' if status else 'word'} 0x{self.word.value:08x}"

    def _write(self, one: Instruction) -> str:
        if one.a > MOST_BUS or one.b > MOST_BUS:
            return played(self.nic, one, ())
        status = self.writes(self.handle, one.a, one.b)
        if status > statuses.STRAY:
            return self._refused(status)
        return "stray 0x00000000" if status else "done"

    def _peek(self, one: Instruction) -> str:
        if one.a % 16 or one.a > MOST_BUS:
            return played(self.nic, one, ())
        status = self.peeks(self.handle, one.a, self.unit, 16)
        return f"bytes {self.unit.raw.hex()}" if status == statuses.DONE else self._refused(status)

    def _rx(self, _one: Instruction) -> str:
        return self._reply(self.receives(self.handle, self.at_outcome), "rx")

    def _tx(self, one: Instruction) -> str:
        if one.x > MOST_QUEUE:
            return played(self.nic, one, ())
        return self._reply(self.transmits(self.handle, one.x, self.at_outcome), "tx")

    def _collect(self, one: Instruction) -> str:
        if self.next_out(self.handle) > ROOM:
            return played(self.nic, one, ())
        status = self.collects(self.handle, self.room, ROOM, self.at_outcome)
        if status != statuses.FRAME:
            return "idle" if status == statuses.IDLE else self._refused(status)
        return f"frame queue {self.outcome.queue} {ctypes.string_at(self.room, self.outcome.len).hex()}"
