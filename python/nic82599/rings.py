"""Shows a descriptor ring at a prompt or in a notebook: `print(nic.ring("rx", 3))`.

Registers are peeked and slots are read from lent memory, so the device doesn't change. A recording contains the memory
reads. Slots are described by the tools' code, in the words of `nicview`.
"""

from __future__ import annotations

from dataclasses import dataclass
from html import escape
from typing import TYPE_CHECKING

from . import QUEUES, NoQueue, NotLent, address_of
from .tools import draw, memory

if TYPE_CHECKING:
    from . import Nic

BYTES = 16
REGISTERS = {
    "rx": ("RDBAL", "RDBAH", "RDLEN", "RDH", "RDT", "RXDCTL"),
    "tx": ("TDBAL", "TDBAH", "TDLEN", "TDH", "TDT", "TXDCTL", "TDWBAL", "TDWBAH"),
}
# The maximum number of rows in a table. If the ring has more slots, the table begins BEFORE slots before the head.
ROWS, BEFORE = 64, 8


@dataclass(frozen=True)
class Slot:
    """A slot of a ring. `at` is its bus address. `owner` is `device`, `driver`, or `nobody` if head or tail is
    outside the ring. `data` is its 16 bytes, or None if they aren't lent. `form` and `fields` are the
    descriptor's format and contents. `done` is whether the device is done with it."""

    number: int
    at: int
    owner: str
    data: bytes | None
    form: str
    fields: dict[str, str]
    done: bool


class Ring:
    """A snapshot of a ring: `side`, `queue`, `base`, `head`, `tail`, `on` (whether it is enabled), and `slots`. `str`
    returns it as lines, like `nicview --text`: D for the device's slots, + for completed ones, . for the driver's."""

    def __init__(self, ring: memory.Ring, known: draw.Slots) -> None:
        self._ring, self._known = ring, known
        self.side, self.queue, self.base, self.on = ring.side, ring.queue, ring.base, ring.on
        self.head, self.tail = ring.head, ring.tail
        self.slots = [self._slot(number) for number in range(ring.slots)]

    def _slot(self, number: int) -> Slot:
        at, said = self.base + BYTES * number, self._known.said(self._ring, number)
        data = self._known.memory.get(at)
        return Slot(number, at, self._ring.owner(number), data, said.form, dict(said.fields), said.done)

    def __repr__(self) -> str:
        state = "on" if self.on else "off"
        return f"<ring {self._ring.name}, {state}: {len(self.slots)} slots, head {self.head}, tail {self.tail}>"

    def __str__(self) -> str:
        return "\n".join(draw.ring_lines(self._ring, self._known))

    def _row(self, slot: Slot) -> str:
        marks = [name for name, at in (("head", self.head), ("tail", self.tail)) if at == slot.number]
        words = self._known.describe(self._ring, slot.number)
        cells = (str(slot.number), " ".join(marks), f"0x{slot.at:x}", self._known.look(self._ring, slot.number), words)
        return "<tr>" + "".join(f"<td>{escape(it)}</td>" for it in cells) + "</tr>"

    def _repr_html_(self) -> str:
        """Returns an HTML table of the slots. A long ring is shown only in part, starting shortly before the head."""
        count = len(self.slots)
        first = self.head - BEFORE if count > ROWS and self.head < count else 0
        shown = [self.slots[(first + row) % count] for row in range(min(count, ROWS))]
        left = f" ({count - len(shown)} more slots not shown)" if count > len(shown) else ""
        names = "".join(f"<th>{it}</th>" for it in ("slot", "", "address", "", "descriptor"))
        title = escape(draw.ring_lines(self._ring, self._known)[0] + left)
        rows = "\n".join(self._row(it) for it in shown)
        return f"<table>\n<caption>{title}</caption>\n<tr>{names}</tr>\n{rows}\n</table>"


def _read(nic: Nic, at: int, known: draw.Slots) -> None:
    """Reads the 16 bytes at an address, if they are lent."""
    try:
        known.memory[at] = nic.memory.read(at, BYTES)
        known.lent.add(at >> 11)
    except (NotLent, ValueError):
        known.memory[at] = None


def ring_of(nic: Nic, side: str, queue: int) -> Ring:
    """Returns a ring of a controller. Raises NoQueue if there is no such queue."""
    if queue >= QUEUES:
        raise NoQueue(f"{NoQueue.__doc__} (ring {side} {queue})")
    words = {address_of(f"{name}[{queue}]"): nic.peek(f"{name}[{queue}]") for name in REGISTERS[side]}
    ring, known = memory.ring_of(words, side, queue), draw.Slots()
    for number in range(ring.slots):
        _read(nic, ring.base + BYTES * number, known)
    if ring.back is not None:
        _read(nic, ring.back & ~15, known)
    return Ring(ring, known)
