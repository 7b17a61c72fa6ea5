"""Windows in which a driver has its card down: a recording's accesses between RXCTRL = 0 and RXCTRL.RXEN. The driver
must not give the card a frame during a window. This module reports tails that moved nevertheless."""

from __future__ import annotations

import re
import sys
from collections.abc import Iterable, Iterator
from dataclasses import dataclass, field
from pathlib import Path

sys.path.insert(0, str(Path(__file__).resolve().parents[3] / "python"))
from nic82599.tools.regs import register_at  # noqa: E402

RXEN, RESET = 1, 0x04000008
ACCESS = re.compile(r"([rw]) 0x([0-9a-f]{5})(?: 0x([0-9a-f]{8}))?(?: +# word 0x([0-9a-f]{8}))?")
TAIL = re.compile(r"TDT\[\d+\]")
KEPT = 100_000  # accesses kept for each window
FAMILIES, SHORT = 8, 4


@dataclass
class Access:
    """An access, with its line number."""

    line: int
    way: str
    name: str
    word: int

    @property
    def family(self) -> str:
        return f"{self.way} " + (self.name.split("[")[0] if not self.name.startswith("0x") else "unknown registers")

    @property
    def gives(self) -> bool:
        """Returns whether the access gives a frame to the card."""
        return self.way == "w" and self.word != 0 and TAIL.fullmatch(self.name) is not None

    @property
    def mark(self) -> str:
        """The access's meaning for the whole card, or for a queue's frames; "" for any other access."""
        if self.way == "r":
            return ""
        if self.name == "RXCTRL":
            return "the card receives" if self.word & RXEN else "the card is going down"
        if self.name == "CTRL" and self.word & RESET:
            return "a reset"
        if TAIL.fullmatch(self.name):
            return "a frame is given to the card" if self.word else "the ring begins again"
        return ""


@dataclass
class Window:
    """The accesses made while the card was down, and those right before."""

    before: list[Access]
    accesses: list[Access] = field(default_factory=list)

    @property
    def tails(self) -> list[Access]:
        return [it for it in self.accesses if it.gives]


def name_of(address: int) -> str:
    register = register_at(address)
    return register.name if register else f"0x{address:05x}"


def accesses(lines: Iterable[str]) -> Iterator[Access]:
    for number, line in enumerate(lines, 1):
        found = ACCESS.match(line)
        if found:
            address, word = int(found[2], 16), int(found[3] or found[4] or "0", 16)
            yield Access(number, found[1], name_of(address), word)


def windows(lines: Iterable[str]) -> Iterator[Window]:
    """Yields a window for each period in which the card was down. A window that is still open at the end of the
    recording comes last."""
    before: list[Access] = []
    window: Window | None = None
    for it in accesses(lines):
        if it.way == "w" and it.name == "RXCTRL" and not it.word & RXEN and window is None:
            window = Window(before[-30:])
        elif it.way == "w" and it.name == "RXCTRL" and it.word & RXEN and window:
            window.accesses.append(it)
            yield window
            window, before = None, []
        if window is None:
            before = [*before[-29:], it]
        elif len(window.accesses) < KEPT:
            window.accesses.append(it)
    if window:
        yield window


def rows_of(window: Window) -> Iterator[str]:
    """Yields the lines for a window: one line for each access that matters, and one for all accesses between two such
    accesses."""
    run: list[Access] = []
    for it in [*window.before, *window.accesses]:
        if not it.mark:
            run.append(it)
            continue
        yield from lines_of(run)
        yield line_of(it)
        run = []
    yield from lines_of(run)


def lines_of(run: list[Access]) -> Iterator[str]:
    """Yields the lines for a run of accesses: a short run in full, a long one by register families."""
    if len(run) <= SHORT:
        yield from (line_of(it) for it in run)
        return
    families = list(dict.fromkeys(it.family for it in run))
    more = f", and {len(families) - FAMILIES} more" if len(families) > FAMILIES else ""
    yield f"{run[0].line:8} .. {run[-1].line}: {len(run)} accesses: {', '.join(families[:FAMILIES])}{more}"


def line_of(it: Access) -> str:
    return f"{it.line:8} {it.way} {it.name} {it.word:08x}" + (f"  <- {it.mark}" if it.mark else "")


def with_tails(lines: Iterable[str]) -> list[Window]:
    """Returns the windows in which a tail was moved."""
    return [it for it in windows(lines) if it.tails]


def text_of(found: list[Window], most: int = 3) -> str:
    """Returns the last windows as text."""
    text = f"periods in which the card was given a frame while it was down: {len(found)}\n"
    for window in found[-most:]:
        text += "\n" + "\n".join(rows_of(window)) + "\n"
    return text
