"""Prints a run as lines of text with its rings drawn in characters, and draws the machine after a step as SVG."""

from __future__ import annotations

from collections.abc import Iterator
from html import escape
from math import cos, pi, sin

from . import regs
from .frames import Descriptor, descriptor, summary
from .memory import Frame, Ring, ring_of
from .regs import REGISTERS
from .run import Run
from .trace import Step

MARKS = {"device": "D", "done": "+", "driver": ".", "nobody": "?"}
UNREAD_MARKS = {"device": "d", "driver": ","}
LONG = 64
UNKNOWN = ("not read", "not lent")


class Slots:
    """The contents of rings' slots in the known memory: 16 bytes at each address, and the lent blocks."""

    def __init__(self) -> None:
        self.memory: dict[int, bytes | None] = {}
        self.lent: set[int] = set()

    def said(self, ring: Ring, slot: int) -> Descriptor:
        """Decodes a slot's descriptor."""
        address = ring.base + 16 * slot
        return descriptor(ring.side, self.memory.get(address), address >> 11 in self.lent)

    def look(self, ring: Ring, slot: int) -> str:
        """Returns how a slot is shown: as owned by the device, as done, or as owned by the driver."""
        owner = ring.owner(slot)
        return "done" if owner == "driver" and self.said(ring, slot).done else owner

    def is_unread(self, ring: Ring, slot: int) -> bool:
        """Returns whether a slot's descriptor is unknown: the driver may have written it, and the device hasn't read
        it."""
        return ring.owner(slot) in UNREAD_MARKS and self.said(ring, slot).form == "not read"

    def mark(self, ring: Ring, slot: int) -> str:
        """Returns a slot's character."""
        shown = self.look(ring, slot)
        return UNREAD_MARKS[shown] if self.is_unread(ring, slot) else MARKS[shown]

    def describe(self, ring: Ring, slot: int) -> str:
        """Describes a slot in words; "" if there is nothing to say."""
        said = self.said(ring, slot)
        is_silent = said.form == "empty" or not said.fields and ring.owner(slot) != "device"
        fields = ", ".join(f"{name} {value}" for name, value in said.fields)
        return "" if is_silent else f"{said.form}: {fields}" if fields else said.form

    def written_head(self, ring: Ring) -> str:
        """Returns the head in memory, for a ring with head write-back."""
        content, at = self.memory.get((ring.back or 0) & ~15), (ring.back or 0) & 15
        if content is None:
            return "not read" if (ring.back or 0) >> 11 in self.lent else "not lent"
        return str(int.from_bytes(content[at : at + 4], "little"))


class State(Slots):
    """The machine's state while a run is shown step by step."""

    def __init__(self, run: Run) -> None:
        super().__init__()
        self.run = run
        self.words = dict(run.start)
        self.waiting: list[int] = []
        self.out: list[int] = []

    def make(self, step: Step) -> None:
        for address, _, new in step.changes:
            self.words[address] = new
        self.memory.update(step.memory)
        for sign, first, last in step.lent:
            (self.lent.update if sign == "+" else self.lent.difference_update)(range(first, last + 1))
        for sign, frames in step.waiting:
            self.waiting = self.waiting + frames if sign == "+" else [one for one in self.waiting if one not in frames]
        for sign, frames in step.out:
            self.out = self.out + frames if sign == "+" else [one for one in self.out if one not in frames]

    def rings(self) -> list[Ring]:
        """Returns the rings that have slots or are enabled."""
        rings = [ring_of(self.words, side, queue) for side, queue in self.run.seen.sides]
        return [ring for ring in rings if ring.slots or ring.on]


def ring_lines(ring: Ring, state: Slots) -> list[str]:
    """Draws a ring as a strip: `H` above the head, `T` above the tail, `B` if they coincide. A head or tail outside the
    ring follows the strip, with its index."""
    facts = f"{ring.name} {'on' if ring.on else 'off'}  base 0x{ring.base:x}  {ring.slots} slots"
    facts += f"  head {ring.head}  tail {ring.tail}"
    if ring.back is not None:
        facts += f"  head written back to 0x{ring.back:x}: {state.written_head(ring)}"
    if ring.slots == 0:
        return [facts]
    lines = [facts]
    for begin in range(0, ring.slots if ring.slots <= 8 * LONG else 0, LONG):
        slots = range(begin, min(begin + LONG, ring.slots))
        over = "".join(_pointer(ring, slot) for slot in slots)
        strip = "".join(state.mark(ring, slot) for slot in slots)
        lines += [f"  {over}".rstrip()] if over.strip() else []
        lines.append(f"  {strip}" + (_outside(ring) if slots.stop == ring.slots else ""))
    lines += [f" {_outside(ring)}"] if ring.slots > 8 * LONG and ring.is_outside() else []
    described = ((slot, state.describe(ring, slot)) for slot in range(ring.slots))
    return lines + _runs([(slot, words) for slot, words in described if words])


def _runs(slots: list[tuple[int, str]]) -> list[str]:
    """Returns a line for each slot, or one line for several consecutive slots that aren't read or aren't lent."""
    lines, at = [], 0
    while at < len(slots):
        end = at + 1
        while end < len(slots) and slots[at][1] in UNKNOWN and slots[end] == (slots[end - 1][0] + 1, slots[at][1]):
            end += 1
        first, last = slots[at][0], slots[end - 1][0]
        lines.append(f"  {first:4}{f' to {last}' if last > first else ''} {slots[at][1]}")
        at = end
    return lines


def _outside(ring: Ring) -> str:
    """Returns the head and the tail if they are outside the ring."""
    marks = [(name, at) for name, at in (("H", ring.head), ("T", ring.tail)) if at >= ring.slots]
    return "".join(f"  {name} {at}" for name, at in marks) + (" (outside the ring)" if marks else "")


def _pointer(ring: Ring, slot: int) -> str:
    if slot == ring.head:
        return "B" if ring.head == ring.tail else "H"
    return "T" if slot == ring.tail else " "


def text(run: Run) -> Iterator[str]:
    """Yields a run as lines of text."""
    state = State(run)
    drawn: dict[str, list[str]] = {}
    yield from finding_lines(run)
    yield "D device owns the slot, + done, . driver owns it, d and , not read; H head, T tail, B both"
    for step, why in zip(run.steps, run.reasons):
        state.make(step)
        comment = run.comment(step.pc)
        yield ""
        yield f"{step.number:4}  line {run.line(step.pc)}: {run.shown(step.pc)}" + (
            f"    # {comment}" if comment else ""
        )
        yield f"      {step.reply}" if step.reply else f"      acc 0x{step.acc:08x}, {step.status}"
        for reason in why:
            yield f"        {'*' if reason.held else ' '} {reason.text}"
        for address, old, new in step.changes:
            fields = regs.fields_text(REGISTERS[address].row, new)
            yield f"      {regs.name_at(address)}  0x{old:08x} -> 0x{new:08x}  {fields}".rstrip()
        yield from _frame_lines(run, step)
        for ring in state.rings():
            lines = ring_lines(ring, state)
            if drawn.get(ring.name) != lines:
                drawn[ring.name] = lines
                yield from (f"      {line}" for line in lines)
    yield ""
    yield run.last
    yield from (f"note: {note}" for note in run.notes)


def finding_lines(run: Run) -> Iterator[str]:
    """Yields the lines about the failure that a script from the explorer reports."""
    found = run.finding
    if found is None:
        return
    where = "" if found.step is None else f", after step {found.step}"
    yield f"FAILED {found.outcome}{where}: {found.words}"
    if found.cut:
        yield f"  the script ends before the failure: {found.cut}"


def _frame_lines(run: Run, step: Step) -> Iterator[str]:
    """Yields the frames that arrived or left at a step."""
    for sign, frames in step.waiting:
        for frame in frames:
            one = run.seen.arrived[frame]
            queue = f", queue {one.queue}" if one.queue is not None else ""
            rss = f", RSS {one.rss}" if one.rss and sign == "-" else ""
            yield f"      {'waiting' if sign == '+' else 'no longer waiting'}: {summary(one.data or b'')}{queue}{rss}"
    for sign, frames in step.out:
        for frame in frames:
            shown = run.seen.sent[frame]
            yield f"      {'out' if sign == '+' else 'collected'}: " + (
                summary(shown.data) if shown.data else f"a frame from queue {shown.queue}"
            )


STYLE = """text { font: 13px system-ui, "DejaVu Sans", sans-serif; fill: #1c232d; }
.mono { font-family: "DejaVu Sans Mono", monospace; }
.ground { fill: #ffffff; stroke: #d9dee5; } .faint { fill: #5d6877; } .title { font-size: 15px; font-weight: 600; }
.device { fill: #2f6fd0; } .done { fill: #2c8a57; } .driver, .nobody { fill: #e4e8ee; }
.slot { stroke: #ffffff; stroke-width: 2; } .on-device, .on-done { fill: #ffffff; }
.on-driver, .on-nobody { fill: #4b5563; }
.head { fill: #b3261e; } .tail { fill: #7a3fb5; }
.held { fill: #b8740f; }
@media (prefers-color-scheme: dark) { text { fill: #e3e8ef; } .faint { fill: #9aa6b6; }
.ground { fill: #1a2029; stroke: #303947; }
.device { fill: #4b86e0; } .done { fill: #2f8f5f; } .driver, .nobody { fill: #2a323e; } .slot { stroke: #1a2029; }
.on-device, .on-done { fill: #ffffff; } .on-driver, .on-nobody { fill: #b6c1cf; }
.head { fill: #ff8a80; } .tail { fill: #c9a0f5; }
.held { fill: #e0a64a; } }"""

WIDTH, SIZE = 780, 216


def _turn(angle: float, radius: float) -> str:
    x, y = _point(angle, radius)
    return f"{x:.1f} {y:.1f}"


def _point(angle: float, radius: float) -> tuple[float, float]:
    at = (angle - 0.25) * 2 * pi
    return 116 + radius * cos(at), 116 + radius * sin(at)


def _svg_text(x: float, y: float, words: str, kind: str = "", anchor: str = "start") -> str:
    shown = f' class="{kind}"' if kind else ""
    return f'<text x="{x:.1f}" y="{y:.1f}"{shown} text-anchor="{anchor}">{escape(words)}</text>'


def _svg_ring(ring: Ring, state: State) -> list[str]:
    """Draws a ring of slots around its name, with its head and tail."""
    parts, count = [], max(ring.slots, 1)
    for slot in range(ring.slots):
        start, end, shown = slot / count, (slot + 1) / count, state.look(ring, slot)
        outer, inner = (
            f"M{_turn(start, 86)} A86 86 0 0 1 {_turn(end, 86)}",
            f"L{_turn(end, 52)} A52 52 0 0 0 {_turn(start, 52)} Z",
        )
        pale = ' fill-opacity="0.35"' if state.is_unread(ring, slot) else ""
        parts.append(f'<path class="slot {shown}"{pale} d="{outer} {inner}"/>')
        x, y = _point((start + end) / 2, 69)
        if count <= 32:
            parts.append(_svg_text(x, y + 4, str(slot), f"on-{shown}", "middle"))
    is_both = ring.head == ring.tail
    marks = {"head": "head, tail" if is_both else "head"} | ({} if is_both else {"tail": "tail"})
    for which, name in marks.items():
        if ring.slots:
            parts += _svg_mark(ring, which, name)
    for y, words, kind in (
        (108, ring.name, "title"),
        (125, "on" if ring.on else "off", ""),
        (141, f"{ring.slots} slots", "faint"),
    ):
        parts.append(_svg_text(116, y, words, kind, "middle"))
    return parts


def _svg_mark(ring: Ring, which: str, name: str) -> list[str]:
    """Draws the arrow for the head or the tail. If the head or tail is outside the ring, its arrow is where the ring's
    ends meet and points away from the ring. It is on the side away from the other arrow."""
    place, other = (ring.head, ring.tail) if which == "head" else (ring.tail, ring.head)
    if place < ring.slots:
        angle = (place + 0.5) / ring.slots
        points = ", ".join(_turn(a, r) for a, r in ((angle, 88), (angle - 0.01, 99), (angle + 0.01, 99)))
        x, y = _point(angle, 104)
        anchor = "start" if x > 125 else "end" if x < 107 else "middle"
        return [f'<polygon class="{which}" points="{points}"/>', _svg_text(x, y + 4, name, which, anchor)]
    is_left = which == "head" if other >= ring.slots else other < ring.slots / 2
    angle = -0.012 if is_left else 0.012
    points = ", ".join(_turn(a, r) for a, r in ((angle, 101), (angle - 0.01, 90), (angle + 0.01, 90)))
    x = _point(angle, 104)[0] + (-6 if is_left else 6)
    words = _svg_text(x, 20, f"{name} {place}: no slot", which, "end" if is_left else "start")
    return [f'<polygon class="{which}" points="{points}"/>', words]


def _wrapped(words: str, width: int) -> list[str]:
    """Wraps words into lines of at most `width` characters."""
    from textwrap import wrap

    return wrap(words, width) or [""]


def picture(run: Run, number: int) -> str:
    """Draws the machine after a step as SVG: its rings, the contents of their slots, the waiting frames, and why the
    step was idle."""
    state = State(run)
    for one in run.steps[: number + 1]:
        state.make(one)
    step, parts, y = run.steps[number], [], 28.0
    title = f"{run.name}, step {number}: {run.shown(step.pc)} → {step.answer}"
    parts.append(_svg_text(18, y, title, "title mono"))
    y += 14
    for ring in [one for one in state.rings() if one.slots <= LONG]:
        drawn = "".join(_svg_ring(ring, state))
        parts.append(f'<g transform="translate(48 {y:.0f})">{drawn}</g>')
        parts += _beside(ring, state, y + 30)
        y += SIZE
    held = [line for reason in run.reasons[number] if reason.held for line in _wrapped(reason.text, 100)]
    for line in held:
        y += 20
        parts.append(_svg_text(18, y, line, "held"))
    height, body = y + 18, "\n".join(parts)
    size = f'viewBox="0 0 {WIDTH} {height:.0f}" width="{WIDTH}" height="{height:.0f}"'
    ground = f'<rect class="ground" x="0.5" y="0.5" width="{WIDTH - 1}" height="{height - 1:.0f}" rx="10"/>'
    return (
        f'<svg xmlns="http://www.w3.org/2000/svg" {size} role="img">\n'
        f"<title>{escape(run.name)}, after step {number}</title>\n<style>{STYLE}</style>\n"
        f"{ground}\n{body}\n</svg>\n"
    )


WHOSE = {"device": "the device's", "done": "done", "driver": "the driver's", "nobody": "nobody's"}


def _beside(ring: Ring, state: State, top: float) -> list[str]:
    """Draws the text next to a ring: its registers, its slots' descriptors, and the frames waiting for it."""
    parts, y, left = [], top, 350
    lines = [(f"base 0x{ring.base:x}, {ring.slots} slots, head {ring.head}, tail {ring.tail}", "mono")]
    for slot in range(ring.slots):
        described = state.describe(ring, slot)
        if described and len(lines) < 8:
            whose = WHOSE[state.look(ring, slot)]
            for n, line in enumerate(_wrapped(f"slot {slot} ({whose}), {described}", 54)):
                lines.append((line if n == 0 else "    " + line, ""))
    for frame, word, kind in _frames_of(ring, state):
        lines += [(line, kind) for line in _wrapped(f"{word}: {summary(frame.data or b'')}", 54)]
    for line, kind in lines:
        parts.append(_svg_text(left, y, line, kind))
        y += 20
    for x, kind in ((left, "device"), (left + 116, "done"), (left + 184, "driver")):
        parts.append(f'<rect class="{kind}" x="{x}" y="{top + 160:.0f}" width="11" height="11" rx="2"/>')
        parts.append(_svg_text(x + 16, top + 170, WHOSE[kind], "faint"))
    return parts


def _frames_of(ring: Ring, state: State) -> list[tuple[Frame, str, str]]:
    """Returns up to two frames waiting for a receive ring, or up to two that a transmit ring has sent."""
    seen = state.run.seen
    if ring.side == "rx":
        waiting = [seen.arrived[one] for one in state.waiting if seen.arrived[one].data is not None]
        return [(one, "waiting", "held") for one in waiting if one.queue == ring.queue][:2]
    return [(one, "out", "faint") for one in map(seen.sent.__getitem__, state.out) if one.queue == ring.queue][:2]
