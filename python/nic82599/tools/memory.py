"""Derives the contents of lent memory after each step, which frames are waiting and for which queue, and which were
sent.

The debugger has no command for memory, so the script is run again with `peek` lines between its own lines; a peek
changes nothing in the device. The instructions of this run are in the order in which they ran, without jumps and tests.
If the instructions don't fit into one script, several scripts are run, each from the start up to its own peeks.
"""

from __future__ import annotations

from bisect import bisect_left
from dataclasses import dataclass, field

from .frames import descriptor
from .regs import ENABLE, REGISTERS, first
from .script import Instruction, Op
from .trace import Step, Trace, not_as_reset, number_after, word_of

RUNS = 16
# Rings with more slots than this are read in part: around the head, and the slots that were written.
WHOLE_RING = 64
BEFORE, AHEAD = 8, 32
UNTOUCHED = ("idle", "no queue", "no group", "not lent", "misaligned", "no block")


@dataclass(frozen=True)
class Ring:
    """A ring as its registers describe it. `side` is `rx` or `tx`."""

    side: str
    queue: int
    base: int
    slots: int
    head: int
    tail: int
    on: bool
    back: int | None  # address of the head write-back, or None

    @property
    def name(self) -> str:
        return f"{self.side} {self.queue}"

    def is_outside(self) -> bool:
        """Returns whether the head or the tail is outside the ring."""
        return self.head >= self.slots or self.tail >= self.slots

    def owner(self, slot: int) -> str:
        """Returns who owns a slot: the device from the head up to but excluding the tail, otherwise the driver."""
        if self.is_outside():
            return "nobody"
        distance = (slot - self.head) % self.slots
        return "device" if distance < (self.tail - self.head) % self.slots else "driver"


def ring_of(words: dict[int, int], side: str, queue: int) -> Ring:
    """Returns the ring of one side of a queue, according to the registers."""
    letter = "R" if side == "rx" else "T"
    base = word_of(words, f"{letter}DBAH", queue) << 32 | word_of(words, f"{letter}DBAL", queue)
    slots = word_of(words, f"{letter}DLEN", queue) // 16
    head, tail = word_of(words, f"{letter}DH", queue), word_of(words, f"{letter}DT", queue)
    on = bool(word_of(words, f"{letter}XDCTL", queue) & ENABLE)
    return Ring(side, queue, base, slots, head, tail, on, head_word(words, queue) if side == "tx" else None)


def head_word(words: dict[int, int], queue: int) -> int | None:
    """Returns the address of a transmit queue's head write-back, or None if it is disabled."""
    low = word_of(words, "TDWBAL", queue)
    return word_of(words, "TDWBAH", queue) << 32 | low & ~3 if low & 1 else None


def sides_in_use(trace: Trace) -> list[tuple[str, int]]:
    """Returns the sides of queues that the run uses or that were set up before it, receive sides first."""
    changed = not_as_reset(trace.start) | {address for step in trace.steps for address, _, _ in step.changes}
    rows = [REGISTERS[address] for address in changed]
    found = {(one.row.bank, one.index) for one in rows if one.row.bank in ("Receive", "Transmit")}
    for step in trace.steps:
        one = trace.instruction(step)
        if one.op == Op.TX and one.x < 128:
            found.add(("Transmit", one.x))
        elif one.op == Op.QSTEP and one.x < 128:
            found.add(("Transmit" if one.sub else "Receive", one.x))
        elif one.op == Op.RX and (queue := number_after(step.reply, "queue")) is not None:
            found.add(("Receive", queue))
    return [("rx" if bank == "Receive" else "tx", queue) for bank, queue in sorted(found)]


@dataclass
class Frame:
    """A received or sent frame: the step, and the queue and bytes if they are known."""

    step: int
    data: bytes | None
    queue: int | None = None
    rss: str = ""
    slots: list[str] = field(default_factory=list)


@dataclass
class Seen:
    """What a run shows besides its registers. `earlier` has, for each step, how many of the frames that arrived before
    the run are still waiting when the step begins; all are 0 for a fresh run. `dropped` are the frames that were
    dropped on arrival."""

    sides: list[tuple[str, int]]
    arrived: list[Frame]
    sent: list[Frame]
    earlier: list[int] = field(default_factory=list)
    dropped: list[Frame] = field(default_factory=list)


def is_event(one: Instruction) -> bool:
    return not one.is_local


def _leaves_memory(one: Instruction, step: Step) -> bool:
    """Returns whether a run that only reads memory and waiting frames can omit this step."""
    if one.op in (Op.READ, Op.VF_READ, Op.PEEK, Op.INT, Op.COLLECT, Op.EESTEP):
        return True
    return step.reply in UNTOUCHED or step.reply.startswith("stray") or one.op == Op.ARRIVE and step.reply != "done"


def _below(steps: list[Step], count: int) -> int:
    """Returns how many of the steps have a number below `count`."""
    return bisect_left(steps, count, key=lambda step: step.number)


class Replay:
    """Runs a trace's steps again in order, with further lines between and after them."""

    def __init__(self, trace: Trace) -> None:
        self.trace = trace
        self.steps = [step for step in trace.steps if is_event(trace.instruction(step))]
        self.short = [step for step in self.steps if not _leaves_memory(trace.instruction(step), step)]
        self.asked = 0
        self.earlier: list[int] = []
        data = enumerate(trace.script.data)
        self.data = "".join(f"data d{n} {one.hex()}\n" for n, one in data)

    def run(
        self, steps: list[Step], between: dict[int, list[str]], after: list[str], limit: int = 0
    ) -> list[list[str]]:
        """Runs steps with further lines: `between` maps a step's number to the lines after that step, and `after` are
        the lines after all steps. Returns the replies to each step's further lines, in step order, and then the replies
        to `after`."""
        lines, marks = [], []
        for step in steps:
            lines.append(self.trace.instruction(step).line())
            marks.append(-1)
            for more in between.get(step.number, ()):
                lines.append(more)
                marks.append(step.number)
        count = len(lines)
        printed = self.trace.bench.run(self.data + "\n".join(lines + after) + "\n", limit or len(lines) + len(after))
        answers = [line.partition(" ")[2] for line in printed[:-1]]
        replies, own = iter(steps), []
        asked: dict[int, list[str]] = {}
        for mark, answer in zip(marks, answers):
            if mark < 0:
                own.append((next(replies), answer))
            else:
                asked.setdefault(mark, []).append(answer)
        odd = [step for step, answer in own if answer != step.reply]
        if odd:
            self.trace.notes.append(
                f"some memory isn't shown: in the run that reads it, the reply at step {odd[0].number} differed"
            )
            return []
        return [*asked.values(), answers[count:]]

    def after(self, count: int, lines: list[str], more: int) -> list[str]:
        """Returns the replies to lines after `count` steps. The lines may run up to `more` instructions."""
        steps = self.up_to(count, len(lines))
        return [] if steps is None else (self.run(steps, {}, lines, len(steps) + more) or [[]])[-1]

    def collects(self, steps: list[Step], sent: list[Frame]) -> list[str]:
        """Returns a `collect` line for each frame still to be collected after these steps; none if all bytes are
        known."""
        if all(frame.data is not None for frame in sent):
            return []
        out = self.trace.out + len(sent)
        return ["collect"] * (out - sum(step.reply.startswith("frame") for step in steps))

    def up_to(self, count: int, room: int) -> list[Step] | None:
        """Returns the steps below a number. If they don't fit, leaves out steps that don't affect memory; None if that
        isn't enough."""
        for steps in (self.steps, self.short):
            end = _below(steps, count)
            if end + room <= self.trace.bench.most:
                return steps[:end]
        return None

    def has_room(self, count: int, room: int) -> bool:
        """Returns whether `up_to` can find steps that fit."""
        return min(_below(steps, count) for steps in (self.steps, self.short)) + room <= self.trace.bench.most


class Watch:
    """Selects the 16-byte units of lent memory to read after each step: the units of rings in use that may have
    changed."""

    def __init__(self, trace: Trace, sides: list[tuple[str, int]]) -> None:
        self.trace, self.sides = trace, sides
        self.words = dict(trace.start)
        self.lent = set(trace.lent)
        self.interest: set[int] = set()
        self.long: list[Ring] = []
        self.touched: set[int] = set()
        self.known: set[int] = set()
        self.poked: dict[int, bytes] = {}
        self.kept = set(trace.lent)  # blocks lent before the first step, with known contents

    def steps(self) -> list[tuple[int, list[int]]]:
        """Returns a step's number and the addresses to read, for each step that needs any. Also notes in each step what
        it wrote."""
        plan = []
        for step in self.trace.steps:
            before = dict(self.words) if step.reply.startswith(("wrote", "sent", "advanced")) else {}
            for address, _, new in step.changes:
                self.words[address] = new
            step.written = self._changed(step, before)
            self.touched |= step.written
            self.known -= step.written
            if self._is_new_ring(step):
                self.interest = self._rings()
            else:
                self.interest |= {unit for unit in step.written if self._is_of_long(unit)}
            asked = sorted(self.interest - self.known)
            if asked:
                plan.append((step.number, asked))
                self.known.update(asked)
        return plan

    def _is_new_ring(self, step: Step) -> bool:
        """Returns whether a ring may have moved, the head of a long ring advanced, or the set of lent blocks
        changed."""
        names = {REGISTERS[address].row.name[1:] for address, _, _ in step.changes}
        placed = {"DBAL", "DBAH", "DLEN", "DWBAL", "DWBAH"} | ({"DH"} if self.long else set())
        return bool(names & placed or step.lent)

    def _rings(self) -> set[int]:
        """Returns the lent units of the rings in use."""
        rings = [ring_of(self.words, side, queue) for side, queue in self.sides]
        self.long = [ring for ring in rings if ring.slots > WHOLE_RING]
        units = {unit for unit in self.touched if self._is_of_long(unit)}
        for ring in rings:
            units.update(ring.base + 16 * slot for slot in _slots_read(ring))
            if ring.back is not None:
                units.add(ring.back & ~15)
        return {unit for unit in units if unit >> 11 in self.lent}

    def _is_of_long(self, unit: int) -> bool:
        """Returns whether a unit is a lent slot of a long ring."""
        return unit >> 11 in self.lent and any(0 <= unit - ring.base < 16 * ring.slots for ring in self.long)

    def _changed(self, step: Step, before: dict[int, int]) -> set[int]:
        """Returns the units that a step may have written, and updates which blocks are lent."""
        one = self.trace.instruction(step)
        if one.op == Op.LEND and step.reply == "done":
            self.lent.update(one.blocks)
            step.lent.append(("+", one.blocks[0], one.blocks[-1]))
        elif one.op == Op.UNLEND and step.reply.startswith("taken"):
            self.lent.discard(one.x)
            self.kept.discard(one.x)
            step.lent.append(("-", one.x, one.x))
            self.known = {unit for unit in self.known if unit >> 11 != one.x}
        elif one.op == Op.POKE and step.reply == "done":
            self.poked[one.a] = self.trace.script.data[one.x]
            return {one.a}
        elif step.reply.startswith("wrote"):
            return self._received(step, before)
        elif one.op == Op.TX and step.reply.startswith(("sent", "advanced")):
            ring = ring_of(before, "tx", one.x)
            return {ring.base + 16 * ring.head} | ({ring.back & ~15} if ring.back is not None else set())
        return set()

    def _received(self, step: Step, before: dict[int, int]) -> set[int]:
        """Returns the descriptor that was written back, and the units of its buffer that are in a ring."""
        queue, slot = number_after(step.reply, "queue") or 0, number_after(step.reply, "slot") or 0
        unit = ring_of(before, "rx", queue).base + 16 * slot
        poked = self.poked.get(unit)
        if poked is None and unit >> 11 in self.kept:
            poked = self.poked[unit] = self.trace.memory_before(unit)
        if not poked:
            return {unit}
        buffer = int.from_bytes(poked[:8], "little") & ~1
        size = (word_of(before, "SRRCTL", queue) & 31) * 1_024
        return {one for one in self.interest if buffer - 16 < one < buffer + size} | {unit}


def _slots_read(ring: Ring) -> list[int]:
    """Returns the slots to read when a ring is set up and when its head moves."""
    if ring.slots <= WHOLE_RING:
        return list(range(ring.slots))
    return [(ring.head + k) % ring.slots for k in range(-BEFORE, AHEAD)]


def look(trace: Trace) -> Seen:
    """Adds to each step its changes to memory, to the waiting frames and to the sent frames."""
    sides = sides_in_use(trace)
    replay = Replay(trace)
    arrived, sent = _account(trace, replay)
    asked = Watch(trace, sides).steps()
    _ask_memory(trace, replay, asked, sent)
    _unread(trace)
    _lost(trace)
    _give_hashes(trace, replay, arrived)
    _collect(replay, sent)
    _find_queues(trace, replay, arrived)
    return Seen(sides, arrived, sent, replay.earlier, _dropped(trace))


def look_at_frames(trace: Trace) -> Seen:
    """Like `look`, but only for frames, which takes less time."""
    replay = Replay(trace)
    arrived, sent = _account(trace, replay)
    _collect(replay, sent)
    _find_queues(trace, replay, arrived)
    return Seen([], arrived, sent, replay.earlier, _dropped(trace))


def _dropped(trace: Trace) -> list[Frame]:
    """Returns the frames that were dropped on arrival."""
    ones = [(step, trace.instruction(step)) for step in trace.steps if step.reply.startswith("dropped")]
    return [Frame(step.number, trace.script.data[one.x]) for step, one in ones if one.op == Op.ARRIVE]


def _ask_memory(trace: Trace, replay: Replay, asked: list[tuple[int, list[int]]], sent: list[Frame]) -> None:
    """Runs the steps with peeks between them, in as few runs as possible. The last run also collects the sent
    frames."""
    runs, at = 0, 0
    while at < len(asked):
        end, room = at, 0
        while end < len(asked) and replay.has_room(asked[end][0] + 1, room + len(asked[end][1])):
            room += len(asked[end][1])
            end += 1
        if end == at or runs == RUNS:
            trace.notes.append(
                f"lent memory is shown only before step {asked[at][0]}: there is no room for further peeks"
            )
            for number, units in asked[at:]:
                trace.steps[number].memory = [(unit, None) for unit in units]
            return
        steps, after = replay.up_to(asked[end - 1][0] + 1, room) or [], []
        if end == len(asked) and (every := replay.up_to(1 << 62, room + len(sent))) is not None:
            steps, after = every, replay.collects(every, sent)
        numbers = {step.number for step in steps}
        between: dict[int, list[str]] = {}
        for number, units in asked[at:end]:
            between.setdefault(_last(numbers, number), []).extend(f"peek 0x{unit:x} 0" for unit in units)
        *peeked, collected = replay.run(steps, between, after) or [[]]
        answers = iter(one for some in peeked for one in some)
        for number, units in asked[at:end]:
            trace.steps[number].memory = [(unit, _bytes(next(answers, ""))) for unit in units]
        _give_bytes(sent, collected)
        at, runs = end, runs + 1


def _last(numbers: set[int], number: int) -> int:
    """Returns the last step up to this number that is part of a run."""
    while number not in numbers:
        number -= 1
    return number


def _bytes(answer: str) -> bytes | None:
    return bytes.fromhex(answer.removeprefix("bytes ")) if answer.startswith("bytes ") else None


NOTHING = bytes(16)


def _unread(trace: Trace) -> None:
    """Marks memory with unknown contents. For memory lent in place, a recording has only what the device read or wrote.
    The program may have written anything to the rest of that memory, and to slots that it has posted to the device
    since. These units are shown as not read."""
    if not trace.in_place:
        return
    words, read = dict(trace.start), set(trace.read)
    given: set[int] = set()
    for step in trace.steps:
        read |= step.written
        new = {unit for unit in _given(words, step) if unit >> 11 in trace.in_place}
        given = given - step.written | new
        words.update({address: word for address, _, word in step.changes})
        found = dict.fromkeys(sorted(new)) | dict(step.memory)
        for unit, content in found.items():
            is_silent = unit >> 11 in trace.in_place and unit not in read and content == NOTHING
            if is_silent or unit in given:
                found[unit] = None
        step.memory = list(found.items())


def _given(words: dict[int, int], step: Step) -> set[int]:
    """Returns the slots that a step posts to the device by moving a tail; `words` are the registers before the step."""
    units: set[int] = set()
    for address, old, new in step.changes:
        register = REGISTERS[address]
        if register.row.name in ("RDT", "TDT"):
            ring = ring_of(words, register.row.name[0].lower() + "x", register.index)
            count = (new - old) % ring.slots if max(old, new) < ring.slots else 0
            units.update(ring.base + 16 * ((old + k) % ring.slots) for k in range(count))
    return units


def _lost(trace: Trace) -> None:
    """Forgets the units of a block that was taken back, and drops replies that repeat the previous contents."""
    held: dict[int, bytes | None] = {}
    for step in trace.steps:
        for block in [block for sign, block, _ in step.lent if sign == "-"]:
            step.memory += [(unit, None) for unit in held if unit >> 11 == block]
        step.memory = [(unit, content) for unit, content in step.memory if held.get(unit, b"") != content]
        step.written &= {unit for unit, _ in step.memory}
        held.update(step.memory)


def _give_hashes(trace: Trace, replay: Replay, arrived: list[Frame]) -> None:
    """Sets the RSS type and hash of each written frame, from its descriptor."""
    waiting: list[int] = []
    for step in trace.steps:
        is_shown = step.reply.startswith("wrote") and not replay.earlier[step.number]
        for one in [descriptor("rx", content) for _, content in step.memory] if is_shown else []:
            if one.done and waiting:
                said = dict(one.fields)
                arrived[waiting[0]].rss = f"type {said['RSS type']}, hash {said['RSS hash']}"
        for sign, frames in step.waiting:
            waiting = waiting + frames if sign == "+" else [one for one in waiting if one not in frames]


def _account(trace: Trace, replay: Replay) -> tuple[list[Frame], list[Frame]]:
    """Returns the received and the sent frames, with the steps at which they arrived and left, from the replies."""
    frames = _Frames(trace, replay)
    for step in trace.steps:
        replay.earlier.append(frames.earlier)
        frames.follow(step)
    replay.earlier.append(frames.earlier)
    return frames.arrived, frames.sent


class _Frames:
    """Tracks the frames of a run step by step, according to the replies: all frames, the waiting frames, the frames
    sent but not collected, and how many frames remain from before the run."""

    def __init__(self, trace: Trace, replay: Replay) -> None:
        self.trace, self.replay = trace, replay
        self.arrived: list[Frame] = []
        self.sent: list[Frame] = []
        self.waiting: list[int] = []
        self.out: list[int] = []
        self.earlier, self.earlier_out = trace.waiting, trace.out

    def follow(self, step: Step) -> None:
        """Accounts for a step."""
        one, reply = self.trace.instruction(step), step.reply
        is_taken = one.op == Op.RX and not reply.startswith(("idle", "no "))
        if self.earlier and one.op == Op.RX:
            self.earlier -= is_taken and not reply.endswith(" more")
        elif self.earlier_out and one.op == Op.COLLECT:
            self.earlier_out -= 1
        elif one.op == Op.ARRIVE and reply == "done":
            self.waiting.append(len(self.arrived))
            step.waiting.append(("+", [len(self.arrived)]))
            self.arrived.append(Frame(step.number, self.trace.script.data[one.x]))
        elif is_taken and self.waiting:
            self._receive(step)
        elif one.op == Op.TX and reply.startswith("sent"):
            self.out.append(len(self.sent))
            step.out.append(("+", [len(self.sent)]))
            self.sent.append(Frame(step.number, None, one.x))
        elif one.op == Op.COLLECT and reply.startswith("frame") and self.out:
            self.sent[self.out[0]].data = bytes.fromhex(reply.split()[-1])
            step.out.append(("-", [self.out.pop(0)]))
        elif self.earlier + len(self.waiting):
            self._forget(step)

    def _receive(self, step: Step) -> None:
        """Accounts for a receive step that took the first waiting frame, or a part of it."""
        frame, queue = self.arrived[self.waiting[0]], number_after(step.reply, "queue")
        frame.queue = queue if queue is not None else frame.queue
        if step.reply.startswith("wrote"):
            frame.slots.append(f"queue {queue} slot {number_after(step.reply, 'slot')}")
        if not step.reply.endswith(" more"):
            step.waiting.append(("-", [self.waiting.pop(0)]))

    def _forget(self, step: Step) -> None:
        """Accounts for any other step, which may discard waiting frames."""
        front = self.arrived[self.waiting[0]] if self.waiting and not self.earlier else None
        places = _forgotten(self.trace, self.replay, step, self.earlier + len(self.waiting), front)
        gone = [self.waiting[place - self.earlier] for place in places if place >= self.earlier]
        if gone:
            step.waiting.append(("-", gone))
        self.waiting = [one for one in self.waiting if one not in gone]
        self.earlier -= sum(place < self.earlier for place in places)


def _forgotten(trace: Trace, replay: Replay, step: Step, waiting: int, front: Frame | None) -> list[int]:
    """Returns the positions of the waiting frames that a step discarded, because it was a reset or disabled the queue
    in the middle of a frame."""
    one = trace.instruction(step)
    if one.op == Op.WRITE and one.a in (0, 4) and one.b & (1 << 3 | 1 << 26):
        return list(range(waiting))
    is_off = one.op == Op.QSTEP and not one.sub and step.reply == "done"
    if is_off and front and front.slots and front.queue == one.x:
        return [0]
    if step.reply != "done" or not _is_pool_reset(one):
        return []
    before, after = (_waiting_queues(trace, replay, count, waiting) for count in (step.number, step.number + 1))
    kept: list[int] = []
    for place, queue in enumerate(before):
        if len(kept) < len(after) and after[len(kept)] == queue:
            kept.append(place)
    return [place for place in range(len(before)) if place not in kept]


def _is_pool_reset(one: Instruction) -> bool:
    """Returns whether an instruction may reset a pool."""
    is_control = one.op == Op.WRITE and first("PVFCTRL") <= one.a < first("PVFCTRL", 63) + 4
    return (is_control or one.op == Op.VF_WRITE and one.a == 0) and bool(one.b & 1 << 26)


def _give_bytes(sent: list[Frame], answers: list[str]) -> None:
    """Sets the bytes of the last sent frames, from the frames collected at the end."""
    collected = [answer for answer in answers if answer.startswith("frame")]
    for frame, answer in zip(reversed(sent), reversed(collected)):
        frame.data = bytes.fromhex(answer.split()[-1])


def _collect(replay: Replay, sent: list[Frame]) -> None:
    """Collects the bytes of sent frames that are still unknown."""
    if any(frame.data is None for frame in sent) and (steps := replay.up_to(1 << 62, len(sent))) is not None:
        _give_bytes(sent, (replay.run(steps, {}, replay.collects(steps, sent)) or [[]])[-1])


def _find_queues(trace: Trace, replay: Replay, arrived: list[Frame]) -> None:
    """Finds the queue of each frame whose queue no reply named."""
    waiting: list[int] = []
    states: list[tuple[int, list[int]]] = []
    for step in trace.steps:
        for sign, frames in step.waiting:
            if sign == "-" and any(arrived[one].queue is None for one in frames):
                states.append((step.number, list(waiting)))
            waiting = waiting + frames if sign == "+" else [one for one in waiting if one not in frames]
    states.append((len(trace.steps), waiting))
    for count, frames in states:
        if any(arrived[one].queue is None for one in frames):
            earlier = replay.earlier[count]
            queues = _waiting_queues(trace, replay, count, earlier + len(frames))
            for frame, queue in zip(frames, queues[earlier:]):
                arrived[frame].queue = queue


def _waiting_queues(trace: Trace, replay: Replay, count: int, frames: int) -> list[int]:
    """Returns the queues of the frames waiting after `count` steps, in order; fewer or none if there is no room for the
    run.

    The run enables all queues and moves each tail outside its ring. A receive step for the first frame then faults: the
    reply names the frame's queue, and the fault disables that queue. Further frames for that queue would then be
    dropped, by replies that don't name the queue. If that happens, the named queues are enabled again before each
    receive step."""
    if replay.asked == 2 * RUNS:
        trace.notes.append(f"the waiting frames and their queues were determined only before step {count}")
    replay.asked += 1
    if replay.asked > 2 * RUNS:
        return []
    lines = [f"w 0x{first('CTRL'):x} 0", *_armed(list(range(128))), "again:", "rx", "jmp again"]
    answers = replay.after(count, lines, 128 * 3 + 1 + 2 * frames)
    named = _named(answers)
    if "dropped queue off" in answers:
        lines = [f"w 0x{first('CTRL'):x} 0", "again:", *_armed(named), "rx", "jmp again"]
        answers = replay.after(count, lines, 1 + (3 * len(named) + 2) * frames)
        named = _named(answers)
    return named


def _named(answers: list[str]) -> list[int]:
    """Returns the queues that fault replies name."""
    return [int(answer.split()[2]) for answer in answers if answer.startswith("fault queue")]


def _armed(queues: list[int]) -> list[str]:
    """Returns lines that enable these queues and move each tail outside its ring."""
    lines = []
    for queue in queues:
        control, tail = first("RXDCTL", queue), first("RDT", queue)
        lines += [f"w 0x{control:x} 0x{ENABLE:x}", f"qstep rx {queue}", f"w 0x{tail:x} 0xffff"]
    return lines
