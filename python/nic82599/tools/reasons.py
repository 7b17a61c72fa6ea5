"""Explains why a step was idle, dropped a frame, faulted or failed: the documented conditions with the register values
that decide them.

The conditions are the ones that docs/REGISTERS.md and docs/script.md list for the step's kind, in the order in which
the device tests them. Each condition is shown with the register values before the step, and whether it held. The reply
itself always comes from the run. The conditions and their texts come from reason_table.py.
"""

from __future__ import annotations

from . import regs
from .advice import absent_at
from .fields import FIELDS
from .frames import address
from .memory import Frame, Seen, ring_of
from .reason_table import Reason, Words, number, reason
from .regs import ENABLE, queues_of_pool
from .script import Op
from .trace import Step, Trace, number_after, word_of

__all__ = ["Reason", "Reasons", "sentence"]

# The instructions that may set the value that an expect compares.
ACC = (Op.READ, Op.VF_READ, Op.PEEK, Op.AND)


def _value(words: Words, name: str, field: str, index: int = 0) -> int:
    """Returns a field's value."""
    return next(one for one in FIELDS[name] if one.name == field).of(word_of(words, name, index))


def _by_jumbo(words: Words, plain: Reason, jumbo: Reason) -> Reason:
    """Chooses between two reasons about the frame limit, depending on HLREG0."""
    return jumbo if _value(words, "HLREG0", "JUMBOEN") else plain


class Reasons:
    """The reasons of a run's steps, derived in the steps' order."""

    def __init__(self, trace: Trace, seen: Seen) -> None:
        self.trace, self.seen = trace, seen
        self.words: Words = dict(trace.start)
        self.waiting: list[int] = []
        self.lent = set(trace.lent)

    def all(self) -> list[list[Reason]]:
        """Returns each step's reasons; none for a step that did what was requested."""
        found = []
        for step in self.trace.steps:
            found.append(self._of(step))
            for one, _, new in step.changes:
                self.words[one] = new
            for sign, frames in step.waiting:
                self.waiting = (
                    self.waiting + frames if sign == "+" else [one for one in self.waiting if one not in frames]
                )
            instruction = self.trace.instruction(step)
            if instruction.op == Op.LEND and step.reply == "done":
                self.lent.update(instruction.blocks)
            elif instruction.op == Op.UNLEND:
                self.lent.discard(instruction.x)
        return found

    def _why(self, name: str, *given: int | str) -> Reason:
        """Evaluates a row of the table with the registers before the step."""
        return reason(name, self.words, *given)

    def _of(self, step: Step) -> list[Reason]:
        one, reply = self.trace.instruction(step), step.reply
        if step.kind == "failed":
            return [Reason(True, self._expected(step))]
        if reply.startswith("fault"):
            return self._fault(step, "rx" if one.op == Op.RX else "tx")
        if one.op == Op.ARRIVE and reply.startswith("dropped"):
            return self._arrival(step, reply.removeprefix("dropped "))
        if one.op == Op.RX and reply in ("idle", "dropped queue off", "dropped no slot"):
            return self._receive(step)
        if reply == "no queue":
            return [self._why("no_queue", one.x)]
        if reply == "no group":
            return self._group(one.x)
        if reply.startswith("stray"):
            return self._stray(step)
        if reply in ("not lent", "misaligned", "no block"):
            return [self._memory(step)]
        if reply != "idle":
            return []
        if one.op == Op.TX:
            return self._transmit(one.x)
        if one.op == Op.INT:
            return self._message(one.x if one.sub else None)
        if one.op == Op.QSTEP:
            side = "tx" if one.sub else "rx"
            return [self._why("disabled"), self._why(f"{side}_as_asked", one.x)]
        if one.op == Op.EESTEP:
            return [self._why("disabled"), self._why("no_word_asked")]
        if one.op == Op.LINK:
            return [self._why("link_already")]
        return [self._why("none_out")]

    def _expected(self, step: Step) -> str:
        """Explains a failed expect: the value that it found, and which step set it."""
        one = self.trace.instruction(step)
        sources = [k for k in self.trace.steps[: step.number] if self.trace.instruction(k).op in ACC]
        found = f"acc is 0x{step.acc:08x}"
        if sources:
            last = sources[-1]
            found = f"acc has been 0x{step.acc:08x} since step {last.number}, `{self.trace.script.shown(last.pc)}`"
        masked = "" if one.b == 0xFFFF_FFFF else f", masked with 0x{one.b:08x} it is 0x{step.acc & one.b:08x}"
        return f"{found}{masked}; 0x{one.a:08x} is expected"

    def _front(self) -> Frame | None:
        return self.seen.arrived[self.waiting[0]] if self.waiting else None

    def _receive(self, step: Step) -> list[Reason]:
        """Explains a receive step that wrote nothing."""
        frame, words, disabled = self._front(), self.words, self._why("disabled")
        earlier = self.seen.earlier[step.number] if self.seen.earlier else 0
        if earlier:
            reason = self._why("waiting_since_before", earlier + len(self.waiting))
            return [disabled, Reason(not disabled.held, reason.text)]
        if frame is None:
            return [disabled, self._why("none_waits")]
        if frame.queue is None:
            reason = self._why("waiting_somewhere", len(self.waiting))
            return [disabled, Reason(False, reason.text), self._why("rx_frame_without_queue")]
        queue = frame.queue
        waiting = Reason(False, self._why("waiting", len(self.waiting), queue).text)
        reasons = [disabled, waiting, self._queue_off(step, "rx", queue)]
        if step.reply == "dropped queue off":
            return reasons
        reasons.append(self._why("rx_no_slot", queue))
        if step.reply == "dropped no slot":
            reasons.append(self._why("rx_drops", queue))
        elif not _value(words, "SRRCTL", "Drop_En", queue):
            reasons.append(self._why("rx_waits", queue))
        elif frame.slots:
            reasons.append(self._why("rx_part_waits", queue))
        return reasons

    def _queue_off(self, step: Step, side: str, queue: int) -> Reason:
        """Explains why a side of a queue is off, and names the earlier step that requested its enable, if any."""
        row = "RXDCTL" if side == "rx" else "TXDCTL"
        asked = None if _value(self.words, row, "ENABLE", queue) else self._asked(step, row, queue)
        if asked:
            return self._why(f"{side}_not_switched", queue, f" at step {asked.number}")
        return self._why(f"{side}_queue_off", queue)

    def _asked(self, step: Step, row: str, queue: int) -> Step | None:
        """Returns the earlier step that requested that a queue be enabled, unless a queue step has followed."""
        control = regs.first(row, queue)
        side, asked = ("rx" if row == "RXDCTL" else "tx"), None
        for before in self.trace.steps[: step.number]:
            one = self.trace.instruction(before)
            if one.op == Op.WRITE and (named := regs.register_at(one.a)) and named.address == control:
                asked = before if one.b & ENABLE else None
            elif one.op == Op.QSTEP and one.x == queue and (one.sub == 1) == (side == "tx") and before.reply == "done":
                asked = None
        return asked

    def _transmit(self, queue: int) -> list[Reason]:
        """Explains a transmit step that fetched nothing."""
        words = self.words
        at = Step(len(self.trace.steps), 0)
        reasons = [
            self._why("disabled"),
            self._why("link_down"),
            self._why("tx_off"),
            self._queue_off(at, "tx", queue),
        ]
        k = queues_of_pool(word_of(words, "GCR_EXT"))
        if _value(words, "VT_CTL", "VT_Ena") and k:
            reasons.append(self._why("tx_pool_off", queue // k))
        return [*reasons, self._why("tx_empty", queue)]

    def _message(self, function: int | None) -> list[Reason]:
        """Explains why a group sends no message."""
        words, reasons = self.words, [self._why("disabled")]
        group, of = ("pf", []) if function is None else ("vf", [function])
        names = ("EICR", "EIMS") if group == "pf" else ("PVTEICR", "PVTEIMS")
        causes, masks = (word_of(words, name, *of) for name in names)
        if not causes:
            return [*reasons, self._why(f"{group}_no_cause", *of)]
        due = causes & masks
        reasons.append(self._why(f"{group}_masked", *of))
        if not due:
            return reasons
        lost = number("without_vector", words, due) if group == "pf" else 0
        reasons += [one for one in (self._why(f"{group}_hidden", *of), self._why("no_vector", lost)) if one.held]
        if due & ~lost:
            reasons.append(self._why(f"{group}_reported", due & ~lost))
        return reasons

    def _group(self, function: int) -> list[Reason]:
        k = queues_of_pool(word_of(self.words, "GCR_EXT"))
        return [
            self._why("no_function", function, self.trace.bench.vfs),
            self._why("no_pool_of_function", function, 128 // k if k else 0),
        ]

    def _stray(self, step: Step) -> list[Reason]:
        one = self.trace.instruction(step)
        if one.op in (Op.VF_READ, Op.VF_WRITE):
            group = [it.text for it in self._group(one.x) if it.held]
            return [Reason(True, "; ".join(group)) if group else self._why("stray_offset", one.a)]
        if absent := absent_at(one.a):
            return [Reason(True, f"0x{one.a:05x} is {absent.name}, which the bench doesn't model: {absent.what}")]
        return [self._why("stray_address", one.a)]

    def _memory(self, step: Step) -> Reason:
        one = self.trace.instruction(step)
        if step.reply == "misaligned":
            return self._why("misaligned", one.a)
        if one.op in (Op.LEND, Op.UNLEND):
            state = "is lent already" if one.x in self.lent else "is above 255" if one.x > 255 else "isn't lent"
            return self._why("block_is", one.x, state)
        return self._why("block_not_lent", one.a)

    def _fault(self, step: Step, side: str) -> list[Reason]:
        """Explains why a slot can't be processed."""
        queue = number_after(step.reply, "queue") or 0
        words, why = self.words, step.reply.split(maxsplit=3)[3]
        ring = ring_of(words, side, queue)
        if why == "outside":
            return [self._why(f"{side}_head_outside", queue), self._why(f"{side}_tail_outside", queue)]
        if why.startswith("not lent"):
            bus = int(why.split()[-1], 16)
            return [self._why("not_lent", bus, ring.head, ring.base + 16 * ring.head)]
        if why in ("type", "no buffer size"):
            return [self._why("rx_type" if why == "type" else "rx_no_size", queue)]
        if why in ("offload", "legacy", "unknown type"):
            return [self._why(f"tx_{why.replace(' ', '_')}", ring.head)]
        too_long = self._why("tx_too_long", ring.head), self._why("tx_too_long_for_jumbo", ring.head)
        return [_by_jumbo(words, *too_long)]

    def _arrival(self, step: Step, why: str) -> list[Reason]:
        """Explains why a frame was dropped on arrival."""
        words, frame = self.words, self.trace.script.data[self.trace.instruction(step).x]
        reasons = [
            self._why("link_down"),
            self._why("rx_off"),
            self._why("short", len(frame)),
            _by_jumbo(words, self._why("long", len(frame)), self._why("long_for_jumbo", len(frame))),
        ]
        order = ["link down", "off", "short", "long"]
        if why in order:
            return reasons[: order.index(why) + 1]
        passed = [one for one in reasons if one.held]
        if why == "filter":
            return passed + self._filter(frame[:6])
        if why in ("no pool", "pool off"):
            return passed + self._pool(frame[:6], why)
        return [*passed, self._why("full", len(self.waiting), self.trace.bench.fifo)]

    def _matches(self, to: bytes) -> list[int]:
        """Returns the receive addresses that match a destination."""
        low, high = int.from_bytes(to[:4], "little"), int.from_bytes(to[4:6], "little")
        words = self.words
        return [
            i
            for i in range(128)
            if word_of(words, "RAH", i) >> 31
            and word_of(words, "RAL", i) == low
            and word_of(words, "RAH", i) & 0xFFFF == high
        ]

    def _filter(self, to: bytes) -> list[Reason]:
        """Explains why the filter rejects a destination."""
        words, shown = self.words, address(to)
        if to == b"\xff" * 6:
            return [self._why("broadcast", shown)]
        count = sum(word_of(words, "RAH", i) >> 31 for i in range(128))
        none = self._why("no_address", shown, count)
        if not to[0] & 1:
            return [self._why("unicast", shown), none]
        shift = (4, 3, 2, 0)[word_of(words, "MCSTCTRL") & 3]
        vector = (to[4] | to[5] << 8) >> shift & 0xFFF
        return [self._why("multicast", shown), none, self._why("multicast_table", vector)]

    def _pool(self, to: bytes, why: str) -> list[Reason]:
        """Explains why there is no pool for a destination, or why its pool accepts no frames."""
        words, found = self.words, self._matches(to)
        pair = 0
        if found:
            pair = word_of(words, "MPSAR", 2 * found[0]) | word_of(words, "MPSAR", 2 * found[0] + 1) << 32
        if pair:
            pool = (pair & -pair).bit_length() - 1
            whence = f"the lowest of MPSAR[{2 * found[0]}] and [{2 * found[0] + 1}]"
        else:
            pool = _value(words, "VT_CTL", "DEF_PL")
            whence = f"VT_CTL.DEF_PL {pool}"
        if why == "pool off":
            return [self._why("frame_pool_off", pool, whence)]
        sixteen = _value(words, "GCR_EXT", "VT_Mode") == 1 and _value(words, "MRQC", "MRQE") in (8, 10, 11)
        where = "an address to which MPSAR assigns no pool" if found else "not a receive address"
        return [
            self._why("no_default_pool", address(to), where, pair),
            self._why("pool_of_16", pool, whence, sixteen),
            self._why("pool_of_32", pool, whence, sixteen),
        ]


def sentence(reasons: list[Reason]) -> str:
    """Returns the conditions that held, in one line."""
    return "; ".join(it.text for it in reasons if it.held)
