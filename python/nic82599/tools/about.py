"""Finds the ring that each step of a script concerns."""

from __future__ import annotations

from . import regs
from .memory import Seen, ring_of
from .regs import Register, queues_of_pool
from .script import Instruction, Op
from .trace import Step, Trace, number_after, word_of

Side = tuple[str, int]
BANKS = {"Receive": "rx", "Transmit": "tx"}


def give_rings(trace: Trace, seen: Seen) -> None:
    """Sets `ring` of each step that concerns one of the rings in use."""
    words = dict(trace.start)
    waiting: list[int] = []
    for step in trace.steps:
        for address, _, new in step.changes:
            words[address] = new
        found = _about(trace.instruction(step), step, words, seen, waiting)
        step.ring = found if found in seen.sides else None
        for sign, frames in step.waiting:
            waiting = waiting + frames if sign == "+" else [one for one in waiting if one not in frames]


def _about(one: Instruction, step: Step, words: dict[int, int], seen: Seen, waiting: list[int]) -> Side | None:
    if one.op in (Op.WRITE, Op.READ):
        return _of_register(regs.register_at(one.a))
    if one.op in (Op.VF_WRITE, Op.VF_READ):
        return _of_register(regs.function_register(queues_of_pool(word_of(words, "GCR_EXT")), one.x, one.a))
    if one.op in (Op.POKE, Op.PEEK):
        return ring_at(words, seen.sides, one.a)
    if one.op in (Op.TX, Op.QSTEP):
        return ("rx" if one.op == Op.QSTEP and not one.sub else "tx", one.x)
    if one.op == Op.COLLECT:
        queue = number_after(step.reply, "queue")
        return None if queue is None else ("tx", queue)
    if one.op not in (Op.RX, Op.ARRIVE):
        return None
    queue = number_after(step.reply, "queue")
    came = [frame for sign, frames in step.waiting if sign == "+" for frame in frames]
    is_earlier = seen.earlier and seen.earlier[step.number]
    front = came if one.op == Op.ARRIVE else [] if is_earlier else waiting
    queue = seen.arrived[front[0]].queue if queue is None and front else queue
    return None if queue is None else ("rx", queue)


def _of_register(register: Register | None) -> Side | None:
    return None if register is None or register.row.bank not in BANKS else (BANKS[register.row.bank], register.index)


def ring_at(words: dict[int, int], sides: list[Side], address: int) -> Side | None:
    """Returns the ring with the slot at a memory address, or None."""
    for side, queue in sides:
        ring = ring_of(words, side, queue)
        if 0 <= address - ring.base < 16 * ring.slots:
            return (side, queue)
    return None
