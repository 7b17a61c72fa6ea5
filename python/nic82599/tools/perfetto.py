"""Converts a run to a trace in Chrome's JSON format, which Perfetto opens. Its tracks are steps, actors, messages and
frames.

A step is a one-microsecond slice at its number, so a time is a step's number. Each step is on the track of all steps
and on its actor's track. A script from the explorer names tasks, handlers and parts of the device as actors. In other
runs the actors are the driver, a virtual function's driver, the link, and the parts of the device. Messages have their
own track. So do the steps with a fault, a drop, a refusal, a stray access or nothing to do. A frame is a span from its
arrival until it is taken. Counters show how many frames are waiting and how many were sent.
"""

from __future__ import annotations

import json
from collections.abc import Iterator
from typing import Any

from . import regs
from .memory import Frame
from .regs import REGISTERS
from .run import Run, sizes_of
from .trace import Step

Event = dict[str, Any]
PARTS = {"rx": "receive", "int": "interrupts", "qstep": "queues", "eestep": "EEPROM", "arrive": "link", "link": "link"}
# The tracks of every run; the actors' tracks follow.
STEPS, TROUBLE, MESSAGES = range(1, 4)
NAMES = {STEPS: "all steps", TROUBLE: "faults, drops, refusals, stray accesses, idle steps", MESSAGES: "messages"}


def actor_of(run: Run, step: Step, is_explored: bool) -> str:
    """Returns the actor of a step."""
    said = run.comment(step.pc)
    if is_explored and said:
        return said.partition(":")[0]
    word, *rest = run.shown(step.pc).split()
    if word == "tx":
        return f"transmit queue {rest[0]}"
    if word in ("vr", "vw"):
        return f"driver of function {rest[0]}"
    return PARTS.get(word, "driver")


def _args(run: Run, step: Step) -> Event:
    """Returns the details that Perfetto shows for a selected step."""
    changes = {}
    for address, old, new in step.changes:
        fields = regs.fields_text(REGISTERS[address].row, new)
        changes[regs.name_at(address)] = f"0x{old:08x} -> 0x{new:08x}  {fields}".rstrip()
    reasons = [reason.text for reason in run.reasons[step.number] if reason.held]
    args = {"step": step.number, "line": run.line(step.pc), "answer": step.answer, "changes": changes, "why": reasons}
    args["niclint"] = run.warnings.get(step.pc, [])
    args["note"] = run.comment(step.pc) if run.is_recorded else ""
    return {key: value for key, value in args.items() if value not in ("", {}, [])}


def _slice(step: Step, track: int, name: str, args: Event) -> Event:
    kind = step.kind or "step"
    return {"ph": "X", "pid": 1, "tid": track, "ts": step.number, "dur": 1, "name": name, "cat": kind, "args": args}


def _track(track: int, name: str) -> Iterator[Event]:
    """Yields the name of a track and its position."""
    head = {"ph": "M", "pid": 1, "tid": track}
    yield {**head, "name": "thread_name", "args": {"name": name}}
    yield {**head, "name": "thread_sort_index", "args": {"sort_index": track}}


def _spans(run: Run, way: str) -> Iterator[Event]:
    """Yields the spans of received (`in`) or sent frames. A span begins at the frame's step, and ends after the step
    that takes the frame, or at the end of the run."""
    frames: list[Frame] = run.seen.arrived if way == "in" else run.seen.sent
    ends: dict[int, Step] = {}
    for step in run.steps:
        for sign, some in step.waiting if way == "in" else step.out:
            ends.update(dict.fromkeys(some, step) if sign == "-" else {})
    for number, frame in enumerate(frames):
        size = f"{len(frame.data)} bytes" if frame.data is not None else "bytes not known"
        queue = f"queue {frame.queue}" if frame.queue is not None else "queue not known"
        end = ends.get(number)
        head = {"pid": 1, "cat": f"frames {way}", "id": f"{way} {number}", "name": f"frame {way}, {queue}"}
        args = {"bytes": size, "slots": ", ".join(frame.slots), "taken": end.answer if end else "never"}
        yield {**head, "ph": "b", "ts": frame.step, "args": args}
        yield {**head, "ph": "e", "ts": end.number + 1 if end else len(run.steps)}


def _counts(run: Run) -> Iterator[Event]:
    """Yields the counts of waiting and sent frames whenever they change."""
    for name, waits in (("frames waiting", True), ("frames out", False)):
        count = 0
        for step in run.steps:
            moved = sum((1 if sign == "+" else -1) * len(some) for sign, some in (step.waiting if waits else step.out))
            count += moved
            if moved or not step.number:
                yield {"ph": "C", "pid": 1, "name": name, "ts": step.number, "args": {"frames": count}}


def events(run: Run) -> Iterator[Event]:
    """Yields the events of a run."""
    is_explored = sizes_of(run.lines[:2]) is not None
    tracks: dict[str, int] = {}
    yield {"ph": "M", "pid": 1, "name": "process_name", "args": {"name": run.name}}
    for track, name in NAMES.items():
        yield from _track(track, name)
    for step in run.steps:
        name, args, actor = run.shown(step.pc), _args(run, step), actor_of(run, step, is_explored)
        if actor not in tracks:
            tracks[actor] = len(NAMES) + len(tracks) + 1
            yield from _track(tracks[actor], actor)
        yield _slice(step, STEPS, name, args)
        yield _slice(step, tracks[actor], name, args)
        if step.kind == "message":
            yield _slice(step, MESSAGES, step.reply.removeprefix("message "), args)
        elif step.kind:
            yield _slice(step, TROUBLE, f"{name}: {step.answer}", args)
    yield from _spans(run, "in")
    yield from _spans(run, "out")
    yield from _counts(run)


def trace(run: Run) -> str:
    """Returns a run's trace as a JSON file's contents."""
    made = {"traceEvents": list(events(run)), "displayTimeUnit": "ns", "otherData": {"run": run.name, "last": run.last}}
    return json.dumps(made, separators=(",", ":")) + "\n"
