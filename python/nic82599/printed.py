"""Formats the controller's replies as `nicbench run` prints them."""

from __future__ import annotations

from . import Advanced, Dropped, Event, Fault, Frame, Message, Sent, Wrote


def printed(event: Event | Frame | bool | None) -> str:
    """Returns an event as `nicbench run` prints it: `idle` for None, and `done` for an event without its own line."""
    match event:
        case None:
            return "idle"
        case Dropped(why):
            return f"dropped {why}"
        case Wrote(queue, slot, end):
            return f"wrote queue {queue} slot {slot} {'end' if end else 'more'}"
        case Advanced(queue, slot):
            return f"advanced queue {queue} slot {slot}"
        case Sent(queue, length):
            return f"sent queue {queue} len {length}"
        case Fault(_, queue, why, bus):
            return f"fault queue {queue} {why}" + ("" if bus is None else f" 0x{bus:05x}")
        case Message(function, vector):
            return f"message {'pf' if function is None else f'vf {function}'} vector {vector}"
        case Frame(queue, data):
            return f"frame queue {queue} {data.hex()}"
    return "done"
