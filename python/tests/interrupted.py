"""Tests that a signal handler may raise during a call: at each bytecode, and whenever a timer's signal arrives.

Whatever is interrupted, lent memory must be kept; otherwise the device would write to freed memory. CPython runs
handlers after calls, after backward jumps, and at the start of a function. At these points a call has either completed
or not begun, and memory that is taken back afterwards is free.

    python/tests/interrupted.py [--signals N]
"""

from __future__ import annotations

import argparse
import contextlib
import dis
import faulthandler
import gc
import signal
import sys
import threading
import time
import unittest
from collections.abc import Callable
from functools import cache
from pathlib import Path
from types import CodeType, FrameType

sys.dont_write_bytecode = True
sys.path.insert(0, str(Path(__file__).resolve().parents[1]))
import nic82599  # noqa: E402
from nic82599 import Nic, NicError, keeping  # noqa: E402

PACKAGE = str(Path(nic82599.__file__).parent)
# The number of signals that must interrupt a call, and the time limit for that.
SIGNALS, MOST_SECONDS = 1_000, 60
BYTES = 4096


class Stop(Exception):
    """Raised by the handler."""


def is_lent(nic: Nic, bus: int = 0) -> bool:
    try:
        nic.memory.read(bus, 1)
    except NicError:
        return False
    return True


def is_kept(buffer: bytearray) -> bool:
    """Returns whether the buffer's bytes are in use, so that it can't be resized."""
    try:
        buffer.append(0)
    except BufferError:
        return True
    buffer.pop()
    return False


@cache
def names_of(code: CodeType) -> dict[int, str]:
    """Returns the names of a function's bytecodes by offset."""
    return {it.offset: it.opname for it in dis.get_instructions(code)}


class Tracer:
    """Raises before the `at`-th of the package's bytecodes that a call executes. With `only_where_handlers_run`, counts
    only the bytecodes before which CPython runs handlers."""

    def __init__(self, at: int, only_where_handlers_run: bool) -> None:
        self.left, self.only, self.has_raised = at, only_where_handlers_run, False
        self.before: dict[FrameType, str] = {}

    def _opcode(self, frame: FrameType) -> None:
        before, self.before[frame] = self.before.get(frame, ""), names_of(frame.f_code).get(frame.f_lasti, "")
        if self.only and not before.startswith(("CALL", "JUMP_BACKWARD", "RESUME")):
            return
        if self.left == 0:
            self.has_raised = True
            self.left -= 1
            raise Stop
        self.left -= 1

    def __call__(self, frame: FrameType, event: str, _arg: object) -> Tracer | None:
        if not frame.f_code.co_filename.startswith(PACKAGE):
            return None
        frame.f_trace_opcodes, frame.f_trace_lines = True, False
        if event == "opcode":
            self._opcode(frame)
        return self


class Case:
    """A controller, and a buffer that it may have in place."""

    def __init__(self, lends: bool) -> None:
        self.nic, self.buffer = Nic(blocks=4), bytearray(BYTES)
        if lends:
            self.nic.memory.lend(0, self.buffer)
        self.kept = self.nic.snapshot()

    def lend(self) -> None:
        self.nic.memory.lend(0, self.buffer)

    def unlend(self) -> None:
        self.nic.memory.unlend(0, BYTES)

    def take(self) -> None:
        self.nic.take(0, 1)

    def close(self) -> None:
        self.nic.close()

    def restore(self) -> None:
        self.nic.restore(self.kept)

    def drop(self) -> None:
        self.kept.drop()


# The calls under test, and whether the buffer is lent before them.
CALLS: dict[str, tuple[Callable[[Case], None], bool]] = {
    "lend": (Case.lend, False),
    "unlend": (Case.unlend, True),
    "take": (Case.take, True),
    "close": (Case.close, True),
    "restore": (Case.restore, True),
    "drop": (Case.drop, False),
}


def interrupted(call: Callable[[Case], None], case: Case, tracer: Tracer) -> None:
    """Makes a call that the tracer interrupts."""
    before = sys.gettrace()
    gc.disable()  # finalizers aren't under test
    sys.settrace(tracer)
    try:
        call(case)
    except Stop:
        pass
    finally:
        sys.settrace(before)
        gc.enable()
        tracer.before.clear()  # the frames refer to the buffer


class Interrupted(unittest.TestCase):
    """Interrupts each bytecode once."""

    def setUp(self) -> None:
        faulthandler.enable()

    def each(self, name: str, only: bool) -> int:
        """Interrupts a call at each of its bytecodes, and returns how many there are."""
        (call, lends), at = CALLS[name], 0
        while True:
            # No handler runs at the end of a `with`, so a lock that is still held there isn't a fault. Each case has
            # its own lock.
            keeping._turn = threading.RLock()
            case, tracer = Case(lends), Tracer(at, only)
            interrupted(call, case, tracer)
            if is_lent(case.nic):
                self.assertTrue(is_kept(case.buffer), f"{name}: lent and not kept, interrupted at bytecode {at}")
            if only:
                self.is_exact(case, f"{name}: interrupted after point {at}")
            case.nic.close()
            self.assertFalse(is_lent(case.nic))
            if not tracer.has_raised:
                return at
            at += 1

    def is_exact(self, case: Case, where: str) -> None:
        """Checks that lent memory can be taken back, and that nothing refers to the buffer then."""
        for block in range(BYTES // 2048):
            if is_lent(case.nic, 2048 * block):
                case.nic.memory.unlend(2048 * block, 2048)
        with contextlib.suppress(NicError):  # the next call applies the notes that were interrupted
            case.nic.take(3)
        self.assertFalse(is_kept(case.buffer), where)

    def test_each_bytecode(self) -> None:
        turn = keeping._turn
        self.addCleanup(setattr, keeping, "_turn", turn)
        for name in CALLS:
            with self.subTest(name):
                count, points = self.each(name, False), self.each(name, True)
                self.assertGreater(count, points)
                self.assertGreater(points, 5)

    def test_signals(self) -> None:
        """Interrupts calls with a timer, until enough signals have hit a call."""
        found = by_signals(SIGNALS)
        self.assertGreater(found, 0)


def by_signals(wanted: int) -> int:
    """Lends and takes back memory while a timer's signal handler raises, until it has raised `wanted` times. Returns
    how often it raised."""
    armed = False

    def handler(_signal: int, _frame: FrameType | None) -> None:
        nonlocal armed
        if armed:
            armed = False
            raise Stop

    former = signal.signal(signal.SIGALRM, handler)
    signal.setitimer(signal.ITIMER_REAL, 0.0001, 0.0001)
    stops, number, begin = 0, 0, time.monotonic()
    try:
        with Nic(blocks=4) as nic:
            while stops < wanted and time.monotonic() - begin < MOST_SECONDS * max(1, wanted / SIGNALS):
                number += 1
                buffer = bytearray(BYTES)
                try:
                    armed = True
                    nic.memory.lend(0, buffer)
                    if number % 2:
                        nic.memory.unlend(0, BYTES)
                    armed = False
                except Stop:
                    stops += 1
                finally:
                    armed = False
                check(nic, buffer)
    finally:
        signal.setitimer(signal.ITIMER_REAL, 0)
        signal.signal(signal.SIGALRM, former)
    return stops


def check(nic: Nic, buffer: bytearray) -> None:
    """Checks that the buffer is kept while it is lent, and free after it was taken back."""
    if is_lent(nic):
        if not is_kept(buffer):
            raise AssertionError("a buffer is lent and not kept")
        nic.memory.unlend(0, BYTES)
    else:
        nic._lent.take_in()
    if is_kept(buffer):
        raise AssertionError("a buffer that isn't lent is kept")


def main() -> None:
    parser = argparse.ArgumentParser(prog="python/tests/interrupted.py")
    parser.add_argument("--signals", type=int, default=100_000)
    given = parser.parse_args()
    faulthandler.enable()
    begin = time.process_time()
    print(f"{by_signals(given.signals):,} calls interrupted, {time.process_time() - begin:.1f} s CPU")


if __name__ == "__main__":
    main()
