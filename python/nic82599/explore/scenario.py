"""A scenario: a driver's code as tasks, handlers and timers that use one controller, and the calls that this code
makes."""

from __future__ import annotations

import ctypes
import re
from collections.abc import Callable
from typing import TYPE_CHECKING

from .. import BadMemory, Nic, NotLent, _refused, _whole, statuses
from ..buffers import bytes_of
from ..stacks import Mutex, Points
from .kit import numbered_frame
from .result import OUTCOMES
from .session import Thread

if TYPE_CHECKING:
    from .session import Session

BESIDE = ""
AT_REST = 0
VALUES = 256
# Bits of enum nicx_memory, its orders, and enum nicx_allowed.
MEMORY = {"strong": 0, "weak": 1, "tso": 8}
ORDERS = {"writes": 2, "reads": 4}
ALLOWED = {"faults": 1, "not lent": 2}
MOST_QUEUES, MOST_POINTS = 128, 1_000_000
NAME = re.compile(r"[A-Za-z0-9_-]{1,63}")
CHECK, MISUSE = OUTCOMES.index("check"), OUTCOMES.index("misuse")


class Scenario(Points):
    """A driver's code that uses one controller. Your subclass defines `bring_up`, `begin` and `end`.

    The sizes have the same meaning as for `Nic`. The engine runs the enables and transmit steps of the queues below
    `queues`. A schedule with more than `points` points fails. `allowed` may contain "faults" (of queues) and "not lent"
    (the driver's accesses).

    `memory` is "strong", "weak" or "tso" (docs/explore.md, "Missing barriers"). `orders` says what a register access
    orders under weak memory. With "writes", a register write comes after all earlier stores. With "reads", no load
    after a register read returns a value from before that read.
    """

    name = "scenario"
    vfs, fifo, blocks, queues, points = 0, 64, 256, 1, 2_000
    allowed: frozenset[str] = frozenset()
    memory = "strong"
    orders: frozenset[str] = frozenset()
    _nic: Nic
    _session: Session | None = None

    # --- what a scenario defines ---

    def bring_up(self) -> None:
        """Initializes the device, once. Each schedule starts from this state."""

    def begin(self) -> None:
        """Creates fresh driver state, and names the tasks, handlers, frames and link changes."""
        raise NotImplementedError

    def always(self) -> str | None:
        """Called after each step. Returns what is wrong, or None."""
        return None

    def end(self) -> str | None:
        """Called when no actor is runnable. Returns what is wrong, or None."""
        return None

    # --- in `begin` ---

    def _beginning(self) -> Session:
        assert self._session, "create tasks, handlers and frames in begin"
        assert self._session.is_beginning, "create tasks, handlers and frames in begin"
        return self._session

    def _named(self, thread: Thread) -> Thread:
        threads = self._beginning().threads
        if not NAME.fullmatch(thread.name):
            raise ValueError(f"{thread.name!r}: a task's or a handler's name has 1 to 63 letters, digits, '-' and '_'")
        if any(one.name == thread.name for one in threads):
            raise ValueError(f"two tasks or handlers are named {thread.name}")
        threads.append(thread)
        return thread

    def task(self, name: str, function: Callable[[], object]) -> None:
        """Names a task: a thread of the driver, or a processor."""
        self._named(Thread(name, function, "task"))

    def service(self, name: str, function: Callable[[], object]) -> None:
        """Names a task that may wait forever. If the task is still waiting at the end, that isn't a deadlock."""
        self._named(Thread(name, function, "task", is_service=True))

    def handler(
        self, name: str, function: Callable[[], object], *, vector: int, vf: int | None = None, where: str | None = None
    ) -> None:
        """Names the handler for a vector's messages, from the physical function or from virtual function `vf`. `where`
        is the task that it interrupts; BESIDE to run concurrently with all tasks; None to interrupt any task or run
        concurrently."""
        if vf is not None and not 0 <= vf < self.vfs:
            raise ValueError(f"handler {name} belongs to a virtual function that doesn't exist")
        group = 0 if vf is None else vf + 1
        self._named(Thread(name, function, "handler", group=group, vector=_whole(vector, 8, "vector"), where=where))

    def timer(self, name: str, function: Callable[[], object], *, within: int = AT_REST) -> Thread:
        """Names a timer, for `arm`. When it fires, `function` runs concurrently with all tasks, once for each time
        it was armed. With AT_REST it fires when no other actor is runnable. Otherwise it fires at one of the
        `within` points after it was armed; at the last of them it runs before any other actor."""
        if within < 0:
            raise ValueError(f"timer {name}: within must be AT_REST or at least 1 point, not {within}")
        return self._named(Thread(name, function, "timer", within=_whole(within, 32, "within")))

    def frames(self, count: int, length: int = 60) -> None:
        """Names `count` numbered frames; the first has number 0."""
        for number in range(count):
            self.frame(numbered_frame(length, number))

    def frame(self, data: bytes) -> None:
        """Names a frame that will arrive, after the frames named earlier."""
        self._beginning().frames.append(bytes(data))

    def link_change(self, up: bool) -> None:
        """Names a change of the link, up or down. Its order among the frames is part of the schedule."""
        self._beginning().links.append(bool(up))

    @property
    def came(self) -> int:
        """The number of frames that have arrived so far, including dropped ones. Shrinking a failure leaves frames
        out, so `end` should check for the frames that arrived instead of the frames that were named."""
        return self._session.came() if self._session else 0

    # --- the controller, for accesses that the explorer needn't see ---

    @property
    def nic(self) -> Nic:
        return self._nic

    def settle(self) -> None:
        """Runs steps of the device until none has work. For use in `bring_up`."""
        if self._session and self._session.is_bringing_up:
            self._call("settle")
        else:
            self._nic.settle(self.queues)

    # --- what is passed to the engine ---

    def _refuse_wrong(self) -> None:
        """Raises ValueError if a size or another attribute of the scenario is invalid."""
        if self.memory not in MEMORY or not self.orders <= ORDERS.keys():
            words = f"{self.memory!r}, {set(self.orders)!r}"
            raise ValueError(f"a scenario's memory must be strong, weak or tso, its orders writes and reads: {words}")
        if not NAME.fullmatch(self.name):
            raise ValueError(f"{self.name!r}: a scenario's name has 1 to 63 letters, digits, '-' and '_'")
        if not 1 <= self.queues <= MOST_QUEUES:
            raise ValueError(f"a scenario has 1 to {MOST_QUEUES} queues, not {self.queues}")
        if not 1 <= self.points <= MOST_POINTS:
            raise ValueError(f"a scenario's limit is 1 to {MOST_POINTS:,} points, not {self.points}")

    def _memory_bits(self) -> int:
        return MEMORY[self.memory] | sum(ORDERS[one] for one in self.orders)

    def _allowed_bits(self) -> int:
        return sum(bit for one, bit in ALLOWED.items() if one in self.allowed)

    def _looks_always(self) -> bool:
        return getattr(self.always, "__func__", None) is not Scenario.always

    # --- points ---

    def _call(self, name: str, *words: object) -> int:
        if self._session is None:
            raise RuntimeError(f"only a scenario in a search or replay may call {name}")
        return self._session.call(name, *words)

    def _refuse_outside(self, status: int, bus: int) -> None:
        """Raises NotLent outside a schedule. During a schedule the engine reports it."""
        if status == statuses.NOT_LENT and self._session and self._session.thread_here() is None:
            raise NotLent(f"0x{bus:x} isn't lent")

    def _refuse_memory(self) -> None:
        """Refuses to lend memory in place: the schedule fails as misuse. Outside a schedule it raises BadMemory."""
        words = "lends memory in place, but the search can't see stores to it: lend blocks instead"
        thread = self._session.thread_here() if self._session else None
        if thread is None:
            raise BadMemory(f"{self.name} {words}")
        self._call("fail", MISUSE, f"{thread.name} {words}".encode())

    def dma_read(self, bus: int, length: int) -> bytes:
        """Reads bytes of lent memory. If one of them isn't lent, returns that many zeros instead, but no more than
        packet memory has bytes. Such a read fails the schedule unless `allowed` permits it."""
        most = self._nic._most_memory
        count = min(length, most + 1)  # if one byte isn't lent, none is read
        room = ctypes.create_string_buffer(max(count, 1))
        self._refuse_outside(self._call("dma_read", bus, room, count), bus)
        return room.raw[: min(length, most)]

    def dma_write(self, bus: int, data: bytes) -> bool:
        """Writes bytes to lent memory. Returns False if one of them isn't lent; then nothing is written."""
        given = bytes_of(data)
        status = self._call("dma_write", bus, given, len(given))
        self._refuse_outside(status, bus)
        return status == statuses.DONE

    def lend(self, block: int) -> None:
        status = self._call("lend", _whole(block, 32, "block"))
        if status != statuses.DONE:
            raise _refused(status, f"lend {block}")

    def take(self, block: int) -> None:
        status = self._call("take", _whole(block, 32, "block"))
        self._refuse_outside(status, 2048 * block)

    def wait_until(self, condition: Callable[[], object]) -> None:
        """Waits until the condition holds. The condition reads only the driver's own memory and makes none of these
        calls."""
        if self._session:
            self._session.conditions.wait(self._call, condition)

    def lock(self, mutex: Mutex) -> None:
        if self._session:
            self._session.locks.add(mutex)  # the engine uses this address until the schedule is over
        super().lock(mutex)

    def choose(self, bound: int) -> int:
        """Returns a value below the bound (1 to 256). The value is part of the schedule; it may decide, for example,
        whether an allocation fails or which input arrives. All strategies explore it, and shrinking tries lower values.
        For use in `begin`, tasks and handlers."""
        if not 1 <= bound <= VALUES:
            self._call("fail", MISUSE, f"a choice has 1 to {VALUES} values, not {bound}".encode())
            return 0
        return super().choose(bound)

    # --- timers ---

    def _number_of(self, timer: Thread) -> int:
        """Returns a timer's number in the engine."""
        if self._session is None or timer not in self._session.threads or timer.number is None:
            raise ValueError(f"{timer!r} isn't a timer of this schedule")
        return timer.number

    def arm(self, timer: Thread) -> None:
        """Arms a timer, or rearms it. You may call it in `begin` too, where the call isn't a point."""
        if self._session and self._session.is_beginning and timer in self._session.threads:
            timer.is_armed = True
        else:
            self._call("arm", self._number_of(timer))

    def disarm(self, timer: Thread) -> bool:
        """Disarms a timer. Returns whether it was armed. Doesn't wait for a function that has already started."""
        return self._call("disarm", self._number_of(timer)) == 1

    # --- verdicts ---

    def fail(self, words: str) -> None:
        """Fails the schedule with this message."""
        self._call("fail", CHECK, words.encode("utf-8", "replace").replace(b"\0", b"?"))

    def check(self, holds: object, words: str) -> None:
        if not holds:
            self.fail(words)
