"""A report card for a driver in Python, as docs/report-card.md describes it for C. It runs the driver's own functions
in ready-made scenarios. Tested, not proved.

    class Mine(Driver):
        name = "mine"

        def open(self, setup: Setup) -> bool:
            ...

        def close(self) -> None:
            ...

        def receive(self, queue: int) -> bytes | None:
            ...

    python3 -m nic82599.drive mine.py

This command prints the driver's card. The scenarios, the search and the checks are the same as for C. Each schedule
creates its own driver, so state set in `__init__` or `open` starts fresh. The functions run on threads, only one of
which runs at any time; code between two device calls isn't interrupted. If a function raises, the row fails and shows
the exception's message and source lines.
"""

from __future__ import annotations

from collections.abc import Callable, Sequence
from typing import TYPE_CHECKING, NoReturn

from ..buffers import bytes_of
from ..stacks import Mutex, Points
from .calls import CARD, Failed
from .values import MAILBOX_WORDS, MOST_FRAME, MOST_QUEUES, Can, Filter, Rss, Setup, Stats

__all__ = ["Can", "Driver", "Filter", "MAILBOX_WORDS", "MOST_FRAME", "MOST_QUEUES", "Mutex", "Rss", "Setup", "Stats"]


class Driver(Points):
    """The base class of a driver. Your subclass defines `name`, `open`, `close`, and `receive` or `send`. It also
    defines the functions below that your driver supports. Rows that need any other function are shown as not
    applicable.

    For one queue, the card calls each of `receive`, `send` and `reclaim` on one thread at a time; calls for other
    queues may run concurrently. Between open and close, the card may call `interrupt` at any time: the handler
    interrupts any thread, or runs concurrently with all of them. The handler for a vector never runs concurrently with
    itself. One thread makes all other calls (close, reset, filter, rss, mtu, resize, suspend, resume), and no receive,
    send or reclaim runs during these calls. `mailbox_send` and `mailbox_receive` are called on one thread at a time;
    `mailbox_ready` may run concurrently with them.
    """

    name = ""  # 1 to 40 letters, digits, '-' and '_'
    can = Can.NOTHING
    queues = 1  # the largest number of queues that `open` accepts, 1 to MOST_QUEUES
    slots = 8  # the smallest number of slots per ring that `open` accepts: 8, 16, .. 64
    frame = 1514  # bytes of the longest frame supported, up to MOST_FRAME
    threads = 0  # the driver's own threads, 0 to 4, which run `thread`

    # --- what a driver defines ---

    def open(self, setup: Setup) -> bool:
        """Initializes the controller from power-up, or from the state that `close` left. Returns when frames can be
        received and sent. Returns False on failure, for example if an allocation fails. It must then have freed
        everything, and may be called again."""
        raise NotImplementedError("a driver must define open")

    def close(self) -> None:
        """Shuts the controller down. After it returns, the device accesses none of the driver's memory, which has been
        freed, and sends no messages."""
        raise NotImplementedError("a driver must define close")

    if TYPE_CHECKING:  # A driver supports only the functions that it defines.

        def receive(self, queue: int) -> bytes | tuple[bytes, int] | None:
            """Returns a queue's next complete frame, alone or with its RSS hash. Returns None immediately if there is
            none."""

        def send(self, queue: int, frame: bytes) -> bool:
            """Sends a frame of at least 60 bytes, and at most the setup's limit. Returns False if the ring has no room
            now or the frame is too long."""

        def reclaim(self, queue: int) -> int:
            """Frees the buffers of transmitted frames. Returns how many of the queue's frames haven't been sent yet, as
            far as the driver knows."""

        def interrupt(self, vector: int) -> int:
            """Handles an interrupt vector. Returns the queues to poll: bit q for queue q. The card then calls `receive`
            until it returns None, then `reclaim`, then `rearm`."""

        def rearm(self, queue: int) -> None:
            """Reenables the interrupts of a queue after it has been polled."""

        def thread(self, number: int) -> None:
            """Runs the driver's own thread `number`, 0 to `threads` - 1. It starts when `open` has returned True, and
            may wait forever. If the driver has no `receive`, this thread passes received frames to `deliver`."""

        def filter(self, wanted: Filter) -> bool:
            """Selects the frames to receive. This function and the following ones return whether they succeeded. If one
            returns False, it must have changed nothing."""

        def rss(self, wanted: Rss) -> bool:
            """Configures receive side scaling."""

        def mtu(self, frame: int) -> bool:
            """Changes the maximum frame length. Frames in flight may be lost."""

        def resize(self, slots: int) -> bool:
            """Changes the number of slots per ring. Frames in flight may be lost."""

        def reset(self) -> bool:
            """Reinitializes the device after a fault. The setup stays the same; frames in flight may be lost."""

        def suspend(self) -> bool:
            """Stops the device: no frames, messages or accesses until `resume`."""

        def resume(self) -> bool:
            """Restarts the device after `suspend`."""

        def link(self) -> bool:
            """Returns whether the link is up, as far as the driver knows. Doesn't access the device."""

        def stats(self) -> Stats:
            """Returns the driver's counters since `open`. Any thread may call it, concurrently with all other calls.
            The frames and bytes of one direction are consistent with each other, no counter decreases, and no
            count is lost. Doesn't access the device."""

        def mailbox_send(self, vf: int, words: tuple[int, ...]) -> bool:
            """Writes 1 to 16 words to the mailbox for the other side. The PF's driver sends to virtual function `vf`; a
            virtual function sends to the PF's driver, and vf is then 0. Returns False if the mailbox isn't free now."""

        def mailbox_receive(self, vf: int) -> Sequence[int] | None:
            """Receives and acknowledges a 16-word message from the other side. Returns None if there is none."""

        def mailbox_ready(self) -> bool:
            """For a virtual function: returns whether the device is ready because the PF's driver has set it up."""

    # --- each call from here on is a point: another thread or the device may act first ---

    def _call(self, name: str, *words: object) -> int:
        return CARD.call(name, *words)

    # --- memory ---

    def dma_alloc(self, size: int) -> int | None:
        """Allocates 1 to 524,288 bytes of DMA memory, zero-filled. Returns the bus address of the first byte, a
        multiple of 128. The memory after it isn't lent, so an access there, by the driver or the device, is reported.
        Returns None if the allocation fails: because a scenario tests this, or because all memory is taken (see
        nic82599_drive.h)."""
        return CARD.call("dma_alloc", size) or None

    def dma_free(self, bus: int) -> None:
        """Frees DMA memory by its first address. The device must no longer access it."""
        CARD.call("dma_free", bus)

    def alloc(self, size: int) -> int | None:
        """Registers an allocation of the driver's own memory, as opposed to DMA memory. Returns the allocation's
        number, or None if the scenario makes the allocation fail."""
        return CARD.call("alloc", size) or None

    def free(self, piece: int) -> None:
        """Frees memory allocated with `alloc`, by its number."""
        CARD.call("free", piece)

    def dma_read(self, bus: int, length: int) -> bytes:
        """Reads bytes of DMA memory. The schedule fails if one of them isn't lent."""
        return CARD.dma_read(bus, length)

    def wait_until(self, condition: Callable[[], object]) -> None:
        """Waits until the condition holds. The condition reads only the driver's own memory and makes none of these
        calls."""
        CARD.wait_until(condition)

    def deliver(self, queue: int, frame: bytes) -> None:
        """Passes a frame received in a queue to the card, from one of the driver's own threads. For a driver without
        `receive`."""
        given = bytes_of(frame)
        CARD.call("deliver", queue, given, len(given))

    def fail(self, words: str) -> NoReturn:
        """Fails the schedule with this message."""
        raise Failed(words)

    def check(self, holds: object, words: str) -> None:
        if not holds:
            self.fail(words)
