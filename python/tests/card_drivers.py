"""Drivers for the report card: `Both` is correct, and each class derived from it has one fault."""

from __future__ import annotations

import contextlib
import os
import sys
import threading
import time
from collections.abc import Iterator

from nic82599.descriptors import is_sent, rx_descriptor, tx_descriptor
from nic82599.drive import Can, Driver, Filter, Mutex, Rss, Setup, Stats

ENABLE = 1 << 25
CAUSE = 1
ALL_CAUSES = 0x7FFF_FFFF


class Ring:
    """Descriptors and their buffers. For a transmit ring, `used` counts the descriptors that belong to the device."""

    def __init__(self, driver: Driver) -> None:
        self.driver = driver
        self.bus = 0
        self.buffers: list[int] = []
        self.begin()

    def begin(self) -> None:
        self.next = self.clean = self.used = 0

    def take(self, slots: int) -> bool:
        self.bus = self.driver.dma_alloc(16 * slots) or 0
        while self.bus and len(self.buffers) < slots:
            buffer = self.driver.dma_alloc(2048)
            if buffer is None:
                return False
            self.buffers.append(buffer)
        return self.bus != 0

    def give(self) -> None:
        while self.buffers:
            self.driver.dma_free(self.buffers.pop())
        if self.bus:
            self.driver.dma_free(self.bus)
        self.bus = 0

    def after(self, slot: int) -> int:
        return (slot + 1) % len(self.buffers)

    def post(self, slot: int) -> None:
        self.driver.put_descriptor(self.bus, slot, rx_descriptor(self.buffers[slot]))


class Both(Driver):
    """A driver for one queue in both directions, with interrupts or by polling."""

    name = "both"
    waits = True

    def __init__(self) -> None:
        self.rx, self.tx = Ring(self), Ring(self)
        self.interrupts = False
        self.piece: int | None = None
        self.counts = Stats(0, 0, 0, 0)

    def set_enable(self, control: str, enable: int) -> None:
        self.write32(control, enable)
        while self.waits and self.read32(control) & ENABLE != enable:
            self.wait()

    def set_up_device(self) -> None:
        self.write32("EIMC", ALL_CAUSES)
        self.write32("CTRL", 1 << 26)
        self.write32("EIMC", ALL_CAUSES)
        self.write32("CTRL_EXT", 1 << 28)
        self.write32("FCTRL", 1 << 10 | 1 << 9)
        self.write32("HLREG0", self.read32("HLREG0") | 1 << 10 | 1 << 1 | 1)
        self.write32("RDRXCTL", self.read32("RDRXCTL") | 1 << 26 | 1 << 25 | 1 << 1)
        self.write32("DMATXCTL", self.read32("DMATXCTL") | 1)

    def start_receive(self) -> None:
        ring, slots = self.rx, len(self.rx.buffers)
        ring.begin()
        for slot in range(slots):
            ring.post(slot)
        self.write32("RDBAL[0]", ring.bus & 0xFFFF_FFFF)
        self.write32("RDBAH[0]", ring.bus >> 32)
        self.write32("RDLEN[0]", 16 * slots)
        self.write32("RDH[0]", 0)
        self.write32("SRRCTL[0]", 1 << 25 | 2)
        self.set_enable("RXDCTL[0]", ENABLE)
        self.wmb()
        self.write32("RDT[0]", slots - 1)

    def start_transmit(self) -> None:
        ring = self.tx
        ring.begin()
        self.write32("TDBAL[0]", ring.bus & 0xFFFF_FFFF)
        self.write32("TDBAH[0]", ring.bus >> 32)
        self.write32("TDLEN[0]", 16 * len(ring.buffers))
        self.write32("TDH[0]", 0)
        self.write32("TDT[0]", 0)
        self.set_enable("TXDCTL[0]", ENABLE)

    def start(self) -> None:
        self.set_up_device()
        self.start_receive()
        self.start_transmit()
        if self.interrupts:
            self.write32("GPIE", 1 << 31 | 1 << 30 | 1 << 5 | 1 << 4)
            self.write32("IVAR[0]", 0x8080)
            self.write32("EIAC", CAUSE)
            self.write32("EIAM", CAUSE)
            self.write32("EIMS", CAUSE)
        self.write32("RXCTRL", 1)

    def give(self) -> None:
        self.rx.give()
        self.tx.give()
        if self.piece is not None:
            self.free(self.piece)
        self.piece = None

    def open(self, setup: Setup) -> bool:
        self.interrupts = setup.interrupts
        self.piece = self.alloc(100)
        if self.piece is None or not self.rx.take(setup.slots) or not self.tx.take(setup.slots):
            self.give()
            return False
        self.start()
        return True

    def close(self) -> None:
        self.write32("EIMC", ALL_CAUSES)
        self.set_enable("RXDCTL[0]", 0)
        self.set_enable("TXDCTL[0]", 0)
        self.write32("RXCTRL", 0)
        self.write32("CTRL_EXT", 0)
        self.write32("EICR", ALL_CAUSES)
        self.give()

    def look(self, second: int) -> tuple[bool, int]:
        word = self.get64(second)
        return bool(word & 1), word >> 32 & 0xFFFF

    def receive(self, queue: int) -> bytes | tuple[bytes, int] | None:
        ring, slot = self.rx, self.rx.next
        is_done, length = self.look(ring.bus + 16 * slot + 8)
        if not is_done:
            return None
        self.rmb()
        frame = self.dma_read(ring.buffers[slot], length)
        ring.post(slot)
        self.wmb()
        self.write32("RDT[0]", slot)
        ring.next = ring.after(slot)
        self.count(rx_frames=1, rx_bytes=length)
        return frame, 0

    def count(self, **more: int) -> None:
        """Stores a new tuple in a single step, so that frames and bytes are consistent."""
        kept = self.counts._asdict()
        self.counts = Stats(**{name: count + more.get(name, 0) for name, count in kept.items()})

    def stats(self) -> Stats:
        return self.counts

    def send(self, queue: int, frame: bytes) -> bool:
        ring, slot = self.tx, self.tx.next
        if ring.used + 1 == len(ring.buffers) or len(frame) > 1514:
            return False
        self.dma_write(ring.buffers[slot], frame)
        self.put_descriptor(ring.bus, slot, tx_descriptor(ring.buffers[slot], len(frame)))
        ring.next, ring.used = ring.after(slot), ring.used + 1
        self.wmb()
        self.write32("TDT[0]", ring.next)
        self.count(tx_frames=1, tx_bytes=len(frame))
        return True

    def reclaim(self, queue: int) -> int:
        ring = self.tx
        while ring.used and is_sent(self.descriptor(ring.bus, ring.clean)):
            ring.clean, ring.used = ring.after(ring.clean), ring.used - 1
        return ring.used

    def interrupt(self, vector: int) -> int:
        return 1

    def rearm(self, queue: int) -> None:
        self.write32("EIMS", CAUSE)

    def reset(self) -> bool:
        self.start()
        return True


# --- what authors do wrong ---


class SlotWithoutDd(Both):
    def look(self, second: int) -> tuple[bool, int]:
        return True, super().look(second)[1]


class StopThatDoesNotWait(Both):
    def close(self) -> None:
        self.waits = False
        super().close()


class IdleReportedEarly(Both):
    def reclaim(self, queue: int) -> int:
        before = self.tx.used
        after = super().reclaim(queue)
        return 0 if after < before else after


class LengthBeforeDd(Both):
    def look(self, second: int) -> tuple[bool, int]:
        length = self.dma_read(second + 4, 2)
        return bool(self.dma_read(second, 1)[0] & 1), int.from_bytes(length, "little")


class LockTwice(Both):
    def receive(self, queue: int) -> bytes | tuple[bytes, int] | None:
        mutex = Mutex("counters")
        with self.holding(mutex), self.holding(mutex):
            return super().receive(queue)


class CountsInTwoSteps(Both):
    def count(self, **more: int) -> None:
        for name, count in more.items():
            super().count(**{name: count})
            self.point()


# --- what no driver may do ---


class RaisesInReceive(Both):
    def receive(self, queue: int) -> bytes | tuple[bytes, int] | None:
        self.read32("EICS")
        return bytes(self.rx.buffers[99])


class RaisesInOpen(Both):
    def open(self, setup: Setup) -> bool:
        self.fail("the EEPROM has no address")


class RaisesInInit(Both):
    def __init__(self) -> None:
        super().__init__()
        self.missing = self.nowhere  # type: ignore[attr-defined]


class RaisesInACondition(Both):
    def receive(self, queue: int) -> bytes | tuple[bytes, int] | None:
        self.wait_until(lambda: self.rx.buffers[99])
        return None


class HangsInReceive(Both):
    def receive(self, queue: int) -> bytes | tuple[bytes, int] | None:
        while queue < 9:
            pass
        return None


class WaitsForAThreadsLock(Both):
    def __init__(self) -> None:
        super().__init__()
        self.held = threading.Lock()

    def receive(self, queue: int) -> bytes | tuple[bytes, int] | None:
        with self.held:
            return super().receive(queue)

    def send(self, queue: int, frame: bytes) -> bool:
        with self.held:
            return super().send(queue, frame)


class TakesEveryException(Both):
    def receive(self, queue: int) -> bytes | tuple[bytes, int] | None:
        while True:
            try:
                self.look(self.rx.bus + 8)
                self.wait()
            except BaseException:  # noqa: S110
                pass


class Recurses(Both):
    def receive(self, queue: int) -> bytes | tuple[bytes, int] | None:
        return self.receive(queue)


class OpenAnswersNone(Both):
    def open(self, setup: Setup) -> bool:
        super().open(setup)
        return None  # type: ignore[return-value]


class StatsAnswersText(Both):
    def stats(self) -> Stats:
        return "1 frame"  # type: ignore[return-value]


class ReceiveAnswersText(Both):
    def receive(self, queue: int) -> bytes | tuple[bytes, int] | None:
        return "a frame"  # type: ignore[return-value]


class ReclaimAnswersBelowZero(Both):
    def reclaim(self, queue: int) -> int:
        return super().reclaim(queue) - 1


class FrameTooLong(Both):
    def receive(self, queue: int) -> bytes | tuple[bytes, int] | None:
        return None if super().receive(queue) is None else bytes(9725)


class WordTooLong(Both):
    def rearm(self, queue: int) -> None:
        self.write32("EIMS", 1 << 32)


class OutsideDma(Both):
    def receive(self, queue: int) -> bytes | tuple[bytes, int] | None:
        self.dma_write(0x1000, bytes(8))
        return super().receive(queue)


class ActsOnTheTerminal(Both):
    """The text that it prints and raises contains escape sequences."""

    def receive(self, queue: int) -> bytes | tuple[bytes, int] | None:
        print("\x1b]0;title\x07: note: \x1b[31mred")
        self.fail("red \x1b[31m and \u202e turned")


class ReadsTooMuch(Both):
    def receive(self, queue: int) -> bytes | tuple[bytes, int] | None:
        self.dma_read(0, 1 << 31)
        return super().receive(queue)


def outlive(begun: int) -> None:
    """Runs in a process that would outlive the card. Writes its ID for the test, then a byte to the pipe."""
    with open(os.environ["PROCESSES"], "a") as file:
        file.write(f"{os.getpid()}\n")
    os.write(begun, b"1")
    time.sleep(1000)


@contextlib.contextmanager
def until_begun() -> Iterator[int]:
    """Waits at the end of the block until `outlive` has written its ID."""
    ends = os.pipe()
    try:
        yield ends[1]
        os.read(ends[0], 1)
    finally:
        for end in ends:
            os.close(end)


class Forks(Both):
    """Its child sleeps with the card's pipes open."""

    def receive(self, queue: int) -> bytes | tuple[bytes, int] | None:
        with until_begun() as begun:
            if os.fork() == 0:
                outlive(begun)
        return super().receive(queue)


class ForksAndGoesOn(Both):
    """Its child continues as if it were on the card."""

    def receive(self, queue: int) -> bytes | tuple[bytes, int] | None:
        os.fork()
        return super().receive(queue)


class LeavesADaemon(Both):
    """A process without a parent, in its own session."""

    def open(self, setup: Setup) -> bool:
        with until_begun() as begun:
            if os.fork() == 0:
                os.setsid()
                if os.fork() == 0:
                    outlive(begun)
                os._exit(0)
        return super().open(setup)


class ExitsInReceive(Both):
    def receive(self, queue: int) -> bytes | tuple[bytes, int] | None:
        sys.exit(0)


class EndsTheProcess(Both):
    def receive(self, queue: int) -> bytes | tuple[bytes, int] | None:
        os._exit(0)


class AbortsInClose(Both):
    def close(self) -> None:
        os.abort()


class PieceLeft(Both):
    def close(self) -> None:
        self.piece = None
        super().close()


class FromAThread(Both):
    def receive(self, queue: int) -> bytes | tuple[bytes, int] | None:
        other = threading.Thread(target=lambda: self.read32("STATUS"))
        threading.excepthook = lambda _args: None
        other.start()
        other.join()
        return super().receive(queue)


class StateLeft(Both):
    calls = 0

    def receive(self, queue: int) -> bytes | tuple[bytes, int] | None:
        StateLeft.calls += 1
        return None if StateLeft.calls > 60 else super().receive(queue)


# --- for the card's list: a driver with all functions; subclasses set some back to Driver's own ---


class Everything(Driver):
    """Does nothing."""

    name = "everything"
    can = Can.SHARED_SEND | Can.FUNCTIONS | Can.SHARED_DEVICE | Can.HOST
    queues, frame = 4, 9724

    def open(self, setup: Setup) -> bool:
        return True

    def close(self) -> None:
        pass

    def receive(self, queue: int) -> bytes | None:
        return None

    def send(self, queue: int, frame: bytes) -> bool:
        return False

    def reclaim(self, queue: int) -> int:
        return 0

    def interrupt(self, vector: int) -> int:
        return 0

    def rearm(self, queue: int) -> None:
        pass

    def filter(self, wanted: Filter) -> bool:
        return False

    def rss(self, wanted: Rss) -> bool:
        return False

    def mtu(self, frame: int) -> bool:
        return False

    def resize(self, slots: int) -> bool:
        return False

    def reset(self) -> bool:
        return False

    def suspend(self) -> bool:
        return False

    def resume(self) -> bool:
        return False

    def link(self) -> bool:
        return False

    def mailbox_send(self, vf: int, words: tuple[int, ...]) -> bool:
        return False

    def mailbox_receive(self, vf: int) -> list[int] | None:
        return None

    def mailbox_ready(self) -> bool:
        return False

    def stats(self) -> Stats:
        return Stats(0, 0, 0, 0)
