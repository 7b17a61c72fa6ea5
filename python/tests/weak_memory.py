"""Tests of nic82599.explore: weak memory, chosen values, timers, and the kit."""

from __future__ import annotations

import sys
import tempfile
import unittest
from collections.abc import Callable
from pathlib import Path

HERE = Path(__file__).resolve().parent
sys.path[:0] = [str(HERE.parent)]
from nic82599 import Nic  # noqa: E402
from nic82599.descriptors import received, rx_descriptor, tx_descriptor  # noqa: E402
from nic82599.explore import (  # noqa: E402
    AT_REST,
    UDP,
    BadSchedule,
    BadWord,
    Failure,
    Flow,
    Mailbox,
    Mutex,
    Scenario,
    Vacuous,
    frame_number,
    numbered_frame,
    replay,
    search,
)

X, Y = 0, 64
Pair = tuple[int, int]


class Litmus(Scenario):
    """Two tasks with a few loads and stores each, and the values that they loaded."""

    name, blocks = "litmus", 2

    def __init__(self, one: str, other: str, memory: str = "weak", orders: frozenset[str] = frozenset()) -> None:
        self.programs, self.memory, self.orders = (one, other), memory, orders
        self.lock_of_all = Mutex("all")
        self.path: Path | None = None

    def bring_up(self) -> None:
        self.lend(0)
        self.lend(1)

    def begin(self) -> None:
        self.got = [0, 0]
        for number, program in enumerate(self.programs):
            self.task(f"t{number}", lambda program=program: [self.step(word) for word in program.split()])

    def step(self, word: str) -> None:
        """Runs a word: `x=1` stores, `0=y` loads into a slot; otherwise a barrier, a lock or a register access."""
        left, _, right = word.partition("=")
        place = {"x": X, "y": Y}
        if left in place:
            self.dma_write(place[left], bytes([int(right)]))
        elif right:
            self.got[int(left)] = self.dma_read(place[right], 1)[0]
        else:
            getattr(self, f"do_{word}")()

    def do_wmb(self) -> None:
        self.wmb()

    def do_rmb(self) -> None:
        self.rmb()

    def do_mb(self) -> None:
        self.mb()

    def do_lock(self) -> None:
        self.lock(self.lock_of_all)

    def do_unlock(self) -> None:
        self.unlock(self.lock_of_all)

    def do_write(self) -> None:
        self.write32("RETA[0]", 1)

    def do_read(self) -> None:
        self.got[0] = self.read32("RETA[0]")

    def end(self) -> str | None:
        with self.path.open("a") as file:
            file.write(f"{self.got[0]} {self.got[1]}\n")
        return None


def outcomes(scenario: Litmus) -> set[Pair]:
    """Returns the outcomes of all schedules."""
    with tempfile.TemporaryDirectory() as folder:
        scenario.path = Path(folder) / "outcomes"
        search(scenario, None, strategy="exhaustive", preemptions=1_000)
        pairs = [line.split() for line in scenario.path.read_text().splitlines()]
        return {(int(one), int(other)) for one, other in pairs}


ALL = {(0, 0), (0, 1), (1, 0), (1, 1)}
IN_ORDER = ALL - {(1, 0)}


class Weak(unittest.TestCase):
    def test_litmus(self) -> None:
        """Each program has exactly the allowed outcomes."""
        for one, other, orders, wanted in (
            ("x=1 y=1", "0=y 1=x", "", ALL),
            ("x=1 wmb y=1", "0=y 1=x", "", ALL),
            ("x=1 y=1", "0=y rmb 1=x", "", ALL),
            ("x=1 wmb y=1", "0=y rmb 1=x", "", IN_ORDER),
            ("x=1 mb y=1", "0=y mb 1=x", "", IN_ORDER),
            ("lock x=1 y=1 unlock", "lock 0=y 1=x unlock", "", {(0, 0), (1, 1)}),
            ("x=1 write", "read rmb 1=x", "", ALL),
            ("x=1 write", "read rmb 1=x", "writes", IN_ORDER),
            ("x=1 wmb write", "read 1=x", "", ALL),
            ("x=1 wmb write", "read 1=x", "reads", IN_ORDER),
            ("x=1 x=2", "0=x 1=x", "", {(0, 0), (0, 1), (0, 2), (1, 1), (1, 2), (2, 2)}),
            ("x=1 0=x", "mb", "", {(1, 0)}),
            ("x=1 0=y", "y=1 1=x", "", ALL),
            ("x=1 mb 0=y", "y=1 mb 1=x", "", ALL - {(0, 0)}),
        ):
            words = f"{one} | {other} | {orders}"
            self.assertEqual(outcomes(Litmus(one, other, "weak", frozenset(filter(None, [orders])))), wanted, words)
        for one, other in (("x=1 y=1", "0=y 1=x"), ("x=1 write", "read 1=x")):
            for memory in ("strong", "tso"):
                self.assertEqual(outcomes(Litmus(one, other, memory)), IN_ORDER)
        self.assertEqual(outcomes(Litmus("x=1 0=y", "y=1 1=x", "tso")), ALL)

    def test_words(self) -> None:
        self.assertRaisesRegex(BadWord, "memory: 'week' isn't one of", search, Litmus("mb", "mb"), memory="week")
        self.assertRaisesRegex(ValueError, "memory must be strong, weak", search, Litmus("mb", "mb", "week"))
        self.assertRaises(ValueError, search, Litmus("mb", "mb", "weak", frozenset({"all"})))


class Send(Scenario):
    """The scenario in corpus/missing_wmb.c."""

    name, blocks, memory, has_barrier = "missing_wmb", 16, "weak", False

    def bring_up(self) -> None:
        for block in range(1, 4):
            self.lend(block)
        self.write32("TDBAL[0]", 0x880)
        self.write32("TDLEN[0]", 128)
        self.write32("TXDCTL[0]", 1 << 25)
        self.settle()
        self.write32("DMATXCTL", 1)
        for slot in range(2):
            self.dma_write(0x1000 + 2048 * slot, numbered_frame(60, slot))

    def begin(self) -> None:
        self.task("send", self.send)

    def send(self) -> None:
        for slot in range(2):
            descriptor = tx_descriptor(0x1000 + 2048 * slot, 60)
            for half in range(2):
                self.dma_write(0x880 + 16 * slot + 8 * half, descriptor[8 * half : 8 * half + 8])
            if self.has_barrier:
                self.wmb()
            self.write32("TDT[0]", slot + 1)

    def end(self) -> str | None:
        gone = [self.nic.collect() for _ in range(2)]
        numbers = [None if one is None else frame_number(one.data) for one in gone]
        return None if numbers == [0, 1] else "a frame was never transmitted"


class Files(unittest.TestCase):
    def test_of_c(self) -> None:
        """A schedule under weak memory that the explorer in C found: each point has the same effect here."""
        path = HERE / "missing_wmb.schedule"
        result = replay(Send(), path)
        lines = [line.split("#") for line in path.read_text().splitlines()]
        wanted = [(line[0].strip(), line[1].strip()) for line in lines if len(line) == 2 and line[0]]
        self.assertEqual(result.points, wanted)
        strong = Send()
        strong.memory = "strong"
        self.assertEqual(replay(strong, path), result)

    def test_found(self) -> None:
        with tempfile.TemporaryDirectory() as folder:
            with self.assertRaises(Failure) as caught:
                search(Send(), 100, out=folder)
            text = (Path(folder) / "missing_wmb.schedule").read_text()
            script = (Path(folder) / "missing_wmb.nic").read_text()
            self.assertEqual(replay(Send(), caught.exception.path), caught.exception.result)
            (Path(folder) / "strong").write_text(text.replace("memory weak\n", ""))
            self.assertRaises(BadSchedule, replay, Send(), Path(folder) / "strong")
        self.assertIn("\nmemory weak\n", text)
        self.assertIn(", on its way", script)
        search(Send(), 100, memory="strong")
        right = Send()
        right.has_barrier = True
        search(right, 300, strict=True)
        search(right, None, strategy="exhaustive", preemptions=1)


class Choosing(Scenario):
    """A task that chooses values, or timers."""

    name, blocks, points = "choosing", 1, 200

    def __init__(self, act: Callable[[Choosing], object], within: int = AT_REST) -> None:
        self.act, self.within = act, within

    def begin(self) -> None:
        self.count, self.is_busy = 0, False
        self.input = self.choose(3)
        self.task("acts", lambda: self.act(self))
        self.clock = self.timer("clock", self.fire, within=self.within)

    def fire(self) -> None:
        self.count += 1
        self.check(not self.is_busy, "it fires while the task is busy")


def chooses(it: Choosing) -> None:
    value = it.choose(9)
    it.read32("STATUS")
    it.check(it.input != 1 or value < 5, "the values that fail")


def waits(it: Choosing) -> None:
    it.arm(it.clock)
    it.check(it.disarm(it.clock) or it.count, "it wasn't armed")
    it.is_busy = True
    it.arm(it.clock)
    for _ in range(3):
        it.point()
    it.is_busy = False


class Values(unittest.TestCase):
    def test_values(self) -> None:
        for strategy in ("random", "priorities", "exhaustive"):
            with self.assertRaises(Failure) as caught:
                search(Choosing(chooses), 400, strategy=strategy)
            actors = caught.exception.result.actors
            self.assertEqual([one for one in actors if one.startswith("value")], ["value 1", "value 5"], strategy)
        for bound in (0, 257):
            with self.assertRaisesRegex(Failure, f"misuse: a choice has 1 to 256 values, not {bound}"):
                search(Choosing(lambda it, bound=bound: it.choose(bound)), 5)
        search(Choosing(lambda it: it.check(it.choose(1) == 0, "one value is 0")), 5)
        with self.assertRaisesRegex(Failure, "endless: still running after 200 points; the last to act was choose"):
            search(Choosing(lambda it: [it.choose(2) for _ in range(300)]), 5, shrink=False)

    def test_timers(self) -> None:
        search(Choosing(waits), 100)
        with self.assertRaisesRegex(Failure, "it fires while the task is busy"):
            search(Choosing(waits, 3), 100)
        with self.assertRaisesRegex(Vacuous, "timer clock never fired"):
            search(Choosing(lambda it: it.point()), 20, strict=True)
        self.assertRaises(ValueError, search, Choosing(waits, -1), 5)


class Mailing(Scenario):
    """A request through a mailbox, and its reply."""

    name, vfs, blocks = "mailing", 1, 1

    def bring_up(self) -> None:
        self.write32("GCR_EXT", 3)
        self.write32("CTRL_EXT", 0x4000)
        self.vf_read32(0, "VFMAILBOX")

    def begin(self) -> None:
        self.mailbox, self.answer = Mailbox(self, 0), [0]
        self.task("function", self.function)
        self.task("host", self.host)

    def function(self) -> None:
        self.mailbox.function_sends(1, 2)
        while not self.mailbox.function_is_acked():
            self.wait()
        while (answer := self.mailbox.function_receives(2)) is None:
            self.wait()
        self.answer = answer

    def host(self) -> None:
        while (words := self.mailbox.host_receives(2)) is None:
            self.wait()
        self.mailbox.host_sends(*(10 * word for word in words))
        while not self.mailbox.host_is_acked():
            self.wait()

    def end(self) -> str | None:
        return None if self.answer == [10, 20] else f"another answer: {self.answer}"


class Kit(unittest.TestCase):
    def test_frames(self) -> None:
        for length, number in ((60, 0), (60, 7), (16_384, 1_000_000)):
            frame = numbered_frame(length, number)
            self.assertEqual((len(frame), frame_number(frame)), (length, number))
            self.assertIsNone(frame_number(frame[:-1] + bytes([frame[-1] ^ 1])))
        self.assertRaises(ValueError, numbered_frame, 59, 0)
        self.assertRaises(ValueError, Flow(1, 2).frame, 1_519, 0)

    def test_queue(self) -> None:
        """A flow's frames arrive in the queue that `rss` returns, with the hash that it returns."""
        with Nic(blocks=8) as nic:
            for block in range(8):
                nic.lend(block)
            for register, word in (("RXCTRL", 1), ("FCTRL", 0x200), ("MRQC", 0x0043_0001), ("RXCSUM", 1 << 13),
                                   *((f"RSSRK[{k}]", 0x9E37_79B9 * (k + 1) & 0xFFFF_FFFF) for k in range(10)),
                                   *((f"RETA[{k}]", 0x0302_0100) for k in range(32))):  # fmt: skip
                nic[register] = word
            for queue in range(4):
                for register, word in (("RDBAL", 128 * queue), ("RDLEN", 128), ("SRRCTL", 0x0200_0002),
                                       ("RXDCTL", 1 << 25)):  # fmt: skip
                    nic[f"{register}[{queue}]"] = word
                nic.settle()
                nic.memory[128 * queue : 128 * queue + 16] = rx_descriptor(2048 * (queue + 1))
                nic[f"RDT[{queue}]"] = 1
            for number, flow in enumerate((Flow(1, 2, 3, 4), Flow(77, 2, 9, 4, UDP), Flow(1, 5, protocol=1))):
                found, queue = flow.rss(nic)
                nic.arrive(flow.frame(60 + 100 * number, number))
                nic.settle()
                fields = received(nic.memory[128 * queue : 128 * queue + 16])
                self.assertEqual((fields.done, fields.rss_hash), (True, found), flow)
                at = 2048 * (queue + 1)
                self.assertEqual(frame_number(nic.memory[at : at + fields.length]), number)
                nic.memory[128 * queue : 128 * queue + 16] = rx_descriptor(at)

    def test_mailbox(self) -> None:
        search(Mailing(), 200)


if __name__ == "__main__":
    unittest.main()
