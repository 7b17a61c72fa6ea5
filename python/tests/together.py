"""Tests of several threads on one controller. No frame is lost or duplicated, no result goes to another thread, lent
memory is kept, and closing the controller ends the other threads' calls with `Closed`. Each test runs in its own
process with faulthandler, because a failure may crash it."""

from __future__ import annotations

import os
import subprocess
import sys
import unittest
from pathlib import Path

# The common start of the programs. Threads switch as often as possible.
HEAD = """
import faulthandler, struct, sys, threading
faulthandler.enable()
sys.setswitchinterval(1e-6)
from nic82599 import *

def together(*functions):
    faults = []
    def tried(function):
        try:
            function()
        except BaseException as fault:
            faults.append(fault)
    threads = [threading.Thread(target=tried, args=(it,)) for it in functions]
    [it.start() for it in threads]
    [it.join() for it in threads]
    if faults:
        raise faults[0]

def is_kept(buffer):
    try:
        buffer.append(0)
    except BufferError:
        return True
    buffer.pop()
    return False
"""

COLLECT = """
COUNT, ROUNDS = 200, 12
nic = Nic(blocks=64)
nic.lend()
nic["DMATXCTL"], nic["TDLEN[0]"] = 1, 4096
def fill():
    nic["TXDCTL[0]"] = 0
    nic.settle(1)
    nic["TDH[0]"], nic["TDT[0]"], nic["TXDCTL[0]"] = 0, 0, 1 << 25
    nic.settle(1)
    for number in range(COUNT):
        length = 60 + number
        nic.memory.write(0x2000 + 512 * number, bytes([number]) * length)
        second = length | 3 << 20 | 1 << 24 | 1 << 25 | 1 << 29 | length << 46
        nic.memory.write(16 * number, struct.pack("<QQ", 0x2000 + 512 * number, second))
    nic["TDT[0]"] = COUNT
    nic.settle(1)
for _ in range(ROUNDS):
    fill()
    found = []
    def collect():
        while (frame := nic.collect()) is not None:
            found.append(frame.data)
    together(*[collect] * 4)
    assert sorted(found) == sorted(bytes([it]) * (60 + it) for it in range(COUNT)), "frames are lost or duplicated"
"""

ARRIVE = """
COUNT, THREADS = 100, 4
nic = Nic(blocks=256, fifo=4096)
nic.lend()
nic["RXCTRL"], nic["FCTRL"], nic["RDLEN[0]"], nic["SRRCTL[0]"], nic["RDBAL[0]"] = 1, 0x200, 16 * 512, 0x0200_0001, 0x0
nic["RXDCTL[0]"] = 1 << 25
nic.settle(1)
for slot in range(512):
    nic.memory.write(16 * slot, struct.pack("<QQ", 0x4000 + 512 * slot, 0))
nic["RDT[0]"] = 511
wrote = []
def arrive(thread):
    for number in range(COUNT):
        frame = bytes.fromhex("020000000001020000000002") + struct.pack(">HHI", 0x0800, thread, number) + bytes(46)
        assert nic.arrive(frame) is None
def receive():
    idle = 0
    while len(wrote) < COUNT * THREADS and idle < 1_000_000:
        event = nic.rx_step()
        idle = 0 if event else idle + 1
        if event is not None:
            assert isinstance(event, Wrote) and event.end, event
            wrote.append(event)
together(*[lambda it=it: arrive(it) for it in range(THREADS)], receive, receive)
pairs = [struct.unpack(">HI", nic.memory.read(it.at + 14, 6)) for it in wrote]
assert sorted(pairs) == [(thread, number) for thread in range(THREADS) for number in range(COUNT)], "frames"
assert sorted(it.slot for it in wrote) == list(range(COUNT * THREADS)), "slots"
"""

ANSWERS = """
nic = Nic()
COUNT = 4000
def arrive():
    for _ in range(COUNT):
        event = nic.arrive(bytes(60))
        assert event == Dropped("off"), event
def message():
    for _ in range(COUNT):
        nic.write32(0x808, 1)
        nic.write32(0x880, 1)
        event = nic.int_step()
        assert event is None or isinstance(event, Message), event
        nic.write32(0x800, 1)
together(arrive, message, arrive)
"""

# The trace function lets other threads run at each line of the package.
LEND = """
import os, time, nic82599
ROUNDS, CALLS, PACKAGE = 200, 2, os.path.dirname(nic82599.__file__)
def lets_others(frame, event, _argument):
    if not frame.f_code.co_filename.startswith(PACKAGE):
        return None
    time.sleep(0)
    return lets_others
threading.settrace(lets_others)
for _ in range(ROUNDS):
    nic, made = Nic(blocks=2), []
    def lend():
        for _ in range(CALLS):
            buffer = bytearray(2048)
            made.append(buffer)
            try:
                nic.memory.lend(0, buffer)
            except NicError:
                pass
    def take():
        for _ in range(CALLS):
            try:
                nic.take(0)
            except NicError:
                pass
    together(lend, take, lend, take)
    kept = sum(map(is_kept, made))
    try:
        nic.memory.unlend(0, 2048)
        assert kept == 1, f"a buffer is lent, and {kept} are kept"
    except NotLent:
        assert kept == 0, f"no buffer is lent, and {kept} are kept"
    nic.close()
    assert not any(map(is_kept, made)), "a buffer is kept after the close"
"""

CLOSE = """
ROUNDS = 300
for _ in range(ROUNDS):
    nic, buffer = Nic(blocks=2), bytearray(2048)
    def call():
        try:
            while True:
                nic.read32(8)
                nic.arrive(bytes(60))
                nic.settle(1)
        except Closed:
            pass
    def lend():
        try:
            while True:
                nic.memory.lend(2048, buffer)
                nic.memory.unlend(2048, 2048)
        except Closed:
            pass
    together(call, lend, nic.close, nic.close)
    assert not is_kept(buffer), "a buffer is kept after the close"
"""

DROP = """
ROUNDS = 300
nic = Nic(blocks=1)
for _ in range(ROUNDS):
    kept = nic.snapshot()
    def restore():
        try:
            while True:
                nic.restore(kept)
        except Closed:
            pass
    together(restore, kept.drop, kept.drop)
"""

FORK = """
import os
# (during most forks, another thread holds the lock: the children must not wait for it)
nic, other, ends = Nic(blocks=2), Nic(blocks=2), []
def lend():
    while not ends:
        other.memory.lend(0, bytearray(2048))
        other.take(0)
def fork():
    try:
        for _ in range(40):
            child = os.fork()
            if child == 0:
                faulthandler.dump_traceback_later(1800, exit=True)
                nic.memory.lend(0, bytearray(2048))
                nic.take(0)
                nic.close()
                os._exit(0)
            assert os.waitpid(child, 0)[1] == 0, "a child waits forever"
    finally:
        ends.append(True)
together(lend, fork)
"""


class Together(unittest.TestCase):
    def runs(self, program: str) -> None:
        paths = {**os.environ, "PYTHONPATH": str(Path(__file__).resolve().parents[1])}
        words = [sys.executable, "-W", "ignore::DeprecationWarning", "-c", HEAD + program]
        made = subprocess.run(words, env=paths, capture_output=True, text=True, timeout=3600, check=False)
        self.assertEqual((made.returncode, made.stderr), (0, ""))

    def test_collect(self) -> None:
        self.runs(COLLECT)

    def test_arrive(self) -> None:
        self.runs(ARRIVE)

    def test_answers(self) -> None:
        self.runs(ANSWERS)

    def test_lend(self) -> None:
        self.runs(LEND)

    def test_close(self) -> None:
        self.runs(CLOSE)

    def test_drop(self) -> None:
        self.runs(DROP)

    def test_fork(self) -> None:
        self.runs(FORK)

    def test_without_the_lock(self) -> None:
        """An interpreter without the GIL is refused."""
        paths = {**os.environ, "PYTHONPATH": str(Path(__file__).resolve().parents[1])}
        words = [sys.executable, "-c", "import sys; sys._is_gil_enabled = lambda: False; import nic82599"]
        made = subprocess.run(words, env=paths, capture_output=True, text=True, check=False)
        self.assertEqual(made.returncode, 1)
        self.assertRegex(made.stderr, "ImportError: nic82599 needs the interpreter's lock")
