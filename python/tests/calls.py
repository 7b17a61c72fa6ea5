"""Tests of what the module's calls return and raise."""

from __future__ import annotations

import array
import copy
import ctypes
import gc
import mmap
import os
import pickle
import re
import subprocess
import sys
import tempfile
import tracemalloc
import typing
import unittest
from pathlib import Path

import nic82599
import nic82599.descriptors
from nic82599 import Advanced, Dropped, Fault, Frame, Memory, Message, Nic, Sent, Wrote

FRAME = bytes.fromhex("0200000000010200000000020800450000280000000040060000420995bba18e64500aea06e6") + bytes(22)
KEY = bytes.fromhex("6d5a56da255b0ec24167253d43a38fb0d0ca2bcbae7b30b477cb2da38030f20c6a42b73bbeac01fa")
TYPE = 0x0200_0002
ENABLE = 0x0200_0000


def half(value: int) -> bytes:
    return value.to_bytes(8, "little")


class Life(unittest.TestCase):
    def test_sizes(self) -> None:
        for words, refusal in (
            ({"vfs": 64}, nic82599.TooManyVfs), ({"vfs": 256}, nic82599.TooManyVfs), ({"vfs": -1}, nic82599.TooManyVfs),
            ({"fifo": 0}, nic82599.BadFifo), ({"fifo": 4097}, nic82599.BadFifo), ({"fifo": 1 << 40}, nic82599.BadFifo),
            ({"blocks": 0}, nic82599.BadBlocks), ({"blocks": 65_537}, nic82599.BadBlocks),
        ):  # fmt: skip
            with self.subTest(words), self.assertRaises(refusal):
                Nic(**words)

    def test_closed(self) -> None:
        with Nic() as nic:
            function = nic.vf(0)
        nic.close()
        for call in (lambda: nic["CTRL"], lambda: function["VFSTATUS"], nic.settle, nic.collect):
            with self.assertRaises(nic82599.Closed):
                call()

    def test_many(self) -> None:
        for _ in range(3):
            Nic(63, 4096, 65_536).lend(0, 65_535)
        gc.collect()

    def test_a_path_with_a_zero(self) -> None:
        """The path isn't truncated at the zero byte."""
        with tempfile.TemporaryDirectory() as folder:
            with self.assertRaisesRegex(ValueError, "zero byte"):
                nic82599.record(f"{folder}/cut\0off")
            self.assertEqual(list(Path(folder).iterdir()), [])

    def test_missing_library(self) -> None:
        with self.assertRaisesRegex(nic82599.LibraryMissing, "isn't the controller's library"):
            Nic(library="/nowhere/libnic82599.so")
        with tempfile.NamedTemporaryFile() as file, self.assertRaises(nic82599.LibraryMissing):
            Nic(library=file.name)
        before = os.environ.pop("NIC82599_LIBRARY", None)
        try:
            os.environ["NIC82599_LIBRARY"] = "/nowhere/libnic82599.so"
            with self.assertRaisesRegex(nic82599.LibraryMissing, "make -C c"):
                Nic()
        finally:
            del os.environ["NIC82599_LIBRARY"]
            if before is not None:
                os.environ["NIC82599_LIBRARY"] = before


class Snapshots(unittest.TestCase):
    def test_goes_back(self) -> None:
        with Nic(vfs=2, blocks=4) as nic:
            nic.lend(0, 2)
            nic["RETA[3]"] = 0x03020100
            nic.memory[0x1000:0x1004] = b"kept"
            with nic.snapshot() as kept:
                self.assertEqual(repr(kept), "<Snapshot of 2 virtual functions and 4 blocks>")
                for _ in range(2):
                    nic["RETA[3]"] = 7
                    nic.take(2)
                    nic.lend(3)
                    nic.restore(kept)
                    self.assertEqual((nic["RETA[3]"], nic.memory[0x1000:0x1004]), (0x03020100, b"kept"))
                    with self.assertRaises(nic82599.NotLent):
                        nic.take(3)
                with Nic(blocks=1) as other:
                    other.restore(kept)
                    self.assertEqual((other.vfs, other.fifo, other.blocks), (2, 64, 4))
                    self.assertEqual((other["RETA[3]"], other.memory[0x1000:0x1004]), (0x03020100, b"kept"))
                    with self.assertRaises(nic82599.NoBlock):
                        other.lend(2)
            self.assertEqual(repr(kept), "<Snapshot of 2 virtual functions and 4 blocks, dropped>")
            kept.drop()
            with self.assertRaises(nic82599.Closed):
                nic.restore(kept)

    def test_goes_on_alike(self) -> None:
        with Nic(blocks=2) as nic:
            nic.lend()
            for name, word in (("RXCTRL", 1), ("FCTRL", 0x200), ("RDLEN[0]", 128), ("SRRCTL[0]", TYPE)):
                nic[name] = word
            nic["RXDCTL[0]"] = ENABLE
            nic.settle()
            nic.memory[0:8] = half(0x800)
            self.assertIsNone(nic.arrive(FRAME))
            kept = nic.snapshot()

            def goes_on() -> tuple[list[nic82599.Event], bytes, int]:
                nic["RDT[0]"] = 1
                return nic.settle(), nic.memory[0x800 : 0x800 + len(FRAME)], nic["GPRC"]

            first = goes_on()
            self.assertEqual(first[1:], (FRAME, 1))
            nic.restore(kept)
            self.assertEqual(goes_on(), first)
            kept.drop()

    def test_outlives(self) -> None:
        nic = Nic(blocks=1)
        nic["RETA[0]"] = 5
        kept = nic.snapshot()
        nic.close()
        with self.assertRaises(nic82599.Closed):
            nic.snapshot()
        with self.assertRaises(nic82599.Closed):
            nic.restore(kept)
        with Nic(blocks=3) as other:
            other.restore(kept)
            self.assertEqual(other["RETA[0]"], 5)
        del kept, nic
        gc.collect()


COPIES = """
import copy, gc, sys
from nic82599 import Nic
nic = Nic(blocks=1)
one = nic if sys.argv[1] == "nic" else nic.snapshot()
try:
    other = copy.copy(one)
except TypeError as fault:
    print(fault)
    other = None
del one, other, nic
gc.collect()
"""


class Copies(unittest.TestCase):
    """An object that owns memory from the library can't be copied."""

    def test_refused(self) -> None:
        with Nic(blocks=1) as nic, nic.snapshot() as kept:
            for one in (nic, kept):
                for call in (copy.copy, copy.deepcopy, pickle.dumps, lambda it: copy.deepcopy([it])):
                    with self.assertRaisesRegex(TypeError, f"^a {type(one).__name__} can't be copied or pickled: "):
                        call(one)
            for part in (nic.vf(0), nic.memory):
                self.assertEqual(type(copy.copy(part)), type(part))
                with self.assertRaises(TypeError):
                    copy.deepcopy(part)

    def test_ends_once(self) -> None:
        """Runs in a separate process, because freeing a device twice would crash it."""
        paths = {**os.environ, "PYTHONPATH": str(Path(__file__).resolve().parents[1])}
        for which in ("nic", "snapshot"):
            call = [sys.executable, "-c", COPIES, which]
            made = subprocess.run(call, env=paths, capture_output=True, text=True, check=False)
            self.assertEqual((made.returncode, made.stderr), (0, ""), which)
            self.assertRegex(made.stdout, "can't be copied or pickled", which)


class Registers(unittest.TestCase):
    def setUp(self) -> None:
        self.nic = Nic(vfs=2, blocks=4)

    def tearDown(self) -> None:
        self.nic.close()

    def test_names(self) -> None:
        nic = self.nic
        nic["RETA[3]"] = 0x03020100
        self.assertEqual((nic[0x05C0C], nic[0x0EB0C], nic.peek("RETA[3]")), (0x03020100,) * 3)
        nic["MAXFRS"] = 0xFFFF_FFFF
        self.assertEqual(nic["MAXFRS[0]"], 0xFFFF_0000)
        self.assertEqual(nic82599.address_of("RDT[64]"), 0x0D018)
        self.assertEqual(nic82599.address_of("EITR[30]"), 0x12318)
        self.assertEqual(nic82599.offset_of("VFRDT[1]"), 0x1058)
        self.assertEqual(nic82599.fields_of("SRRCTL[2]", TYPE)["DESCTYPE"], 1)
        for name in ("NOSUCH", "RDT[128]", "RDT[x]", "RDT[", "", "RXCTRL[1]", "rdt"):
            with self.subTest(name), self.assertRaises(nic82599.NoSuchRegister):
                nic[name]
        with self.assertRaisesRegex(nic82599.NoSuchRegister, "RXDCTL"):
            nic["RXDCTRL[3]"] = 1

    def test_long_numbers(self) -> None:
        """Numbers with more digits than Python prints are refused like other numbers, with a short message."""
        nic, digits, number = self.nic, "9" * 5000, 10**5000
        for call, refusal in (
            (lambda: nic[f"RDT[{digits}]"], nic82599.NoSuchRegister),
            (lambda: nic.vf(0)[f"VFRDT[{digits}]"], nic82599.NoSuchRegister),
            (lambda: nic["R" * 100_000], nic82599.NoSuchRegister),
            (lambda: nic[number], ValueError), (lambda: nic.vf(-number), ValueError),
            (lambda: nic.tx_step(number), ValueError), (lambda: nic.memory.read(number, 1), ValueError),
            (lambda: nic.memory[number:1], ValueError), (lambda: nic.arrive(number), TypeError),
            (lambda: Nic(vfs=number), nic82599.TooManyVfs), (lambda: Nic(blocks=-number), nic82599.BadBlocks),
        ):  # fmt: skip
            with self.assertRaises(refusal) as caught:
                call()
            self.assertLess(len(str(caught.exception)), 200)
            self.assertNotIn("limit", str(caught.exception))
        self.assertNotIn(f"RDT[{digits}]", nic)
        self.assertEqual(nic["RDT[000003]"], 0)

    def test_strays(self) -> None:
        nic = self.nic
        with self.assertRaises(nic82599.Stray) as caught:
            nic[0xC]
        self.assertEqual(caught.exception.word, 0)
        with self.assertRaises(nic82599.Stray):
            nic[0xC] = 1
        with self.assertRaises(nic82599.Stray):
            nic.peek(0x1FFFC)
        self.assertEqual((nic.read32(0xC), nic.write32(0xC, 1), nic.peek32(0xC)), ((0, True), False, None))
        self.assertEqual(nic.vf(2).read32(0x101C), (0xFFFF_FFFF, True))
        for bad in (-1, 1 << 32):
            with self.assertRaises(ValueError):
                nic[bad]
            with self.assertRaises(ValueError):
                nic["RXCTRL"] = bad

    def test_note(self) -> None:
        with nic82599.Nic(0) as nic:
            nic.note("of nothing that is recorded")
        with self.assertRaises(nic82599.Closed):
            nic.note("of a controller that was closed")

    def test_why_stray(self) -> None:
        """The message says which case it is: no register, no such virtual function, no pool for it, or no such queue in
        its pool."""
        nic, none, one = Nic(vfs=40), Nic(), Nic(vfs=1)
        self.addCleanup(lambda: [it.close() for it in (nic, none, one)])
        expected = {0: "no pools", 1: "16 pools", 2: "32 pools", 3: "64 pools"}
        for mode, pools in expected.items():
            nic["GCR_EXT"] = mode
            for number in range(64):
                function, count = nic.vf(number), (0, 16, 32, 64)[mode]
                if number >= 40:
                    why = f"no virtual function {number}: the controller has 40, numbered from 0"
                elif number >= count:
                    why = f"virtual function {number} has no pool: GCR_EXT bits 1:0 select {pools}"
                else:
                    self.assertEqual(function["VFMBMEM[15]"], 0)
                    why = f"0x00004 isn't a register of virtual function {number}"
                word = 0 if number < min(count, 40) else 0xFFFF_FFFF
                with self.assertRaisesRegex(nic82599.Stray, f"{re.escape(why)} .it reads as 0x{word:08x}.$") as caught:
                    function[4]
                self.assertEqual(caught.exception.word, word)
        for call, why in (
            (lambda: none.vf(0)["VFCTRL"], "no virtual function 0: the controller has none"),
            (lambda: one.vf(1)["VFCTRL"], "no virtual function 1: the controller has 1, numbered from 0"),
            (lambda: nic.vf(3)["VFRDT[2]"], r"virtual function 3 has no VFRDT\[2\] \(0x01098\): its pool has 2 queues"),
            (lambda: nic.vf(3).peek("VTIVAR[1]"), r"virtual function 3 has no VTIVAR\[1\] \(0x00124\): its pool has 2"),
            (lambda: nic.vf(3).__setitem__(4, 1), "^0x00004 isn't a register of virtual function 3$"),
            (lambda: nic.peek(0xC), "^0x0000c isn't a register$"),
        ):
            with self.subTest(why), self.assertRaisesRegex(nic82599.Stray, why):
                call()

    def test_taken_block(self) -> None:
        with self.assertRaisesRegex(nic82599.NoBlock, "can't be lent: it is already lent or doesn't exist. .lend 0.$"):
            self.nic.lend(0, 0)

    def test_in(self) -> None:
        """`in` is true for the name or number of a register that exists."""
        nic = self.nic
        nic["EICS"] = 5
        for name in ("RXCTRL", "RDT[127]", "RDT", " RDT[3] ", 0, 0x05C0C, "EICR"):
            self.assertIn(name, nic)
        for name in ("NOSUCH", "RDT[128]", "RXCTRL[1]", "", 0xC, -1, 1 << 32):
            self.assertNotIn(name, nic)
        self.assertEqual(nic["EICR"], 5)
        self.assertNotIn("VFRDT[0]", nic.vf(1))
        nic["GCR_EXT"] = 3
        self.assertIn("VFRDT[1]", nic.vf(1))
        for name in ("VFRDT[2]", "RDT", 4):
            self.assertNotIn(name, nic.vf(1))
        with self.assertRaises(TypeError):
            list(nic)

    def test_completions(self) -> None:
        """The names that a prompt completes after a bracket are all registers."""
        names = self.nic._ipython_key_completions_()
        self.assertLessEqual({"RDT", "SRRCTL", "EIMS"}, {*names})
        self.assertEqual([it for it in names if it not in self.nic], [])
        self.nic["GCR_EXT"] = 1
        function = self.nic.vf(0)
        names = function._ipython_key_completions_()
        self.assertLessEqual({"VFRDT", "VTEIMS", "VFMBMEM"}, {*names})
        self.assertEqual([it for it in names if it not in function], [])

    def test_peek_has_no_effect(self) -> None:
        nic = self.nic
        nic["EICS"] = 5
        self.assertEqual((nic.peek("EICR"), nic.peek("EICR"), nic["EICR"], nic["EICR"]), (5, 5, 5, 0))

    def test_function(self) -> None:
        nic = self.nic
        nic["GCR_EXT"] = 3
        one = nic.vf(1)
        one["VTEIMS"] = 3
        one["VFRDLEN[1]"] = 128
        self.assertEqual((one["VTEIMS"], nic["PVTEIMS[1]"], nic["RDLEN[3]"], one.peek("VFRDLEN[1]")), (3, 3, 128, 128))
        self.assertEqual(nic.vf(0)["VTEIMS"], 0)
        for name in ("VFRDT[8]", "VTEIMS[1]", "RDT"):
            with self.subTest(name), self.assertRaises(nic82599.NoSuchRegister):
                one[name]
        with self.assertRaises(nic82599.Stray):
            one["VFRDT[3]"]
        nic["GCR_EXT"] = 1
        one["VFRDT[7]"] = 9
        self.assertEqual((one["VFRDT[7]"], nic["RDT[15]"]), (9, 9))


class Index:
    """A number with only `__index__`."""

    def __init__(self, number: int | None) -> None:
        self.number = number

    def __index__(self) -> int:
        return self.number  # type: ignore[return-value]


class MemoryOfPackets(unittest.TestCase):
    def test_ranges(self) -> None:
        with Nic(blocks=3) as nic:
            with self.assertRaises(nic82599.NotLent):
                nic.memory[0]
            nic.lend(0, 1)
            data = bytes(range(256)) * 10
            nic.memory[1000:3560] = data
            self.assertEqual(nic.memory[1000:3560], data)
            self.assertEqual((nic.memory[1001], nic.memory[0:0]), (1, b""))
            nic.memory[1001] = 77
            self.assertEqual(nic.memory.read(1000, 3), bytes([0, 77, 2]))
            with self.assertRaises(nic82599.NotLent):
                nic.memory[4090:4100] = bytes(10)
            self.assertEqual(nic.memory[4090:4096], bytes(6))
            for part in (slice(None, 4), slice(4, None), slice(0, 4, 2), slice(4, 0)):
                with self.assertRaises(ValueError):
                    nic.memory[part]
            with self.assertRaises(ValueError):
                nic.memory[0:4] = bytes(5)
            with self.assertRaises(ValueError):
                nic.memory[-1]

    def test_in_place(self) -> None:
        """The device works in a bytearray, an mmap or an array without copies."""
        given: list[bytearray | mmap.mmap | array.array[int]] = [
            bytearray(4096), mmap.mmap(-1, 4096), array.array("Q", bytes(4096))
        ]  # fmt: skip
        with Nic(blocks=8) as nic:
            for first, buffer in enumerate(given):
                bus, view = 4096 * first + 2048, memoryview(buffer).cast("B")
                nic.memory.lend(bus, buffer)
                view[1:4] = b"own"
                self.assertEqual(nic.memory[bus : bus + 5], b"\0own\0")
                nic.memory[bus + 2046 : bus + 2050] = b"card"
                self.assertEqual(bytes(view[2046:2050]), b"card")
                view.release()
            self.assertRaises(BufferError, given[0].extend, b"more")
            self.assertRaises(BufferError, given[1].close)
            nic.memory.unlend(2048 + 4096, 4096)
            given[1].close()
            nic.memory.unlend(2048, 2048)
            self.assertRaises(BufferError, given[0].extend, b"more")
            nic.take(2)
            given[0].extend(b"more")
            self.assertEqual(given[0][2046:2050], b"card")
        self.assertEqual(given[2].tobytes()[2046:2050], b"card")
        given[2].append(7)

    def test_in_place_refused(self) -> None:
        with Nic(blocks=8) as nic:
            memory, own = nic.memory, bytearray(4096)
            for bus, buffer in ((1, own), (0, bytearray(2047)), (1 << 63, memoryview(own)[1:])):
                with self.assertRaises(nic82599.BadMemory):
                    memory.lend(bus, buffer)
            for bus in (7 * 2048, 1 << 60):
                with self.assertRaises(nic82599.NoBlock):
                    memory.lend(bus, own)
            for buffer in (bytes(2048), memoryview(bytes(2048)), memoryview(own)[::2], 2048):
                with self.assertRaises(TypeError):
                    memory.lend(0, buffer)
            memory.lend(0, own)
            with self.assertRaises(nic82599.BadMemory):
                memory.lend(4096, own)
            for bus, length, refusal in ((4096, 2048, nic82599.NotLent), (0, 1, nic82599.BadMemory)):
                with self.assertRaises(refusal):
                    memory.unlend(bus, length)
            for bus, length in ((-2048, 2048), (0, -2048), (1 << 64, 2048)):
                with self.assertRaises(ValueError):
                    memory.unlend(bus, length)
            self.assertEqual(memory[4095], 0)
        own.extend(b"no longer lent")
        with self.assertRaises(nic82599.Closed):
            memory.lend(0, bytearray(2048))

    def test_numbers_by_index(self) -> None:
        """An object with `__index__`, such as an address wrapper, acts like the number."""
        with Nic(Index(1), Index(8), Index(4)) as nic:
            own = bytearray(2048)
            nic.memory.lend(Index(2048), own)
            self.assertRaises(BufferError, own.clear)
            nic.memory.write(Index(2048), b"own")
            self.assertEqual(nic.memory.read(Index(2048), Index(3)), b"own")
            self.assertEqual(nic.memory[Index(2048) : Index(2050)], b"ow")
            nic.memory.unlend(Index(2048), Index(2048))
            own.clear()
            nic.lend(Index(3))
            nic.take(Index(3))
            self.assertEqual((nic.settle(Index(2)), list(nic.steps(Index(2))), nic.tx_step(Index(1))), ([], [], None))
            self.assertEqual((nic.blocks, repr(nic)), (4, "<Nic of 1 virtual functions and 4 blocks>"))

    def test_an_index_that_raises(self) -> None:
        """If `__index__` raises or is missing, nothing is lent."""
        with Nic(blocks=4) as nic:
            own = bytearray(2048)
            for bus in (Index(None), "0", 1.0):
                with self.assertRaises(TypeError):
                    nic.memory.lend(bus, own)
            own.clear()
            self.assertNotIn(0, nic.memory)

    def test_memory_that_moves(self) -> None:
        """Memory that ctypes.resize can move isn't lent; other memory is."""
        given = (ctypes.c_ubyte * 4096)()
        with Nic(blocks=4) as nic:
            parts = (ctypes.c_ubyte * 2048 * 2)()
            for buffer in (given, memoryview(given), memoryview(given)[2048:], parts[1]):
                with self.assertRaisesRegex(TypeError, "ctypes.resize can move the memory of c_ubyte_Array_"):
                    nic.memory.lend(0, buffer)
            self.assertNotIn(0, nic.memory)
            fixed = (ctypes.c_ubyte * 4096).from_buffer(bytearray(4096))
            nic.memory.lend(0, fixed)
            self.assertRaises(ValueError, ctypes.resize, fixed, 8192)
            nic.memory[0:3] = b"own"
            self.assertEqual(bytes(fixed[:3]), b"own")

    def test_memory_that_hides_that_it_moves(self) -> None:
        """A ctypes class may hide its attributes, and a `__buffer__` in Python may return anything."""

        class Denies(ctypes.c_ubyte * 2048):  # type: ignore[misc]
            _b_needsfree_ = 0

        class Gives:
            def __init__(self, *given: object) -> None:
                self.given = list(given)

            def __buffer__(self, _flags: int) -> memoryview:
                return memoryview(self.given.pop(0) if len(self.given) > 1 else self.given[0])  # type: ignore[arg-type]

        movable = (ctypes.c_ubyte * 2048)()
        with Nic(blocks=4) as nic:
            for buffer in (Denies(), Gives(movable), Gives(bytearray(2048), movable)):
                with self.subTest(type(buffer).__name__), self.assertRaises(TypeError):
                    nic.memory.lend(0, buffer)
            self.assertNotIn(0, nic.memory)

    def test_kept_by_the_controller(self) -> None:
        """A lent buffer is kept, whichever `Memory` object lent it and whatever happens to that object."""

        def again(nic: Nic, own: bytearray) -> None:
            memory = nic.memory
            nic.__init__(blocks=4)  # type: ignore[misc]
            memory.lend(0, own)

        def deleted(nic: Nic, own: bytearray) -> None:
            nic.memory.lend(0, own)
            del nic.memory

        for lend in (lambda nic, own: Memory(nic).lend(0, own), again, deleted):
            own, nic = bytearray(4096), Nic(blocks=4)
            lend(nic, own)
            gc.collect()
            self.assertRaises(BufferError, own.clear)
            nic.close()
            own.clear()

    def test_made_again(self) -> None:
        """A second `__init__` frees the former controller and releases its buffers."""
        own = bytearray(2048)
        nic = Nic(blocks=4)
        nic.memory.lend(0, own)
        kept, former = nic.snapshot(), nic._handle
        nic.__init__(blocks=2)  # type: ignore[misc]
        own.clear()
        self.assertEqual((former.device, nic.blocks, 0 in nic.memory), (None, 2, False))
        self.assertRaises(nic82599.LibraryMissing, nic.__init__, library="/nowhere")  # type: ignore[misc]
        self.assertRaises(nic82599.Closed, nic.settle)
        nic.__init__(blocks=2)  # type: ignore[misc]
        former = kept._kept
        kept.__init__(nic)  # type: ignore[misc]
        self.assertIsNone(former.kept)
        kept.drop()
        nic.close()

    def test_long_reads(self) -> None:
        """A read of more than a controller's memory is refused before the buffer is allocated."""
        with Nic(blocks=2) as nic, Nic(blocks=4) as larger:
            nic.lend()
            larger.lend()
            tracemalloc.start()
            try:
                for call in (
                    lambda: nic.memory.read(0, 2**32 - 1), lambda: nic.memory[0 : 2**31],
                    lambda: nic.memory.read(1, 4096), lambda: nic.memory.read(1 << 63, 1 << 30),
                ):  # fmt: skip
                    self.assertRaises(nic82599.NotLent, call)
                self.assertLess(tracemalloc.get_traced_memory()[1], 1 << 20)
            finally:
                tracemalloc.stop()
            self.assertEqual(nic.memory.read(1, 4095), bytes(4095))
            with larger.snapshot() as kept:
                nic.restore(kept)
            self.assertEqual(nic.memory.read(0, 8192), bytes(8192))
        for length in (1, 2**32 - 1):
            with self.assertRaises(nic82599.Closed):
                nic.memory.read(0, length)

    def test_in_place_and_snapshots(self) -> None:
        own = bytearray(b"1" * 2048)
        with Nic(blocks=2) as nic:
            nic.memory.lend(2048, own)
            with nic.snapshot() as kept:
                own[:] = b"2" * 2048
                nic.restore(kept)
                self.assertEqual(own, b"1" * 2048)
            own[7] = 0
            self.assertEqual(nic.memory[2048 + 6 : 2048 + 9], b"1\x001")

    def test_in_place_by_numpy(self) -> None:
        try:
            import numpy as np
        except ImportError:
            self.skipTest("numpy isn't installed")
        with Nic(blocks=2) as nic:
            ring = np.zeros((128, 2), "<u8")
            nic.memory.lend(0, ring)
            ring[1] = (0x0123456789ABCDEF, 3)
            self.assertEqual(nic.memory[16:32], ring[1].tobytes())
            ring.flags.writeable = False
            with self.assertRaises(TypeError):
                nic.memory.lend(2048, ring)

    def test_lengths_are_bytes(self) -> None:
        """Item sizes don't matter: 16 bytes are 16 bytes. A single number isn't bytes."""
        with Nic(blocks=1) as nic:
            nic.lend()
            two = array.array("Q", [1, 2])
            nic.memory[0:16] = two
            self.assertEqual(nic.memory[0:16], two.tobytes())
            with self.assertRaisesRegex(ValueError, "^16 bytes don't fit a range of 2 bytes$"):
                nic.memory[0:2] = two
            nic.memory.write(32, two)
            self.assertEqual(nic.memory[32:48], two.tobytes())
            nic.memory[64:68] = memoryview(b"0a1b2c3d")[::2]
            self.assertEqual(nic.memory[64:68], b"0123")
            nic.memory[64:66] = [7, 8]
            self.assertEqual(nic.memory[64:66], b"\7\10")
            for call in (
                lambda: nic.memory.write(0, 5), lambda: nic.memory.__setitem__(slice(0, 5), 5), lambda: nic.arrive(60),
                lambda: nic.install_image(128), lambda: nic82599.rss_hash(KEY, 8), lambda: nic.memory.write(0, "text"),
            ):  # fmt: skip
                with self.assertRaises(TypeError):
                    call()
            self.assertEqual(nic.memory[0:16], two.tobytes())
            nic["RXCTRL"] = 1
            self.assertEqual(nic.arrive(array.array("Q", bytes(56))), Dropped("short"))
            self.assertEqual(nic.arrive(array.array("Q", bytes(64))), Dropped("filter"))
            self.assertEqual(nic82599.rss_hash(array.array("Q", KEY), FRAME[26:38]), 0x51CCC178)
            with self.assertRaises(nic82599.TooLong):
                nic82599.rss_hash(KEY, array.array("Q", bytes(40)))
            self.assertFalse(nic82599.descriptors.received(two).done)
            with self.assertRaisesRegex(ValueError, "not 128"):
                nic82599.descriptors.received(array.array("Q", bytes(128)))
            self.assertEqual(nic82599.descriptors.head(array.array("I", [3])), 3)

    def test_lengths_that_lie(self) -> None:
        """The actual number of bytes counts, not the claimed length."""

        class Long(bytes):
            def __len__(self) -> int:
                return 1500

        class Packet:
            def __bytes__(self) -> bytes:
                return Long(b"abc")

        class Text(str):
            def encode(self, *_how: str) -> bytes:
                return Long(b"size 128")

        with Nic(blocks=1) as nic:
            nic.lend()
            nic.memory[0:2048] = b"\1" * 2048
            for given in (Packet(), Long(b"abc")):
                nic.memory.write(0, given)
                self.assertEqual(nic.memory[0:2048], b"abc" + b"\1" * 2045)
                with self.assertRaisesRegex(ValueError, "a key is 40 bytes long, not 3"):
                    nic82599.rss_hash(given, b"")
            nic.install_text(Text("size 128\n"))
            for call in (nic.install_text, nic.note):
                with self.assertRaises(TypeError):
                    call(b"size 128\n")  # type: ignore[arg-type]

    def test_lent_or_not(self) -> None:
        with Nic(blocks=2) as nic:
            nic.lend(1)
            self.assertEqual([at in nic.memory for at in (0, 2047, 2048, 4095, 4096, -1, 1 << 64)], [
                False, False, True, True, False, False, False,
            ])  # fmt: skip
            with self.assertRaises(TypeError):
                list(nic.memory)

    def test_types_of_items(self) -> None:
        """An index is a number and a range is bytes, for a type checker too."""
        given = [typing.get_type_hints(it)["return"] for it in typing.get_overloads(Memory.__getitem__)]
        self.assertEqual(given, [int, bytes])
        self.assertEqual(len(typing.get_overloads(Memory.__setitem__)), 2)

    def test_blocks(self) -> None:
        with Nic(blocks=3) as nic:
            nic.lend(1)
            with self.assertRaises(nic82599.NoBlock):
                nic.lend(1)
            with self.assertRaises(nic82599.NoBlock):
                nic.lend(3)
            nic.memory[2048:2050] = b"ab"
            nic.take(1)
            with self.assertRaises(nic82599.NotLent):
                nic.take(1)
            nic.lend()
            self.assertEqual(nic.memory[2048:2050], bytes(2))
            nic.lend()


class Steps(unittest.TestCase):
    def setUp(self) -> None:
        self.nic = nic = Nic(fifo=2, blocks=4)
        nic.lend()
        nic["RXCTRL"], nic["DMATXCTL"], nic["FCTRL"] = 1, 1, 0x200
        nic["RDLEN[0]"], nic["SRRCTL[0]"], nic["RXDCTL[0]"] = 128, TYPE, ENABLE
        nic["TDBAL[0]"], nic["TDLEN[0]"], nic["TXDCTL[0]"] = 0x1000, 128, ENABLE
        nic["IVAR[0]"], nic["EIMS"] = 0x8085, 0x20

    def tearDown(self) -> None:
        self.nic.close()

    def test_receives(self) -> None:
        nic = self.nic
        self.assertTrue(nic.queue_step("rx", 0))
        self.assertFalse(nic.queue_step("rx", 0))
        nic.memory[0:8], nic["RDT[0]"] = half(0x800), 1
        self.assertIsNone(nic.arrive(FRAME))
        self.assertEqual(nic.rx_step(), Wrote(0, 0, True, 0, 0x800, 60))
        self.assertEqual(nic.int_step(), Message(None, 5))
        self.assertIsNone(nic.int_step())
        self.assertIsNone(nic.rx_step())
        self.assertEqual(nic.memory[0x800:0x83C], FRAME)

    def test_sends(self) -> None:
        nic = self.nic
        nic.memory[0x1800:0x1820] = FRAME[:32]
        nic.memory[0x1000:0x1010] = half(0x1800) + half(0x2230_0010)
        nic.memory[0x1010:0x1020] = half(0x1810) + half(0x0008_0000_2B30_0010)
        nic["TDT[0]"] = 2
        events = [it for it in nic.settle(1) if not isinstance(it, (nic82599.Done, Message))]
        self.assertEqual(events, [Advanced(0, 0, None), Sent(0, 60, 0x1010)])
        self.assertEqual(nic.next_out(), 60)
        self.assertEqual(nic.collect(), Frame(0, FRAME[:32] + bytes(28)))
        self.assertIsNone(nic.collect())

    def test_refuses(self) -> None:
        nic = self.nic
        for call in (lambda: nic.tx_step(128), lambda: nic.queue_step("tx", 65_535), lambda: nic.settle(129)):
            with self.assertRaises(nic82599.NoQueue):
                call()
        for function in (0, 63, 255):
            with self.assertRaises(nic82599.NoGroup):
                nic.int_step(function)
        for call in (lambda: nic.tx_step(-1), lambda: nic.tx_step(65_536), lambda: nic.queue_step("up", 0)):
            with self.assertRaises(ValueError):
                call()

    def test_drops_and_faults(self) -> None:
        nic = self.nic
        self.assertEqual(nic.arrive(FRAME[:59]), Dropped("short"))
        self.assertEqual(nic.arrive(bytes(60_000)), Dropped("long"))
        self.assertEqual(nic.arrive(b""), Dropped("short"))
        self.assertEqual(nic.arrive(b"\xff" * 60), Dropped("filter"))
        self.assertTrue(nic.link(False))
        self.assertFalse(nic.link(False))
        self.assertEqual(nic.arrive(FRAME), Dropped("link down"))
        nic.link(True)
        self.assertEqual([nic.arrive(FRAME) for _ in range(3)], [None, None, Dropped("full")])
        self.assertEqual(nic.rx_step(), Dropped("queue off"))
        nic.queue_step("rx", 0)
        nic.memory[0:8], nic["RDT[0]"] = half(0x9000), 1
        self.assertEqual(nic.rx_step(), Fault("rx", 0, "not lent", 0x9000))
        nic["TDT[0]"] = 100
        nic.queue_step("tx", 0)
        self.assertEqual(nic.tx_step(0), Fault("tx", 0, "outside", None))

    def test_a_long_settle(self) -> None:
        nic = self.nic
        nic["TDLEN[0]"] = 4096
        nic.take(2, 3)
        nic.lend(2, 3)
        nic.memory[0x1000:0x1FF0] = (half(0x0800) + half(0x0008_0000_2B30_0020)) * 255
        nic["TDT[0]"] = 255
        nic["EICR"] = 0xFFFF_FFFF
        events = nic.settle(1)
        self.assertEqual(sum(isinstance(it, Sent) for it in events), 255)
        self.assertEqual(events[0], nic82599.Done("qstep rx", 0))
        self.assertGreater(len(events), 256)
        self.assertEqual(sum(nic.collect() is not None for _ in range(300)), 255)


TABLE = """<table>
<caption>rx 0 on  base 0x0  8 slots  head 1  tail 2</caption>
<tr><th>slot</th><th></th><th>address</th><th></th><th>descriptor</th></tr>
"""
ROW = "<tr><td>{}</td><td>{}</td><td>0x{:x}</td><td>{}</td><td>{}</td></tr>"


class Rings(unittest.TestCase):
    def setUp(self) -> None:
        self.nic = nic = Nic(blocks=4)
        nic.lend(0, 1)
        for name, word in (("RXCTRL", 1), ("FCTRL", 0x200), ("RDLEN[0]", 128), ("SRRCTL[0]", TYPE)):
            nic[name] = word
        nic["RXDCTL[0]"] = ENABLE
        nic.settle()
        nic.memory[0:8], nic.memory[16:24], nic["RDT[0]"] = half(0x800), half(0xC00), 2
        nic.arrive(FRAME)
        nic.settle()

    def tearDown(self) -> None:
        self.nic.close()

    def test_slots(self) -> None:
        ring = self.nic.ring("rx", 0)
        self.assertEqual(repr(ring), "<ring rx 0, on: 8 slots, head 1, tail 2>")
        self.assertEqual([it.owner for it in ring.slots], ["driver", "device"] + ["driver"] * 6)
        self.assertEqual([(it.number, it.at, it.done) for it in ring.slots][:2], [(0, 0, True), (1, 16, False)])
        self.assertEqual((ring.slots[0].fields["PKT_LEN"], ring.slots[1].fields), ("60", {"buffer": "0xc00"}))
        lines = str(ring).splitlines()
        self.assertEqual(lines[:3], ["rx 0 on  base 0x0  8 slots  head 1  tail 2", "   HT", "  +D......"])
        self.assertRegex(lines[3], "^     0 written back: DD 1, EOP 1, PKT_LEN 60, ")
        self.assertEqual(lines[4:], ["     1 read format: buffer 0xc00"])

    def test_table(self) -> None:
        ring = self.nic.ring("rx", 0)
        shown = ring._repr_html_()
        self.assertEqual(shown[: len(TABLE)], TABLE)
        rows = shown.splitlines()[3:-1]
        self.assertEqual(rows[1], ROW.format(1, "head", 16, "device", "read format: buffer 0xc00"))
        self.assertEqual(rows[2:], [ROW.format(k, "tail" * (k == 2), 16 * k, "driver", "") for k in range(2, 8)])

    def test_a_long_one(self) -> None:
        nic = self.nic
        nic["RXDCTL[0]"] = 0
        nic.settle()
        nic["RDLEN[0]"] = 0xFFF80
        ring = nic.ring("rx", 0)
        self.assertEqual((len(ring.slots), ring.slots[256].data), (65_528, None))
        shown = ring._repr_html_()
        self.assertEqual(shown.count("<tr>"), 65)
        self.assertIn("(65464 more slots not shown)", shown)
        self.assertIn(ROW.format(1, "head", 16, "device", "read format: buffer 0xc00"), shown)
        self.assertIn(ROW.format(65_527, "", 16 * 65_527, "driver", ""), shown)
        nic["RDBAL[0]"] = 0x1000
        self.assertIn(ROW.format(1, "head", 0x1010, "device", "not lent"), nic.ring("rx", 0)._repr_html_())

    def test_leaves_all_as_it_is(self) -> None:
        nic = self.nic
        nic["EICS"] = 5
        before = [nic.peek(name) for name in nic82599.REGISTERS]
        for side in ("rx", "tx"):
            for queue in (0, 127):
                str(nic.ring(side, queue)), nic.ring(side, queue)._repr_html_()
        self.assertEqual([nic.peek(name) for name in nic82599.REGISTERS], before)

    def test_written_head(self) -> None:
        nic = self.nic
        nic["TDLEN[0]"], nic["TDWBAL[0]"] = 128, 0x901
        nic.memory[0x900:0x904] = (3).to_bytes(4, "little")
        self.assertIn("head written back to 0x900: 3", str(nic.ring("tx", 0)))
        nic["TDWBAL[0]"] = 0x1001
        self.assertIn("head written back to 0x1000: not lent", str(nic.ring("tx", 0)))

    def test_refuses(self) -> None:
        nic = self.nic
        for queue in (128, 65_535):
            with self.assertRaises(nic82599.NoQueue):
                nic.ring("rx", queue)
        for side, queue in (("up", 0), ("rx", -1), ("tx", 65_536)):
            with self.assertRaises(ValueError):
                nic.ring(side, queue)


class Rest(unittest.TestCase):
    def test_addresses_of_offsets(self) -> None:
        for word, function, offset, address in (
            (3, 3, "VFRDT[1]", 0x011D8),
            (2, 3, "VFRDT[1]", 0x01358),
            (3, 32, "VFRDT[0]", 0x0D018),
            (1, 15, 0x11D8, 0x0DFD8),
            (1, 0, 0x012C, 0x1250C),
            (2**32 - 1, 62, "VFMAILBOX", 0x04CF8),
        ):
            self.assertEqual(nic82599.vf_address(word, function, offset), address)
        for word, function, offset in ((1, 15, 0x1200), (3, 0, "VFRDT[2]"), (3, 0, 0x0820), (3, 0, 2**32 - 1)):
            with self.assertRaises(nic82599.Stray) as stray:
                nic82599.vf_address(word, function, offset)
            self.assertIsNone(stray.exception.word)
        for word, function in ((0, 0), (1, 16), (2, 32), (3, 63), (3, 255)):
            with self.assertRaises(nic82599.NoGroup):
                nic82599.vf_address(word, function, "VTEIMS")
        for word, function, offset in ((2**32, 0, 0), (-1, 0, 0), (3, 256, 0), (3, 0, 2**32)):
            with self.assertRaises(ValueError):
                nic82599.vf_address(word, function, offset)

    def test_hash(self) -> None:
        self.assertEqual(nic82599.rss_hash(KEY, FRAME[26:38]), 0x51CCC178)
        self.assertEqual(nic82599.rss_hash(KEY, b""), 0)
        with self.assertRaises(nic82599.TooLong):
            nic82599.rss_hash(KEY, bytes(37))
        with self.assertRaises(ValueError):
            nic82599.rss_hash(KEY[1:], b"")

    def test_images(self) -> None:
        with Nic() as nic:
            nic.install_text("size 64\nword 0 0x1234\n")
            nic["EERD"] = 1
            self.assertTrue(nic.eeprom_step())
            self.assertFalse(nic.eeprom_step())
            self.assertEqual(nic["EERD"] >> 16, 0x1234)
            with self.assertRaises(nic82599.TextRefused) as caught:
                nic.install_text("size 64\n\nwurd 0 1\n")
            self.assertEqual((caught.exception.why, caught.exception.at), ("Syntax", 3))
            with self.assertRaisesRegex(nic82599.ImageRefused, "OddLength"):
                nic.install_image(b"x")
            with self.assertRaisesRegex(nic82599.ImageRefused, "BadSize"):
                nic.install_image(b"")

    def test_captures(self) -> None:
        frames = [FRAME, FRAME + b"xyz", bytes(1514)]
        with tempfile.TemporaryDirectory() as folder:
            path = Path(folder) / "frames.pcap"
            self.assertEqual(nic82599.write_pcap(path, frames), 3)
            self.assertEqual(nic82599.read_pcap(path), frames)
            path.write_bytes(path.read_bytes()[:-1])
            with self.assertRaises(nic82599.NoCapture):
                nic82599.read_pcap(path)
