"""Tests of what NIC82599_TELL=1 makes a Python program report on standard error as it happens: stray accesses, drops
and faults, even if the program itself prints nothing about them. Without the variable nothing is reported."""

from __future__ import annotations

import os
import subprocess
import sys
import unittest
from pathlib import Path

PACKAGE = Path(__file__).resolve().parents[1]
# An access to a register that only the card has, two frames to another address, and a tail outside the ring.
PROGRAM = """
from nic82599 import Nic
with Nic(blocks=1) as nic:
    nic.read32(0x10148)
    nic["RXCTRL"] = 1
    for _ in range(2):
        nic.arrive(bytes([2, 0, 0, 0, 0, 9]) + bytes(54))
    print("the driver goes on", flush=True)
    nic["FCTRL"] = 0x200
    nic["RDLEN[0]"], nic["SRRCTL[0]"], nic["RXDCTL[0]"] = 128, 0x02000002, 0x02000000
    nic.settle(1)
    nic["RDT[0]"] = 9
    nic.arrive(bytes(60))
    nic.settle(1)
"""
PRINTED = """\
nic82599: stray: r 0x10148: this is FWSM, which the bench doesn't model: don't wait: \
a reset is done when the write returns
nic82599: 1 frame was dropped: FCTRL.UPE was 0, no RAL and RAH with AV 1 matched; the last one was addressed to \
02:00:00:00:00:09
the driver goes on
nic82599: rx: fault queue 0 outside: RDT[0] 9 of 8 slots (RDLEN[0] / 16)
nic82599: frames dropped (filter): 2 in all
"""
SILENT = "the driver goes on\n"


def output_of(program: str, given: str | None) -> str:
    """Returns a program's standard error and output combined, with this value of NIC82599_TELL, or without it for
    None."""
    how = {name: value for name, value in os.environ.items() if name != "NIC82599_TELL"}
    how |= {"PYTHONPATH": str(PACKAGE), "PYTHONDONTWRITEBYTECODE": "1"}
    how |= {} if given is None else {"NIC82599_TELL": given}
    words = [sys.executable, "-c", program]
    made = subprocess.run(words, env=how, stdout=subprocess.PIPE, stderr=subprocess.STDOUT, text=True, check=True)
    return made.stdout


class Telling(unittest.TestCase):
    def test_as_it_happens(self) -> None:
        self.assertEqual(output_of(PROGRAM, "1"), PRINTED)

    def test_not_asked_for(self) -> None:
        for given in (None, "", "0"):
            with self.subTest(given=given):
                self.assertEqual(output_of(PROGRAM, given), SILENT)

    def test_not_closed(self) -> None:
        """A program that doesn't close its controllers reports its counts when it ends."""
        program = PROGRAM.replace("with Nic(blocks=1) as nic:", "nic = Nic(blocks=1)\nif True:")
        self.assertEqual(output_of(program, "1"), PRINTED)
