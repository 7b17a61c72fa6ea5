"""Tests of nic82599.descriptors: what the device writes back, and which arguments are refused."""

from __future__ import annotations

import re
import unittest
from pathlib import Path

from nic82599 import Nic, descriptors, rss_hash
from nic82599.descriptor_fields import RX_READ, RX_WRITTEN, TX_DATA, TX_WRITTEN, RssType

ROOT = Path(__file__).resolve().parents[2]
FRAME = bytes.fromhex(
    "020000000001020000000002080045000028000000004006000042099"
    "5bba18e64500aea06e600000000000000005010000000000000"
).ljust(60, b"\0")  # fmt: skip
KEY = bytes(range(1, 41))


def receiving() -> Nic:
    """Returns a controller with receive queue 0 enabled, a ring at 0, and RSS of TCP over IPv4 to that queue."""
    nic = Nic(blocks=2)
    nic.lend()
    for name, word in {"RXCTRL": 1, "FCTRL": 0x200, "RXCSUM": 1 << 13, "MRQC": 0x10001, "RDLEN[0]": 128}.items():
        nic[name] = word
    for k in range(10):
        nic[f"RSSRK[{k}]"] = int.from_bytes(KEY[4 * k : 4 * k + 4], "little")
    nic["SRRCTL[0]"], nic["RXDCTL[0]"] = 0x0200_0001, 1 << 25
    nic.settle()
    return nic


class Device(unittest.TestCase):
    def test_receives(self) -> None:
        with receiving() as nic:
            nic.memory[0x00:0x10] = descriptors.rx_descriptor(0x800)
            nic["RDT[0]"] = 1
            nic.arrive(FRAME)
            nic.settle()
            got = descriptors.received(nic.memory[0x00:0x10])
            want = (True, True, 60, RssType.TCP_IPV4, rss_hash(KEY, FRAME[26:38]), True, False, True, False)
            self.assertEqual(tuple(got), want)

    def test_receives_in_two_buffers(self) -> None:
        with receiving() as nic:
            nic.memory[0x00:0x20] = descriptors.rx_descriptor(0x800) + descriptors.rx_descriptor(0xC00)
            nic["RDT[0]"] = 2
            nic.arrive(FRAME.ljust(1500, b"\0"))
            nic.settle()
            both = [descriptors.received(nic.memory[at : at + 16]) for at in (0x00, 0x10)]
            self.assertEqual([(it.done, it.end, it.length) for it in both], [(True, False, 1024), (True, True, 476)])

    def test_sends(self) -> None:
        with Nic(blocks=2) as nic:
            nic.lend()
            nic["DMATXCTL"], nic["TDLEN[1]"], nic["TXDCTL[1]"] = 1, 128, 1 << 25
            first = descriptors.tx_descriptor(0x800, 40, frame=100, end=False, report=False)
            nic.memory[0x00:0x20] = first + descriptors.tx_descriptor(0xC00, 60, frame=100)
            nic["TDT[1]"] = 2
            nic.settle()
            self.assertEqual(len(nic.collect().data), 100)
            self.assertFalse(descriptors.is_sent(nic.memory[0x00:0x10]))
            self.assertTrue(descriptors.is_sent(nic.memory[0x10:0x20]))
            nic["TDWBAL[1]"] = 0x401
            nic.memory[0x20:0x30] = descriptors.tx_descriptor(0x800, 60)
            nic["TDT[1]"] = 3
            nic.settle()
            self.assertEqual(descriptors.head(nic.memory[0x400:0x404]), 3)
            self.assertFalse(descriptors.is_sent(nic.memory[0x20:0x30]))


class Words(unittest.TestCase):
    def test_the_header_has_the_same_fields(self) -> None:
        text = (ROOT / "c/include/nic82599_desc.h").read_text()
        forms = {"RXD": RX_READ, "RXWB": RX_WRITTEN, "TXD": TX_DATA, "TXWB": TX_WRITTEN}
        found = {name: int(mask, 16) for name, mask in re.findall(r"#define NIC_(\w+) UINT64_C\((0x\w+)\)", text)}
        want = {
            f"{prefix}_{name}": ((1 << (high - low + 1)) - 1) << low
            for prefix, fields in forms.items()
            for name, (_, high, low) in fields.items()
        }
        self.assertEqual(found, want)

    def test_refusals(self) -> None:
        for call in (
            lambda: descriptors.rx_descriptor(0x801),
            lambda: descriptors.rx_descriptor(1 << 64),
            lambda: descriptors.tx_descriptor(0, 1 << 16),
            lambda: descriptors.tx_descriptor(0, 60, frame=1 << 18),
            lambda: descriptors.tx_descriptor(-1, 60),
            lambda: descriptors.received(bytes(15)),
            lambda: descriptors.is_sent(b""),
            lambda: descriptors.head(bytes(16)),
        ):
            with self.assertRaises(ValueError):
                call()

    def test_a_type_that_is_none(self) -> None:
        self.assertEqual(descriptors.received(b"\x04" + bytes(15)).rss_type, 4)
