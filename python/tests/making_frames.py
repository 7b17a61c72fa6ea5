"""Tests of nicframe and nic82599.frames: lengths and checksums, and that the hash and the queue match what the device
computes."""

from __future__ import annotations

import random
import subprocess
import sys
import tempfile
import unittest
from pathlib import Path

from nic82599 import Nic, descriptors, frames, read_pcap, rss_hash
from nic82599.descriptor_fields import RssType
from nic82599.explore import Flow

ROOT = Path(__file__).resolve().parents[2]
SIX = ("2001:db8::1", "2001:db8::2")
FOUR = ("10.0.0.1", "10.0.0.2")


def said(*words: str) -> tuple[int, str, str]:
    """Runs nicframe and returns its status and output."""
    made = subprocess.run(
        [sys.executable, ROOT / "tools/nicframe", *words], capture_output=True, text=True, check=False
    )
    return made.returncode, made.stdout, made.stderr


def sums(frame: bytes) -> list[int]:
    """Returns the checksum totals of a packet without options; each is 0 if it is correct."""
    four = frame[12:14] == b"\x08\x00"
    length = int.from_bytes(frame[16:18], "big") - 20 if four else int.from_bytes(frame[18:20], "big")
    at, ends, protocol = (34, frame[26:34], frame[23]) if four else (54, frame[22:54], frame[20])
    data = ends + length.to_bytes(4, "big") + protocol.to_bytes(4, "big") + frame[at : at + length]
    found = [frames.checksum(frame[14:34])] if four else []
    return found + ([frames.checksum(data)] if protocol in (frames.TCP, frames.UDP) else [])


class Made(unittest.TestCase):
    def test_sums(self) -> None:
        for kind in frames.KINDS:
            for ends in (FOUR, SIX):
                for payload in (None, b"", b"a", b"ab", bytes(700)):
                    frame = frames.made(kind, *ends, 1000, 80, payload=payload)
                    self.assertLessEqual(set(sums(frame)), {0}, (kind, ends, payload))
                    self.assertGreaterEqual(len(frame), 60)

    def test_udp_has_no_sum_of_0(self) -> None:
        """A UDP checksum of 0 is sent as 0xffff, because 0 means that there is none."""
        port = int.from_bytes(frames.made("udp", *FOUR, 0, 80)[40:42], "big")
        self.assertEqual(frames.made("udp", *FOUR, port, 80)[40:42], b"\xff\xff")

    def test_as_the_explorers(self) -> None:
        """Addresses given as text and as numbers yield the same flow, and its IP header matches the one that
        nic82599.frames builds."""
        flow = Flow("10.0.0.1", "10.0.0.2", 1000, 80)
        self.assertEqual(flow, Flow(0x0A000001, 0x0A000002, 1000, 80))
        self.assertEqual(frames.made("tcp", *FOUR, 1000, 80, length=60)[:34], flow.frame(60, 0)[:34])
        self.assertRaises(ValueError, Flow, "10.0.0", 1)

    def test_not_hashed(self) -> None:
        """A flow that isn't hashed goes to queue 0, whatever the table's first entry is."""
        with Nic(blocks=1) as nic:
            nic["MRQC"], nic["RETA[0]"] = 1, 3
            self.assertEqual(Flow(*FOUR).rss(nic), (0, 0))

    def test_lengths(self) -> None:
        self.assertEqual([len(frames.made("tcp", *FOUR, length=it)) for it in (60, 1514, 9014)], [60, 1514, 9014])
        self.assertEqual(len(frames.made("tcp", *SIX, tags=(5, 6))), 82)
        for bad in ({"length": 16_385}, {"length": 60, "payload": bytes(21)}, {"payload": bytes(65_536)}):
            self.assertRaises(ValueError, frames.made, "tcp", *FOUR, **bad)
        self.assertRaises(ValueError, frames.made, "tcp", FOUR[0], SIX[1])
        self.assertRaises(ValueError, frames.made, "udp", *FOUR, 65_536)

    def test_arp(self) -> None:
        asks = frames.ethernet(0x0806, frames.arp(*FOUR), to=b"\xff" * 6)
        self.assertEqual(asks[14:42].hex(), "00010800060400010200000000020a0000010000000000000a000002")


class Scaling(unittest.TestCase):
    def device(self, rss: frames.Rss) -> Nic:
        """Returns a controller with this RSS configuration. Its first sixteen queues are enabled, each with a ring and
        a buffer."""
        nic = Nic(blocks=32)
        self.addCleanup(nic.close)
        nic.lend()
        bits = {RssType.TCP_IPV4: 16, RssType.IPV4: 17, RssType.IPV6: 20, RssType.TCP_IPV6: 21, RssType.UDP_IPV4: 22}
        bits[RssType.UDP_IPV6] = 23
        nic["RXCTRL"], nic["FCTRL"], nic["RXCSUM"] = 1, 0x200, 1 << 13
        nic["MRQC"] = 1 | sum(1 << bits[it] for it in rss.types)
        for k in range(10):
            nic[f"RSSRK[{k}]"] = int.from_bytes(rss.key[4 * k : 4 * k + 4], "little")
        for k in range(32):
            entries = (rss.table[(4 * k + at) % len(rss.table)] for at in range(4))
            nic[f"RETA[{k}]"] = sum(queue << 8 * at for at, queue in enumerate(entries))
        for queue in range(16):
            nic[f"RDBAL[{queue}]"], nic[f"RDLEN[{queue}]"] = 2048 * queue, 1024
            nic[f"SRRCTL[{queue}]"], nic[f"RXDCTL[{queue}]"] = 0x0200_0002, 1 << 25
            nic.memory[2048 * queue : 2048 * queue + 1024] = descriptors.rx_descriptor(2048 * (16 + queue)) * 64
        nic.settle(16)
        for queue in range(16):
            nic[f"RDT[{queue}]"] = 63
        return nic

    def test_as_the_device(self) -> None:
        """The type, the hash and the queue match what the device computes, for frames of all kinds, with all hash types
        and with some."""
        by_chance = random.Random(7)
        for types in (frames.ALL_TYPES, frozenset([RssType.IPV4, RssType.TCP_IPV6]), frozenset[RssType]()):
            table = tuple(by_chance.randrange(16) for _ in range(by_chance.choice((1, 4, 128))))
            rss = frames.Rss(by_chance.randbytes(40), table, types)
            nic = self.device(rss)
            for number in range(48):
                kind, ends, tags = frames.KINDS[number % 3], (FOUR, SIX)[number // 3 % 2], (number,) * (number % 8 == 7)
                frame = frames.made(kind, *ends, 1000 + number, by_chance.randrange(65536), tags=tags)
                nic.arrive(frame)
                (wrote,) = [event for event in nic.settle(16) if type(event).__name__ == "Wrote"]
                received = descriptors.received(nic.memory[wrote.descriptor : wrote.descriptor + 16])
                got = (received.rss_type, received.rss_hash, wrote.queue)
                self.assertEqual(got, (rss.type_of(frame), rss.hash_of(frame), rss.queue_of(frame)), frame.hex())

    def test_as_the_library(self) -> None:
        frame = frames.made("udp", *SIX, 53, 53)
        self.assertEqual(frames.Rss().hash_of(frame), rss_hash(frames.KEY, frame[22:58]))

    def test_refused(self) -> None:
        for bad in ({"key": bytes(39)}, {"table": ()}, {"table": (16,)}, {"table": (0,) * 129}):
            self.assertRaises(ValueError, frames.Rss, **bad)


class Command(unittest.TestCase):
    def test_forms(self) -> None:
        """Script lines, hex and a capture contain the same frames."""
        words = ["tcp", "10.0.0.1:1000", "10.0.0.2:80", "--count", "3"]
        want = [frames.made("tcp", *FOUR, 1000 + k, 80) for k in range(3)]
        self.assertEqual(said(*words, "--hex"), (0, "".join(f"{it.hex()}\n" for it in want), ""))
        lines = "".join(f"data it{k} {it.hex()}\n" for k, it in enumerate(want, 1))
        self.assertEqual(said(*words, "--name", "it"), (0, lines, ""))
        with tempfile.TemporaryDirectory() as folder:
            self.assertEqual(said(*words, "--pcap", f"{folder}/it.pcap"), (0, "", ""))
            self.assertEqual(list(read_pcap(f"{folder}/it.pcap")), want)
            status, printed, words_of_it = said(*words, "--pcap", f"{folder}/no/it.pcap")
            self.assertEqual((status, printed), (1, ""))
            self.assertRegex(words_of_it, "^nicframe: .*No such file or directory\n$")

    def test_rss(self) -> None:
        words = ["tcp", "66.9.149.187:2794", "161.142.100.80:1766", "--rss", "--hex", "--table", "0,1,2,3"]
        self.assertIn("# TCP over IPv4, hash 0x51ccc178: entry 120, queue 0\n", said(*words)[1])
        self.assertIn("# not hashed: queue 0\n", said("arp", *FOUR, "--rss")[1])

    def test_refused(self) -> None:
        for words, wanted in {
            ("tcp", *FOUR): "10.0.0.1 isn't ADDRESS:PORT",
            ("udp", "2001:db8::1:53", "[::1]:53"): "isn't ADDRESS:PORT, nor \\[ADDRESS\\]:PORT for IPv6",
            ("tcp", "1.1.1.1:1", "2.2.2.2:70000"): "a port is 0 to 65,535",
            ("ip", "10.0.0.1"): "ip takes two addresses",
            ("ether", "10.0.0.1"): "ether takes no address",
            ("ip", "10.0.0.1", "::1"): "10.0.0.1 is IPv4, but ::1 is IPv6",
            ("ip", *FOUR, "--to", "2:3"): "argument --to: 2:3: 2:3 isn't an Ethernet address",
            ("ip", *FOUR, "--tag", "4096"): "4096 isn't a number from 0 to 4095",
            ("ip", *FOUR, "--key", "00"): "a key is 40 bytes long, not 1",
            ("ip", *FOUR, "--length", "59"): "59 isn't a number from 60 to 16384",
            ("ether", "--type", "0x10000"): "a type is 0 to 0xffff",
            ("ip", *FOUR, "--payload", "0"): "argument --payload",
        }.items():
            with self.subTest(words):
                status, printed, refused = said(*words)
                self.assertEqual((status, printed), (3, ""))
                self.assertRegex(refused, f"^nicframe: .*{wanted}.*; nicframe --help lists the options\n$")
