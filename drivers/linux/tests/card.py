#!/usr/bin/env python3
"""Tests the program `card` without a kernel. The test plays a guest: the vhost-user protocol, and the guest's PCI bus.

    drivers/linux/tests/card.py CARD

CARD is the program. Each test is printed. Status 0: all passed; 1: one failed.
"""

from __future__ import annotations

import array
import atexit
import mmap
import os
import socket
import struct
import subprocess
import sys
import tempfile
import time
from pathlib import Path

MEMORY = 1 << 20
SLOTS = 16
GUEST_STEP = 0x10000  # distance between two functions' ranges of memory
DESCRIPTORS, AVAILABLE, USED, MESSAGES = 0x1000, 0x2000, 0x3000, 0x8000
INTERRUPT = 0xC000
RING_STEP = 0x800  # distance between the addresses of ring 0 and ring 1
VERSION, REPLY, NEEDS_REPLY = 1, 4, 8
NEXT, WRITTEN = 1, 2
CONFIG_READ, CONFIG_WRITE, MEMORY_READ, MEMORY_WRITE = 1, 2, 3, 4
COUNT, FIRST, MOST, MAC, WHAT, RESULT, RESULT_2 = 0xE0, 0xE4, 0xE8, 0xEC, 0xF4, 0xF8, 0xFC
EXPECT, SENT, SEND, ONE, FAULTS, VERDICT = 3, 4, 5, 6, 9, 10
STATUS, EICS, EIMS, RSSRK, SWSM = 0x8, 0x808, 0x880, 0x5C80, 0x10140
RXCTRL, FCTRL, UNICAST_ALL, DMATXCTL, ENABLE = 0x3000, 0x5080, 0x200, 0x4A80, 1 << 25
RDBAL, RDLEN, SRRCTL, RDT, RXDCTL, TDBAL, TDLEN, TDT, TXDCTL = (
    0x1000, 0x1008, 0x1014, 0x1018, 0x1028, 0x6000, 0x6008, 0x6018, 0x6028)
RECEIVE_RING, SEND_RING, BUFFERS, FRAMES, RING_SLOTS = 0x20000, 0x21000, 0x40000, 0x60000, 32
CARD_MAC, PEER_MAC, FRAME_MOST = bytes.fromhex("020000008299"), bytes.fromhex("020000000001"), 1514
MSIX_CONTROL, MSIX_ENABLED, TABLE_BAR = 0x72, 0x8000, 3
CHECKSUM = 0x200  # transmit descriptor, last word: insert TCP's or UDP's checksum


def mixed(seed: int) -> int:
    """Returns the hash in c/bus/frames.c."""
    for _ in range(2):
        seed = (seed ^ seed >> 16) * 0x45D9F3B & 0xFFFFFFFF
    return seed ^ seed >> 16


def frame(number: int, to: bytes, sender: bytes) -> bytes:
    """Returns a frame as c/bus/frames.c builds it, of the kind that isn't IP (number modulo 7 is 6)."""
    assert number % 7 == 6
    length = 60 + number * 433 % (FRAME_MOST - 59)
    return to + sender + b"\x88\xb5" + bytes(mixed(number * 2048 + at) & 0xFF for at in range(14, length))


class Guest:
    """One function's connection. All functions share the memory; each uses its own range, which starts at `base`."""

    def __init__(self, path: str, file: int, base: int) -> None:
        self.socket = socket.socket(socket.AF_UNIX, socket.SOCK_STREAM)
        self.socket.settimeout(10)
        self.socket.connect(path)
        self.calls, far = socket.socketpair()
        self.memory = mmap.mmap(file, MEMORY)
        self.base = base
        self.put = 0
        self.ask(1, b"", is_get=True)
        self.ask(15, b"", is_get=True)
        self.ask(21, b"", [far.fileno()])
        self.ask(5, struct.pack("<IIQQQQ", 1, 0, 0, MEMORY, 0, 0), [file])
        for ring in range(2):
            at = base + ring * RING_STEP
            self.ask(8, struct.pack("<II", ring, SLOTS))
            self.ask(10, struct.pack("<II", ring, 0))
            self.ask(9, struct.pack("<IIQQQQ", ring, 0, DESCRIPTORS + at, USED + at, AVAILABLE + at, 0))
            self.ask(18, struct.pack("<II", ring, 1))

    def ask(self, request: int, body: bytes, files: list[int] | None = None, is_get: bool = False) -> int:
        """Sends a request. Returns the number in its reply."""
        head = struct.pack("<III", request, VERSION | (0 if is_get else NEEDS_REPLY), len(body))
        rights = [(socket.SOL_SOCKET, socket.SCM_RIGHTS, array.array("i", files))] if files else []
        self.socket.sendmsg([head], rights)
        self.socket.sendall(body)
        reply = b""
        while len(reply) < 20:
            part = self.socket.recv(20 - len(reply))
            if not part:
                raise EOFError
            reply += part
        got, flags, _size, number = struct.unpack("<IIIQ", reply)
        assert got == request and flags & REPLY, (request, got, flags)
        return number

    def put_bytes(self, at: int, value: bytes) -> None:
        """Writes bytes into this function's part of the memory."""
        self.memory[self.base + at:self.base + at + len(value)] = value

    def message(self, message: bytes, answer: int, at: int = MESSAGES) -> bytes:
        """Puts one message into ring 0, kicks, and returns the bytes of the reply."""
        to = MESSAGES + 0x2000
        if at == MESSAGES:
            self.put_bytes(at, message)
        self.put_bytes(DESCRIPTORS, struct.pack("<QIHH", self.base + at, len(message), NEXT if answer else 0, 1))
        self.put_bytes(DESCRIPTORS + 16, struct.pack("<QIHH", self.base + to, answer, WRITTEN, 0))
        self.put_bytes(AVAILABLE + 4 + 2 * (self.put % SLOTS), struct.pack("<H", 0))
        self.put += 1
        self.put_bytes(AVAILABLE + 2, struct.pack("<H", self.put & 0xFFFF))
        self.ask(35, struct.pack("<II", 0, 0))
        return self.memory[self.base + to:self.base + to + answer]

    def used(self, ring: int = 0) -> int:
        """Returns the number of messages returned in a ring."""
        return int(struct.unpack_from("<H", self.memory, self.base + ring * RING_STEP + USED + 2)[0])

    def offer(self) -> None:
        """Puts one interrupt buffer into ring 1, and kicks."""
        at = RING_STEP
        self.put_bytes(DESCRIPTORS + at, struct.pack("<QIHH", self.base + INTERRUPT, 64, WRITTEN, 0))
        self.put_bytes(AVAILABLE + at, struct.pack("<HHH", 0, 1, 0))
        self.ask(35, struct.pack("<II", 1, 0))

    def read(self, operation: int, address: int, size: int = 4, bar: int = 0) -> int:
        """Reads configuration space or a register."""
        return int.from_bytes(self.message(struct.pack("<BBHIQ", operation, bar, 0, size, address), size), "little")

    def write(self, operation: int, address: int, value: int, size: int = 4, bar: int = 0) -> None:
        """Writes configuration space or a register."""
        self.message(struct.pack("<BBHIQ", operation, bar, 0, size, address) + value.to_bytes(size, "little"), 0)

    def order(self, what: int, count: int, first: int) -> tuple[int, int]:
        """Issues an order about frames with the card's address. Returns its results."""
        mac = CARD_MAC + bytes(2)
        words = ((COUNT, count), (FIRST, first), (MOST, FRAME_MOST), (MAC, int.from_bytes(mac[:4], "little")),
                 (MAC + 4, int.from_bytes(mac[4:], "little")), (WHAT, what))
        for at, word in words:
            self.write(CONFIG_WRITE, at, word)
        return self.read(CONFIG_READ, RESULT), self.read(CONFIG_READ, RESULT_2)

    def drive(self) -> None:
        """Sets up one queue each way, as a driver does."""
        slots = b"".join(struct.pack("<QQ", BUFFERS + 2048 * slot, 0) for slot in range(RING_SLOTS))
        self.memory[RECEIVE_RING:RECEIVE_RING + len(slots)] = slots
        for at, word in ((FCTRL, UNICAST_ALL), (RDBAL, RECEIVE_RING), (RDLEN, 16 * RING_SLOTS), (SRRCTL, 2 | 1 << 25),
                         (RXDCTL, ENABLE), (RXCTRL, 1), (RDT, RING_SLOTS - 1), (TDBAL, SEND_RING),
                         (TDLEN, 16 * RING_SLOTS), (DMATXCTL, 1), (TXDCTL, ENABLE)):
            self.write(MEMORY_WRITE, at, word)

    def send(self, slot: int, content: bytes, offload: int = 0) -> None:
        """Sends one frame from this slot, with these offload bits."""
        at = FRAMES + 2048 * slot
        self.memory[at:at + len(content)] = content
        asked = len(content) | 3 << 20 | 1 << 24 | 1 << 25 | 1 << 27 | 1 << 29
        entry = struct.pack("<QII", at, asked, len(content) << 14 | offload)
        self.memory[SEND_RING + 16 * slot:SEND_RING + 16 * slot + 16] = entry
        self.write(MEMORY_WRITE, TDT, slot + 1)

    def received(self, slot: int) -> bytes:
        """Returns the contents of this slot's buffer, according to its write-back."""
        _hash, status, length, _tag = struct.unpack_from("<QIHH", self.memory, RECEIVE_RING + 16 * slot)
        at = BUFFERS + 2048 * slot
        return self.memory[at:at + length] if status & 3 == 3 else b""

    def verdict(self, wrong: int, compared: int) -> None:
        """Reports a verdict as the guest's program does."""
        self.write(CONFIG_WRITE, COUNT, wrong)
        self.write(CONFIG_WRITE, FIRST, compared)
        self.write(CONFIG_WRITE, WHAT, VERDICT)


class Card:
    """The program, and its guests' connections."""

    def __init__(self, program: str, functions: int = 0, *words: str) -> None:
        self.folder = tempfile.TemporaryDirectory()
        path = str(Path(self.folder.name) / "pf")
        command = [program, "--socket", path, "--functions", str(functions), *words]
        self.process = subprocess.Popen(command, stdout=subprocess.PIPE, stderr=subprocess.STDOUT, text=True)
        atexit.register(self.process.kill)
        names = [path] + [f"{path}.{vf}" for vf in range(functions)]
        until = time.monotonic() + 10
        while not all(Path(name).exists() for name in names):
            assert time.monotonic() < until and self.process.poll() is None, "the card doesn't listen"
            time.sleep(0.01)
        file = os.memfd_create("guest")
        os.ftruncate(file, MEMORY)
        self.guests = [Guest(name, file, i * GUEST_STEP) for i, name in enumerate(names)]
        os.close(file)

    def end(self) -> tuple[int, str]:
        """Ends the connections. Returns the program's status and output."""
        for guest in self.guests:
            guest.socket.close()
        said, _ = self.process.communicate(timeout=20)
        self.folder.cleanup()
        return self.process.returncode, said


def expect(what: str, is_so: bool, detail: object = "") -> None:
    """Fails the test if the condition is false."""
    if not is_so:
        print(f"drivers/linux/tests/card.py: {what} {detail}", file=sys.stderr)
        sys.exit(1)
    print(f"  {what}")


def try_access(program: str) -> None:
    """Tests configuration space, registers, posted writes and the shim's answers."""
    card = Card(program, 1)
    host, function = card.guests
    expect("vendor and device", host.read(CONFIG_READ, 0) == 0x10F78086)
    expect("a function's vendor ID reads all ones", function.read(CONFIG_READ, 0, 2) == 0xFFFF)
    host.write(CONFIG_WRITE, 0x10, 0xFFFFFFFF)
    expect("the register window has 128 KB", host.read(CONFIG_READ, 0x10) == 0xFFFE0000)
    host.write(CONFIG_WRITE, 0x0, 0x12345678)
    expect("vendor and device are read-only", host.read(CONFIG_READ, 0) == 0x10F78086)
    expect("one function by SR-IOV", host.read(CONFIG_READ, 0x16E, 2) == 1)
    host.write(MEMORY_WRITE, RSSRK, 0xCAFE1234)
    expect("a register keeps what is written", host.read(MEMORY_READ, RSSRK) == 0xCAFE1234)
    expect("SWSM is answered: free, then taken", [host.read(MEMORY_READ, SWSM) & 1 for _ in range(2)] == [0, 1])
    expect("a function without a pool answers accesses", function.read(MEMORY_READ, STATUS) != 0xFFFFFFFF)
    for _ in range(200):
        host.write(MEMORY_WRITE, RSSRK, 1)
    expect("every message's buffer is returned", host.used() == host.put & 0xFFFF)
    expect("the guest is called after many writes", len(host.calls.recv(4096)) >= 20)
    host.verdict(0, 7)
    status, said = card.end()
    expect("a good run has status 0", status == 0, said)
    expect("and the guest's counts", "the guest made 7 comparisons, of which 0 failed" in said, said)


def try_interrupts(program: str) -> None:
    """Tests that a message waits for a buffer, until MSI-X is enabled, and until its vector is unmasked."""
    card = Card(program)
    host = card.guests[0]
    for at, word in enumerate((0xFEE00000, 0, 77, 1)):
        host.write(MEMORY_WRITE, 16 * 3 + 4 * at, word, bar=TABLE_BAR)
    host.write(MEMORY_WRITE, EIMS, 8)
    host.write(MEMORY_WRITE, EICS, 8)
    host.offer()
    expect("no message without MSI-X", host.used(1) == 0)
    host.write(CONFIG_WRITE, MSIX_CONTROL, MSIX_ENABLED, 2)
    expect("no message for a masked vector", host.used(1) == 0)
    host.write(MEMORY_WRITE, 16 * 3 + 12, 0, bar=TABLE_BAR)
    expect("the message, after its vector is unmasked", host.used(1) == 1)
    message = struct.unpack_from("<BBHIQI", host.memory, INTERRUPT)
    expect("with the table's address and data", message == (7, 0, 0, 4, 0xFEE00000, 77), message)
    expect("and the guest is called", struct.unpack("<IIIII", host.calls.recv(20))[3] == 1)
    host.verdict(0, 1)
    status, said = card.end()
    expect("one message of vector 3 is counted", status == 0 and "messages 3:1" in said, said)


def try_frames(program: str) -> None:
    """Tests frames each way: unchanged, changed, unexpected, and one that the device doesn't accept."""
    card = Card(program)
    host = card.guests[0]
    host.drive()
    host.order(EXPECT, 2, 6)
    host.send(0, frame(6, PEER_MAC, CARD_MAC))
    expect("one of two frames has come out unchanged", host.order(SENT, 0, 0) == (1, 1))
    host.order(SEND, 1, 6)
    host.order(SEND, 1, 13)
    expect("two frames come in unchanged", [host.received(slot) for slot in range(2)]
           == [frame(number, CARD_MAC, PEER_MAC) for number in (6, 13)])
    expect("one single frame", host.order(ONE, 1, 20)[0] == 1 and host.received(2) == frame(20, CARD_MAC, PEER_MAC))
    host.write(MEMORY_WRITE, FCTRL, 0)
    host.write(MEMORY_WRITE, RXCTRL, 0)
    expect("no frame while receiving is off", host.order(ONE, 1, 20)[0] == 0)
    host.verdict(0, 1)
    status, said = card.end()
    expect("the whole test has status 0", status == 0 and "the peer sent 3 frames; by queue 0:3" in said, said)
    for what, number in (("a changed frame", 13), ("a frame that wasn't expected", None)):
        card = Card(program)
        host = card.guests[0]
        host.drive()
        host.order(EXPECT, 1 if number else 0, 6)
        host.send(0, frame(number or 6, PEER_MAC, CARD_MAC))
        host.verdict(0, 1)
        status, said = card.end()
        expect(f"{what} is reported", status == 1 and said.count("wrong: ") == 1, said)


def try_faults(program: str) -> None:
    """Tests that the number of offload faults must be the one that the guest expects."""
    for expected, wanted in ((1, 0), (0, 1), (2, 1)):
        card = Card(program)
        host = card.guests[0]
        host.drive()
        host.order(FAULTS, expected, 0)
        host.send(0, frame(6, PEER_MAC, CARD_MAC), CHECKSUM)
        expect("a frame that requests a checksum causes a fault", host.order(FAULTS, expected, 0)[0] == 1)
        host.verdict(0, 1)
        status, said = card.end()
        expect(f"one fault has status {wanted} if {expected} are expected", status == wanted, said)


def try_turns(program: str) -> None:
    """Tests that --turn changes one byte of the tenth frame, each way."""
    for way in ("in", "out"):
        card = Card(program, 0, "--turn", way)
        host = card.guests[0]
        host.drive()
        alike = 0
        for slot in range(12):
            number = 6 + 7 * slot
            host.order(EXPECT, 1, number)
            host.send(slot, frame(number, PEER_MAC, CARD_MAC))
            host.order(SEND, 1, number)
            alike += host.received(slot) == frame(number, CARD_MAC, PEER_MAC)
        host.verdict(0, 12)
        status, said = card.end()
        expect(f"--turn {way} changes one frame", (alike, status) == ((11, 0) if way == "in" else (12, 1)), said)


def try_ends(program: str) -> None:
    """Tests that a missing verdict, a bad verdict and malformed messages end with status 1."""
    for what, wrong in (("no verdict", None), ("a bad verdict", 3)):
        card = Card(program)
        if wrong is not None:
            card.guests[0].verdict(wrong, 3)
        status, said = card.end()
        expect(f"{what} has status 1", status == 1 and "guest" in said, said)
    bad = {
        "a message outside the guest's memory": lambda it: it.message(b"\0" * 16, 4, at=MEMORY),
        "a short message": lambda it: it.message(b"\0" * 5, 4),
        "an unknown operation": lambda it: it.read(77, 0),
        "too few bytes": lambda it: it.message(struct.pack("<BBHIQ", MEMORY_WRITE, 0, 0, 4096, 0), 0),
        "an access past the end of the window": lambda it: it.read(MEMORY_READ, 0x20000),
        "an access that isn't aligned": lambda it: it.read(MEMORY_READ, 0x2),
        "an unknown order": lambda it: it.write(CONFIG_WRITE, WHAT, 99),
    }
    for what, act in bad.items():
        card = Card(program)
        act(card.guests[0])
        card.guests[0].verdict(0, 1)
        status, said = card.end()
        expect(f"{what} is reported", status == 1 and said.count("wrong: ") == 1, said)


def try_words(program: str) -> None:
    """Tests that unknown arguments are refused with status 3."""
    for words in (["--what"], ["--functions", "8", "--socket", "x"], ["--socket"], ["--without", "X", "--socket", "x"]):
        ended = subprocess.run([program, *words], capture_output=True, check=False)
        expect(f"status 3: {' '.join(words)}", ended.returncode == 3, ended.stderr)


def main() -> int:
    """Runs the tests in order."""
    if len(sys.argv) != 2:
        print(__doc__, file=sys.stderr)
        return 3
    try_access(sys.argv[1])
    try_interrupts(sys.argv[1])
    try_frames(sys.argv[1])
    try_faults(sys.argv[1])
    try_turns(sys.argv[1])
    try_ends(sys.argv[1])
    try_words(sys.argv[1])
    return 0


if __name__ == "__main__":
    sys.exit(main())
