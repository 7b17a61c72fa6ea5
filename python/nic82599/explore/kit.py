"""Helpers for scenarios, the same as for the explorer in C: numbered frames, flows, both sides of a mailbox."""

from __future__ import annotations

import struct
from dataclasses import dataclass
from ipaddress import IPv4Address
from typing import TYPE_CHECKING

from .. import Nic, address_of, rss_hash

if TYPE_CHECKING:
    from . import Scenario

__all__ = ["TCP", "UDP", "Flow", "Mailbox", "frame_number", "numbered_frame"]

TCP, UDP = 6, 17
LEAST, MOST, MOST_FLOW, WORDS = 60, 16_384, 1_518, 16
ADDRESSES = bytes([2, 0, 0, 0, 0, 1, 2, 0, 0, 0, 0, 2])
OWN_TYPE, IPV4 = b"\x88\xb5", b"\x08\x00"
ETHERNET, IP = 14, 20
HEADERS = {TCP: 20, UDP: 8}
REQ, ACK, VFU, PFU, PFSTS, PFACK, REPORTED = 1, 2, 4, 8, 16, 32, 0xF0


def _filling(number: int, first: int, end: int) -> bytes:
    """Returns the bytes after the number. They differ by frame and by position."""
    return bytes((number * 37 + place * 11 + 1) & 0xFF for place in range(first, end))


def _numbered(head: bytes, length: int, number: int) -> bytes:
    return head + struct.pack(">I", number) + _filling(number, len(head) + 4, length)


def numbered_frame(length: int, number: int) -> bytes:
    """Returns a frame whose number determines every byte after its header. Raises ValueError for a length below 60 or
    above 16,384."""
    if not LEAST <= length <= MOST:
        raise ValueError(f"a numbered frame is {LEAST} to {MOST} bytes long, not {length}")
    return _numbered(ADDRESSES + OWN_TYPE, length, number)


def _place(frame: bytes) -> int | None:
    if len(frame) < LEAST or frame[:12] != ADDRESSES:
        return None
    if frame[12:14] == OWN_TYPE:
        return ETHERNET
    return ETHERNET + IP + HEADERS.get(frame[23], 0) if frame[12:14] == IPV4 else None


def frame_number(frame: bytes) -> int | None:
    """Returns the number of a numbered frame or of a flow's frame. Returns None for any other frame, and if a byte
    doesn't match the number."""
    at = _place(frame)
    if at is None:
        return None
    number = struct.unpack_from(">I", frame, at)[0]
    return number if frame[at + 4 :] == _filling(number, at + 4, len(frame)) else None


def _checksum(data: bytes) -> int:
    data += bytes(len(data) % 2)
    total: int = sum(struct.unpack(f">{len(data) // 2}H", data))
    while total >> 16:
        total = (total & 0xFFFF) + (total >> 16)
    return ~total & 0xFFFF


def _peek(nic: Nic, name: str) -> int:
    return nic.peek32(address_of(name)) or 0


@dataclass(frozen=True)
class Flow:
    """An IPv4 flow: addresses, as numbers or as text ("10.0.0.1"), and ports for TCP or UDP. Raises ValueError for an
    invalid address."""

    source: int | str
    destination: int | str
    source_port: int = 0
    destination_port: int = 0
    protocol: int = TCP

    def __post_init__(self) -> None:
        for name in ("source", "destination"):
            object.__setattr__(self, name, int(IPv4Address(getattr(self, name))))

    def _transport(self, payload: bytes) -> bytes:
        ports = struct.pack(">HH", self.source_port, self.destination_port)
        length = HEADERS.get(self.protocol, 0) + len(payload)
        pseudo = struct.pack(">IIHH", self.source, self.destination, self.protocol, length)
        if self.protocol == TCP:
            head = ports + bytes(8) + b"\x50\x10" + bytes(2)
            return head + struct.pack(">HH", _checksum(pseudo + head + bytes(4) + payload), 0) + payload
        if self.protocol == UDP:
            head = ports + struct.pack(">H", length)
            return head + struct.pack(">H", _checksum(pseudo + head + bytes(2) + payload)) + payload
        return payload

    def frame(self, length: int, number: int) -> bytes:
        """Returns a numbered frame of this flow, with correct checksums. Raises ValueError for a length below 60 or
        above 1,518."""
        if not LEAST <= length <= MOST_FLOW:
            raise ValueError(f"a flow's frame is {LEAST} to {MOST_FLOW} bytes long, not {length}")
        head = ETHERNET + IP + HEADERS.get(self.protocol, 0)
        payload = struct.pack(">I", number) + _filling(number, head + 4, length)
        ip = struct.pack(">BBHHHBB", 0x45, 0, length - ETHERNET, 0, 0, 64, self.protocol)
        addresses = struct.pack(">II", self.source, self.destination)
        ip += struct.pack(">H", _checksum(ip + bytes(2) + addresses)) + addresses
        return ADDRESSES + IPV4 + ip + self._transport(payload)

    def _hashed(self, nic: Nic) -> bytes:
        """Returns the bytes of the flow that are hashed under the current MRQC; empty if none are."""
        mrqc = _peek(nic, "MRQC")
        addresses = struct.pack(">II", self.source, self.destination)
        if (self.protocol == TCP and mrqc >> 16 & 1) or (self.protocol == UDP and mrqc >> 22 & 1):
            return addresses + struct.pack(">HH", self.source_port, self.destination_port)
        return addresses if mrqc >> 17 & 1 else b""

    def rss(self, nic: Nic) -> tuple[int, int]:
        """Returns the flow's hash and the queue of its frames, under the current MRQC, RSSRK and RETA. The hash is 0 if
        the flow isn't hashed. The queue is 0 in that case, and if MRQC bits 3:0 aren't 1."""
        key = b"".join(_peek(nic, f"RSSRK[{k}]").to_bytes(4, "little") for k in range(10))
        data = self._hashed(nic)
        found = rss_hash(key, data) if data else 0
        entry = found & 127
        if _peek(nic, "MRQC") & 15 != 1 or not data:
            return found, 0
        return found, _peek(nic, f"RETA[{entry // 4}]") >> 8 * (entry % 4) & 15


class Mailbox:
    """Both sides of the mailbox of a virtual function, as their drivers use it. To send, a side waits for the mailbox
    and takes it, writes at most 16 words, and signals the other side. `receives` returns None if nothing was signalled
    since the last check. Otherwise it takes the mailbox, reads `count` words, and acknowledges. `is_acked` is whether
    the last message has been acknowledged; it is true only once per acknowledgement. Create a Mailbox in `begin`."""

    def __init__(self, scenario: Scenario, vf: int) -> None:
        self.scenario, self.vf, self.seen = scenario, vf, 0

    def _function_looks(self) -> int:
        word = self.scenario.vf_read32(self.vf, "VFMAILBOX")
        self.seen |= word & REPORTED
        return word

    def _function_takes(self) -> None:
        while True:
            self.scenario.vf_write32(self.vf, "VFMAILBOX", VFU)
            if self._function_looks() & VFU:
                return
            self.scenario.wait()

    def _has_come(self, bit: int) -> bool:
        if not self.seen & bit:
            self._function_looks()
        has, self.seen = bool(self.seen & bit), self.seen & ~bit
        return has

    def function_sends(self, *words: int) -> None:
        self._function_takes()
        for place, word in enumerate(words[:WORDS]):
            self.scenario.vf_write32(self.vf, f"VFMBMEM[{place}]", word)
        self.scenario.vf_write32(self.vf, "VFMAILBOX", REQ)

    def function_receives(self, count: int) -> list[int] | None:
        if not self._has_come(PFSTS):
            return None
        self._function_takes()
        words = [self.scenario.vf_read32(self.vf, f"VFMBMEM[{place}]") for place in range(min(count, WORDS))]
        self.scenario.vf_write32(self.vf, "VFMAILBOX", ACK)
        return words

    def function_is_acked(self) -> bool:
        return self._has_come(PFACK)

    def _host_takes(self) -> None:
        while True:
            self.scenario.write32(f"PFMAILBOX[{self.vf}]", PFU)
            if self.scenario.read32(f"PFMAILBOX[{self.vf}]") & PFU:
                return
            self.scenario.wait()

    def _has_come_from(self, bit: int) -> bool:
        """Checks and clears this function's bit. Each PFMBICR register holds the requests and acknowledgements of 16
        virtual functions, cleared by writing ones."""
        own, register = bit << self.vf % 16, f"PFMBICR[{self.vf // 16}]"
        if not self.scenario.read32(register) & own:
            return False
        self.scenario.write32(register, own)
        return True

    def host_sends(self, *words: int) -> None:
        self._host_takes()
        for place, word in enumerate(words[:WORDS]):
            self.scenario.write32(f"PFMBMEM[{WORDS * self.vf + place}]", word)
        self.scenario.write32(f"PFMAILBOX[{self.vf}]", 1)

    def host_receives(self, count: int) -> list[int] | None:
        if not self._has_come_from(1):
            return None
        self._host_takes()
        at = WORDS * self.vf
        words = [self.scenario.read32(f"PFMBMEM[{at + place}]") for place in range(min(count, WORDS))]
        self.scenario.write32(f"PFMAILBOX[{self.vf}]", ACK)
        return words

    def host_is_acked(self) -> bool:
        return self._has_come_from(1 << 16)
