#!/usr/bin/env python3
"""Compares the server's offloads with a second implementation: offloads.py PROGRAM SEED COUNT.

Random packets, each with the descriptors that a driver writes for it, go through PROGRAM (offloads.c). Its output is
compared byte by byte with frames built here: IPv4 and IPv6, with options and extension headers, TCP, UDP and SCTP,
checksums, TSO, VLAN tags, legacy descriptors.
"""

from __future__ import annotations

import random
import struct
import subprocess
import sys
from dataclasses import dataclass, replace

EOP, RS, DEXT, VLE, TSE = 1 << 24, 1 << 27, 1 << 29, 1 << 30, 1 << 31
DATA, CONTEXT, INSERT_SUM = 3 << 20, 2 << 20, 1 << 26
UDP, TCP, SCTP = 17, 6, 132
TYPES = {UDP: 0, TCP: 1, SCTP: 2}


def checksum(data: bytes) -> int:
    """The Internet checksum: the complement of the sum of 16-bit words, with the carries added."""
    words = struct.unpack(f">{(len(data) + 1) // 2}H", data + bytes(len(data) % 2))
    total = sum(words) % 0xFFFF
    return 0xFFFF - (total or (0xFFFF if any(words) else 0))


def crc32c(data: bytes) -> int:
    crc = 0xFFFFFFFF
    for byte in data:
        crc ^= byte
        for _ in range(8):
            crc = crc >> 1 ^ (0x82F63B78 if crc & 1 else 0)
    return crc ^ 0xFFFFFFFF


@dataclass
class Packet:
    """A packet before it is checksummed or cut."""

    ethernet: bytes
    is_ipv4: bool
    options: bytes  # IPv4 options, or IPv6 extension headers
    protocol: int
    addresses: bytes
    identification: int
    l4: bytes  # layer 4 header, with zeros for length and checksum
    payload: bytes
    padding: bytes = b""  # after the packet; no sum includes it

    def with_sum_of_zero(self) -> Packet:
        """Returns this UDP datagram with a payload for which the checksum is 0, so that its field becomes all ones."""
        payload = self.payload[: len(self.payload) // 2 * 2]
        length = len(self.l4) + len(payload) + 2
        head = self.l4[:4] + struct.pack(">H", length) + self.l4[6:]
        rest = checksum(self.pseudo(length) + head + payload)
        return replace(self, payload=payload + struct.pack(">H", rest))

    def ip(self, l4_bytes: int, number: int, summed: bool) -> bytes:
        if not self.is_ipv4:
            head = struct.pack(">IHBB", 0x60012345, len(self.options) + l4_bytes, self.protocol, 64)
            return head + self.addresses + self.options
        all_bytes = 20 + len(self.options) + l4_bytes
        words = (0x40 | 5 + len(self.options) // 4, 0, all_bytes, (self.identification + number) & 0xFFFF, 0x4000, 64)
        head = bytearray(struct.pack(">BBHHHBBH", *words, self.protocol, 0) + self.addresses + self.options)
        if summed:
            struct.pack_into(">H", head, 10, checksum(bytes(head)))
        return bytes(head)

    def pseudo(self, l4_bytes: int) -> bytes:
        return self.addresses + struct.pack(">II", l4_bytes, self.protocol)

    def segment(self, payload: bytes, offset: int, is_first: bool, is_last: bool, summed: bool) -> bytes:
        """Returns the header and bytes of layer 4, checksummed if requested."""
        head, length = bytearray(self.l4), len(self.l4) + len(payload)
        if self.protocol == TCP:
            sequence = (struct.unpack_from(">I", head, 4)[0] + offset) & 0xFFFFFFFF
            struct.pack_into(">I", head, 4, sequence)
            head[13] &= 0xFF if is_last else 0xF6
            head[13] &= 0xFF if is_first else 0x7F
        if self.protocol == UDP:
            struct.pack_into(">H", head, 4, length)
        data = bytes(head) + payload
        if not summed:
            return self.with_partial_sum(bytes(head), length) + payload
        if self.protocol == SCTP:
            return data[:8] + struct.pack("<I", crc32c(data)) + data[12:]
        at = 16 if self.protocol == TCP else 6
        value = checksum(self.pseudo(length) + data)
        if self.protocol == UDP and value == 0:
            value = 0xFFFF
        return data[:at] + struct.pack(">H", value) + data[at + 2 :]

    def with_partial_sum(self, head: bytes, length: int) -> bytes:
        """Returns a header as a driver writes it, with the pseudo header's sum for this length."""
        if self.protocol == SCTP:
            return head
        at = 16 if self.protocol == TCP else 6
        return head[:at] + struct.pack(">H", 0xFFFF - checksum(self.pseudo(length))) + head[at + 2 :]

    def frames(self, mss: int, tag: int | None, sums_ip: bool, sums_l4: bool) -> list[bytes]:
        """Returns the expected frames; a single frame if mss is 0."""
        step, found = mss or max(1, len(self.payload)), []
        for number, offset in enumerate(range(0, max(1, len(self.payload)), step)):
            part = self.payload[offset : offset + step]
            is_last = offset + step >= len(self.payload)
            data = self.segment(part, offset, number == 0, is_last, sums_l4)
            frame = self.ethernet + self.ip(len(data), number, sums_ip) + data + self.padding
            found.append(frame if tag is None else frame[:12] + struct.pack(">HH", 0x8100, tag) + frame[12:])
        return found

    def as_given(self, is_large: bool) -> bytes:
        """Returns the bytes that a driver sends: no IP checksum, and the pseudo header's sum, for TSO without
        the length."""
        length = len(self.l4) + len(self.payload)
        head = bytearray(self.l4)
        if self.protocol == UDP:
            struct.pack_into(">H", head, 4, length)
        given = self.with_partial_sum(bytes(head), 0 if is_large else length)
        return self.ethernet + self.ip(length, 0, False) + given + self.payload + self.padding


def some_packet(chance: random.Random, is_large: bool) -> Packet:
    is_ipv4 = chance.random() < 0.5
    protocol = TCP if is_large else chance.choice([TCP, UDP, SCTP])
    mac = chance.randbytes(12)
    tagged = b"\x81\x00" + chance.randbytes(2) if chance.random() < 0.2 else b""
    options = chance.randbytes(4 * chance.randrange(11)) if is_ipv4 else b""
    if not is_ipv4 and chance.random() < 0.3:
        options = bytes([protocol, 0]) + chance.randbytes(6)
    l4 = bytearray(chance.randbytes({TCP: 20 + 4 * chance.randrange(11), UDP: 8, SCTP: 12}[protocol]))
    if protocol == TCP:
        l4[12] = len(l4) // 4 << 4
        l4[16:18] = b"\0\0"
    elif protocol == UDP:
        l4[4:8] = b"\0\0\0\0"
    else:
        l4[8:12] = b"\0\0\0\0"
    most = 60000 if is_large else 1300
    ethernet = mac + tagged + (b"\x08\x00" if is_ipv4 else b"\x86\xdd")
    payload = chance.randbytes(chance.randrange(1 if is_large else 0, chance.choice([2, 40, most])))
    addresses = chance.randbytes(8 if is_ipv4 else 32)
    padding = b"" if is_large else chance.randbytes(chance.choice([0, 0, 1, 18]))
    number = chance.getrandbits(16)
    packet = Packet(ethernet, is_ipv4, options, protocol, addresses, number, bytes(l4), payload, padding)
    return packet.with_sum_of_zero() if protocol == UDP and chance.random() < 0.1 else packet


def pieces(chance: random.Random, data: bytes, least: int) -> list[bytes]:
    """Splits bytes into any number of descriptors; the first one gets at least `least` bytes."""
    found, at = [], 0
    while at < len(data):
        size = max(least if at == 0 else 1, chance.randrange(1, 16384))
        found.append(data[at : at + size])
        at += size
    return found


def advanced(chance: random.Random) -> tuple[list[str], list[bytes]]:
    """Returns descriptors as Linux's driver writes them, and the expected frames."""
    is_large = chance.random() < 0.4
    packet = some_packet(chance, is_large)
    tag = chance.getrandbits(16) if chance.random() < 0.3 else None
    index, mss = chance.randrange(2), chance.randrange(200, 9000) if is_large else 0
    ip_bytes = (20 if packet.is_ipv4 else 40) + len(packet.options)
    first = ip_bytes | len(packet.ethernet) << 9 | (tag or 0) << 16
    # a TSO packet's checksums are always computed, except that the IPv4 checksum needs a request in the context or the
    # data descriptor
    asks_ip, asks_l4 = packet.is_ipv4 and chance.random() < 0.7, chance.random() < 0.7
    says_ipv4 = packet.is_ipv4 and is_large and chance.random() < 0.8
    sums_ip, sums_l4 = asks_ip or says_ipv4, asks_l4 or is_large
    second = CONTEXT | DEXT | says_ipv4 << 10 | TYPES[packet.protocol] << 11 | index << 36
    second |= len(packet.l4) << 40 | mss << 48 if is_large else 0
    lines = [f"context {first:x} {second:x}"]
    if chance.random() < 0.5:  # fills the other context slot, which this packet doesn't use
        other = CONTEXT | DEXT | (1 - index) << 36 | chance.getrandbits(36) & 0x3C00
        lines.append(f"context {chance.getrandbits(32):x} {other | chance.getrandbits(24) << 40:x}")
    common = DATA | DEXT | index << 36 | (VLE if tag is not None else 0) | (TSE if is_large else 0)
    common |= (asks_l4 << 1 | asks_ip) << 40
    given = packet.as_given(is_large)
    parts = pieces(chance, given, len(given) - len(packet.payload) if is_large else 1)
    for number, part in enumerate(parts):
        end = EOP | RS if number == len(parts) - 1 else 0
        lines.append(f"data {common | end | len(part):x} 0 {part.hex()}")
    return lines, packet.frames(mss, tag, sums_ip, sums_l4)


def too_large(chance: random.Random) -> tuple[list[str], list[bytes]]:
    """A TSO packet longer than the card accepts: nothing is sent."""
    lines, _ = advanced(chance)
    while not any(int(it.split()[1], 16) & TSE for it in lines if it.startswith("data")):
        lines, _ = advanced(chance)
    (last,) = [it for it in lines if ends(it)]
    more = f"data {DATA | DEXT | TSE | 16000:x} 0 {chance.randbytes(16000).hex()}"
    return [*(it for it in lines if it != last), *[more] * 17, last], []


def legacy(chance: random.Random) -> tuple[list[str], list[bytes]]:
    """Returns a frame's legacy descriptors, the last with or without a checksum and a tag."""
    frame = bytearray(chance.randbytes(chance.randrange(60, 1514)))
    end, wanted = EOP | RS, bytearray(frame)
    if chance.random() < 0.6:
        start, at = chance.randrange(14, 40), chance.randrange(14, 56)
        end |= INSERT_SUM | start << 40 | at << 16
        struct.pack_into(">H", wanted, at, checksum(bytes(frame[start:])))
    if chance.random() < 0.5:
        tag = chance.getrandbits(16)
        end |= VLE | tag << 48
        wanted[12:12] = struct.pack(">HH", 0x8100, tag)
    cut = chance.randrange(len(frame))
    parts = [part for part in (frame[:cut], frame[cut:]) if part]
    lines = [f"data {len(it) | (end if it is parts[-1] else 0):x} 1 {it.hex()}" for it in parts]
    return lines, [bytes(wanted)]


def given_up(chance: random.Random) -> tuple[list[str], list[bytes]]:
    """Returns a packet whose queue is reset before its last descriptor, and a plain packet."""
    lines, _ = advanced(chance)
    last, frame = plain(chance)
    return [*(it for it in lines if not ends(it)), "forget", *last], frame


def ends(line: str) -> bool:
    """Returns whether this is a packet's last descriptor."""
    words = line.split()
    return words[0] == "data" and int(words[1], 16) & EOP != 0


def plain(chance: random.Random) -> tuple[list[str], list[bytes]]:
    """Returns a frame without offload requests."""
    frame = chance.randbytes(chance.randrange(60, 1514))
    return [f"data {DATA | DEXT | EOP | len(frame):x} 0 {frame.hex()}"], [frame]


def main(words: list[str]) -> int:
    program, seed, count = words[0], int(words[1]), int(words[2])
    chance, lines, wanted = random.Random(seed), [], []
    for _ in range(count):
        kinds = [advanced, advanced, advanced, legacy, plain, given_up]
        made, frames = (too_large if chance.random() < 0.01 else chance.choice(kinds))(chance)
        lines += made
        wanted += [*(frame.hex() for frame in frames), "."]
    ran = subprocess.run([program], input="\n".join(lines) + "\n", capture_output=True, text=True, check=False)
    got = ran.stdout.split()
    for number, (left, right) in enumerate(zip(got + ["(the end)"], wanted + ["(the end)"])):
        if left != right:
            print(f"offloads: line {number} is\n  {left}\ninstead of\n  {right}\n{ran.stderr}")
            return 1
    print(f"offloads: {len(wanted) - count} frames from {count} packets, equal in each byte")
    return ran.returncode


if __name__ == "__main__":
    sys.exit(main(sys.argv[1:]))
