"""Builds Ethernet frames with correct lengths and checksums: TCP, UDP and other protocols over IPv4 and IPv6, ARP, VLAN
tags. Also computes a frame's RSS hash and queue.

    >>> frame = made("tcp", "10.0.0.1", "10.0.0.2", 1000, 80)
    >>> len(frame), frame[12:14].hex()
    (60, '0800')
    >>> rss = Rss(table=(0, 1, 2, 3))
    >>> rss.type_of(frame).name, f"0x{rss.hash_of(frame):08x}", rss.queue_of(frame)
    ('TCP_IPV4', '0x3fde25d2', 2)

Needs only Python: neither the C library nor `make`.
"""

from __future__ import annotations

import struct
from collections.abc import Sequence
from dataclasses import dataclass
from ipaddress import IPv4Address, IPv6Address, ip_address

from .descriptor_fields import RssType

__all__ = ["KINDS", "LEAST", "MOST", "Rss", "arp", "ethernet", "mac", "made"]

TCP, UDP = 6, 17
KINDS = ("tcp", "udp", "ip")
LEAST, MOST = 60, 16_384
"""The length in bytes of the shortest frame that the device accepts, and of the longest that a script can contain."""
_IPV4, _IPV6, _ARP, _TAG = 0x0800, 0x86DD, 0x0806, 0x8100
_HEADERS = {TCP: 20, UDP: 8}
_BROADCAST = b"\xff" * 6
TO, SOURCE = bytes.fromhex("020000000001"), bytes.fromhex("020000000002")
"""The default destination and source addresses of a frame."""

Address = IPv4Address | IPv6Address


def mac(text: str) -> bytes:
    """Parses an Ethernet address such as 02:00:00:00:00:01. Raises ValueError if it is malformed."""
    parts = text.replace("-", ":").split(":")
    if len(parts) != 6 or any(len(part) not in (1, 2) for part in parts):
        raise ValueError(f"{text} isn't an Ethernet address such as 02:00:00:00:00:01")
    return bytes(int(part, 16) for part in parts)


def checksum(data: bytes) -> int:
    """Returns the 16-bit Internet checksum of the data."""
    data += bytes(len(data) % 2)
    total: int = sum(struct.unpack(f">{len(data) // 2}H", data))
    while total >> 16:
        total = (total & 0xFFFF) + (total >> 16)
    return ~total & 0xFFFF


def ethernet(
    kind: int, payload: bytes, *, to: bytes = TO, source: bytes = SOURCE, tags: Sequence[int] = (), length: int = LEAST
) -> bytes:
    """Returns a frame with EtherType `kind`, after the VLAN tags (16 bits each: priority, DEI, VLAN ID), zero-padded to
    `length` bytes. Raises ValueError if it is longer than MOST."""
    frame = to + source + b"".join(struct.pack(">HH", _TAG, tag) for tag in tags) + struct.pack(">H", kind) + payload
    frame += bytes(max(0, length - len(frame)))
    if len(frame) > MOST:
        raise ValueError(f"the frame is {len(frame)} bytes long, but a script accepts at most {MOST:,}")
    return frame


def arp(sender: str, target: str, *, reply: bool = False, to: bytes | None = None, source: bytes = SOURCE) -> bytes:
    """Returns an ARP payload: a request from `sender` for `target`, or a reply to `to` that `sender` is at `source`."""
    ends = [IPv4Address(sender).packed, IPv4Address(target).packed]
    hardware = to or TO if reply else bytes(6)
    return struct.pack(">HHBBH", 1, _IPV4, 6, 4, 2 if reply else 1) + source + ends[0] + hardware + ends[1]


def _transport(protocol: int, ends: tuple[Address, Address], ports: tuple[int, int], payload: bytes) -> bytes:
    """Returns the IP payload: the transport header and the data."""
    if protocol not in _HEADERS:
        return payload
    length = _HEADERS[protocol] + len(payload)
    pseudo = ends[0].packed + ends[1].packed + struct.pack(">II", length, protocol)
    if protocol == TCP:
        head = struct.pack(">HHIIBBH", *ports, 0, 0, 0x50, 0x10, 8192)
        return head + struct.pack(">HH", checksum(pseudo + head + bytes(4) + payload), 0) + payload
    head = struct.pack(">HHH", *ports, length)
    return head + struct.pack(">H", checksum(pseudo + head + bytes(2) + payload) or 0xFFFF) + payload


def _packet(protocol: int, ends: tuple[Address, Address], data: bytes) -> tuple[int, bytes]:
    """Returns the packet's EtherType and bytes."""
    if ends[0].version == 6:
        return _IPV6, struct.pack(">IHBB", 6 << 28, len(data), protocol, 64) + ends[0].packed + ends[1].packed + data
    head = struct.pack(">BBHHHBBH", 0x45, 0, 20 + len(data), 0, 0, 64, protocol, 0) + ends[0].packed + ends[1].packed
    return _IPV4, head[:10] + struct.pack(">H", checksum(head)) + head[12:] + data


def _ends(source: str, destination: str) -> tuple[Address, Address]:
    ends = ip_address(source), ip_address(destination)
    if ends[0].version != ends[1].version:
        raise ValueError(f"{source} is IPv{ends[0].version}, but {destination} is IPv{ends[1].version}")
    return ends


def made(
    kind: str,
    source: str,
    destination: str,
    source_port: int = 0,
    destination_port: int = 0,
    *,
    to: bytes = TO,
    source_mac: bytes = SOURCE,
    tags: Sequence[int] = (),
    length: int | None = None,
    payload: bytes | None = None,
    protocol: int = 253,
) -> bytes:
    """Returns a frame of a kind in KINDS, over IPv4 or IPv6 depending on its addresses. The kind "ip" has no ports and
    uses `protocol`.

    With `length` but no `payload`, the payload is bytes that count up and fill the frame to that length. Otherwise the
    frame is zero-padded to `length`, and always to at least 60 bytes. Raises ValueError if the addresses are of
    different IP versions, a port is above 65,535, or the payload or the frame is too long.
    """
    ends, number = _ends(source, destination), {"tcp": TCP, "udp": UDP, "ip": protocol}[kind]
    head = 14 + 4 * len(tags) + (20 if ends[0].version == 4 else 40) + _HEADERS.get(number, 0)
    if payload is None:
        payload = bytes(k & 0xFF for k in range(max(0, (length or 0) - head)))
    elif length is not None and head + len(payload) > length:
        raise ValueError(f"{len(payload)} bytes of payload after {head} bytes of headers don't fit into {length} bytes")
    if not all(0 <= port <= 0xFFFF for port in (source_port, destination_port)):
        raise ValueError("a port is 0 to 65,535")
    if head - 14 - 4 * len(tags) + len(payload) > 0xFFFF:
        raise ValueError(f"a packet is at most 65,535 bytes long, but the payload alone is {len(payload)}")
    data = _transport(number, ends, (source_port, destination_port), payload)
    typed, packet = _packet(number, ends, data)
    return ethernet(typed, packet, to=to, source=source_mac, tags=tags, length=max(length or LEAST, LEAST))


# --- receive side scaling ---

KEY = bytes.fromhex("6d5a56da255b0ec24167253d43a38fb0d0ca2bcbae7b30b477cb2da38030f20c6a42b73bbeac01fa")
"""The key of the published RSS verification suite."""
_WITH_PORTS = {(4, TCP): RssType.TCP_IPV4, (4, UDP): RssType.UDP_IPV4, (6, TCP): RssType.TCP_IPV6}
_WITH_PORTS[6, UDP] = RssType.UDP_IPV6
_PLAIN = {4: RssType.IPV4, 6: RssType.IPV6}
ALL_TYPES = frozenset([*_WITH_PORTS.values(), *_PLAIN.values()])


@dataclass(frozen=True)
class Rss:
    """Receive side scaling (RSS), as with MRQC bits 3:0 at 1. It has a 40-byte key, a table of queues 0 to 15 that is
    repeated to 128 entries, and the hashed frame types. docs/DESCRIPTORS.md has the rules. A VLAN-tagged frame isn't
    hashed."""

    key: bytes = KEY
    table: tuple[int, ...] = (0,)
    types: frozenset[RssType] = ALL_TYPES

    def __post_init__(self) -> None:
        if len(self.key) != 40:
            raise ValueError(f"a key is 40 bytes long, not {len(self.key)}")
        if not self.table or len(self.table) > 128 or not all(0 <= queue <= 15 for queue in self.table):
            raise ValueError("a table has 1 to 128 entries, each a queue from 0 to 15")

    def _hashed(self, frame: bytes) -> tuple[RssType, bytes]:
        """Returns the type of a frame and the bytes that are hashed."""
        kind = int.from_bytes(frame[12:14], "big")
        version = {_IPV4: 4, _IPV6: 6}.get(kind)
        if version is None or frame[14] >> 4 != version:
            return RssType.NONE, b""
        at, size, protocol = (26, 8, frame[23]) if version == 4 else (22, 32, frame[20])
        head = 14 + 4 * (frame[14] & 15) if version == 4 else 54
        is_whole = version == 6 or not int.from_bytes(frame[20:22], "big") & 0x3FFF
        ports = _WITH_PORTS.get((version, protocol))
        if ports in self.types and is_whole:
            return ports or RssType.NONE, frame[at : at + size] + frame[head : head + 4]
        plain = _PLAIN[version]
        return (plain, frame[at : at + size]) if plain in self.types else (RssType.NONE, b"")

    def type_of(self, frame: bytes) -> RssType:
        """Returns the type by which the frame is hashed; `RssType.NONE` if it isn't hashed."""
        return self._hashed(frame)[0]

    def hash_of(self, frame: bytes) -> int:
        """Returns the frame's hash; 0 if it isn't hashed."""
        data, key, found = self._hashed(frame)[1], int.from_bytes(self.key, "big"), 0
        for bit in range(8 * len(data)):
            if data[bit // 8] >> (7 - bit % 8) & 1:
                found ^= key >> (8 * len(self.key) - 32 - bit) & 0xFFFFFFFF
        return found

    def queue_of(self, frame: bytes) -> int:
        """Returns the queue in the table entry that the low seven bits of the hash select; 0 if the frame isn't
        hashed."""
        return self.table[(self.hash_of(frame) & 127) % len(self.table)] if self.type_of(frame) else 0
