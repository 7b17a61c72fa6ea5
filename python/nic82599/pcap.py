"""Reads and writes captures of Ethernet frames: pcap (any byte order, in microseconds or nanoseconds) and pcapng."""

from __future__ import annotations

import struct
from collections.abc import Iterable, Iterator
from dataclasses import dataclass
from os import PathLike
from typing import TYPE_CHECKING

from .buffers import bytes_of

if TYPE_CHECKING:
    from .buffers import HasBytes

ETHERNET = 1
MAGICS = {b"\xd4\xc3\xb2\xa1": "<", b"\x4d\x3c\xb2\xa1": "<", b"\xa1\xb2\xc3\xd4": ">", b"\xa1\xb2\x3c\x4d": ">"}
SECTION, INTERFACE, SIMPLE, ENHANCED = 0x0A0D0D0A, 1, 3, 6
# Lengths in bytes: the fixed part at the start of a pcapng block's body, for each block type in use, and the maximum of
# any block.
HEADS, BLOCK_MOST = {SECTION: 4, INTERFACE: 8, SIMPLE: 4, ENHANCED: 20}, 1 << 24
ORDERS = {b"\x4d\x3c\x2b\x1a": "<", b"\x1a\x2b\x3c\x4d": ">"}
HEADER = struct.pack("<IHHiIII", 0xA1B2C3D4, 2, 4, 0, 0, 0xFFFF, ETHERNET)


class NoCapture(Exception):
    """The bytes aren't a capture, or the capture's frames can't be read."""


def _unpacked(form: str, data: bytes, at: int) -> tuple[int, ...]:
    size = struct.calcsize(form)
    if at + size > len(data):
        raise NoCapture("the capture is cut off")
    return struct.unpack_from(form, data, at)


def frames_of(data: bytes) -> Iterator[bytes]:
    """Returns the frames of a capture, in order. Raises NoCapture unless it consists of complete Ethernet frames."""
    if data[:4] in MAGICS:
        return _pcap_frames(data, MAGICS[data[:4]])
    if data[:4] == struct.pack("<I", SECTION):
        return _pcapng_frames(data)
    raise NoCapture("not a capture: neither pcap nor pcapng")


def _whole(data: bytes, at: int, kept: int, length: int) -> bytes:
    if kept != length:
        raise NoCapture(f"a {length}-byte frame was captured only in part: {kept} bytes")
    if at + kept > len(data):
        raise NoCapture("a frame is cut off at the end of the capture or of its block")
    return data[at : at + kept]


def _pcap_frames(data: bytes, order: str) -> Iterator[bytes]:
    (link,) = _unpacked(order + "I", data, 20)
    if link & 0xFFFF != ETHERNET:
        raise NoCapture(f"the capture has link type {link & 0xFFFF}, not Ethernet")
    at = 24
    while at < len(data):
        _, _, kept, length = _unpacked(order + "IIII", data, at)
        yield _whole(data, at + 16, kept, length)
        at += 16 + kept


def _pcapng_frames(data: bytes) -> Iterator[bytes]:
    at, order = 0, "<"
    links: list[tuple[int, ...]] = []
    while at < len(data):
        (kind,) = _unpacked(order + "I", data, at)
        if kind == SECTION:
            # Each section has its own byte order, given by the magic number after its length.
            order, links = _order_of(data[at + 8 : at + 12]), []
        (size,) = _unpacked(order + "I", data, at + 4)
        if size % 4 or not 12 + HEADS.get(kind, 0) <= size <= BLOCK_MOST:
            raise NoCapture(f"a block of type {kind} has the impossible size of {size} bytes")
        if at + size > len(data):
            raise NoCapture("the capture is cut off")
        if kind == INTERFACE:
            links.append(_unpacked(order + "HHI", data, at + 8)[::2])
        elif kind in (SIMPLE, ENHANCED):
            yield _packet_in(data[at + 8 : at + size - 4], order, kind, links)
        at += size


def _order_of(number: bytes) -> str:
    """Returns the byte order of a section."""
    if number not in ORDERS:
        raise NoCapture("a section has an invalid byte order")
    return ORDERS[number]


def _packet_in(data: bytes, order: str, kind: int, links: list[tuple[int, ...]]) -> bytes:
    """Returns the frame in the body of a pcapng block."""
    number = _unpacked(order + "I", data, 0)[0] if kind == ENHANCED else 0
    if number >= len(links):
        raise NoCapture("a packet belongs to an interface that the capture doesn't describe")
    link, longest = links[number]
    if link != ETHERNET:
        raise NoCapture(f"a packet has link type {link}, not Ethernet")
    if kind == ENHANCED:
        kept, length = _unpacked(order + "II", data, 12)
        return _whole(data, HEADS[ENHANCED], kept, length)
    (length,) = _unpacked(order + "I", data, 0)
    return _whole(data, HEADS[SIMPLE], min(length, longest or length), length)


def record_of(microseconds: int, frame: bytes) -> bytes:
    """Returns a pcap record: the time and the frame."""
    return struct.pack("<IIII", *divmod(microseconds, 1_000_000), len(frame), len(frame)) + frame


@dataclass(frozen=True)
class Packet:
    """A frame for a pcapng file: its time, its direction, and a comment that Wireshark shows with it."""

    microseconds: int
    frame: bytes
    is_inbound: bool
    comment: str


def _option(code: int, value: bytes) -> bytes:
    return struct.pack("<HH", code, len(value)) + value + bytes(-len(value) % 4)


def _block(kind: int, body: bytes, options: list[tuple[int, bytes]]) -> bytes:
    encoded = b"".join(_option(code, value) for code, value in options) + (bytes(4) if options else b"")
    size = struct.pack("<I", 12 + len(body) + len(encoded))
    return struct.pack("<I", kind) + size + body + encoded + size


def pcapng_of(packets: Iterable[Packet], name: str) -> Iterator[bytes]:
    """Returns the blocks of a pcapng file with Ethernet frames from an interface of this name."""
    yield _block(SECTION, struct.pack("<IHHq", 0x1A2B3C4D, 1, 0, -1), [(4, b"nic82599")])
    yield _block(INTERFACE, struct.pack("<HHI", ETHERNET, 0, 0), [(2, name.encode())])
    for one in packets:
        high, low = divmod(one.microseconds, 1 << 32)
        head = struct.pack("<IIIII", 0, high, low, len(one.frame), len(one.frame))
        way = struct.pack("<I", 1 if one.is_inbound else 2)
        padded = one.frame + bytes(-len(one.frame) % 4)
        yield _block(ENHANCED, head + padded, [(1, one.comment.encode()[:0xFFFF]), (2, way)])


def read_pcap(path: str | PathLike[str]) -> list[bytes]:
    """Returns the frames of a capture file. Raises NoCapture or OSError."""
    with open(path, "rb") as file:
        return list(frames_of(file.read()))


def write_pcap(path: str | PathLike[str], frames: Iterable[HasBytes]) -> int:
    """Writes a capture of frames, one microsecond apart, and returns how many there are. Raises OSError."""
    records = [record_of(number, bytes_of(frame)) for number, frame in enumerate(frames)]
    with open(path, "wb") as file:
        file.write(HEADER + b"".join(records))
    return len(records)
