"""Packs and parses descriptors as a driver does, like the functions of c/include/nic82599_desc.h.

A descriptor is 16 bytes of packet memory: two little-endian 64-bit halves. docs/DESCRIPTORS.md says what the bench does
with each field; the `descriptor_fields` module has the fields as tables.

    >>> from nic82599 import Nic
    >>> with Nic() as nic:
    ...     nic.lend(0)
    ...     nic.memory[0x00:0x10] = rx_descriptor(0x800)
    ...     received(nic.memory[0x00:0x10]).done
    False
    >>> tx_descriptor(0x800, 60).hex()
    '00080000000000003c00302b00000f00'
"""

from __future__ import annotations

import struct
from typing import TYPE_CHECKING, NamedTuple

from .buffers import bytes_of
from .descriptor_fields import RX_READ, RX_WRITTEN, TX_DATA, TX_WRITTEN, RssType

if TYPE_CHECKING:
    from .buffers import HasBytes

__all__ = ["BYTES", "Received", "RssType", "head", "is_sent", "received", "rx_descriptor", "tx_descriptor"]

BYTES = 16
"""The size of a descriptor in bytes. Slot s of a ring is at its base + BYTES * s."""

Fields = dict[str, tuple[int, int, int]]


class Received(NamedTuple):
    """The device's write-back of a receive descriptor. If `done` is False, the other fields are meaningless. `end` is
    whether the frame ends in this buffer, and `length` is the number of its bytes in this buffer. `rss_hash` is 0
    unless RXCSUM.PCSD is set."""

    done: bool
    end: bool
    length: int
    rss_type: RssType | int
    rss_hash: int
    ipv4: bool
    ipv6: bool
    tcp: bool
    udp: bool


def halves_of(data: HasBytes) -> tuple[int, int]:
    """Returns the two halves of a descriptor, low half first. Raises ValueError unless it is 16 bytes long."""
    given = bytes_of(data)
    if len(given) != BYTES:
        raise ValueError(f"a descriptor is {BYTES} bytes long, not {len(given)}")
    low, high = struct.unpack("<QQ", given)
    return low, high


def _value(halves: tuple[int, int], fields: Fields, name: str) -> int:
    half, high, low = fields[name]
    return halves[half] >> low & ((1 << (high - low + 1)) - 1)


def packed(fields: Fields, **values: int) -> bytes:
    """Returns a descriptor with these values in its fields and 0 in all others. Raises ValueError if a value doesn't
    fit its field."""
    halves = [0, 0]
    for name, value in values.items():
        half, high, low = fields[name]
        if not 0 <= value < 1 << (high - low + 1):
            raise ValueError(f"{name} has {high - low + 1} bits, and {value} doesn't fit")
        halves[half] |= int(value) << low
    return struct.pack("<QQ", *halves)


def rx_descriptor(buffer: int) -> bytes:
    """Returns a receive descriptor to post the buffer at this bus address. Raises ValueError if the address is odd."""
    if buffer & 1:
        raise ValueError(f"a receive buffer must have an even address, but 0x{buffer:x} is odd")
    return packed(RX_READ, BUFFER=buffer >> 1)


def received(data: HasBytes) -> Received:
    """Parses the device's write-back of a receive descriptor; see `Received`. Raises ValueError unless it is 16 bytes
    long."""
    halves = halves_of(data)

    def of(name: str) -> int:
        return _value(halves, RX_WRITTEN, name)

    code = of("RSS_TYPE")
    return Received(
        done=bool(of("DD")),
        end=bool(of("EOP")),
        length=of("PKT_LEN"),
        rss_type=RssType(code) if code in set(RssType) else code,
        rss_hash=of("RSS_HASH"),
        ipv4=bool(of("PKT_IPV4")),
        ipv6=bool(of("PKT_IPV6")),
        tcp=bool(of("PKT_TCP")),
        udp=bool(of("PKT_UDP")),
    )


def tx_descriptor(
    buffer: int, length: int, *, frame: int | None = None, end: bool = True, report: bool = True
) -> bytes:
    """Returns a transmit data descriptor for `length` bytes of a buffer. `frame` is the length of the whole frame, by
    default `length`. `end` marks the frame's last buffer. With `report` the device sets DD when it is done.
    """
    whole = length if frame is None else frame
    return packed(TX_DATA, BUFFER=buffer, DTALEN=length, DTYP=3, EOP=end, IFCS=1, RS=report, DEXT=1, PAYLEN=whole)


def is_sent(data: HasBytes) -> bool:
    """Returns whether the device has set DD in this transmit descriptor. It sets DD if the descriptor has `report`,
    unless head write-back is enabled."""
    return bool(_value(halves_of(data), TX_WRITTEN, "DD"))


def head(data: HasBytes) -> int:
    """Returns the index of the slot that the device fetches next, from the 4 bytes at the address in TDWBAL and
    TDWBAH."""
    given = bytes_of(data)
    if len(given) != 4:
        raise ValueError(f"a written-back head is 4 bytes long, not {len(given)}")
    return int.from_bytes(given, "little")
