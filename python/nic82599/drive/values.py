"""The arguments and results of a driver's functions on the card."""

from __future__ import annotations

from dataclasses import dataclass
from enum import Flag
from typing import NamedTuple

MOST_QUEUES = 4
MOST_FRAME = 9724
MAILBOX_WORDS = 16


class Can(Flag):
    """What a driver supports besides its functions, and what it never does."""

    NOTHING = 0
    SHARED_SEND = 1  # several threads may call `send` for the same queue concurrently
    FUNCTIONS = 2  # `open` accepts the port of a virtual function
    SHARED_DEVICE = 4  # calls touch only their own queues, causes and masks, and never reset the device
    HOST = 8  # `open` accepts `functions` above 0

    # Things that the driver never does, by design. Rows that depend on them aren't applicable.
    NO_MODERATION = 16  # it never writes an interval to EITR
    NO_HEADS = 32  # it never writes RDH or TDH
    ONE_VECTOR = 64  # all queues share one vector
    ONE_BUFFER = 128  # each frame has one descriptor, whatever its length
    NO_ADDRESS = 256  # it writes no receive address: it accepts all frames, or the PF's driver sets the address
    NO_MSIX = 512  # it uses INTx or a single MSI message, so GPIE.MULTIPLE_MSIX stays 0


@dataclass(frozen=True)
class Setup:
    """The arguments of `open`."""

    port: int  # 0: the physical function; v + 1: virtual function v, with 64 pools
    queues: int  # receive and transmit queues 0 to `queues` - 1 of that port
    slots: int  # descriptors per ring: 8, 16, .. 64
    frame: int  # bytes of the longest frame: 1,514 to MOST_FRAME
    interrupts: bool  # whether `interrupt` will be called; otherwise the driver must leave all causes masked
    address: bytes  # the port's own 6-byte address, from its EEPROM or the PF's driver
    functions: int  # for port 0: the number of virtual functions it hosts, 0 or 2 (see nic82599_drive.h)


class Stats(NamedTuple):
    """A driver's counters since `open`."""

    rx_frames: int  # frames that `receive` returned or that were passed to `deliver`
    rx_bytes: int
    tx_frames: int  # frames that `send` accepted
    tx_bytes: int


@dataclass(frozen=True)
class Filter:
    """The frames to receive, besides frames to the port's own address."""

    all_unicast: bool
    all_multicast: bool
    broadcast: bool
    addresses: tuple[bytes, ...]  # at most four 6-byte addresses, unicast or multicast


@dataclass(frozen=True)
class Rss:
    """The receive side scaling configuration. Types are a bit mask: 1 << code (nic82599.descriptors)."""

    key: bytes  # 40 bytes
    table: bytes  # 128 entries, each a queue
    types: int
