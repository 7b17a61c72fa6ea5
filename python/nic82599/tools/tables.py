"""The controller's registers. All generated register tables come from this list, and the tools read it.

A register is one line of TABLE. After an edit, run `dev/generate registers` for the tables of the proved crates and of
the pages, and `dev/generate drivers` for the C and Rust drivers' tables.
"""

from __future__ import annotations

from collections.abc import Iterable
from dataclasses import dataclass

from .known import OWN

_ALL = 0xFFFF_FFFF


@dataclass(frozen=True)
class Run:
    """Addresses of a row: index first_index + k is at first + stride * k, for k below count. `low` means that the
    address holds only bits 15 to 0."""

    first: int
    stride: int
    first_index: int
    count: int
    low: bool = False


@dataclass(frozen=True)
class Row:
    """Registers of the same name. docs/REGISTERS.md explains `kind` and `bank`. The first run that contains an index
    determines the index's first address. `mask` is the writable bits; `reset` is the value after a reset."""

    name: str
    meaning: str
    kind: str
    bank: str
    runs: tuple[Run, ...]
    mask: int = _ALL
    reset: int = 0

    @property
    def count(self) -> int:
        """The number of registers."""
        return max(run.first_index + run.count for run in self.runs)

    @property
    def variant(self) -> str:
        """The row's name in the proved crates."""
        return "".join(part.capitalize() for part in self.name.split("_"))

    @property
    def first_runs(self) -> tuple[Run, ...]:
        """The runs with the first address of each index: the first run, and the next one if the first lacks some
        indices."""
        first, more = self.runs[0], self.runs[1:]
        assert first.first_index == 0, self.name
        if first.count == self.count:
            return (first,)
        further = more[0]
        assert further.first_index == first.count and further.first_index + further.count == self.count, self.name
        assert further.stride == first.stride, self.name
        return first, further


def _one(*addresses: int) -> tuple[Run, ...]:
    """Returns a single register, at each of these addresses."""
    return tuple(Run(address, 4, 0, 1) for address in addresses)


def _low(address: int) -> tuple[Run, ...]:
    """Returns a further address that holds only bits 15 to 0 of a single register."""
    return (Run(address, 4, 0, 1, low=True),)


def _array(first: int, count: int, stride: int = 4, first_index: int = 0) -> tuple[Run, ...]:
    """Returns registers at equal strides."""
    return (Run(first, stride, first_index, count),)


def _receive(offset: int) -> tuple[Run, ...]:
    """Returns a register per receive queue. The addresses of the 128 queues are in two halves."""
    return _array(0x01000 + offset, 64, 0x40) + _array(0x0D000 + offset, 64, 0x40, 64)


def _transmit(offset: int) -> tuple[Run, ...]:
    """Returns a register for each of the 128 transmit queues."""
    return _array(0x06000 + offset, 128, 0x40)


# fmt: off
TABLE: tuple[Row, ...] = (
    Row("CTRL", "Device control", "Ctrl", "Device", _one(0x00000, 0x00004), mask=0xFBFF_FFF7),
    Row("STATUS", "Device status", "Calc", "Device", _one(0x00008)),
    Row("CTRL_EXT", "Extended device control", "Ctrlext", "Device", _one(0x00018)),
    Row("LEDCTL", "LED control", "Rw", "Device", _one(0x00200)),
    Row("PVFCTRL", "VF control", "Vreset", "Pool", _array(0x00300, 64)),
    Row("PFMBICR", "Mailbox interrupt causes of 16 VFs", "W1c", "Device", _array(0x00710, 4)),
    Row("PFMBIMR", "Mailbox interrupt mask of 32 VFs", "Rw", "Device", _array(0x00720, 2), reset=_ALL),
    Row("EICR", "Extended interrupt cause", "Cause", "Interrupts", _one(0x00800), mask=0x7FFF_FFFF),
    Row("EICS", "Extended interrupt cause set", "Set", "Interrupts", _one(0x00808) + _low(0x00A90)),
    Row("EIAC", "Extended interrupt auto clear", "Rw", "Interrupts", _one(0x00810), mask=0x7FFF_FFFF),
    Row("EITR", "Extended interrupt throttle", "Rw", "Device", _array(0x00820, 24) + _array(0x12300, 104, 4, 24)),
    Row("EIMS", "Extended interrupt mask set", "Ones", "Interrupts", _one(0x00880) + _low(0x00AA0), mask=0x7FFF_FFFF),
    Row("EIMC", "Extended interrupt mask clear", "Clear", "Interrupts", _one(0x00888) + _low(0x00AB0)),
    Row("EIAM", "Extended interrupt auto mask", "Rw", "Interrupts", _one(0x00890) + _low(0x00AD0), mask=0x7FFF_FFFF),
    Row("GPIE", "General purpose interrupt enable", "Rw", "Device", _one(0x00898)),
    Row("IVAR", "Interrupt vector allocation", "Rw", "Device", _array(0x00900, 64)),
    Row("IVAR_MISC", "Interrupt vector allocation, other causes", "Rw", "Device", _one(0x00A00)),
    Row("PVTEICR", "VF interrupt cause", "Cause", "VfInterrupts", _array(0x00B00, 64), mask=7),
    Row("PVTEICS", "VF interrupt cause set", "Set", "VfInterrupts", _array(0x00C00, 64)),
    Row("PVTEIMS", "VF interrupt mask set", "Ones", "VfInterrupts", _array(0x00D00, 64), mask=7),
    Row("PVTEIMC", "VF interrupt mask clear", "Clear", "VfInterrupts", _array(0x00E00, 64)),
    Row("PVTEIAC", "VF extended interrupt auto clear", "Rw", "VfInterrupts",
        _array(0x00F00, 64), mask=7),
    Row("PFMAILBOX", "VF mailbox, PF side", "Pfmail", "Device",
        _array(0x04B00, 64)),
    Row("PVFMAILBOX", "VF mailbox, VF side", "Vfmail", "Pool", _array(0x04C00, 64), reset=0x0000_0040),
    Row("PVTEIAM", "VF extended interrupt auto mask", "Rw", "VfInterrupts",
        _array(0x04D00, 64), mask=7),
    Row("PVTIVAR_MISC", "VF interrupt vector allocation, mailbox", "Rw", "Pool",
        _array(0x04E00, 64)),
    Row("RDBAL", "Receive descriptor base address, low part", "Held", "Receive", _receive(0x00), mask=0xFFFF_FF80),
    Row("RDBAH", "Receive descriptor base address, high part", "Held", "Receive", _receive(0x04)),
    Row("RDLEN", "Receive descriptor ring length in bytes", "Held", "Receive", _receive(0x08), mask=0x000F_FF80),
    Row("RDH", "Receive descriptor head", "Held", "Receive", _receive(0x10), mask=0x0000_FFFF),
    Row("SRRCTL", "Split receive control", "Rw", "Receive",
        _receive(0x14) + _array(0x02100, 16), reset=0x0000_0402),
    Row("RDT", "Receive descriptor tail", "Rw", "Receive", _receive(0x18), mask=0x0000_FFFF),
    Row("RXDCTL", "Receive descriptor control", "Enable", "Receive", _receive(0x28), mask=0xFDFF_FFFF),
    Row("VFGPRC", "VF good frames received", "Ro", "VfCounters", _array(0x0101C, 64, 0x40)),
    Row("QPRC", "Frames received, per queue statistics counter", "Rc", "Counters", _array(0x01030, 16, 0x40)),
    Row("QPRDC", "Frames dropped for lack of a descriptor, per queue statistics counter", "Rc", "Counters",
        _array(0x01430, 16, 0x40)),
    Row("RQSMR", "Receive queue statistics mapping", "Rw", "Device", _array(0x02300, 32)),
    Row("RDRXCTL", "Receive DMA control", "Rw", "Device", _one(0x02F00), mask=0xFFFF_FFF7, reset=0x0000_0008),
    Row("RXCTRL", "Receive control", "Rw", "Device", _one(0x03000)),
    Row("MPC", "Frames missed because the receive buffer was full", "Rc", "Counters", _one(0x03FA0)),
    Row("GPRC", "Good frames received", "Rc", "Counters", _one(0x04074)),
    Row("GPTC", "Good frames transmitted", "Rc", "Counters", _one(0x04080)),
    Row("RUC", "Undersized frames received", "Rc", "Counters", _one(0x040A4)),
    Row("ROC", "Oversized frames received", "Rc", "Counters", _one(0x040AC)),
    Row("HLREG0", "MAC core control 0", "Rw", "Device", _one(0x04240), reset=0x0000_0403),
    Row("MAXFRS", "Maximum frame size", "Rw", "Device", _one(0x04268), mask=0xFFFF_0000, reset=0x05EE_0000),
    Row("AUTOC", "Auto-negotiation control", "Rw", "Device", _one(0x042A0)),
    Row("LINKS", "Link status", "Calc", "Device", _one(0x042A4)),
    Row("DMATXCTL", "DMA transmit control", "Rw", "Device", _one(0x04A80), reset=0x8100_0000),
    Row("RXCSUM", "Receive checksum control", "Rw", "Device", _one(0x05000)),
    Row("FCTRL", "Filter control", "Rw", "Device", _one(0x05080)),
    Row("MCSTCTRL", "Multicast control", "Rw", "Device", _one(0x05090)),
    Row("VT_CTL", "Virtualization control", "Rw", "Device", _one(0x051B0)),
    Row("VFRE", "Receive enable per pool", "Rw", "Device", _array(0x051E0, 2)),
    Row("VFTE", "Transmit enable per pool", "Rw", "Device", _array(0x08110, 2)),
    Row("MTA", "Multicast table array", "Rw", "Device", _array(0x05200, 128)),
    Row("RAL", "Receive address, low part", "Rw", "Device", _array(0x0A200, 128, 8) + _array(0x05400, 16, 8)),
    Row("RAH", "Receive address, high part", "Rw", "Device", _array(0x0A204, 128, 8) + _array(0x05404, 16, 8)),
    Row("MRQC", "Multiple receive queues command", "Rw", "Device", _one(0x05818, 0x0EC80)),
    Row("RETA", "Redirection table", "Rw", "Device", _array(0x05C00, 32) + _array(0x0EB00, 32)),
    Row("RSSRK", "RSS random key", "Rw", "Device", _array(0x05C80, 10) + _array(0x0EB80, 10)),
    Row("TDBAL", "Transmit descriptor base address, low part", "Held", "Transmit", _transmit(0x00), mask=0xFFFF_FF80),
    Row("TDBAH", "Transmit descriptor base address, high part", "Held", "Transmit", _transmit(0x04)),
    Row("TDLEN", "Transmit descriptor ring length in bytes", "Held", "Transmit", _transmit(0x08), mask=0x000F_FF80),
    Row("TDH", "Transmit descriptor head", "Held", "Transmit", _transmit(0x10), mask=0x0000_FFFF),
    Row("TDT", "Transmit descriptor tail", "Rw", "Transmit", _transmit(0x18), mask=0x0000_FFFF),
    Row("TXDCTL", "Transmit descriptor control", "Enable", "Transmit", _transmit(0x28), mask=0xFDFF_FFFF),
    Row("TDWBAL", "Transmit head write-back address, low part", "Rw", "Transmit", _transmit(0x38), mask=0xFFFF_FFFD),
    Row("TDWBAH", "Transmit head write-back address, high part", "Rw", "Transmit", _transmit(0x3C)),
    Row("QPTC", "Frames transmitted, per queue statistics counter", "Rc", "Counters", _array(0x06030, 16, 0x40)),
    Row("MTQC", "Multiple transmit queues command", "Rw", "Device", _one(0x08120)),
    Row("VFGPTC", "VF good frames transmitted", "Ro", "VfCounters", _array(0x08300, 64)),
    Row("TQSM", "Transmit queue statistics mapping", "Rw", "Device", _array(0x08600, 32)),
    Row("MPSAR", "MAC pool select array", "Rw", "Device", _array(0x0A600, 256)),
    Row("PSRTYPE", "Packet split receive type per pool", "Rw", "Pool", _array(0x0EA00, 64) + _array(0x05480, 16)),
    Row("EEC", "EEPROM control and size", "Calc", "Device", _one(0x10010)),
    Row("EERD", "EEPROM read", "Eerd", "Device", _one(0x10014)),
    Row("GCR_EXT", "Extended PCIe control", "Rw", "Device", _one(0x11050)),
    Row("PVTIVAR", "VF interrupt vector allocation", "Rw", "Vectors", _array(0x12500, 64)),
    Row("PFMBMEM", "Mailbox memory, 16 words per VF", "Rw", "Messages", _array(0x13000, 1024)),
)
# fmt: on


# The numbers of queues that a pool can have, depending on the mode.
POOL_SIZES = (2, 4, 8)


@dataclass(frozen=True)
class Place:
    """Registers of virtual function v. Register x is at offset + stride * x, and is register scale * v + x of `row`.
    `of` says how many there are: `0` is one for the device, `v` one per function, `k` one per queue of the function,
    and `k/2` one per two queues. `16` is the 16 words of the function's mailbox memory."""

    offset: int
    row: str
    of: str

    @property
    def name(self) -> str:
        """The name that VF drivers use: prefixed with VF, or with VT for the function's interrupts."""
        if self.row.startswith(("PV", "PF")):
            return "V" + self.row.removeprefix("P").removeprefix("V")
        return self.row if self.row.startswith("VF") else "VF" + self.row

    @property
    def stride(self) -> int:
        """Bytes between two consecutive registers; 0 if there is only one."""
        return {"k": 0x40, "k/2": 4, "16": 4}.get(self.of, 0)

    def scale(self, k: int) -> int:
        """Returns the distance between the indices of two consecutive functions' registers, if a pool has k queues."""
        return {"0": 0, "v": 1, "k": k, "k/2": k // 2, "16": 16}[self.of]

    def count(self, k: int) -> int:
        """Returns the number of registers, if a pool has k queues."""
        return max(1, self.scale(k))


def places_of_function(own: Iterable[tuple[int, str, bool]]) -> list[Place]:
    """Returns the registers of a virtual function by offset, given the registers that exist once per function. The
    registers of one side of a queue have the same spacing as in the device."""
    places = [Place(offset, name, "v" if is_by_function else "0") for offset, name, is_by_function in own]
    places += [Place(0x0120, "PVTIVAR", "k/2"), Place(0x0200, "PFMBMEM", "16")]
    for bank, offset in (("Receive", 0x1000), ("Transmit", 0x2000)):
        rows = [row for row in TABLE if row.bank == bank]
        first = rows[0].runs[0].first
        places += [Place(offset + row.runs[0].first - first, row.name, "k") for row in rows]
    return sorted(places, key=lambda place: place.offset)


FUNCTION = places_of_function(OWN)
