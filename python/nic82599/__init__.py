"""The proved model of the Intel 82599 10 GbE controller for Python: a ctypes binding of c/include/nic82599.h.

    >>> from nic82599 import Nic
    >>> with Nic() as nic:
    ...     nic["RXCTRL"] = 1
    ...     nic["RDT[3]"], hex(nic["SRRCTL[3]"]), nic.peek("GPRC")
    (0, '0x402', 0)

A new `Nic` is a controller in its power-up state. Access registers by the names of docs/REGISTERS.md or by address, and
packet memory by bus address (`nic.memory[0x800:0x83c]`). Pass frames in with `arrive` and take them out with `collect`.
The device acts in steps: `settle` runs every step that has work, and `why` explains why nothing happens. A refused call
raises an exception named after the refusal and leaves the device unchanged. The device's events are returned as small
dataclasses.

If the environment variable NIC82599_LIBRARY is set, it is the library's path. Otherwise the library is searched for in
this order: next to this file; in the clone's c/out, where `make -C c` puts it; in the prefix of a release; in the
system.

Several threads may call the same controller. If one of them closes it, the others' calls raise `Closed`. Each library
call holds the GIL, so calls run one after the other, and each result goes to its caller. A method that makes several
calls (`lend` of several blocks, `settle` with more than 256 events) lets other threads run between them. A signal
handler may make calls, too. If the handler raises, as the one for Ctrl-C does, the interrupted call has either
completed or had no effect.
"""

from __future__ import annotations

import sys

if sys.version_info < (3, 11):  # noqa: UP036
    raise ImportError(f"nic82599 needs Python 3.11 or newer; this is {sys.version_info[0]}.{sys.version_info[1]}")

if not getattr(sys, "_is_gil_enabled", lambda: True)():
    raise ImportError("nic82599 needs the interpreter's lock, which serializes calls: start Python with PYTHON_GIL=1")

import ctypes
import operator
import os
import re
from collections.abc import Callable, Iterable, Iterator
from dataclasses import dataclass
from difflib import get_close_matches
from functools import cache, partial
from typing import TYPE_CHECKING, NamedTuple, NoReturn, SupportsIndex, cast, overload

from . import places, statuses
from .buffers import bytes_of, shown_number, text_bytes
from .keeping import Lent, end_once, held
from .pcap import NoCapture, read_pcap, write_pcap
from .registers import FIELDS, OFFSETS, REGISTERS
from .version import VERSION as __version__  # noqa: F401

if TYPE_CHECKING:
    from _typeshed import WriteableBuffer

    from .buffers import HasBytes
    from .rings import Ring

__all__ = [
    "Advanced", "BadBlocks", "BadFifo", "BadMemory", "Broken", "Closed", "Done", "Dropped", "Event", "Fault", "Frame",
    "Function", "ImageRefused", "LibraryMissing", "Memory", "Message", "Nic", "NicError", "NoBlock", "NoCapture",
    "NoGroup", "NoQueue", "NoSuchRegister", "NotLent", "OutOfMemory", "Sent", "Snapshot", "Stray", "TextRefused",
    "TooLong", "TooManyVfs", "Word", "Wrote", "address_of", "edition", "fields_of", "library_version", "offset_of",
    "proved", "read_pcap", "record", "rss_hash", "vf_address", "write_pcap",
]  # fmt: skip

BLOCK_BYTES = 2048
QUEUES = 128
# The number of pools, and of queues per pool, by GCR_EXT bits 1:0.
_POOLS = ((0, 0), (16, 8), (32, 4), (64, 2))
_Room = ctypes.c_char * 16_384


# --- refusals ---


class NicError(Exception):
    """A call was refused; nothing changed. The base class of all refusals."""


class LibraryMissing(NicError):
    """The C library can't be found or loaded."""


class Broken(NicError):
    """The library had an internal fault, described on standard error. The controller can now only be closed."""


class Closed(NicError):
    """The controller was closed, or the snapshot dropped."""


class OutOfMemory(NicError, MemoryError):
    """Memory ran out."""


class TooManyVfs(NicError, ValueError):
    """A controller has 63 virtual functions at most."""


class BadFifo(NicError, ValueError):
    """The number of frames that may wait must be 1 to 4,096."""


class BadBlocks(NicError, ValueError):
    """Packet memory must have 1 to 65,536 blocks."""


class NoBlock(NicError, IndexError):
    """The block with this number can't be lent: it is already lent or doesn't exist."""


class BadMemory(NicError, ValueError):
    """Memory lent in place must begin and end at multiples of 2,048 bytes, and none of it may be lent to the controller
    already."""


class NotLent(NicError, IndexError):
    """The block with this number, or at one of these bus addresses, isn't lent."""


class NoQueue(NicError, IndexError):
    """No queue has this number; there are 128."""


class NoGroup(NicError, IndexError):
    """There is no such virtual function, or the mode has no pool for it."""


class TooLong(NicError, ValueError):
    """A hash input is at most 36 bytes long."""


class NoSuchRegister(NicError, KeyError):
    """No register has this name or index."""

    def __str__(self) -> str:
        return str(self.args[0])


class Stray(NicError, LookupError):
    """No register is at this address; the message says why. `word` is the value that a driver reads there, or None if
    the access wasn't a read."""

    def __init__(self, why: str, word: int | None = None) -> None:
        super().__init__(why + ("" if word is None else f" (it reads as 0x{word:08x})"))
        self.word = word


class ImageRefused(NicError, ValueError):
    """The bytes aren't a valid EEPROM image; the argument is the reason."""


class TextRefused(NicError, ValueError):
    """The source doesn't describe a valid EEPROM image. `why` is the reason; `at` is the line or the index, or 0 if
    there is none."""

    def __init__(self, why: str, at: int) -> None:
        super().__init__(f"{why} at {at}" if at else why)
        self.why, self.at = why, at


# --- what the device reports ---


class Word(NamedTuple):
    """The result of a read: the value, and whether the address was stray (no register there)."""

    word: int
    stray: bool


@dataclass(frozen=True)
class Done:
    """A side of a queue was enabled or disabled, or the EEPROM read completed. `step` is `qstep rx`, `qstep tx` or
    `eestep`."""

    step: str
    queue: int


@dataclass(frozen=True)
class Dropped:
    """A frame was dropped. `why` is the reason in the words of docs/script.md: `link down`, `filter`, `no slot` and so
    on."""

    why: str


@dataclass(frozen=True)
class Wrote:
    """The device wrote one buffer of a frame: `length` bytes at bus address `at`, and the descriptor at bus address
    `descriptor`. `end` is true for the frame's last buffer."""

    queue: int
    slot: int
    end: bool
    descriptor: int
    at: int
    length: int


@dataclass(frozen=True)
class Advanced:
    """The device fetched a transmit descriptor and sent no frame. `back` is the bus address of the write-back, or None
    if the device wrote nothing back."""

    queue: int
    slot: int
    back: int | None


@dataclass(frozen=True)
class Sent:
    """The device sent a frame of `length` bytes. `back` is the bus address of the write-back, or None if the device
    wrote nothing back."""

    queue: int
    length: int
    back: int | None


@dataclass(frozen=True)
class Fault:
    """The device couldn't process a slot and disabled the queue's side, `rx` or `tx`. `bus` is the address that isn't
    lent, or None if the fault has another cause."""

    side: str
    queue: int
    why: str
    bus: int | None


@dataclass(frozen=True)
class Message:
    """An interrupt message from a virtual function, or from the physical function if `function` is None."""

    function: int | None
    vector: int


@dataclass(frozen=True)
class Frame:
    """A transmitted frame, and the queue that sent it."""

    queue: int
    data: bytes


Event = Done | Dropped | Wrote | Advanced | Sent | Fault | Message


# --- the C side ---


class _Handle(ctypes.Structure):
    _fields_ = [("device", ctypes.c_void_p)]


class _Kept(ctypes.Structure):
    _fields_ = [("kept", ctypes.c_void_p)]


class _Settling(ctypes.Structure):
    _fields_ = [("queues", ctypes.c_uint16), ("at", ctypes.c_uint16)]


class _Outcome(ctypes.Structure):
    _fields_ = [
        ("desc", ctypes.c_uint64),
        ("at", ctypes.c_uint64),
        ("len", ctypes.c_uint64),
        ("bus", ctypes.c_uint64),
        ("queue", ctypes.c_uint16),
        ("slot", ctypes.c_uint16),
        ("group", ctypes.c_uint16),
        ("of", ctypes.c_uint16),
        ("status", ctypes.c_uint8),
        ("step", ctypes.c_uint8),
        ("end", ctypes.c_uint8),
        ("back", ctypes.c_uint8),
        ("why", ctypes.c_uint8),
        ("vector", ctypes.c_uint8),
    ]


_REFUSALS: dict[int, type[NicError]] = {
    statuses.NOT_LENT: NotLent,
    statuses.NO_QUEUE: NoQueue,
    statuses.NO_GROUP: NoGroup,
    statuses.OUT_OF_MEMORY: OutOfMemory,
    statuses.NO_ROOM: TooLong,
    statuses.TOO_MANY_VFS: TooManyVfs,
    statuses.BAD_FIFO: BadFifo,
    statuses.BAD_BLOCKS: BadBlocks,
    statuses.NO_BLOCK: NoBlock,
    statuses.BAD_MEMORY: BadMemory,
    statuses.CLOSED: Closed,
    statuses.BROKEN: Broken,
}
_IMAGE = {
    statuses.IMAGE_ODD_LENGTH: "OddLength",
    statuses.IMAGE_BAD_SIZE: "BadSize",
    statuses.IMAGE_SECTION_OUTSIDE: "SectionOutside",
    statuses.IMAGE_BAD_CHECKSUM: "BadChecksum",
    statuses.IMAGE_NOT_TRIPLES: "NotTriples",
}
_TEXT = {
    statuses.TEXT_SYNTAX: "Syntax",
    statuses.TEXT_TWO_VALUES: "TwoValues",
    statuses.TEXT_RESERVED: "Reserved",
    statuses.TEXT_DOES_NOT_FIT: "DoesNotFit",
    statuses.TEXT_POINTER_OUTSIDE: "PointerOutside",
    statuses.TEXT_NOT_UTF8: "Input",
}

_U8, _U16, _U32, _U64, _SIZE = ctypes.c_uint8, ctypes.c_uint16, ctypes.c_uint32, ctypes.c_uint64, ctypes.c_size_t
_BYTES, _AT, _BOOL = ctypes.c_void_p, ctypes.c_void_p, ctypes.c_bool
_NIC, _KEPT = ctypes.POINTER(_Handle), ctypes.POINTER(_Kept)
_CALLS: dict[str, list[object]] = {
    "nic_new": [_U8, _U16, _U32, _AT],
    "nic_snapshot": [_NIC, _KEPT],
    "nic_restore": [_NIC, _KEPT],
    "nic_read32": [_NIC, _U32, _AT],
    "nic_write32": [_NIC, _U32, _U32],
    "nic_vf_read32": [_NIC, _U8, _U32, _AT],
    "nic_vf_write32": [_NIC, _U8, _U32, _U32],
    "nic_peek32": [_NIC, _U32, _AT],
    "nic_vf_peek32": [_NIC, _U8, _U32, _AT],
    "nic_vf_address": [_U32, _U8, _U32, _AT],
    "nic_lend": [_NIC, _U32],
    "nic_take": [_NIC, _U32],
    "nic_lend_all": [_NIC],
    "nic_lend_memory": [_NIC, _U64, _BYTES, _SIZE],
    "nic_unlend_memory": [_NIC, _U64, _SIZE],
    "nic_dma_read": [_NIC, _U64, _BYTES, _SIZE],
    "nic_dma_write": [_NIC, _U64, _BYTES, _SIZE],
    "nic_arrive": [_NIC, _BYTES, _SIZE, _AT],
    "nic_collect": [_NIC, _BYTES, _SIZE, _AT],
    "nic_link": [_NIC, _BOOL],
    "nic_rx_step": [_NIC, _AT],
    "nic_tx_step": [_NIC, _U16, _AT],
    "nic_queue_step": [_NIC, _BOOL, _U16, _AT],
    "nic_eeprom_step": [_NIC, _AT],
    "nic_int_step": [_NIC, _U8, _AT],
    "nic_settle": [_NIC, _U16, _AT, _SIZE, _AT],
    "nic_next_step": [_NIC, _AT, _AT],
    "nic_note": [_NIC, ctypes.c_char_p],
    "nic_install_image": [_NIC, _BYTES, _SIZE],
    "nic_install_text": [_NIC, _BYTES, _SIZE, _AT],
    "nic_hash": [_BYTES, _BYTES, _SIZE, _AT],
}


def _library_path() -> str:
    """Returns the library's path; raises LibraryMissing."""
    try:
        return places.library()
    except places.Missing as missing:
        raise LibraryMissing(str(missing)) from None


_loaded: dict[str, ctypes.PyDLL] = {}


def _library(path: str | os.PathLike[str] | None = None) -> ctypes.PyDLL:
    """Returns the library, loading it at the first call."""
    place = os.fspath(path) if path is not None else _library_path()
    if place not in _loaded:
        try:
            library = ctypes.PyDLL(place)
            for name, takes in _CALLS.items():
                call = getattr(library, name)
                call.argtypes, call.restype = takes, ctypes.c_uint8
            library.nic_next_out.argtypes, library.nic_next_out.restype = [_NIC], ctypes.c_size_t
            library.nic_why.argtypes, library.nic_why.restype = [_NIC, _BYTES, _SIZE], ctypes.c_size_t
            library.nic_free.argtypes, library.nic_free.restype = [_Handle], None
            library.nic_free_snapshot.argtypes, library.nic_free_snapshot.restype = [_Kept], None
            library.nic_record.argtypes, library.nic_record.restype = [ctypes.c_char_p], ctypes.c_bool
            library.nic_version.argtypes, library.nic_version.restype = [], ctypes.c_char_p
            library.nic_is_proved.argtypes, library.nic_is_proved.restype = [], ctypes.c_bool
            library.nic_edition.argtypes, library.nic_edition.restype = [], ctypes.c_char_p
        except (OSError, AttributeError) as fault:
            raise LibraryMissing(f"{place} isn't the controller's library: {fault}") from fault
        _loaded[place] = library
    return _loaded[place]


def proved() -> bool:
    """Returns whether the library's device is the proved one. Otherwise it was compiled from the same sources without
    proof.

    >>> proved() in (True, False)
    True
    """
    return bool(_library().nic_is_proved())


def edition() -> str:
    """Returns the library's edition: "proved", "plain" or "unproved" (see nic_edition in nic82599.h).

    >>> edition() in ("proved", "plain", "unproved")
    True
    """
    return str(_library().nic_edition().decode())


def library_version() -> str:
    """Returns the library's version; `__version__` is the package's version.

    >>> library_version() == __version__
    True
    """
    return str(_library().nic_version().decode())


def record(path: str | os.PathLike[str] | None) -> bool:
    """Records each controller created from now on: the first in the file at this path, the next in PATH.2, PATH.3
    and so on. %p in the path is replaced by the process ID. None stops recording new controllers. Returns False,
    with a message on standard error, if the file can't be written. Until this is called, the environment variable
    NIC82599_RECORD supplies the path. `tools/nicview PATH` draws a recording.

    >>> record(None)
    True
    """
    name = None if path is None else os.fsencode(path)
    if name and b"\0" in name:
        raise ValueError(f"a path can't contain a zero byte: {path!r}")
    return bool(_library().nic_record(name))


def _refused(status: int, text: str) -> NicError:
    kind = _REFUSALS.get(status)
    return kind(f"{kind.__doc__} ({text})") if kind else NicError(f"unknown status {status} from {text}")


def _whole(value: int, bits: int, what: str) -> int:
    """Checks that a number fits in `bits` bits, because ctypes would truncate it. Raises ValueError."""
    number = operator.index(value)
    if not 0 <= number < 1 << bits:
        raise ValueError(f"{what} {shown_number(number)} doesn't fit into {bits} bits")
    return number


def _size(given: int, bits: int, refusal: type[NicError], what: str) -> int:
    """Checks that a controller's size fits the C parameter; raises `refusal` if not."""
    number = operator.index(given)
    if not 0 <= number < 1 << bits:
        raise refusal(f"{refusal.__doc__} ({shown_number(number)} {what})")
    return number


def _side(side: str) -> str:
    """Returns the side if it is `rx` or `tx`; raises ValueError otherwise."""
    if side not in ("rx", "tx"):
        raise ValueError(f"a queue has the sides rx and tx, not {side!r}")
    return side


# --- names ---

# An index has at most three digits after any leading zeros.
_NAME = re.compile(r"(\w+?)(?:\[(\d{1,9})\])?")
# The maximum number of characters of an unknown name that are compared and shown.
_NAME_SHOWN = 40


def _no_name(name: str, names: Iterable[str]) -> NoSuchRegister:
    near = get_close_matches(name[:_NAME_SHOWN].split("[")[0].upper(), list(names), 3, 0.6)
    shown = name if len(name) <= _NAME_SHOWN else f"{name[:_NAME_SHOWN]}.. ({len(name):,} characters)"
    return NoSuchRegister(f"no register {shown}" + (f"; did you mean {', '.join(near)}?" if near else ""))


@cache
def address_of(name: str) -> int:
    """Returns the address of a register by its name, such as `RDT[3]`. Without an index, it is index 0. Raises
    NoSuchRegister."""
    found = _NAME.fullmatch(name.strip())
    if not found or found[1] not in REGISTERS:
        raise _no_name(name, REGISTERS)
    index = int(found[2] or 0)
    for first_index, first, stride, count in REGISTERS[found[1]]:
        if first_index <= index < first_index + count:
            return first + stride * (index - first_index)
    count = sum(run[3] for run in REGISTERS[found[1]])
    raise NoSuchRegister(f"no register {name}: {found[1]} has {count}")


@cache
def offset_of(name: str) -> int:
    """Returns the offset of a virtual function's register by its name, such as `VFRDT[1]` or `VTEIMS`. Raises
    NoSuchRegister."""
    found = _NAME.fullmatch(name.strip())
    if not found or found[1] not in OFFSETS:
        raise _no_name(name, OFFSETS)
    offset, stride, count = OFFSETS[found[1]]
    index = int(found[2] or 0)
    if index >= count:
        raise NoSuchRegister(
            f"no register {name}: a virtual function has at most eight queues and 16 words of mailbox memory"
        )
    return offset + stride * index


def fields_of(name: str, word: int) -> dict[str, int]:
    """Splits a register's value into fields, by the datasheet's names. Returns an empty dict if the register has no
    fields or the name is unknown."""
    fields = FIELDS.get(name.split("[")[0], {})
    return {field: word >> low & (1 << high - low + 1) - 1 for field, (high, low) in fields.items()}


def rss_hash(key: HasBytes, data: HasBytes) -> int:
    """Returns the RSS hash of at most 36 bytes under a 40-byte key. Raises TooLong for more data, ValueError for
    another key length."""
    key, data = bytes_of(key), bytes_of(data)
    if len(key) != 40:
        raise ValueError(f"a key is 40 bytes long, not {len(key)}")
    word = ctypes.c_uint32()
    status = _library().nic_hash(key, data, len(data), ctypes.byref(word))
    if status != statuses.DONE:
        raise _refused(status, f"{len(data)} bytes")
    return word.value


def vf_address(gcr_ext: int, function: int, offset: str | int) -> int:
    """Returns the address at which the physical function sees a virtual function's register. The register is a name
    such as `VFRDT[1]` or an offset; `gcr_ext`, a value of GCR_EXT, selects the mode. Raises NoGroup if the mode has no
    pool for the function or the function's number is above 62. Raises Stray if the function has no register there.

    >>> vf_address(3, 3, "VFRDT[1]") == address_of("RDT[7]")  # 64 pools of two queues
    True
    """
    at = offset_of(offset) if isinstance(offset, str) else _whole(offset, 32, "offset")
    word, number = _whole(gcr_ext, 32, "word"), _whole(function, 8, "function")
    address = ctypes.c_uint32()
    status = _library().nic_vf_address(word, number, at, ctypes.byref(address))
    if status == statuses.STRAY:
        raise Stray(f"0x{at:05x} isn't a register of virtual function {number} (GCR_EXT 0x{word:08x})")
    if status != statuses.DONE:
        raise _refused(status, f"virtual function {number}, GCR_EXT 0x{word:08x}")
    return address.value


class _OneOwner:
    """Owns memory that the library allocated. Can't be copied, because the copy would free it again."""

    _copied_by = ""

    def __reduce_ex__(self, _protocol: SupportsIndex) -> NoReturn:
        raise TypeError(f"a {type(self).__name__} can't be copied or pickled: {self._copied_by}")


class _Registers:
    """Access to registers by name, or by number: an address, or a virtual function's offset. Subclasses implement the
    accesses."""

    # Prevents a loop over the registers, which would read them one by one.
    __iter__ = None
    _names: Iterable[str] = ()

    def __contains__(self, name: str | int) -> bool:
        """Returns whether a register has this name or number and exists in the current mode. Reads no register."""
        try:
            return self.peek32(self._at(name)) is not None
        except (NoSuchRegister, ValueError):
            return False

    def _ipython_key_completions_(self) -> list[str]:
        """Returns the names that IPython completes after `nic["`."""
        return list(self._names)

    def _at(self, name: str | int) -> int:
        raise NotImplementedError

    def read32(self, at: int) -> Word:
        """Reads a register by number, with all side effects. Doesn't raise if there is no such register."""
        raise NotImplementedError

    def write32(self, at: int, word: int) -> bool:
        """Writes a register by number. Returns whether that register exists."""
        raise NotImplementedError

    def peek32(self, at: int) -> int | None:
        """Returns the value that a read would return, without its side effects; None if there is no such register."""
        raise NotImplementedError

    def _why_stray(self, name: str | int, at: int) -> str:
        """Returns why there is no register at `at`. `name` is what the caller passed: a name or a number."""
        raise NotImplementedError

    def __getitem__(self, name: str | int) -> int:
        """Reads a register by name or number. Raises Stray or NoSuchRegister."""
        at = self._at(name)
        word, stray = self.read32(at)
        if stray:
            raise Stray(self._why_stray(name, at), word)
        return word

    def __setitem__(self, name: str | int, word: int) -> None:
        """Writes a register by name or number. Raises Stray or NoSuchRegister."""
        at = self._at(name)
        if not self.write32(at, word):
            raise Stray(self._why_stray(name, at))

    def peek(self, name: str | int) -> int:
        """Returns the value that a read would return, without its side effects. Raises Stray or NoSuchRegister."""
        at = self._at(name)
        word = self.peek32(at)
        if word is None:
            raise Stray(self._why_stray(name, at))
        return word


class Function(_Registers):
    """A virtual function of a controller. Its registers have the names in docs/REGISTERS.md."""

    _names = OFFSETS

    def __init__(self, nic: Nic, number: int) -> None:
        self.nic, self.number = nic, number

    def _at(self, name: str | int) -> int:
        return offset_of(name) if isinstance(name, str) else _whole(name, 32, "offset")

    def _why_stray(self, name: str | int, at: int) -> str:
        function, vfs = f"virtual function {self.number}", self.nic.vfs
        if self.number >= vfs:
            return f"no {function}: the controller has {f'{vfs}, numbered from 0' if vfs else 'none'}"
        pools, queues = _POOLS[self.nic.peek("GCR_EXT") & 3]
        if self.number >= pools:
            return f"{function} has no pool: GCR_EXT bits 1:0 select {pools or 'no'} pools"
        if isinstance(name, str):
            return f"{function} has no {name} (0x{at:05x}): its pool has {queues} queues"
        return f"0x{at:05x} isn't a register of {function}"

    def _read(self, call: str, at: int) -> Word:
        word = ctypes.c_uint32()
        status = self.nic._call(call, self.number, _whole(at, 32, "offset"), ctypes.byref(word))
        return Word(word.value, status == statuses.STRAY)

    def read32(self, at: int) -> Word:
        return self._read("nic_vf_read32", at)

    def write32(self, at: int, word: int) -> bool:
        given = _whole(word, 32, "word")
        return self.nic._call("nic_vf_write32", self.number, _whole(at, 32, "offset"), given) == statuses.DONE

    def peek32(self, at: int) -> int | None:
        word, stray = self._read("nic_vf_peek32", at)
        return None if stray else word

    def __repr__(self) -> str:
        return f"<virtual function {self.number} of {self.nic!r}>"


class Memory:
    """Lent packet memory by bus address. `memory[a]` is a byte. `memory[a:b]` is the bytes from a up to b; assign it
    the same number of bytes. Raises NotLent if one of the bytes isn't lent; then nothing is read or written. `in`
    reports whether a byte is lent. With `lend` the device uses a buffer's own bytes, without copies."""

    # Prevents a loop over the memory, which would read it byte by byte.
    __iter__ = None

    def __init__(self, nic: Nic) -> None:
        self._nic = nic

    def lend(self, bus: int, buffer: WriteableBuffer) -> None:
        """Lends the bytes of a writable buffer (a bytearray, an mmap, an array) in place, starting at bus address
        `bus`. The device reads and writes them where they are, and so may your program between two calls. The bus
        address and the number of bytes must be multiples of 2,048. The buffer is kept, and can't be resized or closed,
        until `unlend`, `Nic.take` or `Nic.close`.

        Raises BadMemory, NoBlock, OutOfMemory, and TypeError for a buffer that is read-only or that ctypes.resize can
        move; then none of it is lent. If a signal handler raises during the call, the buffer is either both lent and
        kept, or neither. Don't call numpy's `resize` with refcheck=False on a lent array: it moves the bytes."""
        if self._nic._before_lending:
            self._nic._before_lending()
        at, buffer = _whole(bus, 64, "bus address"), held(buffer)
        words = at, ctypes.addressof(buffer), len(buffer)
        self._noted("nic_lend_memory", words, self._blocks(at, len(buffer)), buffer)

    def unlend(self, bus: int, length: int) -> None:
        """Takes back memory lent in place, or a part of it; its bytes stay as they are. Raises BadMemory, and NotLent
        if part of it isn't lent in place; then nothing is taken back."""
        words = _whole(bus, 64, "bus address"), _whole(length, 64, "length")
        self._noted("nic_unlend_memory", words, self._blocks(*words))

    def _take(self, block: int) -> None:
        """Takes back one block."""
        self._noted("nic_take", (block,), range(block, block + 1))

    def _noted(self, name: str, words: tuple[int, ...], blocks: range, buffer: object = None) -> None:
        """Calls a function that lends or takes back blocks, and records the buffer if the call succeeds. Raises if the
        call is refused."""
        nic = self._nic
        nic._answer(name, words, nic._lent.noted(nic._bound(name, *words), blocks, buffer))

    @staticmethod
    def _blocks(bus: int, length: int) -> range:
        return range(bus // BLOCK_BYTES, (bus + length) // BLOCK_BYTES)

    def read(self, bus: int, length: int) -> bytes:
        """Reads `length` bytes, starting at bus address `bus`."""
        at, count = _whole(bus, 64, "bus address"), _whole(length, 32, "length")
        if count and at + count > self._nic._most_memory:
            self._nic._refuse_closed()
            raise _refused(statuses.NOT_LENT, f"dma_read {at}, {count}")
        room = ctypes.create_string_buffer(max(count, 1))
        self._nic._ask("nic_dma_read", at, room, count)
        return room.raw[:count]

    def write(self, bus: int, data: HasBytes) -> None:
        """Writes bytes, starting at bus address `bus`. An array is written as its raw bytes, whatever its item size."""
        given = bytes_of(data)
        self._nic._ask("nic_dma_write", _whole(bus, 64, "bus address"), given, len(given))

    def _range(self, part: slice) -> tuple[int, int]:
        if part.start is None or part.stop is None or part.step is not None:
            raise ValueError("a range of memory needs both ends and no step: memory[0x800:0x83c]")
        start, stop = operator.index(part.start), operator.index(part.stop)
        if stop < start:
            raise ValueError(
                f"the range of memory ends before it begins: {shown_number(start)} to {shown_number(stop)}"
            )
        return start, stop - start

    @overload
    def __getitem__(self, at: int) -> int: ...

    @overload
    def __getitem__(self, at: slice) -> bytes: ...

    def __getitem__(self, at: int | slice) -> int | bytes:
        if isinstance(at, slice):
            return self.read(*self._range(at))
        return self.read(at, 1)[0]

    @overload
    def __setitem__(self, at: int, data: int) -> None: ...

    @overload
    def __setitem__(self, at: slice, data: HasBytes) -> None: ...

    def __setitem__(self, at: int | slice, data: int | HasBytes) -> None:
        if not isinstance(at, slice):
            self.write(at, bytes([operator.index(cast(int, data))]))
            return
        start, length = self._range(at)
        given = bytes_of(cast("HasBytes", data))
        if len(given) != length:
            raise ValueError(f"{len(given)} bytes don't fit a range of {length} bytes")
        self.write(start, given)

    def __contains__(self, at: int) -> bool:
        """Returns whether the byte at a bus address is lent."""
        try:
            self.read(at, 1)
        except (NotLent, ValueError):
            return False
        return True


class Snapshot(_OneOwner):
    """A saved state of a controller, made by `Nic.snapshot`. Freed by `drop`, or at the end of a `with` block."""

    _copied_by = "you can restore it any number of times"

    def __init__(self, nic: Nic) -> None:
        if "_kept" in vars(self):
            self.drop()
        self._kept = _Kept()
        self._library = nic._library
        self.vfs, self.fifo, self.blocks = nic.vfs, nic.fifo, nic.blocks
        nic._ask("nic_snapshot", self._kept)

    def drop(self) -> None:
        """Frees the snapshot and its memory. Idempotent."""
        end_once(self._library.nic_free_snapshot, self._kept)

    def __enter__(self) -> Snapshot:
        return self

    def __exit__(self, *_fault: object) -> None:
        self.drop()

    def __del__(self) -> None:
        if hasattr(self, "_library") and self._kept.kept:
            self.drop()

    def __repr__(self) -> str:
        ended = "" if self._kept.kept else ", dropped"
        return f"<Snapshot of {self.vfs} virtual functions and {self.blocks} blocks{ended}>"


# Called with each controller after it is created and before it is closed. The pytest plugin sets it.
_watcher: Callable[[Nic], None] | None = None


class Nic(_Registers, _OneOwner):
    """A controller in its power-up state. It has `vfs` virtual functions (at most 63), room for `fifo` frames waiting
    to be received (1 to 4,096), and `blocks` blocks of packet memory (1 to 65,536). No block is lent. Freed by `close`,
    or at the end of a `with` block. Raises TooManyVfs, BadFifo, BadBlocks, OutOfMemory or LibraryMissing."""

    _names = REGISTERS
    _copied_by = "`snapshot` saves its state, and `restore` loads it into another controller"

    def __init__(
        self, vfs: int = 0, fifo: int = 64, blocks: int = 256, *, library: str | os.PathLike[str] | None = None
    ) -> None:
        is_again = "_lent" in vars(self)
        if is_again:
            self.close()
        self._library = _library(library)
        self._handle = _Handle()
        if not is_again:
            self._lent = Lent(self._is_closed)
        # The explorer sets this, to refuse lending memory in place.
        self._before_lending: Callable[[], None] | None = None
        self._note_sizes(vfs, fifo, blocks)
        status = self._library.nic_new(self.vfs, self.fifo, self.blocks, ctypes.byref(self._handle))
        if status != statuses.DONE:
            raise _refused(status, f"{self.vfs} virtual functions, {self.fifo} frames, {self.blocks} blocks")
        if _watcher:
            _watcher(self)

    def _note_sizes(self, vfs: int, fifo: int, blocks: int) -> None:
        sizes = (
            (vfs, 8, TooManyVfs, "virtual functions"), (fifo, 16, BadFifo, "frames"), (blocks, 32, BadBlocks, "blocks")
        )  # fmt: skip
        self.vfs, self.fifo, self.blocks = (_size(*it) for it in sizes)
        # An upper bound on the number of bytes lent at any time so far.
        self._most_memory = self.blocks * BLOCK_BYTES
        self.memory = Memory(self)

    def close(self) -> None:
        """Frees the controller with its memory and frames. Idempotent."""
        if _watcher and not self._is_closed():
            _watcher(self)
        end_once(self._library.nic_free, self._handle)
        self._lent.take_in()

    def __enter__(self) -> Nic:
        return self

    def __exit__(self, *_fault: object) -> None:
        self.close()

    def __del__(self) -> None:
        if hasattr(self, "_lent") and not self._is_closed():
            self.close()

    def __repr__(self) -> str:
        ended = ", closed" if self._is_closed() else ""
        return f"<Nic of {self.vfs} virtual functions and {self.blocks} blocks{ended}>"

    def _is_closed(self) -> bool:
        return self._handle.device is None

    def _refuse_closed(self) -> None:
        if self._handle.device is None:
            raise Closed("the controller was closed")

    def _bound(self, name: str, *words: object) -> Callable[[], int]:
        """Binds a library call to its arguments."""
        return partial(getattr(self._library, name), self._handle, *words)

    def _call(self, name: str, *words: object) -> int:
        """Calls a library function and returns its status. Raises Closed or Broken."""
        status = cast(int, getattr(self._library, name)(self._handle, *words))
        if status == statuses.CLOSED:
            self._refuse_closed()
        if status == statuses.BROKEN:
            raise _refused(status, name)
        return status

    def _count(self, name: str, *words: object) -> int:
        """Calls a library function that returns a count. Raises Closed."""
        self._refuse_closed()
        return cast(int, getattr(self._library, name)(self._handle, *words))

    def _answer(self, name: str, words: tuple[object, ...], status: int) -> None:
        """Raises the exception for a call's status, unless the call succeeded."""
        if status == statuses.CLOSED:
            self._refuse_closed()
        if status != statuses.DONE:
            shown = ", ".join(str(word) for word in words if isinstance(word, int))
            raise _refused(status, f"{name.removeprefix('nic_')} {shown}".strip())

    def _ask(self, name: str, *words: object) -> None:
        """Calls a library function that has no other result. Raises if it is refused."""
        self._answer(name, words, self._call(name, *words))

    # --- snapshots ---

    def snapshot(self) -> Snapshot:
        """Saves the controller: registers, lent blocks with their bytes, frames waiting, staged or transmitted, the
        link state, and the EEPROM image. The controller doesn't change. Raises OutOfMemory."""
        return Snapshot(self)

    def restore(self, kept: Snapshot) -> None:
        """Restores a snapshot of this controller or of another one, as often as you like. Raises OutOfMemory, and
        Closed if the snapshot was dropped; then the controller is unchanged."""
        if kept._library is not self._library:
            raise ValueError("the snapshot is from another library, so this controller can't restore it")
        # Set before the call: if a signal handler raises right after it, the bound is still large enough.
        self._most_memory = max(self._most_memory, kept.blocks * BLOCK_BYTES)
        status = self._call("nic_restore", kept._kept)
        if status == statuses.CLOSED:
            raise Closed("the snapshot was dropped")
        self._answer("nic_restore", (), status)
        self.vfs, self.fifo, self.blocks = kept.vfs, kept.fifo, kept.blocks

    # --- registers ---

    def _at(self, name: str | int) -> int:
        return address_of(name) if isinstance(name, str) else _whole(name, 32, "address")

    def _why_stray(self, name: str | int, at: int) -> str:
        return f"0x{at:05x} isn't a register"

    def _read(self, call: str, at: int) -> Word:
        word = ctypes.c_uint32()
        status = self._call(call, _whole(at, 32, "address"), ctypes.byref(word))
        return Word(word.value, status == statuses.STRAY)

    def read32(self, at: int) -> Word:
        return self._read("nic_read32", at)

    def write32(self, at: int, word: int) -> bool:
        return self._call("nic_write32", _whole(at, 32, "address"), _whole(word, 32, "word")) == statuses.DONE

    def peek32(self, at: int) -> int | None:
        word, stray = self._read("nic_peek32", at)
        return None if stray else word

    def vf(self, number: int) -> Function:
        """Returns a virtual function: `nic.vf(2)["VTEIMS"]`. If there is none, its registers are stray and read as
        0xFFFFFFFF."""
        return Function(self, _whole(number, 8, "virtual function"))

    # --- packet memory ---

    def lend(self, *blocks: int) -> None:
        """Lends these blocks, zero-filled, or without arguments every block that isn't lent yet. Raises NoBlock at the
        first one that can't be lent."""
        for block in blocks:
            self._ask("nic_lend", _whole(block, 32, "block"))
        if not blocks:
            self._ask("nic_lend_all")

    def take(self, *blocks: int) -> None:
        """Takes back these blocks; their contents are lost. Raises NotLent at the first one that isn't lent."""
        for block in blocks:
            self.memory._take(_whole(block, 32, "block"))

    def ring(self, side: str, queue: int) -> Ring:
        """Returns the current contents of the `rx` or `tx` ring of a queue. The result prints as lines of text; a
        notebook shows a table. The device doesn't change. Raises NoQueue or ValueError."""
        from .rings import ring_of

        return ring_of(self, _side(side), _whole(queue, 16, "queue"))

    # --- the link ---

    def arrive(self, frame: HasBytes) -> Dropped | None:
        """Delivers a frame, without its CRC, to the controller. Returns None if the frame is now waiting for receive
        steps, and otherwise the `Dropped` event."""
        given = bytes_of(frame)
        event = self._event("nic_arrive", given, len(given))
        return event if isinstance(event, Dropped) else None

    def next_out(self) -> int:
        """Returns the length of the frame that `collect` would return; 0 if there is none."""
        return self._count("nic_next_out")

    def collect(self) -> Frame | None:
        """Takes the oldest transmitted frame. Returns None if there is none."""
        while True:
            length = self.next_out()
            room = _Room() if length <= ctypes.sizeof(_Room) else ctypes.create_string_buffer(length)
            outcome = _Outcome()
            status = self._call("nic_collect", room, len(room), ctypes.byref(outcome))
            if status == statuses.IDLE:
                return None
            if status == statuses.FRAME:
                return Frame(outcome.queue, ctypes.string_at(room, outcome.len))
            if status != statuses.NO_ROOM:  # another thread took that frame, and the next one is longer
                raise _refused(status, "collect")

    def link(self, up: bool) -> bool:
        """Sets the link up or down. Returns False if the link is already in this state."""
        return self._call("nic_link", bool(up)) == statuses.DONE

    def note(self, text: str) -> None:
        """Adds a comment to this controller's recording, before the next call; `tools/nicview` shows it."""
        self._call("nic_note", text_bytes(text).replace(b"\0", b"?"))

    # --- steps ---

    def _event(self, call: str, *words: object) -> Event | None:
        """Runs a step and returns its event; None if the step was idle."""
        outcome = _Outcome()
        status = self._call(call, *words, ctypes.byref(outcome))
        if status == statuses.IDLE:
            return None
        if status not in _TELLERS:
            shown = ", ".join(str(word) for word in words if isinstance(word, int))
            raise _refused(status, f"{call.removeprefix('nic_')} {shown}".strip())
        # The single-step calls don't fill in the step.
        outcome.step = statuses.STEPS.index("rx" if call == "nic_rx_step" else "tx")
        return _TELLERS[status](outcome)

    def rx_step(self) -> Wrote | Dropped | Fault | None:
        """Writes one buffer of the frame that has waited longest."""
        return cast("Wrote | Dropped | Fault | None", self._event("nic_rx_step"))

    def tx_step(self, queue: int) -> Advanced | Sent | Fault | None:
        """Fetches one descriptor of a transmit queue. Raises NoQueue or OutOfMemory."""
        return cast("Advanced | Sent | Fault | None", self._event("nic_tx_step", _whole(queue, 16, "queue")))

    def queue_step(self, side: str, queue: int) -> bool:
        """Enables or disables a queue's `rx` or `tx` side, as bit 25 of RXDCTL or TXDCTL requests. Returns False if
        there was nothing to change. Raises NoQueue."""
        return self._event("nic_queue_step", _side(side) == "tx", _whole(queue, 16, "queue")) is not None

    def eeprom_step(self) -> bool:
        """Completes the read that EERD started. Returns False if there was none."""
        return self._event("nic_eeprom_step") is not None

    def int_step(self, function: int | None = None) -> Message | None:
        """Sends the next interrupt message from the physical function, or from a virtual one. Returns None if there is
        none. Raises NoGroup."""
        group = 0 if function is None else _whole(function, 8, "virtual function") + 1
        if group > 255:
            raise NoGroup(f"{NoGroup.__doc__} ({group - 1})")
        return cast("Message | None", self._event("nic_int_step", group))

    def settle(self, queues: int = QUEUES) -> list[Event]:
        """Runs steps for the queues below `queues` until no step has work, and returns the events in order. Each round
        runs each queue's receive and transmit enables, the EEPROM step, a transmit step per queue, a receive step, and
        one message per group. A new round begins after every 256 events. Raises NoQueue if `queues` is above 128, and
        OutOfMemory."""
        events: list[Event] = []
        outcomes, count = (_Outcome * 256)(), ctypes.c_size_t()
        given = _whole(queues, 16, "number of queues")
        while True:
            status = self._call("nic_settle", given, ctypes.byref(outcomes), len(outcomes), ctypes.byref(count))
            events += [_TELLERS[it.status](it) for it in outcomes[: count.value]]
            if status == statuses.DONE:
                return events
            if status != statuses.MORE:
                raise _refused(status, f"settle {given}")

    def steps(self, queues: int = QUEUES) -> Iterator[Event]:
        """Runs the same steps as `settle`, in the same order: one each time you take the next event from the iterator.
        Your driver can thus act on an event before the device continues, as an interrupt handler does. Raises NoQueue
        if `queues` is above 128, and OutOfMemory.

        >>> with Nic() as nic:
        ...     nic["EIMS"] = nic["EICS"] = 3
        ...     for event in nic.steps(1):
        ...         nic["EIMC"] = 3         # the handler masks both causes, so the second sends none
        ...         event
        Message(function=None, vector=0)
        """
        given = _whole(queues, 16, "number of queues")
        where, outcome = _Settling(given, 0), _Outcome()
        while (status := self._call("nic_next_step", ctypes.byref(where), ctypes.byref(outcome))) == statuses.MORE:
            yield _TELLERS[outcome.status](outcome)
        if status != statuses.DONE:
            raise _refused(status, f"steps {given}")

    # --- why nothing happens ---

    def why(self) -> str:
        """Explains what blocks progress, one reason per line: for each waiting frame, each queue with pending work, and
        each cause that has no message. Also lists the dropped frames. Empty if nothing is waiting and nothing was
        dropped. Changes nothing; lent memory is copied during the call. With the environment variable NIC82599_TELL=1,
        faults, drops and stray accesses are reported on standard error as they happen.

        >>> with Nic() as nic:
        ...     nic.lend()
        ...     nic["RDLEN"], nic["SRRCTL"], nic["RXDCTL"], nic["RXCTRL"] = 128, 0x0200_0002, 0x0200_0000, 1
        ...     print(nic.why())
        rx 0: RXDCTL[0].ENABLE 0: the queue is off; an enable request is pending, but no `qstep rx 0` followed
        """
        text = ctypes.create_string_buffer(4096)
        while (length := self._count("nic_why", text, len(text))) >= len(text):
            text = ctypes.create_string_buffer(length + 1)
        return text.value.decode().rstrip("\n")

    # --- the EEPROM ---

    def install_image(self, image: HasBytes) -> None:
        """Installs an EEPROM image as `nicbench eeprom` produces it. Raises ImageRefused or OutOfMemory."""
        given = bytes_of(image)
        status = self._call("nic_install_image", given, len(given))
        if status in _IMAGE:
            raise ImageRefused(_IMAGE[status])
        if status != statuses.DONE:
            raise _refused(status, "install_image")

    def install_text(self, text: str) -> None:
        """Assembles the source of an EEPROM image and installs the image. Raises TextRefused or OutOfMemory."""
        given, line = text_bytes(text), ctypes.c_uint64()
        status = self._call("nic_install_text", given, len(given), ctypes.byref(line))
        if status in _TEXT:
            raise TextRefused(_TEXT[status], line.value)
        if status != statuses.DONE:
            raise _refused(status, "install_text")


_TELLERS: dict[int, Callable[[_Outcome], Event]] = {
    statuses.DONE: lambda it: Done(statuses.STEPS[it.step], it.of),
    statuses.DROPPED: lambda it: Dropped(statuses.WHYS[it.why]),
    statuses.WROTE: lambda it: Wrote(it.queue, it.slot, bool(it.end), it.desc, it.at, it.len),
    statuses.ADVANCED: lambda it: Advanced(it.queue, it.slot, it.at if it.back else None),
    statuses.SENT: lambda it: Sent(it.queue, it.len, it.at if it.back else None),
    statuses.FAULT: lambda it: Fault(
        statuses.STEPS[it.step],
        it.queue,
        statuses.FAULTS[it.why],
        it.bus if it.why == statuses.FAULT_NOT_LENT else None,
    ),
    statuses.MESSAGE: lambda it: Message(it.group - 1 if it.group else None, it.vector),
}
