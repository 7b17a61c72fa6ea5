"""Binds the card's library with ctypes: the calls that a driver makes, the calls that the card makes, and the program
that runs rows.

Each function of the driver runs on a thread that the library created (c/explore/python). If the schedule ends during a
call, the call raises `Over`, which unwinds the driver's function; its later actions don't count.
"""

from __future__ import annotations

import ctypes
import gc
import mmap
import os
import sys
from collections.abc import Callable
from functools import partial
from pathlib import Path
from typing import TYPE_CHECKING, Any

from .. import dma, places, stacks
from ..sources import MOST_LINES, Source, places_of, put_lines
from ..stacks import BEGIN_THREAD, CALL, LINES, OVER, RAISED, Conditions, Over, calls_of
from ..tools.printable import printable
from .values import MAILBOX_WORDS, MOST_FRAME, Filter, Rss, Setup

if TYPE_CHECKING:
    from . import Driver

REFUSED = 2
NAME = "libnic82599_drive.so"
MOST_WORDS, MOST_TRACEBACK = 120, 16_384
ANY_WORD = 1 << 32
# The size of a card's packet memory in bytes. Its first block is never allocated.
MOST_DMA = 524_288

# The functions that the card calls, in the order of c/drive/python/calls.c. `receive` and all after
# it are optional, except `condition`.
FUNCTIONS = (
    "begin", "open", "close", "receive", "send", "reclaim", "interrupt", "rearm", "thread", "filter", "rss", "mtu",
    "resize", "reset", "suspend", "resume", "link", "mailbox_send", "mailbox_receive", "mailbox_ready", "stats",
    "condition",
)  # fmt: skip
OPTIONAL = FUNCTIONS[3:-1]

_U8, _U16, _U32, _U64, _SIZE = ctypes.c_uint8, ctypes.c_uint16, ctypes.c_uint32, ctypes.c_uint64, ctypes.c_size_t
_BOOL = ctypes.c_bool
_source = Source(os.path.dirname(__file__) + os.sep, dma.__file__, stacks.__file__)


class Failed(Exception):
    """The driver reported a failure."""


class Refused(Exception):
    """The driver or the program's arguments can't be used; the message is one line."""


_CALLS: dict[str, list[Any]] = {
    "dma_alloc": [_SIZE],
    "dma_free": [_U64],
    "alloc": [_SIZE],
    "free": [_U64],
    "deliver": [_U16, ctypes.c_char_p, _U32],
}


class _Setup(ctypes.Structure):
    _fields_ = [
        ("port", _U8), ("queues", _U16), ("slots", _U16), ("frame", _U32), ("interrupts", _BOOL), ("address", _U8 * 6),
        ("functions", _U8),
    ]  # fmt: skip


class _Frame(ctypes.Structure):
    _fields_ = [("length", _U32), ("hash", _U32)]  # the frame's bytes follow


class _Filter(ctypes.Structure):
    _fields_ = [
        ("all_unicast", _BOOL), ("all_multicast", _BOOL), ("broadcast", _BOOL), ("count", _U32),
        ("address", _U8 * 6 * 4),
    ]  # fmt: skip


class _Rss(ctypes.Structure):
    _fields_ = [("key", _U8 * 40), ("table", _U8 * 128), ("types", _U32)]


class _Driver(ctypes.Structure):
    _fields_ = [
        ("name", ctypes.c_char_p), ("can", _U32), ("has", _U32), ("threads", _U32), ("frame", _U32), ("queues", _U16),
        ("slots", _U16), ("call", CALL), ("begin_thread", BEGIN_THREAD), ("lines", LINES),
    ]  # fmt: skip


# --- results of a driver's functions ---


def _bool(name: str, answer: object) -> int:
    if answer is True or answer is False:
        return int(answer)
    raise TypeError(f"{name} returned {type(answer).__name__}, not True or False")


def _number(name: str, answer: object) -> int:
    if isinstance(answer, int) and not isinstance(answer, bool) and 0 <= answer < ANY_WORD:
        return answer
    shown = answer if isinstance(answer, int) else type(answer).__name__
    raise TypeError(f"{name} returned {shown}, not a number from 0 to 4,294,967,295")


def _count(answer: object) -> int:
    if isinstance(answer, int) and not isinstance(answer, bool) and 0 <= answer < ANY_WORD**2:
        return answer
    raise TypeError(f"stats returned {answer!r:.40}, not four 64-bit counts")


def _nothing(_name: str, _answer: object) -> int:
    return 0


def _put_frame(answer: object, place: int) -> int:
    """Writes a frame to the card's buffer. If the frame is too long, writes its length and as many bytes as fit."""
    if answer is None:
        return 0
    data, number = answer if isinstance(answer, tuple) and len(answer) == 2 else (answer, 0)
    if not isinstance(data, (bytes, bytearray, memoryview)):
        raise TypeError(f"receive returned {type(answer).__name__}, not bytes, bytes with a hash, or None")
    data = bytes(data)
    frame = _Frame.from_address(place)
    frame.length, frame.hash = len(data), _number("receive", number)
    ctypes.memmove(place + ctypes.sizeof(_Frame), data, min(len(data), MOST_FRAME))
    return 1


def _put_words(answer: object, place: int) -> int:
    if answer is None:
        return 0
    if not isinstance(answer, (list, tuple)) or len(answer) != MAILBOX_WORDS:
        raise TypeError(f"mailbox_receive returned {type(answer).__name__}, not 16 words or None")
    room = (_U32 * MAILBOX_WORDS).from_address(place)
    room[:] = [_number("mailbox_receive", word) for word in answer]
    return 1


def _put_stats(answer: object, place: int) -> int:
    if not isinstance(answer, tuple) or len(answer) != 4:
        raise TypeError(f"stats returned {type(answer).__name__}, not Stats")
    room = (_U64 * 4).from_address(place)
    room[:] = [_count(count) for count in answer]
    return 1


# The functions that take only numbers: how many they take, and how their result is converted.
_PLAIN: dict[str, tuple[int, Callable[[str, object], int]]] = {
    "close": (0, _nothing),
    "reclaim": (1, _number),
    "interrupt": (1, _number),
    "rearm": (1, _nothing),
    "thread": (1, _nothing),
    "mtu": (1, _bool),
    "resize": (1, _bool),
    "reset": (0, _bool),
    "suspend": (0, _bool),
    "resume": (0, _bool),
    "link": (0, _bool),
    "mailbox_ready": (0, _bool),
}


def _words_of(fault: BaseException) -> str:
    """Returns an exception's message and location in one line."""
    text = printable(" ".join(str(fault).split()))
    text = text if isinstance(fault, Failed) else f"{type(fault).__name__}{': ' * bool(text)}{text}"
    lines = list(_source.lines_of(fault))
    where = places_of(reversed(lines[-MOST_LINES:]))
    return text[:MOST_WORDS] + (f" ({where})" if where else "")


# --- the card ---


def library() -> Path:
    """Returns the path of the card's library, which is next to the device's library. Raises Refused."""
    try:
        place = Path(places.library()).resolve().with_name(NAME)
    except places.Missing as fault:
        raise Refused(str(fault)) from None
    if not place.exists():
        raise Refused(f"{place} doesn't exist: build it with `make -C c` in a clone")
    return place


class Card:
    """The card's library, and the driver of the schedule being run."""

    def __init__(self) -> None:
        self._library: ctypes.CDLL | None = None
        self._calls: dict[str, Callable[..., int]] = {}
        self._make: Callable[[], Driver] | None = None
        self._driver: Any = None
        self._conditions = Conditions()
        self._traceback: mmap.mmap | None = None
        self._is_child = False
        self._asked: list[Callable[[int, int, int], int]] = [
            partial(self._plain, name) if name in _PLAIN else getattr(self, f"_{name}") for name in FUNCTIONS
        ]

    # --- the driver's calls ---

    def call(self, name: str, *words: object) -> int:
        """Calls a library function by its name in _CALLS. Raises Over if the schedule is over."""
        call = self._calls.get(name)
        self._leave_child()
        if call is None:
            raise RuntimeError(f"only a driver in a report card may call {name}: see python3 -m nic82599.drive --help")
        answer = call(*words)
        if answer == OVER:
            raise Over
        return answer

    def dma_read(self, bus: int, length: int) -> bytes:
        # The card has no more memory than this. If one byte isn't lent, none is read.
        count = min(length, MOST_DMA)
        room = ctypes.create_string_buffer(count)
        self.call("dma_read", bus, room, count)
        return room.raw

    def wait_until(self, condition: Callable[[], object]) -> None:
        self._conditions.wait(self.call, condition)

    # --- the card's calls ---

    def _plain(self, name: str, *numbers: int) -> int:
        count, answer = _PLAIN[name]
        return answer(name, getattr(self._driver, name)(*numbers[:count]))

    def _begin(self, _a: int, _b: int, _c: int) -> int:
        assert self._make, "the card has no driver"
        self._conditions.clear()
        self._driver = self._make()
        return 0

    def _open(self, place: int, _b: int, _c: int) -> int:
        it = _Setup.from_address(place)
        address = bytes(it.address)
        setup = Setup(it.port, it.queues, it.slots, it.frame, it.interrupts, address, it.functions)
        return _bool("open", self._driver.open(setup))

    def _receive(self, queue: int, place: int, _c: int) -> int:
        return _put_frame(self._driver.receive(queue), place)

    def _send(self, queue: int, place: int, length: int) -> int:
        return _bool("send", self._driver.send(queue, ctypes.string_at(place, length)))

    def _filter(self, place: int, _b: int, _c: int) -> int:
        it = _Filter.from_address(place)
        addresses = tuple(bytes(one) for one in it.address[: it.count])
        wanted = Filter(it.all_unicast, it.all_multicast, it.broadcast, addresses)
        return _bool("filter", self._driver.filter(wanted))

    def _rss(self, place: int, _b: int, _c: int) -> int:
        it = _Rss.from_address(place)
        return _bool("rss", self._driver.rss(Rss(bytes(it.key), bytes(it.table), it.types)))

    def _mailbox_send(self, vf: int, place: int, count: int) -> int:
        words = tuple((_U32 * count).from_address(place))
        return _bool("mailbox_send", self._driver.mailbox_send(vf, words))

    def _mailbox_receive(self, vf: int, place: int, _c: int) -> int:
        return _put_words(self._driver.mailbox_receive(vf), place)

    def _stats(self, place: int, _b: int, _c: int) -> int:
        return _put_stats(self._driver.stats(), place)

    def _condition(self, number: int, _b: int, _c: int) -> int:
        return self._conditions.holds(number)

    # --- callbacks of the library: no exception leaves them ---

    def _call(self, function: int, a: int, b: int, c: int) -> int:
        try:
            return self._asked[function](a, b, c)
        except Over:
            return OVER
        except BaseException as fault:
            self._leave_child()
            self._raised(fault)
            return RAISED
        finally:
            self._leave_child()

    def _forked(self) -> None:
        self._is_child = True

    def _leave_child(self) -> None:
        """Exits if the driver forked this process. No card controls such a process, so it must not make calls or return
        from one."""
        if self._is_child:
            os._exit(0)

    def _raised(self, fault: BaseException) -> None:
        """Reports an exception in one line, and stores its traceback for the parent process."""
        assert self._library and self._traceback
        self._library.nicp_set_words(_words_of(fault).encode("ascii", "backslashreplace"))
        lines = _source.traceback_of(fault).encode("utf-8", "replace")[-MOST_TRACEBACK + 1 :]
        self._traceback[: len(lines) + 1] = lines + b"\0"

    def _begin_thread(self, host: int) -> None:
        assert self._library
        self._library.nicp_live(host)

    def _lines(self, place: int, most: int) -> int:
        return put_lines(place, _source.lines_to(sys._getframe()), most)

    # --- the program ---

    def _open_library(self) -> ctypes.CDLL:
        loaded = ctypes.CDLL(str(library()))
        self._calls = calls_of(loaded, _CALLS)
        return loaded

    def run(self, driver: type[Driver], words: list[str]) -> int:
        """Runs nicd_main for a driver and returns its status."""
        self._library, self._make = self._open_library(), driver
        self._traceback = mmap.mmap(-1, MOST_TRACEBACK)
        has = sum(1 << number for number, name in enumerate(FUNCTIONS) if name in OPTIONAL and hasattr(driver, name))
        given = _Driver(
            driver.name.encode("ascii", "replace"), driver.can.value, has, driver.threads, driver.frame, driver.queues,
            driver.slots, CALL(self._call), BEGIN_THREAD(self._begin_thread), LINES(self._lines),
        )  # fmt: skip
        argv = (ctypes.c_char_p * (len(words) + 1))(*(os.fsencode(word) for word in words), None)
        os.register_at_fork(after_in_child=self._forked)
        gc.freeze()
        sys.stdout.flush()
        status: int = self._library.nicp_main(len(words), argv, ctypes.byref(given))
        return status

    def traceback(self) -> str:
        """Returns the traceback of the last exception, or "" if there was none."""
        return self._traceback[:].split(b"\0")[0].decode("utf-8", "replace") if self._traceback else ""


CARD = Card()
