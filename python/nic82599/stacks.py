"""The explorer's calls for Python code on the engine's stacks, which are threads (c/explore/python). The report card
and the explorer use them, each with its own library."""

from __future__ import annotations

import ctypes
from collections.abc import Callable, Iterator
from contextlib import contextmanager
from typing import Any

from . import address_of, offset_of
from .buffers import bytes_of, text_bytes
from .dma import Dma
from .statuses import DONE

RAISED, OVER = -1, -2
_U8, _U32, _U64, _SIZE, _AT = ctypes.c_uint8, ctypes.c_uint32, ctypes.c_uint64, ctypes.c_size_t, ctypes.c_void_p
# The engine's callbacks: a function, called by number with three arguments; the start of a thread; the source lines of
# a call.
CALL = ctypes.CFUNCTYPE(ctypes.c_int64, _U32, _U64, _U64, _U64)
BEGIN_THREAD = ctypes.CFUNCTYPE(None, _AT)
LINES = ctypes.CFUNCTYPE(ctypes.c_uint, _AT, ctypes.c_uint)


class Over(BaseException):
    """Raised in the driver's running function when the schedule is over."""


class Lock(ctypes.Structure):
    """struct nicx_mutex."""

    _fields_ = [("name", ctypes.c_char_p), ("kept", _U64)]

    @staticmethod
    def of(name: str) -> Lock:
        return Lock(text_bytes(name), 0)


_CALLS: dict[str, list[Any]] = {
    "read32": [_U32],
    "write32": [_U32, _U32],
    "vf_read32": [_U8, _U32],
    "vf_write32": [_U8, _U32, _U32],
    "dma_read": [_U64, _AT, _SIZE],
    "dma_write": [_U64, ctypes.c_char_p, _SIZE],
    "point": [],
    "wait": [],
    "pause": [],
    "wait_until": [_U64],
    "lock": [ctypes.POINTER(Lock)],
    "unlock": [ctypes.POINTER(Lock)],
    "interrupts": [ctypes.c_bool],
    "wmb": [],
    "rmb": [],
    "mb": [],
    "choose": [_U32],
}


def calls_of(library: ctypes.CDLL, more: dict[str, list[Any]]) -> dict[str, Callable[..., int]]:
    """Returns the library functions that a driver may call, by name; `more` lists the functions that only this library
    has."""
    calls = {}
    for name, words in {**_CALLS, **more}.items():
        call = calls[name] = getattr(library, f"nicp_{name}")
        call.argtypes, call.restype = words, ctypes.c_int64
    library.nicp_live.argtypes, library.nicp_live.restype = [_AT], None
    library.nicp_set_words.argtypes, library.nicp_set_words.restype = [ctypes.c_char_p], None
    return calls


class Conditions:
    """The conditions that threads wait for, by their number in the engine."""

    def __init__(self) -> None:
        self._by_number: dict[int, Callable[[], object]] = {}
        self._last = 0

    def clear(self) -> None:
        self._by_number.clear()

    def wait(self, call: Callable[..., int], condition: Callable[[], object]) -> None:
        """Waits in the engine until a condition holds."""
        self._last += 1
        number = self._last
        self._by_number[number] = condition
        try:
            call("wait_until", number)
        finally:
            del self._by_number[number]

    def holds(self, number: int) -> int:
        return int(bool(self._by_number[number]()))


class Mutex:
    """A lock that belongs to the driver. It is free at the start of every schedule: `with self.holding(mutex):`."""

    def __init__(self, name: str = "a lock") -> None:
        self.name = name
        self._lock = Lock.of(name)


def _word(word: int) -> int:
    """Checks a register value. Raises ValueError unless it fits in 32 bits."""
    if not 0 <= word < 1 << 32:
        raise ValueError(f"{word} doesn't fit into a 32-bit register")
    return word


class Points(Dma):
    """The calls for code on the engine's stacks. Each access, wait and lock is a point: another actor may run first."""

    def _call(self, name: str, *words: object) -> int:
        """Calls an engine function by its name. Raises Over if the schedule is over."""
        raise NotImplementedError

    # --- registers ---

    def read32(self, at: int | str) -> int:
        """Reads a register by address or name."""
        return self._call("read32", at if isinstance(at, int) else address_of(at))

    def write32(self, at: int | str, word: int) -> bool:
        """Writes a register by address or name. Returns whether that register exists."""
        return self._call("write32", at if isinstance(at, int) else address_of(at), _word(word)) == DONE

    def vf_read32(self, vf: int, at: int | str) -> int:
        """Reads a virtual function's register by offset or name."""
        return self._call("vf_read32", vf, at if isinstance(at, int) else offset_of(at))

    def vf_write32(self, vf: int, at: int | str, word: int) -> bool:
        return self._call("vf_write32", vf, at if isinstance(at, int) else offset_of(at), _word(word)) == DONE

    # --- memory ---

    def dma_write(self, bus: int, data: bytes) -> bool:
        """Writes bytes to lent memory. Returns whether all of them are lent; if not, the schedule fails."""
        given = bytes_of(data)
        return self._call("dma_write", bus, given, len(given)) == DONE

    # --- waiting ---

    def point(self) -> None:
        """A point without an access, for use between two accesses to the driver's own memory."""
        self._call("point")

    def wait(self) -> None:
        """Waits until another actor has acted since this thread last resumed: `while not ready(): self.wait()`."""
        self._call("wait")

    def pause(self) -> None:
        """Lets the other actors run; continues if none is runnable. For loops that poll a bounded number of times."""
        self._call("pause")

    def lock(self, mutex: Mutex) -> None:
        self._call("lock", mutex._lock)

    def unlock(self, mutex: Mutex) -> None:
        self._call("unlock", mutex._lock)

    @contextmanager
    def holding(self, mutex: Mutex) -> Iterator[None]:
        """Holds a lock for the `with` block."""
        self.lock(mutex)
        try:
            yield
        finally:
            self.unlock(mutex)

    @contextmanager
    def interrupts_off(self) -> Iterator[None]:
        """Keeps handlers from starting on this thread for the `with` block."""
        self._call("interrupts", False)
        try:
            yield
        finally:
            self._call("interrupts", True)

    # --- barriers for weak memory; under strong memory they do nothing and aren't points ---

    def wmb(self) -> None:
        """Returns after all earlier stores of this thread have reached memory."""
        self._call("wmb")

    def rmb(self) -> None:
        """Orders later loads after this call: none returns a value from before the call."""
        self._call("rmb")

    def mb(self) -> None:
        """A full barrier: `wmb` and `rmb`. Taking a lock is a load barrier; releasing it is a store barrier."""
        self._call("mb")

    # --- values ---

    def choose(self, bound: int) -> int:
        """Returns a value below the bound (1 to 256). The value is part of the schedule; it may decide, for example,
        whether an allocation fails or which input arrives. All strategies explore it, and shrinking tries lower
        values."""
        return self._call("choose", bound)
