"""Runs C calls that no other thread or signal handler can interrupt, and keeps the buffers that these calls lend.

CPython runs signal handlers and switches threads only between two bytecodes, and a library call holds the GIL. C
functions chained without bytecode in between therefore run as a unit: a handler can raise only before the first or
after the last.
"""

from __future__ import annotations

import ctypes
import operator
import os
import threading
from collections import deque
from collections.abc import Callable
from functools import partial
from itertools import starmap, tee
from typing import TYPE_CHECKING, Any

from .statuses import DONE

if TYPE_CHECKING:
    from _typeshed import WriteableBuffer

ALL = slice(None)
# mypy 1.0 can't infer this type.
_made: Any = operator.call


def at_once(*calls: Callable[[], object]) -> None:
    """Calls C functions one right after the other."""
    deque(map(_made, calls), 0)


def end_once(end: Callable[[ctypes.Structure], None], handle: ctypes.Structure) -> None:
    """Frees what a handle refers to, and nulls the handle first. Another thread's call thus finds it closed, and
    freeing it again is a no-op."""
    last = type(handle)()
    here, there = memoryview(handle).cast("B"), memoryview(last).cast("B")
    at_once(
        partial(operator.setitem, there, ALL, here),
        partial(operator.setitem, here, ALL, bytes(len(here))),
        partial(end, last),
    )


# --- buffers ---


# The base class of all ctypes objects. Then, in Python 3.12 and later, the wrapper that owns the memory of an object
# that implements `__buffer__` in Python.
_CData = ctypes.c_ubyte.__mro__[2]
_WRAPPER = "_buffer_wrapper"


def _of_ctypes(owner: object, name: str) -> Any:
    """Returns an attribute of a ctypes object, even if its class overrides it; None for other objects."""
    return vars(_CData)[name].__get__(owner) if issubclass(type(owner), _CData) else None


def _is_of_numpy(owner: object) -> bool:
    return any(one.__module__.partition(".")[0] == "numpy" for one in type(owner).__mro__)


def _below(owner: object) -> object | None:
    """Returns the object that a view borrows its memory from; None if the object owns it."""
    if isinstance(owner, memoryview):
        return owner.obj
    return getattr(owner, "base", None) if _is_of_numpy(owner) else _of_ctypes(owner, "_b_base_")


def _refuse_movable(buffer: object) -> None:
    """Raises TypeError if the memory can move while it is lent."""
    owner = buffer
    while (below := _below(owner)) is not None:
        owner = below
    if type(owner).__name__ == _WRAPPER:
        raise TypeError(
            "an object with a Python `__buffer__` can't be lent: lend the underlying object, such as a bytearray"
        )
    if _of_ctypes(owner, "_b_needsfree_"):
        raise TypeError(
            f"ctypes.resize can move the memory of {type(owner).__name__} while it is lent: lend a bytearray, "
            f"or a ctypes object made from one with `from_buffer`"
        )


def held(buffer: WriteableBuffer) -> ctypes.Array[ctypes.c_ubyte]:
    """Returns the bytes of a writable buffer; they don't move while the result is kept. Raises TypeError."""
    view = memoryview(buffer)  # only once: the object might return another buffer the next time
    _refuse_movable(view)
    return (ctypes.c_ubyte * view.nbytes).from_buffer(view)


# --- memory lent in place ---

# Held for a few microseconds by the thread that applies notes. One lock serves all controllers.
_turn = threading.RLock()
# The child of a fork has only one thread, so no thread would release a lock held during the fork.
os.register_at_fork(after_in_child=_turn._at_fork_reinit)  # type: ignore[attr-defined]


class Lent:
    """The buffers that a controller has in place. Each is kept while one of its blocks is lent.

    A C call that lends or takes back memory is noted as part of the call, so the notes are in the calls' order. They
    are applied later, by one thread; if that thread is interrupted, the next call applies the rest."""

    def __init__(self, is_closed: Callable[[], bool]) -> None:
        self._is_closed = is_closed
        self._notes: deque[tuple[int, tuple[range, object]]] = deque()
        self._by_block: dict[int, object] = {}
        self._taken_in_by: int | None = None

    def noted(self, call: Callable[[], int], blocks: range, buffer: object = None) -> int:
        """Calls a function that lends blocks in a buffer or takes them back, and returns its status."""
        statuses, noted = tee(starmap(call, ((),)))
        # If ctypes refuses the call, there is no note.
        self._notes.extend(zip(noted, ((blocks, buffer),)))
        self.take_in()
        return next(statuses)

    def take_in(self) -> None:
        """Applies the notes. If the controller is closed, drops them and all buffers."""
        with _turn:
            if self._taken_in_by == threading.get_ident():
                return  # in a signal handler: the interrupted code continues afterwards
            try:
                self._taken_in_by = threading.get_ident()
                while self._notes and not self._is_closed():
                    self._take(*self._notes[0])
                    self._notes.popleft()
                if self._is_closed():
                    self._notes.clear()
                    self._by_block.clear()
            finally:
                self._taken_in_by = None

    def _take(self, status: int, note: tuple[range, object]) -> None:
        """Applies a note. Idempotent until a later note is applied."""
        blocks, buffer = note
        if status != DONE:
            return
        if buffer is not None:
            self._by_block.update(dict.fromkeys(blocks, buffer))
            return
        for block in blocks:
            self._by_block.pop(block, None)

    def __contains__(self, block: int) -> bool:
        """Returns whether a buffer is kept for a block, counting the notes that aren't applied yet."""
        found = block in self._by_block
        for status, (blocks, buffer) in list(self._notes):
            if status == DONE and block in blocks:
                found = buffer is not None
        return found

    def __len__(self) -> int:
        self.take_in()
        return len(self._by_block)
