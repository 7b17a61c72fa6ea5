"""Finds lines in a driver's source for the C libraries: the lines that led to a call, and the traceback of an
exception."""

from __future__ import annotations

import contextlib
import ctypes
import os
import traceback
from collections.abc import Iterable, Iterator
from types import FrameType, TracebackType

from .tools.printable import printable

MOST_LINES, MOST_FRAMES, MOST_FILE = 4, 20, 512


class _Line(ctypes.Structure):
    """struct source_line."""

    _fields_ = [("file", ctypes.c_char * MOST_FILE), ("line", ctypes.c_uint)]


def put_lines(place: int, lines: Iterable[tuple[str, int]], most: int = MOST_LINES) -> int:
    """Writes lines to a library's array and returns how many."""
    count = 0
    for (file, line), _ in zip(lines, range(min(most, MOST_LINES))):
        it = _Line.from_address(place + count * ctypes.sizeof(_Line))
        it.file, it.line = file.encode("utf-8", "replace")[: MOST_FILE - 1], line
        count += 1
    return count


class Source:
    """Distinguishes the driver's source from the package's own files and folders."""

    def __init__(self, *own: str) -> None:
        self.own = (*own, contextlib.__file__, "<frozen ")

    def _is_own(self, file: str) -> bool:
        return file.startswith(self.own)

    def lines_to(self, frame: FrameType | None) -> Iterator[tuple[str, int]]:
        """Returns the driver's lines that led to a call, innermost first."""
        while frame is not None and self._is_own(frame.f_code.co_filename):
            frame = frame.f_back
        while frame is not None and not self._is_own(frame.f_code.co_filename):
            yield frame.f_code.co_filename, frame.f_lineno
            frame = frame.f_back

    def lines_of(self, fault: BaseException) -> Iterator[tuple[str, int]]:
        """Returns the driver's lines that led to an exception, innermost last."""
        trace: TracebackType | None = fault.__traceback__
        while trace is not None:
            file = trace.tb_frame.f_code.co_filename
            if not self._is_own(file):
                yield file, trace.tb_lineno
            trace = trace.tb_next

    def traceback_of(self, fault: BaseException) -> str:
        """Returns the traceback, starting at the driver's own function; "" if none of the driver's lines is in it, for
        example if the package rejects a result."""
        trace = fault.__traceback__
        while trace is not None and self._is_own(trace.tb_frame.f_code.co_filename):
            trace = trace.tb_next
        if trace is None:
            return ""
        return printable("".join(traceback.format_exception(type(fault), fault, trace, limit=-MOST_FRAMES)))


def places_of(lines: Iterable[tuple[str, int]]) -> str:
    """Formats source lines: "race.py:31", or if a helper made the call, "card.py:110 < race.py:42"."""
    return " < ".join(f"{os.path.basename(file)}:{line}" for file, line in lines)
