"""A long file as lines. Only the file offset of each line is kept in memory; the lines themselves are read from the
file on demand.

A recording of ten million lines is 500 MB of text; as Python objects it would be several GB.
"""

from __future__ import annotations

import os
import stat
import sys
from array import array
from collections.abc import Iterator, Sequence
from typing import overload

from .script import Fault

# The number of bytes to read in one go.
PIECE = 1 << 18


class Source:
    """The bytes of a file as it was when opened, or of standard input if the name is `-`. A file that can't be read at
    arbitrary offsets, such as a pipe, is read completely."""

    def __init__(self, path: str) -> None:
        self.path = path
        self.file = -1
        self.begin, self.piece = 0, b""
        try:
            if path == "-":
                self.piece = sys.stdin.buffer.read()
            else:
                self.file = os.open(path, os.O_RDONLY | getattr(os, "O_CLOEXEC", 0) | getattr(os, "O_BINARY", 0))
                self._look()
        except OSError as error:
            line = f"{path} can't be read ({error.strerror}): give a script file or a recording"
            raise Fault(line) from None
        self.size = os.fstat(self.file).st_size if self.file >= 0 else len(self.piece)

    @classmethod
    def of(cls, path: str, raw: bytes) -> Source:
        """Returns a source of these bytes, with the name of their file."""
        made = cls.__new__(cls)
        made.path, made.file, made.begin, made.piece, made.size = path, -1, 0, raw, len(raw)
        return made

    def grow(self, most: int) -> bool:
        """Extends the view by at most `most` bytes if the file has grown. Returns whether it has."""
        size = os.fstat(self.file).st_size if self.file >= 0 else self.size
        if size < self.size:
            raise Fault(f"{self.path} was truncated while it was read: wait until it is complete")
        former, self.size = self.size, min(size, self.size + most)
        return self.size > former

    def _look(self) -> None:
        """Reads a file completely if it can't be read at arbitrary offsets."""
        if stat.S_ISREG(os.fstat(self.file).st_mode):
            return
        with os.fdopen(self.file, "rb") as all_of_it:
            self.file = -1
            self.piece = all_of_it.read()

    def __del__(self) -> None:
        if self.file >= 0:
            os.close(self.file)

    def at(self, begin: int, end: int) -> bytes:
        """Returns the bytes from one offset up to another; both must be in the file."""
        if begin < self.begin or end > self.begin + len(self.piece):
            self.begin, self.piece = begin, self._read(begin, min(max(end, begin + PIECE), self.size))
            if begin + len(self.piece) < end:
                raise Fault(f"{self.path} was truncated while it was read: wait until it is complete")
        return self.piece[begin - self.begin : end - self.begin]

    def _read(self, begin: int, end: int) -> bytes:
        try:
            os.lseek(self.file, begin, os.SEEK_SET)
            return os.read(self.file, end - begin)
        except OSError as error:
            raise Fault(f"{self.path} can't be read ({error.strerror})") from None

    def whole(self) -> bytes:
        """Returns all bytes."""
        pieces = [self.at(begin, min(begin + PIECE, self.size)) for begin in range(0, self.size, PIECE)]
        return b"".join(pieces)

    @property
    def head(self) -> bytes:
        """The first bytes."""
        return self.at(0, min(80, self.size))


class Lines(Sequence[str]):
    """The lines of an ASCII file, without an incomplete last one."""

    def __init__(self, source: Source) -> None:
        self.source = source
        self.begins = array("Q", [0])
        self.rest = ""  # the incomplete last line

    def read(self) -> Iterator[str]:
        """Yields each line once, and notes where it begins. When called again, it yields the lines added to the file
        since. Raises Fault if a byte isn't ASCII."""
        begin, add = self.begins[-1], self.begins.append
        for at in range(begin + len(self.rest), self.source.size, PIECE):
            piece = self.source.at(at, min(at + PIECE, self.source.size))
            try:
                lines = (self.rest + piece.decode("ascii")).split("\n")
            except UnicodeDecodeError as error:
                where = f"{self.source.path} isn't ASCII at byte {at + error.start}"
                raise Fault(f"{where}: a recording is ASCII text") from None
            self.rest = lines.pop()
            for line in lines:
                begin += len(line) + 1
                add(begin)
                yield line

    def __len__(self) -> int:
        return len(self.begins) - 1

    @overload
    def __getitem__(self, number: int) -> str: ...
    @overload
    def __getitem__(self, number: slice) -> list[str]: ...
    def __getitem__(self, number: int | slice) -> str | list[str]:
        if isinstance(number, slice):
            return [self[at] for at in range(*number.indices(len(self)))]
        if number < 0:
            number += len(self)
        begin, end = self.begins[number], self.begins[number + 1]
        return self.source.at(begin, end - 1).decode("ascii")
