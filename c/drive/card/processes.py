"""Runs a driver's program. When the program exits, no process that it or the driver started is left."""

from __future__ import annotations

import contextlib
import ctypes
import os
import selectors
import signal
import subprocess
import sys
import threading
import time
from collections import deque
from collections.abc import Iterator, Sequence
from dataclasses import dataclass
from functools import cache

from nic82599.tools.printable import printable

# Only the last MOST_PRINTED bytes of a program's output are kept.
MOST_PRINTED, PIECE = 1 << 20, 1 << 16
# How often to check whether a program has exited, in seconds.
EACH = 0.05
# The line in /proc/PID/stat is shorter than this: a 16-byte name and 51 numbers of at most 20 digits.
MOST_OF_STAT = 1 << 12
PR_SET_CHILD_SUBREAPER = 36


class TooLong(Exception):
    """The program didn't exit in time and was killed."""


@dataclass(frozen=True)
class Ended:
    """How a program exited: its status (below 0 if a signal ended it) and its output, with control characters
    escaped."""

    status: int
    printed: str
    errors: str


class Printed:
    """Keeps the last bytes read from a pipe."""

    def __init__(self, pipe: int) -> None:
        self.pipe, self.pieces, self.size = pipe, deque[bytes](), 0
        os.set_blocking(pipe, False)

    def read(self) -> bool:
        """Reads the available bytes. Returns whether more may follow."""
        while True:
            try:
                piece = os.read(self.pipe, PIECE)
            except BlockingIOError:
                return True
            if not piece:
                return False
            self.pieces.append(piece)
            self.size += len(piece)
            while self.size - len(self.pieces[0]) >= MOST_PRINTED:
                self.size -= len(self.pieces.popleft())

    def text(self) -> str:
        return printable(b"".join(self.pieces)[-MOST_PRINTED:].decode(errors="replace"))


# Running programs, each in its own process group.
_running: set[int] = set()
_lock = threading.Lock()


@cache
def _adopts_orphans() -> None:
    """Makes this process the parent of processes that a driver abandons, so that it can end them."""
    if sys.platform == "linux":
        ctypes.CDLL(None).prctl(PR_SET_CHILD_SUBREAPER, 1, 0, 0, 0)


def _children() -> Iterator[int]:
    """Yields this process's children, if the system provides /proc. Uses plain system calls because this runs after
    each program and a machine may have hundreds of processes."""
    for name in filter(str.isdigit, os.listdir("/proc") if os.path.isdir("/proc") else []):
        with contextlib.suppress(OSError, ValueError, IndexError):
            file = os.open(f"/proc/{name}/stat", os.O_RDONLY)
            try:
                stat = os.read(file, MOST_OF_STAT)
            finally:
                os.close(file)
            # The name is in parentheses and may contain any characters. The state and the parent follow it.
            if int(stat.rpartition(b")")[2].split(None, 2)[1]) == os.getpid():
                yield int(name)


def _end_group(process: int) -> None:
    with contextlib.suppress(ProcessLookupError, PermissionError):
        os.killpg(process, signal.SIGKILL)


def _end_orphans() -> None:
    """Kills processes that programs left running when they exited: children outside the process groups of this process
    and of running programs."""
    with _lock, contextlib.suppress(ProcessLookupError, ChildProcessError, PermissionError):
        for process in list(_children()):
            if os.getpgid(process) not in {os.getpgrp(), *_running}:
                os.kill(process, signal.SIGKILL)
                os.waitpid(process, 0)


def end_all() -> None:
    """Kills the running programs, for example after Ctrl-C."""
    with _lock:
        for process in _running:
            _end_group(process)


def _started(words: Sequence[str | os.PathLike[str]]) -> subprocess.Popen[bytes]:
    """Starts a program in its own process group. May raise OSError."""
    _adopts_orphans()
    with _lock:
        made = subprocess.Popen(
            words, stdin=subprocess.DEVNULL, stdout=subprocess.PIPE, stderr=subprocess.PIPE, process_group=0
        )
        _running.add(made.pid)
        return made


def _awaited(made: subprocess.Popen[bytes], pipes: list[Printed], seconds: float) -> bool:
    """Reads a program's output until the program exits. Returns whether it exited in time. Other processes may still
    hold its pipes."""
    until = time.monotonic() + seconds
    with selectors.DefaultSelector() as selector:
        for it in pipes:
            selector.register(it.pipe, selectors.EVENT_READ, it)
        while made.poll() is None:
            if time.monotonic() >= until:
                return False
            for key, _ in selector.select(EACH) if selector.get_map() else ():
                if not key.data.read():
                    selector.unregister(key.fd)
            if not selector.get_map():
                time.sleep(EACH)
    return True


def ran(words: Sequence[str | os.PathLike[str]], seconds: float) -> Ended:
    """Runs a program for at most the given number of seconds. May raise TooLong or OSError."""
    made = _started(words)
    assert made.stdout and made.stderr
    pipes = [Printed(made.stdout.fileno()), Printed(made.stderr.fileno())]
    try:
        is_over = _awaited(made, pipes, seconds)
    finally:
        _end_group(made.pid)
        made.wait()
        with _lock:
            _running.discard(made.pid)
        _end_orphans()
        for it in pipes:
            it.read()
        made.stdout.close()
        made.stderr.close()
    if not is_over:
        raise TooLong
    return Ended(made.returncode, pipes[0].text(), pipes[1].text())
