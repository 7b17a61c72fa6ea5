"""A driver's program, as nicdrive starts it: python3 -m nic82599.drive.row FILE.py[:CLASS] --list or --row NAME .."""

from __future__ import annotations

import ctypes
import importlib.util
import os
import signal
import sys
from pathlib import Path
from types import ModuleType

from . import Can, Driver
from .calls import CARD, OPTIONAL, REFUSED, Refused, _words_of

FOUND = 1
LEAST_HANG = 10


def load(path: Path) -> ModuleType:
    """Loads a file as a module. Raises Refused if it can't be run."""
    spec = importlib.util.spec_from_file_location(path.stem, path)
    if spec is None or spec.loader is None or not path.is_file():
        raise Refused(f"{path}: no such Python file")
    module = importlib.util.module_from_spec(spec)
    sys.modules[path.stem] = module
    sys.path.insert(0, str(path.parent))
    try:
        spec.loader.exec_module(module)
    except BaseException as fault:
        raise Refused(f"{path}: can't load it: {_words_of(fault)}") from fault
    return module


def driver_of(module: ModuleType, name: str, path: Path) -> type[Driver]:
    """Returns the module's driver class: the one with this name, or the only one that has no subclass in the module."""
    all_of = [one for one in vars(module).values() if isinstance(one, type) and issubclass(one, Driver)]
    own = [one for one in dict.fromkeys(all_of) if one.__module__ == module.__name__]
    found = [one for one in own if not any(one in other.__mro__[1:] for other in own)]
    if name:
        found = [one for one in own if one.__name__ == name]
    if len(found) != 1:
        what = f"no subclass {name}" if name else f"{len(found)} subclasses"
        names = ", ".join(one.__name__ for one in own)
        raise Refused(f"{path}: it has {what} of Driver{f': {names}; select one with FILE.py:CLASS' if own else ''}")
    return found[0]


def checked(driver: type[Driver], path: Path) -> type[Driver]:
    """Checks a driver's attributes and functions and returns it. Raises Refused. The card itself checks the ranges."""
    for name in ("queues", "slots", "frame", "threads"):
        value = getattr(driver, name)
        if not isinstance(value, int) or isinstance(value, bool) or not 0 <= value < 1 << 16:
            raise Refused(f"{path}: {driver.__name__}.{name} is {value!r}, not an allowed number")
    if not isinstance(driver.name, str) or not isinstance(driver.can, Can):
        raise Refused(f"{path}: {driver.__name__}.name isn't a string, or {driver.__name__}.can isn't a Can")
    for name in ("open", "close", *(one for one in OPTIONAL if hasattr(driver, one))):
        if not callable(getattr(driver, name)):
            raise Refused(f"{path}: {driver.__name__}.{name} isn't a function")
        if getattr(driver, name) is getattr(Driver, name, None):
            raise Refused(f"{path}: {driver.__name__} has no {name}")
    return driver


def traceback_file(words: list[str]) -> Path:
    """Returns the file for a row's traceback, next to its schedule."""
    out = words[words.index("--out") + 1] if "--out" in words[:-1] else "."
    return Path(out) / f"{words[words.index('--row') + 1]}.traceback"


def tell_traceback(words: list[str]) -> None:
    """Writes the last traceback to its file, or to standard error if a schedule is being replayed."""
    traceback = CARD.traceback()
    if "--replay" in words and traceback:
        print(traceback.rstrip(), file=sys.stderr)
    elif traceback:
        file = traceback_file(words)
        file.write_text(traceback)
        print(f"{file.stem}: the traceback is in {file}")


def program(driver: type[Driver], words: list[str]) -> int:
    """Runs a driver's program with the arguments after its file. Returns the status. Raises Refused."""
    is_row = "--row" in words[:-1]
    if is_row:
        traceback_file(words).unlink(missing_ok=True)
    status = CARD.run(driver, words)
    if is_row and status == FOUND:
        tell_traceback(words)
    return status


def patient(words: list[str]) -> list[str]:
    """Increases `--hang` to at least ten seconds, because steps in Python take longer than steps in C."""
    if "--hang" not in words[:-1]:
        return words
    place = words.index("--hang") + 1
    seconds = words[place]
    return [*words[:place], str(max(int(seconds), LEAST_HANG)) if seconds.isdecimal() else seconds, *words[place + 1 :]]


def main(words: list[str]) -> int:
    file, _, name = words[1].partition(":") if len(words) > 1 else ("", "", "")
    path = Path(file)
    try:
        driver = checked(driver_of(load(path.resolve()), name, path), path)
        signal.signal(signal.SIGINT, signal.SIG_DFL)
        return program(driver, patient([words[0], *words[2:]]))
    except Refused as fault:
        print(" ".join(str(fault).split()), file=sys.stderr)
        return REFUSED


if __name__ == "__main__":
    status = main([os.environ.get("NIC82599_PROGRAM", sys.argv[0]), *sys.argv[1:]])
    sys.stdout.flush()
    ctypes.CDLL(None).fflush(None)  # flushes the library's output
    # The schedules' threads are still inside the library.
    os._exit(status)
