"""Finds the C library and the `nicbench` program.

Both are searched for at the path in an environment variable (NIC82599_LIBRARY, NICBENCH); next to this package, where a
wheel installs them; in the clone or the prefix that contains the package; and in the system, the library by its soname
and the program on the PATH. If the variable is set, only the path in it is tried.
"""

from __future__ import annotations

import ctypes
import os
import shutil
import sys
from pathlib import Path

HERE = Path(__file__).resolve().parent
SONAME = "libnic82599.so.0"
ENGINE = "libnic82599_python.so"
# Debian's multiarch library folder below a prefix.
MULTIARCH = f"lib/{os.uname().machine}-linux-gnu"
BUILDS_LIBRARY = "`make -C c` in a clone builds it, and a release package contains it"
BUILDS_PROGRAM = "a release package contains it, and `pip install ./python` in a clone builds it if rustc is installed"


class Missing(Exception):
    """The file isn't at any of the searched paths. The one-line message lists the paths and says what to do."""


def clone() -> Path | None:
    """Returns the clone that contains this package, or None if it is installed."""
    root = (HERE / "../..").resolve()
    return root if (root / "crates.txt").is_file() and (root / "c/include/nic82599.h").is_file() else None


def prefix() -> Path | None:
    """Returns the prefix that contains the C library and this package, as in the release archive and the Debian
    package; None if there is none."""
    root = (HERE / "../../../..").resolve()
    return root if (root / "include/nic82599.h").is_file() else None


def _places(beside: str, in_clone: str, *in_prefix: str) -> list[Path]:
    """Returns the paths to search: next to the package, then in the package's clone or prefix."""
    around = [(clone(), in_clone), *((prefix(), it) for it in in_prefix)]
    return [HERE / beside, *(root / name for root, name in around if root)]


def _is_loaded_by_name(name: str) -> bool:
    """Returns whether the system's loader finds a library of this name."""
    try:
        ctypes.CDLL(name)
    except OSError:
        return False
    return True


def _loaded_from(name: str) -> str:
    """Returns the file of a library that the loader finds by its soname."""
    if os.sep in name:
        return name
    ctypes.CDLL(name)
    lines = Path("/proc/self/maps").read_text().splitlines()
    return next((file for line in lines if Path(file := line.split(maxsplit=5)[-1]).name.startswith(name)), name)


def library() -> str:
    """Returns the path of the C library, or its soname if only the system has it. Raises Missing."""
    path = os.environ.get("NIC82599_LIBRARY")
    places = [Path(path)] if path else _places(SONAME, "c/out/libnic82599.so", f"lib/{SONAME}", f"{MULTIARCH}/{SONAME}")
    for place in places:
        if place.exists():
            return str(place)
    if not path and _is_loaded_by_name(SONAME):
        return SONAME
    looked = " and ".join(str(place) for place in places) + ("" if path else f" and no {SONAME} in the system")
    raise Missing(f"no C library at {looked}: {BUILDS_LIBRARY}; or set NIC82599_LIBRARY to its path")


def engine() -> str:
    """Returns the path of the explorer's library, which is next to the device's library or in a subfolder there. Raises
    Missing."""
    beside = Path(_loaded_from(library())).resolve().parent
    places = [beside / ENGINE, beside / "nic82599" / ENGINE]
    for place in places:
        if place.exists():
            return str(place)
    raise Missing(f"no explorer library at {places[0]} and {places[1]}: {BUILDS_LIBRARY}")


def program() -> str:
    """Returns the path of the `nicbench` program; in a clone, the path of its launcher. Raises Missing."""
    path = os.environ.get("NICBENCH")
    if path:
        return path
    for place in _places("nicbench", "nicbench", "bin/nicbench"):
        if os.access(place, os.X_OK):
            return str(place)
    found = shutil.which("nicbench")
    if found is None:
        raise Missing(f"no program nicbench in {HERE} or on the PATH: {BUILDS_PROGRAM}; or set NICBENCH to its path")
    return found


def nicbench() -> int:
    """The `nicbench` command of an installed wheel: replaces this process with the packaged program."""
    place = HERE / "nicbench"
    if not os.access(place, os.X_OK):
        print(f"nicbench: this package was installed without the program: {BUILDS_PROGRAM}", file=sys.stderr)
        return 127
    os.execv(place, ["nicbench", *sys.argv[1:]])
