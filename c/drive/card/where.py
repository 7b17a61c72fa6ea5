"""Finds headers, archives and tools, in the clone that contains this file or below the prefix where it is installed."""

from __future__ import annotations

import os
import sys
from pathlib import Path

DRIVE = Path(__file__).resolve().parents[1]
# The archives that a program for the card links, in this order.
ARCHIVES = ("libnic82599_drive.a", "libnic82599_explore.a", "libnic82599.a")
# What the program links if accesses are observed: the linker's options, and the files that they name.
SEEN = ("nic82599_drive.opts", "nic82599_threads.ld", "libnic82599_drive_threads.a", "libnic82599_threads.a")
# Drivers by which --list lists the rows. A student's copy of the clone (course/copy) lacks the first.
LISTERS = (DRIVE / "corpus/driver.c", DRIVE / "examples/small.c")


def clone() -> Path | None:
    """Returns the clone, or None if nicdrive is installed."""
    return DRIVE.parents[1] if (DRIVE.parent / "Makefile").is_file() else None


def prefix() -> Path:
    """Returns the prefix that nicdrive is installed below, as share/nic82599/drive."""
    return DRIVE.parents[2]


def include() -> Path:
    return (clone() or prefix()) / ("c/include" if clone() else "include")


def libraries() -> Path:
    """Returns the folder of the archives."""
    if root := clone():
        return root / "c/out"
    places = [prefix() / "lib", prefix() / f"lib/{os.uname().machine}-linux-gnu", prefix() / "lib64"]
    return next((it for it in places if (it / ARCHIVES[0]).exists()), places[0])


def nicview() -> list[str]:
    """Returns the command that draws a run."""
    root = clone()
    return [sys.executable, str(root / "tools/nicview")] if root else [str(prefix() / "bin/nicview")]


def programs() -> list[Path]:
    """Returns the candidate programs; one is enough for nicview. In a clone: the proved and the plain nicbench."""
    root = clone()
    if not root:
        return [prefix() / "bin/nicbench"]
    return [root / name for name in ("crates/nicbench/out/nicbench", "plain/out/program/nicbench")]
