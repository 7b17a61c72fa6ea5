"""python3 -m nic82599.drive FILE.py: a driver's report card; takes the options of c/drive/nicdrive (--help)."""

from __future__ import annotations

import sys
from importlib import import_module

from ..places import clone


def command() -> int:
    root = clone()
    if root is None:
        print("nic82599.drive: needs a clone of the repository with c/drive", file=sys.stderr)
        return 2
    sys.path.insert(0, str(root / "c/drive"))
    return int(import_module("card.command").command())


if __name__ == "__main__":
    sys.exit(command())
