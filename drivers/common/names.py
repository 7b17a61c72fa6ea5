#!/usr/bin/env python3
"""Adds the register's name to each line of a run's trace (--trace FILE).

    drivers/common/names.py FILE

A line contains the access's number, the function (pf, vf0, ..), r or w, the offset and the value, both in hex. The name
is the register table's, or a family's from strays.py for a register outside it; `?` if neither has one. Status 0: done;
2: FILE can't be read; 3: wrong arguments."""

from __future__ import annotations

import sys
from functools import cache
from pathlib import Path

sys.dont_write_bytecode = True
HERE = Path(__file__).resolve().parent
sys.path[:0] = [str(HERE), str(HERE.parents[1] / "python")]
from nic82599.tools.regs import register_at  # noqa: E402
from nic82599.tools.tables import FUNCTION  # noqa: E402
from strays import FAMILIES, families, of_functions  # noqa: E402


def outside(offset: int, is_physical: bool) -> str:
    """Returns the name of a register outside the table."""
    for it in families(FAMILIES) if is_physical else of_functions():
        if offset in it.addresses():
            return it.name if it.count == 1 else f"{it.name}[{it.addresses().index(offset)}]"
    return "?"


@cache
def name_of(offset: int, is_physical: bool) -> str:
    """Returns a register's name from its offset."""
    if is_physical:
        register = register_at(offset)
        return register.name if register else outside(offset, True)
    for it in FUNCTION:
        count = it.count(8)
        at, rest = divmod(offset - it.offset, it.stride or 4)
        if rest == 0 and 0 <= at < count:
            return f"{it.name}[{at}]" if count > 1 else it.name
    return outside(offset, False)


def main(words: list[str]) -> int:
    """Runs the command."""
    if len(words) != 1 or words[0].startswith("-"):
        print(__doc__, file=sys.stderr)
        return 3
    try:
        with Path(words[0]).open(encoding="ascii") as lines:
            for line in lines:
                _, whose, _, offset, _ = line.split()
                sys.stdout.write(f"{line.rstrip()} {name_of(int(offset, 16), whose == 'pf')}\n")
    except BrokenPipeError:
        sys.stderr.close()
    except (OSError, ValueError) as error:
        print(f"names.py: {error}", file=sys.stderr)
        return 2
    return 0


if __name__ == "__main__":
    sys.exit(main(sys.argv[1:]))
