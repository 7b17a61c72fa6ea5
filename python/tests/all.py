#!/usr/bin/env python3
"""Tests of the Python module: the examples in its docstrings, what each call returns and raises, and random calls
compared with `nicbench run` of the same events. c/test runs it; NIC82599_LIBRARY and NICBENCH name the library and
program.

    python/tests/all.py [--seed S] [--batches N]
"""

from __future__ import annotations

import argparse
import doctest
import os
import shutil
import subprocess
import sys
import tempfile
import unittest
from pathlib import Path
from types import ModuleType

sys.dont_write_bytecode = True
HERE = Path(__file__).resolve().parent
PROMPT = HERE.parent / "examples/prompt.txt"
sys.path[:0] = [str(HERE.parent), str(HERE)]
import calls  # noqa: E402
import chance  # noqa: E402
import descriptors_of_device  # noqa: E402
import ends  # noqa: E402
import explorer  # noqa: E402
import files_by_others  # noqa: E402
import interrupted  # noqa: E402
import making_frames  # noqa: E402
import nic82599  # noqa: E402
import nic82599.buffers  # noqa: E402
import nic82599.descriptors  # noqa: E402
import nic82599.frames  # noqa: E402
import nic82599.tools.printable  # noqa: E402
import packing  # noqa: E402
import report_card  # noqa: E402
import telling  # noqa: E402
import together  # noqa: E402
import weak_memory  # noqa: E402
import why_nothing  # noqa: E402


def texts() -> int:
    """Checks the examples in the docstrings, and returns how many there are."""
    modules = (nic82599, nic82599.buffers, nic82599.descriptors, nic82599.frames, nic82599.tools.printable)
    results = [doctest.testmod(it) for it in modules]
    results.append(doctest.testfile(str(PROMPT), module_relative=False))
    if any(it.failed for it in results):
        sys.exit(1)
    return sum(it.attempted for it in results)


def types() -> str:
    """Checks the prompt's example with mypy in strict mode. Exits if mypy reports anything."""
    if not shutil.which("mypy"):
        return "types not checked: mypy isn't installed"
    with tempfile.TemporaryDirectory() as folder:
        file = Path(folder) / "prompt.py"
        file.write_text("".join(it.source for it in doctest.DocTestParser().get_examples(PROMPT.read_text())))
        how = {**os.environ, "MYPYPATH": str(HERE.parent), "MYPY_CACHE_DIR": folder}
        made = subprocess.run(["mypy", "--strict", file], env=how, capture_output=True, text=True, check=False)
    if made.returncode:
        sys.exit(made.stdout + made.stderr)
    return "types of the prompt's example checked by mypy --strict"


def units(module: ModuleType) -> int:
    """Runs a module's tests, and returns how many there are."""
    suite = unittest.defaultTestLoader.loadTestsFromModule(module)
    result = unittest.TextTestRunner(stream=sys.stderr, verbosity=0).run(suite)
    if not result.wasSuccessful():
        sys.exit(1)
    return result.testsRun


def main() -> None:
    parser = argparse.ArgumentParser(prog="python/tests/all.py")
    parser.add_argument("--seed", type=int, default=1)
    parser.add_argument("--batches", type=int, default=4)
    given = parser.parse_args()
    print(f"{texts()} examples in docstrings")
    print(types())
    print(f"{units(calls)} tests of calls")
    print(f"{units(interrupted)} tests of interrupted calls")
    print(f"{units(together)} tests of several threads")
    print(f"{units(descriptors_of_device)} tests of descriptors")
    print(f"{units(making_frames)} tests of frames")
    print(f"{units(explorer)} tests of the explorer")
    print(f"{units(weak_memory)} tests of weak memory, values and timers")
    print(f"{units(report_card)} tests of the report card")
    print(f"{units(packing)} tests of the package")
    print(f"{units(ends)} tests of how tools exit")
    print(f"{units(files_by_others)} tests of files from elsewhere")
    print(f"{units(why_nothing)} tests of why nothing happens")
    print(f"{units(telling)} tests of what is reported as it happens")
    made = answers = 0
    with tempfile.TemporaryDirectory() as folder:
        for batch in range(given.batches):
            more = chance.batch(given.seed * 1000 + batch, (0, 2, 63)[batch % 3], Path(folder))
            made, answers = made + more[0], answers + more[1]
    print(f"{made} random calls, {answers} equal replies")


if __name__ == "__main__":
    main()
