"""Checks that runs of scripts as tests in C and in Python (nicview --test) compile, pass, and fail if an answer
differs. c/test calls this."""

from __future__ import annotations

import ast
import os
import random
import subprocess
import sys
from collections.abc import Iterable
from dataclasses import dataclass
from pathlib import Path

from nic82599.tools import as_test
from nic82599.tools.run import bench_of
from nic82599.tools.script import Bench, Refused, of_text, script_part

ROOT = Path(__file__).resolve().parent.parent
LIMIT = 4_096
STRICT = ["-std=c99", "-Wall", "-Wextra", "-pedantic", "-Werror"]
# A script with every reply that no example contains, and with strings that would end a comment in C or Python.
HOSTILE = """# */ int x; /* ??/ \\
data frame 0011\t# a tab */ \\
data small 00112233445566778899aabbccddeeff
lend 0 # /* \"\"\" {} %s \\
lend 0
unlend 7
peek 0x800 0 # not lent
peek 8 0
poke 4 small
poke 0 small
peek 0 3
r 0x0000c
w 0x0000c 5
vr 62 0
vw 62 0 5
int 62
int pf
tx 200
qstep tx 300
qstep rx 0
eestep
link up
link down
arrive frame
collect
rx
unlend 0
expect 1
"""
# Examples that need virtual functions, and how many.
FUNCTIONS = {"virtual": 2, "mailbox": 2}


class Wrong(Exception):
    """A test doesn't do what the run did."""


@dataclass
class Kit:
    """Builds and runs tests; contains their folder, the compiler, and the folder of the libraries."""

    folder: Path
    compiler: str
    library: Path

    def c(self, text: str) -> tuple[int, str]:
        """Returns the status and the output of a test in C. Raises Wrong if it doesn't compile."""
        source, program = self.folder / "it.c", self.folder / "it"
        source.write_text(text)
        words = [self.compiler, *STRICT, f"-I{ROOT}/c/include", source, self.library / "libnic82599.a", "-o", program]
        if (made := subprocess.run(words, capture_output=True, text=True, check=False)).returncode:
            raise Wrong(made.stderr)
        ran = subprocess.run([program], capture_output=True, text=True, check=False)
        return ran.returncode, ran.stderr

    def python(self, text: str) -> tuple[int, str]:
        """Returns the status and the output of a test in Python."""
        ast.parse(text)
        source = self.folder / "test_it.py"
        source.write_text(text)
        how = {"PYTHONPATH": str(ROOT / "python"), "NIC82599_LIBRARY": str(self.library / "libnic82599.so")}
        words = [sys.executable, "-W", "error", source]
        ran = subprocess.run(words, capture_output=True, text=True, check=False, env={**os.environ, **how})
        return ran.returncode, ran.stderr


def tests_of(name: str, text: str, vfs: int | None) -> tuple[str, str]:
    """Returns a script's tests in C and in Python."""
    bench = bench_of(Bench(vfs), text)
    part = script_part(text)
    script, printed = of_text(bench, name, part), bench.run(part, LIMIT)
    return as_test.written("c", script, printed, bench), as_test.written("python", script, printed, bench)


def passes(kit: Kit, name: str, tests: tuple[str, str]) -> None:
    for language, (status, said) in (("C", kit.c(tests[0])), ("Python", kit.python(tests[1]))):
        if status:
            raise Wrong(f"{name} in {language}: status {status}: {said}")
    long = [line for test in tests for line in test.splitlines() if len(line) > 130]
    if long:
        raise Wrong(f"{name}: a line has {len(long[0])} columns: {long[0]}")


def fails(kit: Kit, tests: tuple[str, str]) -> None:
    """Checks that a test with other answers fails, and says where."""
    c, python = (text.replace("0x10000000);", "0x10000001);") for text in tests)
    python = python.replace("== (0x10000000", "== (0x10000001")
    if c == tests[0] or python == tests[1]:
        raise Wrong("the first example's answer isn't found in its tests")
    status, said = kit.c(c)
    if status != 1 or "line 3 of the script: word is 0x10000000, not 0x10000001" not in said:
        raise Wrong(f"another answer in C: status {status}: {said}")
    status, said = kit.python(python)
    if not status or "AssertionError" not in said:
        raise Wrong(f"another answer in Python: status {status}: {said}")


def check_as_tests(kit: Kit, names: Iterable[Path]) -> str:
    """Checks the tests generated from these scripts and from HOSTILE, a script of odd cases."""
    count = 0
    for path in names:
        try:
            tests = tests_of(path.name, path.read_text(), FUNCTIONS.get(path.stem))
        except Refused:
            continue  # (one example is meant to be refused)
        passes(kit, path.name, tests)
        count += 1
        if path.stem == "first":
            fails(kit, tests)
    passes(kit, "what is odd", tests_of('<"it">\\ */ {x}.nic', HOSTILE, 2))
    return f"{count} scripts, and one script of odd cases"


def some_examples(seed: int, count: int | None) -> list[Path]:
    """Returns `count` random examples in addition to the first one; all if no number is given."""
    found = sorted((ROOT / "examples").glob("*.nic"))
    first = ROOT / "examples/first.nic"
    return found if count is None else [first, *random.Random(seed).sample([it for it in found if it != first], count)]
