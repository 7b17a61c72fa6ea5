"""Builds a driver's program from what the author provides: sources, objects, a Python file, or the program itself.

Sources are compiled with -fsanitize=thread and linked with the variant of the explorer that handles its calls, so that
each access to the driver's own memory is observed. If the compiler or linker can't do that, the sources are compiled
without it.
"""

from __future__ import annotations

import os
import re
import shlex
import subprocess
import sys
import tempfile
from dataclasses import dataclass
from pathlib import Path

from . import where
from .rows import Refused, blindness_of

# With these flags, the search observes each access. Otherwise gcc would copy small objects with instructions that the
# search can't observe, and a tail call would have no source line. gcc warns that its library doesn't support fences;
# clang doesn't know that warning.
SEES = (
    "-fsanitize=thread",
    "-fno-builtin",
    "-fno-optimize-sibling-calls",
    "-Wno-unknown-warning-option",
    "-Wno-tsan",
)
PYTHON = Path(__file__).resolve().parents[3] / "python"
OBJECTS = (".o", ".a")


@dataclass
class Words:
    """How to compile and link sources, according to the command line."""

    compiler: str
    flags: str
    libraries: Path
    sees: bool = True  # observe accesses to the driver's own memory, if possible


@dataclass
class Built:
    program: Path
    blind: str = ""  # why accesses to the driver's own memory aren't observed


def found(folder: Path, names: tuple[str, ...]) -> list[Path]:
    paths = [folder / name for name in names]
    for path in paths:
        if not path.exists():
            raise Refused(f"{path}: there is no such file{': `make -C c` builds it' if where.clone() else ''}")
    return paths


def of_python(given: Path, folder: Path) -> Path:
    """Returns the program of a Python driver, FILE.py or FILE.py:CLASS: a script that runs the card's module with
    it."""
    file, _, name = str(given).partition(":")
    driver = str(Path(file).resolve()) + f":{name}" * bool(name)
    program = folder.resolve() / "program"
    words = [sys.executable, "-P", "-m", "nic82599.drive.row", driver]
    program.write_text(
        "#!/bin/sh\n"
        f"PYTHONPATH={shlex.quote(str(PYTHON))} PYTHONHASHSEED=0 NIC82599_PROGRAM=\"$0\" \\\n"
        f'    exec {shlex.join(words)} "$@"\n'
    )
    program.chmod(0o755)
    return program


def made(words: list[object]) -> str:
    """Runs a compiler. Returns an empty string, or the compiler's message if it fails."""
    given = [str(word) for word in words]
    try:
        done = subprocess.run(given, capture_output=True, text=True, check=False)
    except OSError as fault:
        raise Refused(f"{given[0]}: can't be run: {fault.strerror}") from fault
    return (done.stderr.rstrip() or f"status {done.returncode}") if done.returncode else ""


def compiler_of(words: Words, *more: str) -> list[object]:
    """Returns the compiler command. The author's flags come last, so they can override the others."""
    return [*shlex.split(words.compiler), "-g", "-O1", f"-I{where.include()}", *more, *shlex.split(words.flags)]


def plainly(given: list[Path], program: Path, words: Words) -> str:
    """Builds a program whose accesses aren't observed. Returns an empty string, or the error message."""
    return made([*compiler_of(words), *given, *found(words.libraries, where.ARCHIVES), "-lpthread", "-o", program])


def named(blind: str, folder: Path) -> list[object]:
    """Returns a source that names the parts whose accesses aren't observed. In a program that has one, no data race is
    judged, because the order that those parts make isn't observed either."""
    if not blind:
        return []
    source = folder / "unseen.c"
    text = re.sub(r"[^\w ,.:=+-]", "_", blind, flags=re.ASCII)
    source.write_text(f'extern char nicx_unseen_parts[];\nchar nicx_unseen_parts[] = "{text}";\n')
    return [source]


def seen(given: list[Path], program: Path, words: Words) -> str:
    """Builds a program whose accesses are observed. Returns an empty string, or the error message."""
    found(words.libraries, where.SEEN)
    compiler = compiler_of(words, *SEES)
    with tempfile.TemporaryDirectory() as folder:
        objects = named(unseen(given), Path(folder))
        for number, path in enumerate(given):
            if path.suffix in OBJECTS:
                objects.append(path)
                continue
            objects.append(Path(folder) / f"{number}.o")
            if fault := made([*compiler, "-c", path, "-o", objects[-1]]):
                return fault
        form = f"@{words.libraries / where.SEEN[0]}"
        return made([*compiler_of(words), *objects, f"-L{words.libraries}", form, "-lpthread", "-o", program])


def unseen(given: list[Path]) -> str:
    """Returns why accesses in the given objects aren't observed, or an empty string."""
    blind = [path.name for path in given if path.suffix in OBJECTS and b"__tsan_" not in path.read_bytes()]
    return f"{', '.join(blind)}: compile with -fsanitize=thread" if blind else ""


def compile_all(given: list[Path], program: Path, words: Words) -> str:
    """Builds the program. Returns why its accesses aren't observed, or an empty string. Raises Refused if it can't be
    built."""
    blind = "--no-accesses" if not words.sees else ""
    if not blind and "-fsanitize=" in words.flags:
        blind = "--flags selects another sanitizer"
    if not blind and not (fault := seen(given, program, words)):
        return unseen(given)
    if failed := plainly(given, program, words):
        raise Refused(f"the driver doesn't compile:\n{failed}")
    return blind or f"{words.compiler} can't compile and link with -fsanitize=thread: {fault.splitlines()[0]}"


def is_program(given: list[Path]) -> bool:
    return len(given) == 1 and given[0].suffix not in (".c", *OBJECTS) and os.access(given[0], os.X_OK)


def build(given: list[Path], folder: Path, words: Words) -> Built:
    """Returns the program for the given files. Raises Refused with the compiler's message if it can't be built."""
    if len(given) == 1 and given[0].name.partition(":")[0].endswith(".py"):
        return Built(of_python(given[0], folder), "in Python only calls and self.point() are points")
    for path in given:
        if not path.exists():
            raise Refused(f"{path}: there is no such file")
    if is_program(given):
        return Built(given[0], blindness_of(given[0].resolve()))
    program = folder / "program"
    return Built(program, compile_all(given, program, words))
