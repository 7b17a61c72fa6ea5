"""Code that dev/compare_editions and dev/compare_words share: the plain edition and another one, and the comparison of
two programs' results for the same arguments and input."""

from __future__ import annotations

import argparse
import concurrent.futures
import itertools
import os
import signal
import subprocess
import sys
import tempfile
from collections.abc import Callable, Iterable, Iterator
from pathlib import Path
from typing import NamedTuple

from generated import ROOT

PROVED = ROOT / "crates/nicbench/out/nicbench"
PLAIN = ROOT / "dev/plain"
# Timeout in seconds. No compared run takes more than a second, except on a busy machine.
PATIENCE = 120
BATCH = 50
SHOWN = 5

# arguments, and the bytes that the program reads
Input = tuple[list[str], bytes]


class Missing(Exception):
    """An edition, or a tool that builds one, is missing."""


class Broken(Exception):
    """An edition can't be built."""


class Answer(NamedTuple):
    """A program's status and output; the status is None if a signal ended it."""

    status: int | None
    out: bytes
    err: bytes


class Programs(NamedTuple):
    """Two programs in separate folders, with the same name, because their usage message shows it."""

    one: Path
    other: Path


def plain_made(what: str) -> Path:
    """Returns the path of dev/plain's build: the program, or the folder of the library's archives."""
    made = subprocess.run([PLAIN, what], stdout=subprocess.PIPE, text=True, check=False)
    if made.returncode:
        # (2: there is no rustc)
        fault = Missing if made.returncode == 2 else Broken
        raise fault(f"dev/plain {what} exited with status {made.returncode}")
    return Path(made.stdout.strip())


def add_programs(parser: argparse.ArgumentParser) -> None:
    parser.add_argument("--program", metavar="FILE", help="the other nicbench; by default the proved one")
    parser.add_argument("--plain-program", metavar="FILE", help="the plain nicbench; by default dev/plain builds it")
    parser.add_argument("--jobs", type=int, default=len(os.sched_getaffinity(0)), metavar="N")


def programs(given: argparse.Namespace, folder: str) -> Programs:
    """Returns the two programs, as links with the same name in a folder."""
    other = Path(given.program) if given.program else PROVED
    if not os.access(other, os.X_OK):
        how = "./nicbench --prove builds the proved one; --program FILE names another"
        raise Missing(f"there is no program {other}: {how}")
    plain = Path(given.plain_program) if given.plain_program else plain_made("program")
    return Programs(link(plain, f"{folder}/plain"), link(other, f"{folder}/other"))


def link(program: Path, folder: str) -> Path:
    os.mkdir(folder)
    to = Path(folder) / "nicbench"
    to.symlink_to(program.resolve())
    return to


def answer_of(program: Path, words: list[str], data: bytes = b"") -> Answer:
    """Runs a program once."""
    files = [os.memfd_create(name) for name in ("in", "out", "err")]
    try:
        with open(files[0], "wb", closefd=False) as it:
            it.write(data)
        os.lseek(files[0], 0, os.SEEK_SET)
        moves = [(os.POSIX_SPAWN_DUP2, file, number) for number, file in enumerate(files)]
        pid = os.posix_spawn(program, [program, *words], {}, file_actions=moves)
        signal.signal(signal.SIGALRM, lambda *_: os.kill(pid, signal.SIGKILL))
        signal.alarm(PATIENCE)
        _, ended = os.waitpid(pid, 0)
        signal.alarm(0)
        status = os.WEXITSTATUS(ended) if os.WIFEXITED(ended) else None
        return Answer(status, *(os.pread(it, os.fstat(it).st_size, 0) for it in files[1:]))
    finally:
        for it in files:
            os.close(it)


def difference(words: list[str], data: bytes, one: Answer, other: Answer) -> str:
    """Returns the first line in which two results differ, and their input."""
    name = next(it for it in Answer._fields if getattr(one, it) != getattr(other, it))
    where = f"status {one.status}, not {other.status}"
    if name != "status":
        lines = [getattr(it, name).split(b"\n") for it in (one, other)]
        at = next(it for it, (left, right) in enumerate(itertools.zip_longest(*lines)) if left != right)
        left, right = (it[at][:100] if at < len(it) else b"(the end)" for it in lines)
        where = f"{name}, line {at + 1}: {left!r}, not {right!r}"
    return f"nicbench {' '.join(words)!r} with {len(data)} input bytes ({data[:60].hex()}): {where}"


def compared(pair: Programs, batch: list[Input]) -> tuple[int, list[str], list[Input]]:
    """Returns the number of inputs compared, a message for each difference, and the inputs that caused them."""
    found, inputs = [], []
    for words, data in batch:
        one, other = (answer_of(it, words, data) for it in pair)
        if one != other:
            found.append(difference(words, data, one, other))
            inputs.append((words, data))
    return len(batch), found, inputs


def batches(every: Iterable[Input]) -> Iterator[list[Input]]:
    every = iter(every)
    while batch := list(itertools.islice(every, BATCH)):
        yield batch


def compare_all(pair: Programs, what: str, every: Iterable[Input], jobs: int) -> int:
    """Compares the results of all inputs, prints how many differ, and keeps the first input with a difference."""
    count, found, kept = 0, [], []
    with concurrent.futures.ProcessPoolExecutor(jobs) as pool:
        for seen, more, inputs in pool.map(compared, itertools.repeat(pair), batches(every)):
            count, found, kept = count + seen, found + more, kept + inputs
    print(f"{what}: {count} compared, {len(found)} differ", flush=True)
    for line in found[:SHOWN]:
        print(f"  {line}")
    if kept:
        print(f"  the input of the first difference: {keep(kept[0])}")
    return len(found)


def keep(given: Input) -> Path:
    """Writes an input into a new folder, which is kept."""
    out = ROOT / "dev/editions/out"
    out.mkdir(parents=True, exist_ok=True)
    folder = Path(tempfile.mkdtemp(prefix="found-", dir=out))
    (folder / "words").write_text("\n".join(given[0]) + "\n")
    (folder / "input").write_bytes(given[1])
    return folder


def ended(main: Callable[[], int], name: str) -> int:
    """Runs a script and returns its status: 2 if an edition is missing, 1 if one can't be built."""
    try:
        return main()
    except (Missing, Broken) as why:
        print(f"{name}: {why}", file=sys.stderr)
        return 2 if isinstance(why, Missing) else 1
