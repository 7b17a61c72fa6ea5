"""The arguments of drivers/qemu/search."""

from __future__ import annotations

import argparse
import os
import re
import sys
from collections.abc import Callable, Mapping, Sequence
from pathlib import Path
from typing import NoReturn

from cases import CASES

NAME = "drivers/qemu/search"
KERNELS = {"linux-6.1": "kernel-6.1", "linux-6.12": "kernel-6.12", "linux-sid": "kernel-sid"}

# Statuses for `git bisect run`. A status above 127 ends the bisect, so ENDS_BISECT is added to a status that the driver
# didn't cause.
NOT_TRIED, ENDS_BISECT = 125, 128
SEEDS = 20  # seeds of a search without --seeds
LEAST_MEMORY, MOST_PATIENCE, MOST_PROCESSORS = 128, 100, 255
BISECT = {
    0: "no seed failed, so git bisect marks this commit as good",
    1: "a seed failed, so git bisect marks this commit as bad",
    NOT_TRIED: "the driver couldn't be tried, so git bisect skips this commit",
    ENDS_BISECT + 2: "the driver isn't the cause, so git bisect stops",
    ENDS_BISECT + 3: "an argument is wrong, so git bisect stops",
}
MEANINGS = {
    0: "no seed failed, or the defect of --case appeared",
    1: "a seed failed, or the defect of --case didn't appear",
    2: "something is missing or unfit, or nothing could be tried",
    3: "an argument is unknown or wrong",
    129: "ended by SIGHUP; 130 by SIGINT, 143 by SIGTERM",
}


def listed(title: str, meanings: Mapping[int, str]) -> str:
    return "\n".join([title, *(f"  {status:<4} {said}" for status, said in meanings.items()), ""])


STATUSES = listed("statuses:", MEANINGS) + "\n" + listed("statuses with --bisect, also printed at the end:", BISECT)


class Words(argparse.ArgumentParser):
    """A parser that exits with status 3 for unknown arguments, like all scripts in drivers/."""

    status = 3

    def error(self, message: str) -> NoReturn:
        print(f"{NAME}: {message}; --help lists the options", file=sys.stderr)
        if self.status in BISECT:
            print(f"{NAME}: status {self.status}: {BISECT[self.status]}", file=sys.stderr)
        sys.exit(self.status)


def seeds_of(text: str) -> list[int]:
    """Parses "3", or "3-9"."""
    found = re.fullmatch(r"(\d{1,9})(?:-(\d{1,9}))?", text)
    if not found or int(found[2] or found[1]) < int(found[1]):
        raise argparse.ArgumentTypeError(f"{text} isn't a range of seeds, such as 1-20")
    return list(range(int(found[1]), int(found[2] or found[1]) + 1))


def whole(least: int, most: int, what: str = "") -> Callable[[str], int]:
    """Returns a parser of whole numbers in this range. `what` explains the range's end."""

    def parse(text: str) -> int:
        if not re.fullmatch(r"\d{1,9}", text) or not least <= int(text) <= most:
            raise argparse.ArgumentTypeError(f"{text} isn't a whole number from {least} to {most}{what}")
        return int(text)

    return parse


positive = whole(1, 99_999)


def machine_memory() -> int:
    """Returns this machine's memory in MB."""
    return os.sysconf("SC_PHYS_PAGES") * os.sysconf("SC_PAGE_SIZE") >> 20


def pattern(text: str) -> str:
    try:
        re.compile(text)
    except re.error as fault:
        raise argparse.ArgumentTypeError(f"{text} isn't a pattern: {fault}") from None
    return text


def parser() -> Words:
    it = Words(prog=NAME, description="Searches a kernel's driver for races.", allow_abbrev=False, epilog=STATUSES,
               formatter_class=argparse.RawDescriptionHelpFormatter)
    it.add_argument("linux", nargs="?", choices=sorted(KERNELS), help="Debian's kernel (linux-6.1)")
    it.add_argument("--kernel", type=Path, help="your own x86 kernel, with --modules or --initrd")
    it.add_argument("--modules", type=Path, help="the kernel's folder lib/modules/VERSION")
    it.add_argument("--initrd", type=Path, help="an initial file system that contains the kernel's modules")
    it.add_argument("--module", type=Path, help="your own ixgbe.ko or ixgbevf.ko instead of the kernel's")
    it.add_argument("--function", action="store_true", help="search ixgbevf, in a second guest")
    it.add_argument("--seeds", type=seeds_of, metavar="A-B", help=f"seeds to try (1-{SEEDS})")
    it.add_argument("--rounds", type=positive, help="rounds of operations per seed (4, or 2 with --case)")
    it.add_argument("--processors", type=whole(1, MOST_PROCESSORS), default=4, help="the guest's processors (4)")
    it.add_argument("--jobs", type=positive, default=max(1, (os.cpu_count() or 2) // 2),
                    help="guests to run at the same time (half the number of processors)")
    it.add_argument("--seeds-a-boot", type=positive, default=8, metavar="N",
                    help="seeds to try in a guest before it is replaced (8)")
    it.add_argument("--again", choices=("each", "new", "none"),
                    help="failing seeds to try again, alone and recorded: each, or the first with each verdict "
                    "(each, or none with --bisect)")
    it.add_argument("--record", action="store_true", help="record each guest, not only guests that try a seed again")
    it.add_argument("--record-most", type=positive, default=512, metavar="MB",
                    help="replace a guest when its recording is larger than this (512)")
    it.add_argument("--out", type=Path, help="folder for the results, which must be new")
    it.add_argument("--case", choices=sorted(CASES),
                    help="search for a known defect until it appears, in at most 20 seeds or those of --seeds")
    it.add_argument("--workload", type=positive, metavar="SEED", help="print what a guest does with this seed and exit")
    it.add_argument("--draw", type=Path, metavar="RECORDING", help="draw the end of a recording and exit")
    add_own(it)
    add_machine(it)
    return it


def add_own(it: Words) -> None:
    """Adds the options for the reporter's own workload and for the finding to search for."""
    own = it.add_argument_group("a workload of your own")
    own.add_argument("--script", type=Path, metavar="FILE",
                     help="a script for busybox's sh that the guest runs each round in place of the drawn operations")
    own.add_argument("--beside", action="store_true", help="run --script concurrently with the drawn operations")
    own.add_argument("--limit", type=positive, metavar="SECONDS", help="time limit for --script in a round (60)")
    own.add_argument("--no-traffic", action="store_true", help="send only the frames of the script and of the check")
    own.add_argument("--add", type=Path, action="append", default=[], metavar="FILE",
                     help="a program from this machine for the guest's /bin, with its libraries, or another file")
    sought = it.add_argument_group("what to search for")
    sought.add_argument("--match", type=pattern, metavar="PATTERN",
                        help="count a seed only if a finding matches or, after a fatal finding, a console line")
    sought.add_argument("--bisect", action="store_true",
                        help="exit with a status for `git bisect run`, and stop at the first failing seed")


def add_machine(it: Words) -> None:
    machine = it.add_argument_group("the guest's machine")
    machine.add_argument("--patience", type=whole(1, MOST_PATIENCE), default=1, metavar="N",
                         help="multiply all time limits by N, for kernels with lockdep, KASAN or KCSAN (1); at most "
                         f"{MOST_PATIENCE}")
    most = machine_memory()
    machine.add_argument("--memory", type=whole(LEAST_MEMORY, most, ", this machine's memory in MB"), default=384,
                         metavar="MB", help=f"memory of each guest (384), from {LEAST_MEMORY} to {most}")


def read_words(words: Sequence[str]) -> argparse.Namespace:
    it = parser()
    it.status = ENDS_BISECT + 3 if "--bisect" in words else 3
    given = it.parse_args(words)
    check(it, given)
    return given


def check(it: Words, given: argparse.Namespace) -> None:
    """Rejects conflicting options and missing files, and sets defaults."""
    if given.case:
        case = CASES[given.case]
        given.linux = given.linux or (None if given.kernel else case.kernel)
        given.function = case.driver == "ixgbevf"
    if given.kernel and (given.linux or not (given.modules or given.initrd)):
        it.error("--kernel needs --modules or --initrd, and can't be combined with the name of a Debian kernel")
    if not given.kernel and (given.modules or given.initrd):
        it.error("--modules and --initrd need --kernel")
    if not given.script and (given.beside or given.limit):
        it.error("--beside and --limit need --script")
    if given.case and (given.script or given.match or given.bisect):
        it.error("--case sets its own workload and stop condition, so --script, --match and --bisect can't be given")
    for file in (given.kernel, given.modules, given.initrd, given.module, given.draw, given.script, *given.add):
        if file and not file.exists():
            it.error(f"{file} doesn't exist")
    if given.module and given.module.name not in ("ixgbe.ko", "ixgbevf.ko"):
        it.error(f"{given.module} is neither ixgbe.ko nor ixgbevf.ko")
    if given.out and given.out.exists():
        it.error(f"{given.out} already exists")
    given.seeds = given.seeds or list(range(1, SEEDS + 1))
    check_memory(it, given)
    given.limit = given.limit or 60
    given.rounds = given.rounds or (2 if given.case else 4)
    given.again = given.again or ("none" if given.bisect else "each")


def check_memory(it: Words, given: argparse.Namespace) -> None:
    """Rejects guests that don't fit into this machine's memory."""
    guests = min(given.jobs, len(given.seeds)) * (2 if given.function else 1)
    most = machine_memory()
    needed = guests * given.memory
    if needed > most:
        it.error(f"{guests} guests with {given.memory} MB each need {needed} MB, and this machine has {most} MB: give "
                 "less --memory or fewer --jobs")


def needs(given: argparse.Namespace) -> list[str]:
    """Returns the package sets to fetch for these arguments."""
    return ["qemu", "tools", *([] if given.kernel else [KERNELS[given.linux or "linux-6.1"]])]
