"""Checks the report card: a correct driver passes each row; each bug in the corpus fails the row that finds it; a
driver's forbidden access is reported, and the other rows continue.

`c/test` calls these checks. `c/drive/table` imports the bugs from this file.
"""

from __future__ import annotations

import ast
import json
import os
import re
import shutil
import subprocess
import sys
import xml.etree.ElementTree
from collections.abc import Sequence
from dataclasses import dataclass, replace
from pathlib import Path
from typing import Any

HERE = Path(__file__).resolve().parent
C = HERE.parent
sys.path.insert(0, str(C))
from drive.card.rows import listed  # noqa: E402
from drive.page import texts_of  # noqa: E402
from drive.planted import Unplanted, sample  # noqa: E402
from explore.check import STRICT, Wrong, must_print, ran, sanitized_engine  # noqa: E402


@dataclass(frozen=True)
class Bug:
    """A bug planted in corpus/driver.c: the row that finds it and the cause it reports."""

    name: str
    row: str
    cause: str
    what: str
    memory: str = "strong"


def wrongs(table: str) -> dict[str, tuple[str, ...]]:
    """Parses a table of bugs. Returns, for each bug's name, the values that follow the name."""
    rows = re.findall(r"^WRONG\((\w+), (.*?)\)$", (HERE / table).read_text(), re.MULTILINE | re.DOTALL)
    return {name: ast.literal_eval(f"({words})") for name, words in rows}


BUGS = [Bug(name, *words) for name, words in wrongs("corpus/bugs.h").items()]
FAULTS = wrongs("tests/faults.h")

# On a busy machine, rows still run all requested schedules and report no hang.
PATIENT = ["--seconds", 1800, "--hang", 600]

# Arguments that the command refuses with status 2, and drivers that it can't use.
REFUSALS = {
    "": "name a driver: sources, objects, or a program",
    "/nowhere.c": "/nowhere.c: there is no such file",
    "{source} --rows nothing": "no row or family is named nothing; the families are setup, rings, frames",
    "{source} --rows ,": "--rows names no row",
    "{source} --jobs 0": "must be above 0",
    "{source} --cc /nowhere": "/nowhere: can't be run",
    "{source} --libraries /nowhere": "there is no such file: `make -C c` builds it",
    "{broken}": "the driver doesn't compile",
    "/bin/true": "prints no scenarios: does its main call nicd_main\\?",
    "--compare /nowhere /nowhere": "not a card",
}


# Adapters that the card refuses: what the struct contains besides the common fields, and the message.
ADAPTER = """#include "nic82599_drive.h"
static bool my_open(const nicd_setup *setup) { return setup->slots == 8; }
static void my_close(void) { }
static bool my_receive(uint16_t queue, nicd_frame *frame) { return frame->length && queue; }
int main(int argc, char **argv)
{
    static const nicd_driver card = {.open = my_open, FIELDS};
    return nicd_main(argc, argv, &card);
}
"""
ADAPTERS = {
    ".close = my_close, .receive = my_receive": "the name must have 1 to 40 letters",
    '.name = "a b", .close = my_close, .receive = my_receive': "the name must have 1 to 40 letters",
    '.name = "a", .receive = my_receive': "open and close must be set",
    '.name = "a", .close = my_close': "receive or send must be set",
    '.name = "a", .close = my_close, .receive = my_receive, .queues = 5': "queues is above 4",
    '.name = "a", .close = my_close, .receive = my_receive, .slots = 12': "slots must be 8, 16, .. 64",
    '.name = "a", .close = my_close, .receive = my_receive, .frame = 9': "frame must be 1,514 to 9,724",
    '.name = "a", .close = my_close, .receive = my_receive, .threads = 1': "or thread isn't set",
    '.name = "a", .close = my_close, .receive = my_receive, .can = 1024': "can has bits that enum nicd_can doesn't",
}


def nicdrive(folder: Path, words: list[object], wanted: int | None) -> str:
    """Returns the command's output. Raises Wrong if it exits with another status."""
    called = [sys.executable, HERE / "nicdrive", *words] + ([] if "--compare" in words else ["-o", folder])
    return ran(called, wanted)


def rows_of(folder: Path) -> dict[str, dict[str, Any]]:
    return {row["name"]: row for row in json.loads((folder / "card.json").read_text())["rows"]}


@dataclass
class Kit:
    """The folder for programs and cards, and the settings with which programs are built."""

    folder: Path
    compiler: str
    flags: list[str]
    jobs: int = 2
    engine: Path = C / "out"  # where the archives of the card and the explorer are

    def build(self, source: Path, *defines: str) -> Path:
        name = "-".join([source.stem, *defines]).lower().replace("=", "-")
        program = self.folder / name
        archives = [self.engine / f"libnic82599{part}.a" for part in ("_drive", "_explore")]
        archives.append(C / "out/libnic82599.a")
        words = [self.compiler, *STRICT, *self.flags, f"-I{C}/include", *(f"-D{one}" for one in defines), source]
        ran([*words, *archives, "-lpthread", "-o", program])
        return program

    def card(self, program: Path, wanted: int | None, *words: object) -> dict[str, dict[str, Any]]:
        """Returns the rows of a program's card, with time limits for a machine that may be busy."""
        folder = self.folder / f"card-{program.name}"
        how = ["--jobs", self.jobs, "--no-pages", *PATIENT]
        nicdrive(folder, [program, *how, *words], wanted)
        return rows_of(folder)


def expect(row: dict[str, Any], cause: str, what: str) -> None:
    if row["state"] != "failed" or not re.search(cause, row["cause"]):
        raise Wrong(f"{what}: row {row['name']} is {row['state']} by \"{row['cause']}\"; expected \"{cause}\"")


def none_failed(rows: dict[str, dict[str, Any]]) -> list[dict[str, Any]]:
    """Returns the rows of a card if none failed. With few schedules, some rows don't reach what they try."""
    for row in rows.values():
        if row["state"] == "failed":
            raise Wrong(f"row {row['name']} failed with \"{row['cause']}\"")
    return list(rows.values())


def check_right(kit: Kit, runs: int) -> str:
    """The correct driver passes each applicable row, both when the card's threads call it and with its own threads."""
    said = []
    for defines, memory in (((), "strong"), (("THREADS",), "strong"), ((), "weak")):
        program = kit.build(HERE / "corpus/driver.c", *defines)
        rows = kit.card(program, 0, "--runs", runs, "--every", runs, "--memory", memory)
        states = [row["state"] for row in rows.values()]
        for row in rows.values():
            for name, count in row["reached"].items():
                if not count and row["state"] == "passed":
                    raise Wrong(f"{row['name']} passed but never reached: {name}")
        said.append(f"{states.count('passed')} of {len(states)} rows")
    return f"the correct driver passes {said[0]}, with its own threads {said[1]}, with weak memory {said[2]}"


def check_bugs(kit: Kit, runs: int, each: int = 1) -> str:
    """Each bug fails in the row that finds it."""
    for bug in BUGS[::each]:
        program = kit.build(HERE / "corpus/driver.c", f"BUG={bug.name}")
        rows = kit.card(program, 1, "--rows", bug.row, "--runs", runs, "--memory", bug.memory)
        expect(rows[bug.row], bug.cause, bug.name)
        schedule = kit.folder / f"card-{program.name}" / f"{bug.row}.schedule"
        ran([program, "--row", bug.row, "--memory", bug.memory, "--replay", schedule], 1)
    return f"{len(BUGS[::each])} bugs, each found in its row"


def check_planted(kit: Kit, runs: int, count: int | None) -> str:
    """Each fault in planted.txt that a row finds, or a sample of `count`, fails in that row."""
    try:
        planted = [(fault, fault.source()) for fault in sample(count)]
    except Unplanted as wrong:
        raise Wrong(str(wrong)) from wrong
    for fault, text in planted:
        source = kit.folder / f"planted_{fault.name.lower()}{Path(fault.driver).suffix}"
        source.write_text(text)
        words = ["--rows", fault.row, "--runs", runs, "--every", runs, "--memory", fault.memory]
        expect(kit.card(source, 1, *words)[fault.row], fault.cause, f"{fault.name} in {fault.driver}")
    return f"{len(planted)} planted faults, each found in its row"


def check_pages_driver(kit: Kit, runs: int) -> str:
    """corpus/pages.c, the second correct driver in C, fails no row. Another check plants faults in it."""
    rows = none_failed(kit.card(kit.build(HERE / "corpus/pages.c"), None, "--runs", runs, "--every", runs))
    return f"corpus/pages.c passes {sum(row['state'] == 'passed' for row in rows)} rows"


# Changes to corpus/pages.c: the bit mask of queues to rearm, which two polls and a handler change, is accessed without
# synchronization. A queue is lost if another is rearmed between the load and the store.
PLAIN_WORD = {
    "__atomic_store_n(&card.polled, 0, __ATOMIC_RELEASE)": "card.polled = 0",
    "__atomic_store_n(&card.polled, all, __ATOMIC_RELEASE)": "card.polled = all",
    "__atomic_and_fetch(&card.polled, ~(1u << queue), __ATOMIC_ACQ_REL)": "(card.polled &= ~(1u << queue))",
}
# Rows in which the driver's threads share state other than their rings.
SEEN = "interrupt-two-queues,interrupt-often,link,stats,reset-during-interrupts,mailbox-ready-once,host-collides"
UNSEEN = (
    "^the search can't see accesses to the driver's own memory, so it judges no data races and misses bugs in their "
    "order: "
)


# Changes to corpus/driver.c with PLAIN_COUNTS: a single copy accesses both words, with a fence, for which gcc prints a
# warning.
COPIED_COUNTS = {
    "    it->frames++;\n    it->bytes += length;\n": """    struct count now;
    memcpy(&now, it, sizeof now);
    now.frames++;
    now.bytes += length;
    memcpy(it, &now, sizeof now);
""",
    "    *frames = it->frames;\n    *bytes = it->bytes;\n": """    struct count now;
    __atomic_thread_fence(__ATOMIC_SEQ_CST);
    memcpy(&now, it, sizeof now);
    *frames = now.frames;
    *bytes = now.bytes;
""",
}


def changed(source: Path, changes: dict[str, str], to: Path) -> Path:
    text = source.read_text()
    for old, new in changes.items():
        if old not in text:
            raise Wrong(f"{source} has no {old}")
        text = text.replace(old, new)
    to.write_text(text)
    return to


def check_counts(folder: Path) -> None:
    """Races are found on two plain counters that one thread updates and another reads, and when both counters are
    copied. The author needs no flag, and -Werror is allowed."""
    copied = changed(HERE / "corpus/driver.c", COPIED_COUNTS, folder / "copied_counts.c")
    how: list[object] = ["--rows", "stats-receive", "--runs", 200, "--no-pages", *PATIENT]
    for source, more, size in ((HERE / "corpus/driver.c", "", 8), (copied, f"-Werror -I{HERE}/corpus", 24)):
        nicdrive(folder, [source, f"--flags=-DPLAIN_COUNTS {more}", *how], 1)
        wanted = rf"race: driver\+0x\w+, {size} bytes: .* without an order between"
        expect(rows_of(folder)["stats-receive"], wanted, source.name)


def check_accesses(kit: Kit) -> str:
    """A race on a word that two polls change is found although its accesses aren't points, and the correct twin passes.
    If accesses aren't observed, the row passes, and the first line says why."""
    row, right = "interrupt-two-queues", HERE / "corpus/pages.c"
    how: list[object] = ["--rows", row, "--runs", 200, "--every", 200, "--no-pages", *PATIENT]
    wrong, folder = changed(right, PLAIN_WORD, kit.folder / "plain_word.c"), kit.folder / "accesses"
    found = nicdrive(folder, [wrong, *how], 1)
    wanted = r"race: card\+0x\w+, 4 bytes: .* at plain_word\.c:\d+ .*without an order between"
    expect(rows_of(folder)[row], wanted, "a word")
    passes = nicdrive(folder, [right, *how], 0)
    if "aren't seen" in found + passes:
        raise Wrong(f"accesses of {right} aren't seen:\n{passes}")
    check_counts(folder)
    check_blind(kit, wrong, how)
    check_partly(kit)
    return "a race on a plain word, and the notice if accesses aren't observed or only partly"


def check_seen(kit: Kit, runs: int, rows: str) -> str:
    """With accesses observed, the correct drivers have no race, whether the card's threads or their own call them."""
    said = []
    how: list[object] = ["--rows", rows, "--runs", runs, "--every", runs, "--jobs", kit.jobs, "--no-pages", *PATIENT]
    for source, defines in (("driver.c", ""), ("driver.c", "-DTHREADS"), ("pages.c", "")):
        nicdrive(kit.folder / "seen", [HERE / "corpus" / source, f"--flags={defines}", *how], None)
        said.append(str(len(none_failed(rows_of(kit.folder / "seen")))))
    return f"{', '.join(said)} rows of correct drivers with accesses observed"


def check_blind(kit: Kit, wrong: Path, how: list[object]) -> None:
    folder = kit.folder / "blind"
    other = kit.folder / "plain_word.o"
    ran([kit.compiler, "-g", f"-I{C}/include", "-c", wrong, "-o", other])
    lame = kit.folder / "lame-cc"
    refuses = 'case "$*" in *sanitize*) echo "cc: no sanitizer" >&2; exit 1;; esac'
    lame.write_text(f'#!/bin/sh\n{refuses}\nexec {kit.compiler} "$@"\n')
    lame.chmod(0o755)
    for words, wanted in {
        (wrong, "--no-accesses"): "--no-accesses\n",
        (wrong, "--flags", "-fsanitize=undefined -fno-sanitize=all"): "--flags selects another sanitizer\n",
        (wrong, "--cc", lame): ".*lame-cc can't compile and link with -fsanitize=thread: cc: no sanitizer\n",
        (other,): "plain_word.o: compile with -fsanitize=thread\n",
        (kit.build(HERE / "corpus/pages.c"),): "compile it with .*, and link with @nic82599_drive.opts\n",
    }.items():
        must_print(nicdrive(folder, [*words, *how], 0), UNSEEN + wanted, str(words))
        must_print((folder / "card.txt").read_text(), UNSEEN + wanted, "card.txt")
        if "it judges no data races" not in (folder / "card.html").read_text():
            raise Wrong(f"card.html doesn't say that accesses aren't seen: {words}")


GLUE = """int driver_main(int argc, char **argv);
int main(int argc, char **argv) { return driver_main(argc, argv); }
"""


def check_partly(kit: Kit) -> None:
    """A correct driver in an object without instrumentation has no race, although the search sees its copies: its loads
    of DD, which order them, aren't seen. The program itself reports that too."""
    glue, driver, folder = kit.folder / "glue.c", kit.folder / "driver_unseen.o", kit.folder / "partly"
    glue.write_text(GLUE)
    words = ["-O2", "-g", "-DIN_PLACE", "-Dmain=driver_main", f"-I{C}/include"]
    ran([kit.compiler, *words, "-c", HERE / "corpus/driver.c", "-o", driver])
    how: list[object] = ["--rows", "receive-one,send-one", "--runs", 200, "--every", 200, "--no-pages", *PATIENT]
    wanted = UNSEEN + "driver_unseen.o: compile with -fsanitize=thread\n"
    must_print(nicdrive(folder, [glue, driver, *how], 0), wanted, "an object without instrumentation")
    must_print(nicdrive(kit.folder / "again", [folder / "program", *how], 0), wanted, "its program")


def check_kept(kit: Kit, each: int = 1) -> str:
    """If an event makes the driver forget a setting, the row for that setting and event fails, with a cause that names
    both."""
    own = replace(kit, flags=["-O0"])
    listed = nicdrive(kit.folder, [own.build(HERE / "corpus/driver.c"), "--list", "--rows", "kept"], 0)
    pairs = re.findall(r"^((\w+)-then-(\w+)) .*; then ", listed, re.MULTILINE)
    for row, setting, event in pairs[::each]:
        by = "OTHER_MTU" if event == "mtu" else event.upper()
        wrong = own.build(HERE / "corpus/driver.c", f"LOSES={setting.upper()}", f"BY={by}")
        rows = own.card(wrong, 1, "--rows", row, "--runs", 500)
        expect(rows[row], KEPT[setting], f"{setting} lost by {event}")
    if len(pairs) != 28:
        raise Wrong(f"there are {len(pairs)} rows of a setting and an event:\n{listed}")
    return f"{len(pairs[::each])} of {len(pairs)} settings lost by an event"


def check_faults(kit: Kit, each: int = 1) -> str:
    """A forbidden access is reported in its row, with the line if it is known, and the other rows continue."""
    with_lines = replace(kit, flags=[*kit.flags, "-g"])
    for mode in list(FAULTS)[::each]:
        name, cause = FAULTS[mode]
        program = with_lines.build(HERE / "tests/faulty.c", f"MODE={mode}")
        some: list[object] = ["--rows", "receive-one,open-close,receive-wrap", "--runs", 400, "--every", 50]
        rows = kit.card(program, 1, *some, *(["--hang", 3] if mode.startswith("HANG") else []))
        expect(rows[name], cause, mode)
        if any(not row["state"] for row in rows.values()):
            raise Wrong(f"{mode}: a row wasn't run")
    rows = kit.card(kit.build(HERE / "tests/faulty.c"), None, "--runs", 100, "--every", 50)
    if rows["receive-wrap"]["state"] != "passed":
        raise Wrong(f"tests/faulty.c without a fault: {rows['receive-wrap']}")
    return f"{len(list(FAULTS)[::each])} drivers with forbidden actions"


def check_words(kit: Kit) -> str:
    """Checks flags that begin with a minus sign, prefixes of row names, and --list without a driver."""
    source = HERE / "tests/faulty.c"
    for words in (["--flags", "-DMODE=NO_LENGTH"], ["--flags=-DMODE=NO_LENGTH"]):
        folder = kit.folder / "flags"
        nicdrive(folder, [source, *words, "--rows", "receive-one", "--runs", 20, "--no-pages", *PATIENT], 1)
        expect(rows_of(folder)["receive-one"], FAULTS["NO_LENGTH"][1], " ".join(words))
    rows = listed(kit.build(HERE / "corpus/driver.c"))
    begun = [row for row in rows if row.name.startswith("interrupt")]
    named = [row for row in rows if row.name == "suspend" or row.name.startswith("receive-wra")]
    for words, wanted in (["--rows", "interrupt"], begun), (["--rows", "suspend,receive-wra"], named), ([], rows):
        lines = nicdrive(kit.folder, ["--list", *words], 0).splitlines()
        if len(lines) != len(wanted) or "not applicable" in "".join(lines):
            raise Wrong(f"nicdrive --list {' '.join(words)} prints {len(lines)} rows, not {len(wanted)}")
    return "arguments of the command"


def check_listed(kit: Kit) -> str:
    """The pages list each row and state how many there are."""
    rows = listed(kit.build(HERE / "corpus/driver.c"))
    stale = [page.name for page, text in texts_of(rows).items() if page.read_text() != text]
    if stale:
        raise Wrong(f"{', '.join(stale)}: the rows aren't those of the card; c/drive/table --scenarios writes them")
    return f"{len(rows)} rows, as the pages say"


def check_places(kit: Kit) -> str:
    """The last step of a failed row names a line in the driver, even if the card's `control` task made the call."""
    head = "static bool suspend(void)\n{\n"
    text = (HERE / "corpus/driver.c").read_text()
    source = kit.folder / "rests_badly.c"
    wrong = text.replace(head, head + "    nicx_write32(NIC_RDBAL(0), 0);\n")
    source.write_text(wrong.replace('"bugs.h"', f'"{HERE}/corpus/bugs.h"'))
    row = kit.card(source, 1, "--rows", "suspend", "--runs", 20)["suspend"]  # compiled with -g
    expect(row, "RDBAL.0. is written while the queue is on", source.name)
    line = text[: text.index(head)].count("\n") + 3
    if not re.search(rf"task control .* at (\S+ < )*{source.name}:{line}\b", row["schedule"]):
        raise Wrong(f"{source.name}: no step of control is at line {line}:\n{row['schedule']}")
    return "a failed row names the driver's line"


def check_second_delivery(kit: Kit) -> str:
    """A frame that is delivered twice is reported with its slot and its queue, even if the two numbers differ."""
    here = {'"bugs.h"': f'"{HERE}/corpus/bugs.h"', "BUG == SLOT_TAKEN_TWICE &&": "queue == 1 &&"}
    source = changed(HERE / "corpus/driver.c", here, kit.folder / "slot_taken_twice.c")
    row = kit.card(kit.build(source), 1, "--rows", "two-queues", "--runs", 20)["two-queues"]
    expect(row, r"frame \d+ is delivered a second time, from slot 0 of queue 1", source.name)
    return "a second delivery names slot and queue"


def check_every(kit: Kit) -> str:
    """A row whose schedules with at most one preemption were all run doesn't claim to have run all schedules."""
    program = kit.build(HERE / "corpus/driver.c")
    for _ in range(20):  # the time limit of this search is fixed, and a busy machine may exceed it
        row = kit.card(program, 0, "--rows", "receive-empty", "--runs", 5, "--every", 100_000)["receive-empty"]
        if row["state"] != "passed" or row["every"] >= 0:
            break
    if row["state"] != "passed" or row["every"] != 1:
        raise Wrong(f"receive-empty is {row['state']} with `every` {row['every']}, not 1")
    return "schedules with one preemption aren't all schedules"


# Registers written after reception was enabled, at every address that they have, and the names that the card reports.
LATE = {
    "NIC_SRRCTL(0)": "SRRCTL.0.",
    "0x02100": "SRRCTL.0.",
    "NIC_MRQC": "MRQC",
    "0x0EC80": "MRQC",
    "0x05C04": "RETA.1.",
    "0x0EB04": "RETA.1.",
    "0x0EB80": "RSSRK.0.",
}


def check_aliases(kit: Kit) -> str:
    """A driver that writes registers through their aliases still passes. A late write is reported with the register's
    name, whichever address was used."""
    driver, words = HERE / "corpus/driver.c", ("--runs", 10, "--every", 10)
    states = [row["state"] for row in none_failed(kit.card(kit.build(driver, "ALIASES"), None, *words))]
    here = driver.read_text().replace('"bugs.h"', f'"{HERE}/corpus/bugs.h"')
    enable = "nicx_write32(NIC_RXCTRL, NIC_RXCTRL_RXEN);"
    for address, name in LATE.items():
        source = kit.folder / "writes_late.c"
        source.write_text(here.replace(enable, f"{{ {enable} nicx_write32({address}, nicx_read32({address})); }}"))
        row = kit.card(kit.build(source), 1, "--rows", "setup-reception-last", *words)["setup-reception-last"]
        expect(row, f"{name} is written after RXCTRL.RXEN", address)
    return f"registers' other addresses: {states.count('passed')} rows passed, {len(LATE)} late writes named"


# Bugs in corpus/bugs.h that are also found with the driver's memory in place, and misuses of pointers.
BUGS_IN_PLACE = ("TAIL_BEFORE_DESCRIPTOR", "BUFFER_AGAIN_BEFORE_DD", "RECLAIM_BY_HEAD", "MISSING_WMB")
FAULTS_OF_POINTERS = ("STORE_PAST_A_PIECE", "STORE_GIVEN_BACK", "STORE_IN_OPEN", "POINTER_TO_NOTHING")


def check_seen_in_place(kit: Kit) -> None:
    """With accesses observed, a load of the device's write-back through a pointer orders later accesses after that
    write, and a held lock excludes other threads. Otherwise the correct driver would have races."""
    rows = "receive-wrap,send-wrap,both-ways,mtu-then-link"
    sources = {"driver": [HERE / "corpus/driver.c"], "adapter": [ADAPTER_FOLDER / it for it in ("driver.c", "glue.c")]}
    for name, source in sources.items():
        folder, words = kit.folder / f"seen-{name}", ["--flags=-DIN_PLACE", "--rows", rows, "--runs", 20, "--every", 20]
        nicdrive(folder, [*source, *words, "--jobs", kit.jobs, "--no-pages", *PATIENT], 0)
        if rows_of(folder)["both-ways"]["state"] != "passed":
            raise Wrong(f"{name}, compiled so that accesses are seen: {rows_of(folder)['both-ways']}")


def check_in_place(kit: Kit, runs: int, each: int = 1) -> str:
    """The correct driver also passes each applicable row with its memory in place. Bugs are found, and so are stores to
    addresses without memory."""
    driver, some = HERE / "corpus/driver.c", ("--runs", 2000)
    rows = none_failed(kit.card(kit.build(driver, "IN_PLACE"), None, "--runs", runs, "--every", runs))
    for bug in (bug for bug in BUGS if bug.name in BUGS_IN_PLACE[::each]):
        program = kit.build(driver, "IN_PLACE", f"BUG={bug.name}")
        expect(kit.card(program, 1, "--rows", bug.row, *some, "--memory", bug.memory)[bug.row], bug.cause, bug.name)
    for mode in FAULTS_OF_POINTERS[::each]:
        name, cause = FAULTS[mode]
        program = kit.build(HERE / "tests/faulty.c", f"MODE={mode}")
        expect(kit.card(program, 1, "--rows", name, "--runs", 50, "--every", 50)[name], cause, mode)
    check_seen_in_place(kit)
    passed, tried = sum(row["state"] == "passed" for row in rows), len(FAULTS_OF_POINTERS[::each])
    return f"memory in place: {passed} rows passed, {len(BUGS_IN_PLACE[::each])} bugs, {tried} stray pointers found"


def check_stores(kit: Kit) -> str:
    """A store through a pointer to memory that isn't lent is reported with its line if accesses are observed."""
    words = ["--rows", "receive-one", "--runs", 20, "--no-pages", "--jobs", kit.jobs, *PATIENT]
    for mode in ("STORE_PAST_A_PIECE", "STORE_GIVEN_BACK"):
        folder = kit.folder / f"stores-{mode}"
        nicdrive(folder, [HERE / "tests/faulty.c", f"--flags=-DMODE={mode}", *words], 1)
        wanted = r"memory: receive0 at faulty\.c:\d+( < \S+)? writes 0x\w+, which isn't lent: \d+ bytes past the end"
        expect(rows_of(folder)["receive-one"], wanted, mode)
    return "the source lines of stores through pointers"


def check_too_long(kit: Kit) -> str:
    """For a driver that doesn't refuse a frame above the limit, the cause begins with the frame, before the fault."""
    changes = {"length > driver.setup.frame || length < 60": "length < 60"}
    source, folder = changed(HERE / "corpus/driver.c", changes, kit.folder / "too_long.c"), kit.folder / "too-long"
    how: list[object] = ["--rows", "send-too-long", "--runs", 20, "--every", 20, "--no-pages", *PATIENT]
    nicdrive(folder, [source, f"--flags=-I{HERE}/corpus", *how], 1)
    wanted = "^fault: send passed a 1515-byte frame to the device, but the setup's longest is 1514: queue 0: too long "
    expect(rows_of(folder)["send-too-long"], wanted, "a frame above the limit")
    return "the cause of a frame that is too long"


# Accesses to registers that the bench doesn't model, and what the card prints about them.
STRAYS = "nicx_write32(0x05088, nicx_read32(0x05088)); nicx_read32(0x0A004); nicx_write32(0x01FFC, 1);"
UNMODELLED = r"""not modelled: VFTA \(2 rows\), VLNCTRL \(2 rows\): skip: tagged frames .*
not modelled: 0x01ffc \(2 rows\): no register is at this address
"""


def check_strays(kit: Kit) -> str:
    """The card lists the registers that the driver accessed but the bench doesn't model, and no others."""
    right, folder = HERE / "corpus/driver.c", kit.folder / "strays"
    source = changed(right, {"    start_all();\n": f"    start_all();\n    {STRAYS}\n"}, kit.folder / "strays.c")
    how: list[object] = ["--rows", "receive-one,send-one", "--runs", 20, "--every", 20, "--no-pages", *PATIENT]
    must_print(nicdrive(folder, [source, f"--flags=-I{HERE}/corpus", *how], 0), UNMODELLED, "strays")
    must_print((folder / "card.txt").read_text(), UNMODELLED, "card.txt")
    must_print((folder / "card.html").read_text(), r"<p>not modelled: VFTA \(2 rows\), VLNCTRL", "card.html")
    if "not modelled" in (said := nicdrive(folder, [right, *how], 0)):
        raise Wrong(f"the card of corpus/driver.c lists registers that aren't modelled:\n{said}")
    return "registers that aren't modelled"


ADAPTER_FOLDER = C / "examples/adapter"
# Changes to the example's driver, flags to compile it with, and what its run then reports.
MISTAKES: list[tuple[str, str, list[str], str]] = [
    ("    os_write32(RXCTRL, 1);\n", "", [], r"RXCTRL\.RXEN 0: receiving is off"),
    ("    os_write32(RDT0, slot);\n", "", [], r"rx 0: RDH\[0\] 63, RDT\[0\] 63: head and tail meet"),
    ("TX_DATA (3u << 20", "TX_DATA (2u << 20", [], r"tx 0: slot 6: the descriptor's DTYP is 2 .context. with EOP 1"),
    ("1u << 25 | 1u << 27)", "1u << 25)", [], r"tx 0: TDH\[0\] 63: no descriptor of the ring has RS"),
]
# The sanitizer's report with the function that wrote. The proved library has no unwind tables, so the stack may end at
# the library's first function.
SANITIZER_SAYS = r"use-after-poison .*\nWRITE of size (.*\n)*? +#\d+ .* in (nicl_rx_step|nic_device::)"
MISTAKES_SANITIZED: list[tuple[str, str, list[str], str]] = [
    ("", "", ["-DROOM=1024"], SANITIZER_SAYS),
    ("post(slot, fresh);", "post(slot, fresh); put_back(&rx.pool, fresh);", [], SANITIZER_SAYS),
]


# The statements that write the driver's address, and the place where its run opens the bench and the driver.
ADDRESS = re.compile(r"    os_write32\(RAL0, .*\n    os_write32\(RAH0, .*\n")
OPENS = "    if (nic_open(&n, 0, 64, BLOCKS) != NIC_DONE || !driver_open(address, SLOTS, true))\n"
OPENED = """    if (nic_open(&n, 0, 64, BLOCKS) != NIC_DONE)
        return 1;
{}    if (!driver_open(address, SLOTS, true))
"""


def changed_driver(changes: Sequence[tuple[str, str]]) -> str:
    """Returns the source of examples/adapter's driver with these strings replaced."""
    text = (ADAPTER_FOLDER / "driver.c").read_text()
    for old, new in changes:
        if old not in text:
            raise Wrong(f"c/examples/adapter/driver.c has no {old!r}")
        text = text.replace(old, new) if old else text
    return text


def adapter(
    kit: Kit, old: str = "", new: str = "", *flags: str, opened: str = "", more: Sequence[tuple[str, str]] = ()
) -> Path:
    """Builds examples/adapter with changes to its driver, and with additional lines where its run opens the bench."""
    folder, program = kit.folder / "adapter", kit.folder / "adapter-program"
    shutil.copytree(ADAPTER_FOLDER, folder, dirs_exist_ok=True)
    (folder / "driver.c").write_text(changed_driver([(old, new), *more]))
    glue = (folder / "glue.c").read_text()
    if OPENS not in glue:
        raise Wrong(f"c/examples/adapter/glue.c has no {OPENS!r}")
    (folder / "glue.c").write_text(glue.replace(OPENS, OPENED.format(opened)))
    archives = [kit.engine / f"libnic82599{part}.a" for part in ("_drive", "_explore")]
    words = [kit.compiler, *STRICT, *kit.flags, *flags, f"-I{C}/include", folder / "driver.c", folder / "glue.c"]
    ran([*words, *archives, C / "out/libnic82599.a", "-lpthread", "-o", program])
    return program


def check_address(kit: Kit) -> None:
    """If a driver reads its MAC address from RAL0 and RAH0, the report says that the address is missing. With port.md's
    EEPROM image, the driver finds it."""
    silent = "    (void)address;\n"
    if not (found := ADDRESS.search((ADAPTER_FOLDER / "driver.c").read_text())):
        raise Wrong("c/examples/adapter/driver.c writes no address")
    must_print(ran([adapter(kit, found[0], silent)], 1), "no RAL and RAH with AV 1 matched", "a driver with no address")
    ran([kit.build(HERE / "tests/ported.c")])
    page = (HERE / "tests/ported.c").read_text()
    lines = re.findall(r"^    (?:static const char image|uint64_t line;|nic_install_text).*\n", page, re.M)
    if ran([adapter(kit, found[0], silent, opened="".join(lines))]) != (ADAPTER_FOLDER / "adapter.out").read_text():
        raise Wrong("examples/adapter with port.md's EEPROM image prints something other than adapter.out")


# Puts the driver's rings and buffers in a single piece of memory, which the glue provides.
ONE_PIECE = (
    ('#include "os.h"\n', f'#include "os.h"\n#include "{HERE}/tests/one_piece.h"\n'),
    (
        "    slots = wanted;\n",
        "    slots = wanted;\n"
        "    if (!open_piece(slots * sizeof *rx.slots, 2 * slots * sizeof *rx.pool.packets))\n        return false;\n",
    ),
    ("(&tx);\n}\n\nvoid driver_rearm", "(&tx);\n    close_piece();\n}\n\nvoid driver_rearm"),
)


def check_one_piece(kit: Kit) -> str:
    """A driver with its rings and buffers in a single piece of memory, as port.md describes for static ones: its run,
    and rows of its card."""
    program = adapter(kit, more=ONE_PIECE)
    if ran([program]) != (ADAPTER_FOLDER / "adapter.out").read_text():
        raise Wrong("examples/adapter with its memory in one piece prints something other than adapter.out")
    rows = none_failed(kit.card(program, None, "--rows", "receive,send,open,memory", "--runs", 2, "--every", 2))
    return f"{sum(row['state'] == 'passed' for row in rows)} rows with its memory in one piece"


def check_overtaken(kit: Kit) -> None:
    """A store that another thread already wrote isn't written again, when its memory may be freed."""
    schedule = HERE / "tests/overtaken.schedule"
    said = ran([adapter(kit), "--row", "close-during-all", "--replay", schedule])
    must_print(said, r"task receive0 +# poke 0x\w+, 16 bytes, which another thread already wrote", str(schedule))
    must_print(said, r"\nclose-during-all: fine\n?$", str(schedule))


def check_late_stores(kit: Kit) -> None:
    """With weak memory, a barrier orders the stores of its thread even if another thread wrote them to the device."""
    how = ["--rows", "both-ways,close-during-all", "--runs", 500, "--every", 50, "--memory", "weak"]
    none_failed(kit.card(adapter(kit), None, *how))


def check_recorded(kit: Kit) -> None:
    """A recording of the example becomes a page, as port.md describes."""
    recording = kit.folder / "adapter.rec"
    ran([adapter(kit), "20"], env={**os.environ, "NIC82599_RECORD": str(recording)})
    ran([C.parent / "tools/nicview", recording, "-o", recording.with_suffix(".html")])


def check_adapter(kit: Kit, sanitized: list[str] | None) -> str:
    """The example, with a single adapter for its run and its card: it runs, records, says why no frame arrives, and
    gets a card. A sanitizer finds device writes outside a buffer."""
    if ran([adapter(kit)]) != (ADAPTER_FOLDER / "adapter.out").read_text():
        raise Wrong("examples/adapter prints something other than adapter.out")
    rows = none_failed(kit.card(kit.folder / "adapter-program", None, "--runs", 2, "--every", 2))
    check_address(kit)
    check_overtaken(kit)
    check_late_stores(kit)
    check_recorded(kit)
    one_piece = check_one_piece(kit)
    for old, new, flags, wanted in MISTAKES:
        must_print(ran([adapter(kit, old, new, *flags)], 1), wanted, f"examples/adapter with {new or flags}")
    if sanitized:
        own = replace(kit, flags=sanitized)
        ran([adapter(own), "500"])
        for old, new, flags, wanted in MISTAKES_SANITIZED:
            must_print(ran([adapter(own, old, new, *flags), "500"], 1), wanted, f"examples/adapter with {new or flags}")
    passed = sum(row["state"] == "passed" for row in rows)
    return f"examples/adapter runs, and passes {passed} rows, {one_piece}" + (", sanitized too" if sanitized else "")


# Rows in which a driver that does nothing doesn't fail, and what they report about it.
IDLE = {
    "setup-transmit-order": "TXDCTL.ENABLE was never written",
    "setup-tail-order": "RDT was never advanced",
    "setup-head-order": "neither RDH nor TDH was written",
    "setup-reception-last": "RXCTRL.RXEN was never written",
    "setup-masked-before-reset": "CTRL.RST was never written",
    "setup-masked-after-reset": "CTRL.RST was never written",
    "setup-ring-values": "RDLEN was never written; RDT was never advanced",
    "setup-buffer-values": "SRRCTL was never written",
    "setup-address-values": "RAH was never written",
    "setup-thresholds": "TXDCTL.ENABLE was never written",
    "setup-alignment": "no register was accessed",
    "setup-moderation": "EITR was never written",
    "setup-hash": "MRQC never requested a hash",
    "interrupt-rearm-alone": "all queues share one vector",
    "open-during-frames": "no frame arrived in queue 0; no frame was being received during open",
    "close-during-frames": "no frame arrived in queue 0; no frame was being received during close",
    "close-during-sends": "no frame was transmitted by queue 0; no frame was being transmitted during close",
    "close-during-all": "no message was sent for queue 0",
    "memory-refused": "no allocation failed; no frame arrived in queue 0",
    "suspend-quiet": "no frame arrived in queue 0; no frame was being received during suspend",
    "reset-during-receive": "no frame arrived in queue 0; no frame was being received during reset",
    "mtu-shrinks": "no frame was dropped because of its length",
    "function-close": "no frame was transmitted by queue 0",
}


@dataclass(frozen=True)
class Edit:
    """A change to corpus/driver.c after which these rows neither fail nor reach what they try, and each row's report.
    With the given flag of enum nicd_can, if any, the rows aren't applicable."""

    texts: dict[str, str]  # strings in the driver's source, and their replacements
    rows: dict[str, str]
    can: str = ""
    defines: tuple[str, ...] = ()


TAKES_RSS = "    driver.rss = *wanted;\n"
NO_RSS = {"        .rss = rss,\n": "", "driver.has_rss = driver.setup.queues > 1;": "driver.has_rss = false;"}
EDITS = {
    "the rings are longer": Edit(
        {"driver.setup = *setup;": "driver.setup = *setup; driver.setup.slots = 32;"},
        {
            "receive-burst": "not reached: the receive ring was never full",
            "receive-wrap": "not reached: the receive ring never wrapped",
            "send-wrap": "not reached: the transmit ring never wrapped",
            "interrupt-late": "not reached: no handler was called with a full ring",
        },
    ),
    "all flows go to queue 0": Edit(
        {TAKES_RSS: TAKES_RSS + "    memset(driver.rss.table, 0, sizeof driver.rss.table);\n"},
        {
            "two-queues": "not reached: no frame arrived in queue 1",
            "interrupt-two-queues": "not reached: no frame arrived in queue 1; no message was sent for queue 1",
        },
    ),
    "no rss": Edit(NO_RSS, dict.fromkeys(("two-queues", "interrupt-two-queues"), "all frames arrived in queue 0")),
    "mtu does nothing": Edit(
        {"static bool mtu(uint32_t frame)\n{": "static bool mtu(uint32_t frame)\n{ if (frame) return true;",
         "        .send = send,\n": ""},
        {"mtu-grows": "not reached: the longest frame was never delivered"},
    ),
    "one vector": Edit(
        {"low = 0x80 | 2 * pair, high = low + 1": "low = 0x80, high = low",
         "    return UINT32_C(1) << vector;": "    return own_causes();"},
        {"interrupt-rearm-alone": "not reached: all queues share one vector"},
        "NICD_ONE_VECTOR",
    ),
    "large buffers": Edit(
        {"PART = 2048": "PART = 6144"},
        {"resize-during-chains": "not reached: no frame filled several slots"},
        "NICD_ONE_BUFFER",
    ),
    "no intervals": Edit(
        {"    set_intervals();\n": ""},
        {"setup-moderation": "not reached: EITR was never written"},
        "NICD_NO_MODERATION",
    ),
    "heads are left": Edit(
        {"    put(NIC_RDH(queue), 0);\n": "", "    put(NIC_TDH(queue), 0);\n": ""},
        {"setup-head-order": "not reached: neither RDH nor TDH was written"},
        "NICD_NO_HEADS",
    ),
    "no reset": Edit(
        {"    nicx_write32(NIC_CTRL, NIC_CTRL_RST);\n": ""},
        {"setup-masked-before-reset": "not reached: CTRL.RST was never written"},
        "NICD_SHARED_DEVICE",
    ),
    "threads without messages": Edit(
        {"    nicx_write32(NIC_EIMS, own_causes() | other_causes);\n": "",
         "        poll(number, BUG": "        for (; BUG == NONE; nicx_wait())\n"
         "            if (number < driver.setup.queues) deliver_all(number, (uint16_t)number);\n"
         "    if (BUG != NONE)\n        poll(number, BUG"},
        {"interrupt-receive": "not reached: no message was sent for queue 0"},
        defines=("THREADS",),
    ),
}  # fmt: skip


def edited(kit: Kit, name: str, edit: Edit, *more: tuple[str, str]) -> Path:
    """Builds the driver with the change."""
    text = (HERE / "corpus/driver.c").read_text().replace('"bugs.h"', f'"{HERE}/corpus/bugs.h"')
    for old, new in (*edit.texts.items(), *more):
        if old not in text:
            raise Wrong(f"{name}: corpus/driver.c has no {old.strip()}")
        text = text.replace(old, new)
    source = kit.folder / f"{name.replace(' ', '_')}{len(more)}.c"
    source.write_text(text)
    return kit.build(source, *edit.defines)


def check_edit(kit: Kit, name: str, edit: Edit) -> None:
    rows = kit.card(edited(kit, name, edit), None, "--rows", ",".join(edit.rows), "--runs", 60, "--every", 20)
    for row, wanted in edit.rows.items():
        said = rows[row]["cause"] or rows[row]["lack"]
        state = "not reached" if wanted.startswith("not reached") else "not applicable"
        if rows[row]["state"] != state or wanted not in said:
            raise Wrong(f"{name}: row {row} is {rows[row]['state']} by \"{said}\"; wanted: {state}: {wanted}")
    if edit.can:
        program = edited(kit, name, edit, (".can = ", f".can = {edit.can} | "))
        for line in nicdrive(kit.folder, [program, "--list", "--rows", ",".join(edit.rows)], 0).splitlines():
            if f"({edit.can})" not in line:
                raise Wrong(f"{name}: with {edit.can} the list has: {line}")


def check_not_reached_files(card: Path) -> None:
    """Checks JUnit's report of rows that weren't reached, and a comparison with a card in which they passed."""
    errors = xml.etree.ElementTree.parse(card / "card.xml").getroot().get("errors")
    if errors != str(len(IDLE)):
        raise Wrong(f"card.xml of an idle driver counts {errors} errors")
    before = card.parent / "card-before.json"
    data = json.loads((card / "card.json").read_text())
    for row in data["rows"]:
        row.update(state="passed", cause="")
    before.write_text(json.dumps(data))
    said = nicdrive(card, ["--compare", before, card], 1)
    if "no longer reached:\n  setup-transmit-order: not reached: TXDCTL" not in said:
        raise Wrong(f"--compare doesn't print what is no longer reached:\n{said}")


def check_reached(kit: Kit, each: int = 1) -> str:
    """A row that doesn't reach what it tries doesn't pass, and reports what is missing."""
    own = replace(kit, flags=["-O0", "-Wno-unused-function", "-Wno-unused-const-variable"])
    rows = own.card(own.build(HERE / "tests/idle.c"), 1, "--rows", ",".join(IDLE), "--runs", 20, "--every", 20)
    for name, wanted in IDLE.items():
        if rows[name]["state"] != "not reached" or wanted not in rows[name]["cause"]:
            raise Wrong(f"an idle driver: row {name} is {rows[name]['state']} by \"{rows[name]['cause']}\"")
    check_not_reached_files(own.folder / "card-idle")
    for name, edit in list(EDITS.items())[::each]:
        check_edit(own, name, edit)
    return f"{len(IDLE)} rows without traffic and {len(list(EDITS)[::each])} drivers that don't reach what is tried"


# What is reported if a setting was lost.
KEPT = {
    "filter": "was received, but the filter doesn't accept it \\(.* accepts only the port's own address; then ",
    "list": "wasn't received, but the filter accepts it|was received, but the filter doesn't accept it",
    "promiscuous": "wasn't received, but the filter accepts it \\(all frames are accepted; then ",
    "mtu": "4096 bytes long, wasn't received, but the frame limit|send on queue 0 fails forever",
    "rss": "arrived in queue \\d instead of \\d",
    "rings": "by a 128-byte ring, but 16 slots were requested|never reached the caller",
}

# Changes to corpus/driver.c that concern its interrupts: the row, and the failure, or "" if the row passes.
HANDLER = "        nicx_read32(NIC_EICR);\n    if (BUG == INTERVAL"
MASKS_ALL = {HANDLER: HANDLER.replace("    if (BUG", "    nicx_write32(NIC_EIMC, 0x7FFFFFFF);\n    if (BUG")}
SHARES = {".can = ": ".can = NICD_SHARED_DEVICE | "}
NO_MSIX = {"NIC_GPIE, NIC_GPIE_MULTIPLE_MSIX |": "NIC_GPIE,"}
NOT_CLEARED = {
    "bool clears = ": "bool clears = BUG != NONE && ",
    "NIC_EIAM, own_causes());\n    if": "NIC_EIAM, 0);\n    if",
}
INTERRUPTS = {
    "masks_all": (MASKS_ALL, "neighbour-interrupts", ""),
    "shares_masks": (MASKS_ALL | SHARES, "neighbour-interrupts", "writes the mask of another driver's cause: 0x7ff"),
    "no_msix": (NO_MSIX, "setup-gpie", "GPIE.MULTIPLE_MSIX is 0: .* declare NICD_NO_MSIX$"),
    "not_cleared": (
        NOT_CLEARED,
        "interrupt-receive",
        "enabled in EIMS and raised, but already reported; neither cause nor mask has been 0 since: clear it in EICR",
    ),
}


def check_interrupts(kit: Kit) -> str:
    """A driver that has the device for itself may mask all causes in its handler, and one that uses INTx or MSI
    declares that. If the next message is missing because the cause was never cleared, the row says so."""
    here = {'"bugs.h"': f'"{HERE}/corpus/bugs.h"'}
    for name, (changes, row, cause) in INTERRUPTS.items():
        program = kit.build(changed(HERE / "corpus/driver.c", here | changes, kit.folder / f"{name}.c"))
        found = kit.card(program, 1 if cause else 0, "--rows", row, "--runs", 200, "--every", 200)[row]
        if cause:
            expect(found, cause, name)
        elif found["state"] != "passed":
            raise Wrong(f"{name}: row {row} is {found['state']} by \"{found['cause']}\"")
    own = here | NO_MSIX | {".can = ": ".can = NICD_NO_MSIX | "}
    program = kit.build(changed(HERE / "corpus/driver.c", own, kit.folder / "says_no_msix.c"))
    said = nicdrive(kit.folder, [program, "--list", "--rows", "setup-gpie"], 0)
    must_print(said, r"no separate message for each vector \(NICD_NO_MSIX\)", "NICD_NO_MSIX")
    return f"{len(INTERRUPTS) + 1} ways to use interrupts"


# A program that prints what the command says about pages if a row failed in a clone. Its argument is the path at which
# the command looks for the compiled ./nicbench.
PAGES = """import sys
from pathlib import Path
sys.path[:0] = [FOLDERS]
from card import command
from card.rows import FAILED, Row
command.NICBENCH = [Path(sys.argv[1])]
command.draw = lambda row, folder: print("drawn")
command.draw_all([Row("a", "b", "", "c", "d", "e", state=FAILED)], Path())
"""


def check_pages() -> str:
    """The command announces that it compiles ./nicbench for the pages, but only if it does."""
    folders = ", ".join(repr(str(path)) for path in (HERE, C.parent / "python"))
    notice = "nicdrive: compiling ./nicbench for the pages (only once, takes half a minute)\n"
    for there, wanted in (("/nowhere", notice), ("/", "")):
        words = [sys.executable, "-B", "-c", PAGES.replace("FOLDERS", folders), there]
        made = subprocess.run(words, capture_output=True, text=True, check=False)
        if (made.stdout, made.stderr) != ("drawn\n", wanted):
            raise Wrong(f"with {there} as ./nicbench's program, the command prints: {made.stdout}{made.stderr}")
    return "the notice about the pages"


# A program that prints what a row reports if it exceeds its time limit, which depends on --hang.
PATIENCE = """import sys
from pathlib import Path
sys.path[:0] = [FOLDERS]
from card import rows
def too_long(words, seconds):
    raise rows.TooLong
rows.ran = too_long
row = rows.Row("a", "b", "", "c", "d", "e")
print(rows.Runner(Path("a"), Path(), rows.Budget(hang=int(sys.argv[1]))).make(row).cause)
"""


def check_patience() -> str:
    """--hang gives a row more time on a busy machine, and the row says so."""
    folders = ", ".join(repr(str(path)) for path in (HERE, C.parent / "python"))
    for hang, seconds in ((1, 81), (3, 81), (60, 1221)):
        words = [sys.executable, "-B", "-c", PATIENCE.replace("FOLDERS", folders), hang]
        said = ran([str(word) for word in words])
        if f"no result in {seconds} s: " not in said or not said.endswith("the machine is busy (--hang)\n"):
            raise Wrong(f"--hang {hang}: a row that takes too long says {said}")
    return "the time limit of a row"


def check_refusals(kit: Kit) -> str:
    broken = kit.folder / "broken.c"
    broken.write_text("int main(void) { return nothing; }\n")
    for words, wanted in REFUSALS.items():
        given = [it.format(source=HERE / "examples/small.c", broken=broken) for it in words.split()]
        printed = nicdrive(kit.folder / "refused", given, 2)
        if not re.search(wanted, printed):
            raise Wrong(f"nicdrive {words}: it doesn't print \"{wanted}\":\n{printed}")
    for fields, wanted in ADAPTERS.items():
        source = kit.folder / "refused.c"
        source.write_text(ADAPTER.replace("FIELDS", fields))
        output = nicdrive(kit.folder / "refused", [source], 2)
        if wanted not in output:
            raise Wrong(f"an adapter with {fields}: it doesn't print \"{wanted}\":\n{output}")
    return f"{len(REFUSALS) + len(ADAPTERS)} refusals"


def check_files(kit: Kit) -> str:
    """The card as text, as JUnit XML and as an HTML page, and the comparison of two cards."""
    small = HERE / "examples/small.c"
    before, after = kit.folder / "before", kit.folder / "after"
    rows: list[object] = ["--rows", "receive-one,setup-crc,send-one", "--runs", 50, "--no-pages", *PATIENT]
    nicdrive(before, [small, *rows], 1)
    nicdrive(after, [kit.build(HERE / "corpus/driver.c", "BUG=SLOT_TAKEN_TWICE"), *rows], 1)
    suite = xml.etree.ElementTree.parse(before / "card.xml").getroot()
    if (suite.get("tests"), suite.get("failures"), suite.get("skipped")) != ("3", "1", "1"):
        raise Wrong(f"card.xml counts {suite.attrib}")
    page = (before / "card.html").read_text()
    for wanted in ("setup-crc", "RDRXCTL.CRCSTRIP differs from HLREG0.RXCRCSTRP", "not applicable: no send"):
        if wanted not in page:
            raise Wrong(f"card.html has no {wanted}")
    found = re.search(r'href="(setup-crc\.html)#p(\d+)"', page)
    if not found or '"actor"' not in (before / found[1]).read_text():
        raise Wrong("card.html has no link to a point on the page of setup-crc's schedule")
    lines = (before / "setup-crc.nic").read_text().splitlines()
    deep = [line for line in lines if re.search(r"small\.c:\d+ < .*(actors|main)\.c:", line)]
    if deep or not any("at small.c:" in line for line in lines):
        raise Wrong(f"the stack of a step doesn't end at the adapter: {deep[:1] or lines[:9]}")
    said = nicdrive(kit.folder, ["--compare", before, after], 1)
    changes = ("fails now:\n  receive-one: ", "passes now:\n  setup-crc: it failed with", "now:\n  send-one: passed")
    for wanted in changes:
        if wanted not in said:
            raise Wrong(f"--compare doesn't print \"{wanted}\":\n{said}")
    nicdrive(kit.folder, ["--compare", before, before], 0)
    check_foreign_cards(kit, before)
    return "text, JUnit, page, and two cards compared"


def check_foreign_cards(kit: Kit, card: Path) -> None:
    """Comparing cards prints none of their control characters. A file that isn't a card is refused in one line."""
    bad, data = kit.folder / "bad.json", json.loads((card / "card.json").read_text())
    bad.write_text(json.dumps(data | {"driver": "\x1b]0;title\x07"}))
    said = nicdrive(kit.folder, ["--compare", bad, card], 0)
    if "\x1b" in said or "before: \\x1b]0;title\\x07: " not in said:
        raise Wrong(f"--compare prints a card's control characters:\n{said!r}")
    for text, wanted in {
        "[" * 200_000: "not a card: nested too deeply\n$",
        json.dumps(data | {"rows": [data["rows"][0] | {"name": [1]}]}): "not a card: name of a row isn't a str\n$",
        json.dumps(data | {"budget": []}): "not a card: .* must be a mapping, not list\n$",
    }.items():
        bad.write_text(text)
        must_print(nicdrive(kit.folder, ["--compare", bad, card], 2), f"^nicdrive: .*{wanted}", text[:40])


def check_sanitized(kit: Kit, flags: list[str], engine: Path) -> str:
    """Runs all rows, and some bugs, with the card's engine and a driver built with sanitizers. The engine is built
    in the folder, or reused from it."""
    folder = kit.folder / "sanitized"
    folder.mkdir(exist_ok=True)
    made = sanitized_engine(engine, kit.compiler, flags, "drive", "explore")
    own = replace(kit, folder=folder, flags=flags, engine=made[0].parent)
    rows = none_failed(own.card(own.build(HERE / "corpus/driver.c"), None, "--runs", 5, "--every", 5))
    return f"sanitized, {sum(row['state'] == 'passed' for row in rows)} rows; {check_bugs(own, 2000, 14)}"


def check_all(kit: Kit, full: bool) -> list[str]:
    few = 1 if full else 6
    return [
        check_refusals(kit),
        check_words(kit),
        check_listed(kit),
        check_places(kit),
        check_second_delivery(kit),
        check_every(kit),
        check_aliases(kit),
        check_pages(),
        check_patience(),
        check_files(kit),
        check_accesses(kit),
        check_seen(kit, 200 if full else 20, "interrupts,rss,link,stats,reset,function,host" if full else SEEN),
        check_faults(kit, few),
        check_stores(kit),
        check_too_long(kit),
        check_strays(kit),
        check_reached(kit, 1 if full else 5),
        check_interrupts(kit),
        check_kept(kit, 1 if full else 14),
        check_bugs(kit, 2000, few),
        check_pages_driver(kit, 100 if full else 3),
        check_planted(kit, 2000, None if full else 6),
        check_right(kit, 500 if full else 40),
        check_in_place(kit, 100, 1) if full else check_in_place(kit, 2, 2),
    ]


def main() -> int:
    folder = C / "out/drive-check"
    folder.mkdir(parents=True, exist_ok=True)
    kit = Kit(folder, "gcc", ["-O2"])
    for said in [*check_all(kit, "--full" in sys.argv[1:]), check_adapter(kit, None)]:
        print(f"c/drive/check.py: {said}", flush=True)
    return 0


if __name__ == "__main__":
    try:
        sys.exit(main())
    except Wrong as fault:
        sys.exit(f"c/drive/check.py: {fault}")
