#!/usr/bin/env python3
"""Writes the pages of docs/promises from the comments of the sources: each public contract with its sentences.

    dev/promise_pages.py            rewrites what is below the MARK line on each page in PAGES
    dev/promise_pages.py --check    names the stale pages, and exits with status 1 if there are any

A row on a page is a public function with its `ensures` clauses, which may be a law, or a public type with its
invariants. It shows the doc comment, and for each clause its comment and the comment of the definition that it applies,
in full. If clauses of several contracts on a page apply the same definition, its comment has a separate row at the end
of the page.

Both forms also exit with status 1, and name the place, in these cases: a public contract has no doc comment, or has
more clauses than its comments have statements (each ends with '.', ';' or ':'); a public contract is on no page; the
handwritten part of a page names a contract or a clause that doesn't exist.
"""

from __future__ import annotations

import argparse
import re
import sys
from collections.abc import Iterator
from pathlib import Path

sys.dont_write_bytecode = True
sys.path.append(str(Path(__file__).resolve().parent))
from contracts import Contract, Crate, sentence  # noqa: E402
from generated import ROOT, renewed, report, table  # noqa: E402

CITED = re.compile(r" *Intel 82599 datasheet, sections? on [^.]*\.")
FOLDER = ROOT / "docs/promises"
MARK = "<!-- Below this line dev/generate promises writes, from the comments of the sources. -->\n"

# Each page with its sections. A section contains whole crates, certain files of a crate, or the contracts after a law.
# The section that names only the crate gets the contracts that are in no other section of the crate.
PAGES = """
table.md
    Lines and words: text_format
    The register table: reg_table
    The offsets of virtual functions: vf_map
memory.md
    Packet memory: dma_arena
    Descriptor rings: dma_ring
    One receive descriptor: rx_ring
    One transmit descriptor: tx_ring
parts.md
    Receive side scaling: rss_hash
    Interrupts of one group: intr_unit
    EEPROM images: eeprom_image
nic.md
    The register file: register_file
    What register accesses change: register_laws
    Where a received frame goes: rx_filter
    The device: nic_device
    Notes of events and replies: nic_device/event nic_device/notes nic_device/notes_shared
share.md
    Creating and closing: device_lock
    Calls under the lock: device_lock/shared device_lock/stepping device_lock/locked device_lock/fault
    Stored calls: device_lock/calls
    Leaving alone, closing and positions, a second time: ring_laws/locks
    Workers on threads: pmd
    Checking a history: pmd/beginning pmd/fitting pmd/lending pmd/quiet pmd/verdict pmd/laws
driver.md
    A driver, running or not: pmd_driver/driver
    Start: pmd_driver/start
    Stop, and a driver that doesn't run: pmd_driver
    A driver whose rings are up: pmd_driver/running pmd_driver/bursts
    Packets: pmd_access/packet pmd_access/bufs pmd_access/frames
    How a driver reaches a device: pmd_access pmd_driver/arriving
    Setup, queues and blocks: pmd_access/names pmd_access/setup pmd_access/sides pmd_access/both pmd_access/slots \
pmd_access/home
    The receive half: pmd_rx
    The transmit half: pmd_tx
laws.md
    What always holds: device_laws
    Registers: device_laws@new_device_reads_reset_values
    Counters and causes: device_laws@events_count
    Resets and the EEPROM: device_laws@asked_reset_resets
    What each event can change: device_laws@other_events_keep_settings
    Memory, frames and steps: device_laws@receiving_has_an_order
    Virtual functions: device_laws@vf_access_is_the_physical_functions
    Registers and interrupts, by the datasheet's names: datasheet_laws/interrupts
    The datasheet's numbers, a second time: datasheet_laws
    Frames and memory, by the registers' bits: datasheet_laws/frames
interleaving.md
    A driver's life: driver_laws
    With other calls by the driver's author: driver_laws@driver_among_any_calls_in_order
    Stop, and a refused start: driver_laws@what_is_left_is_in_order
    Results of a start, and both halves: driver_laws/starting
    The receive ring: ring_laws/receive
    The transmit ring: ring_laws/transmit
    Histories: ring_laws/history
    A device in hand: pmd_access/history device_lock/reported
script.md
    Scripts: script_asm
    Programs and objects: program
    The machine: machine
    The debugger: debugger
    Objects, instructions and commands, a second time: script_laws
    What the program writes: bench_commands
    The arguments of the command line: bench_commands/examples bench_commands/parse
    `nicbench threads`: bench
c.md
    The calls for C: nic82599_c
    A card in Rattle: card
""".replace("\\\n", "")


class Section:
    """A part of a page: its heading, and the selectors of its contracts."""

    def __init__(self, line: str) -> None:
        self.heading, _, words = line.strip().rpartition(": ")
        self.selectors = words.split()
        self.contracts: list[tuple[Crate, Contract]] = []

    def rank(self, crate: str, module: str, laws: list[str]) -> int:
        """Returns how specifically the section selects a contract of this module, given the laws up to the contract; 0
        if it doesn't."""
        ranks = [0]
        for it in self.selectors:
            name, _, law = it.partition("@")
            if it == f"{crate}/{module}":
                ranks.append(1000)
            elif law and name == crate and law in laws:
                ranks.append(2 + laws.index(law))
            elif it == crate:
                ranks.append(1)
        return max(ranks)

    def order(self, crate: str, module: str) -> int:
        """Returns the position of a module's contracts in the section."""
        whole = [it.partition("@")[0] for it in self.selectors]
        return whole.index(f"{crate}/{module}") if f"{crate}/{module}" in whole else whole.index(crate)


def selects(crates: dict[str, Crate], selector: str) -> bool:
    """Returns whether a selector names something that exists."""
    name, kind, it = re.split(r"([/@]|$)", selector, maxsplit=1)
    there = crates[name].public() if name in crates else []
    return any(not kind or it == (one.module if kind == "/" else one.path) for one in there)


def pages() -> dict[str, list[Section]]:
    """Parses the list PAGES."""
    found: dict[str, list[Section]] = {}
    for line in PAGES.strip().split("\n"):
        if line.startswith(" "):
            found[list(found)[-1]].append(Section(line))
        else:
            found[line] = []
    return found


def distributed(crates: dict[str, Crate], sections: list[Section]) -> Iterator[str]:
    """Assigns each public contract to its section, and yields the faults."""
    for crate in crates.values():
        laws: list[str] = []
        for it in crate.public():
            laws.append(it.name)
            best = max(sections, key=lambda section, it=it: section.rank(crate.name, it.module, laws))
            if best.rank(crate.name, it.module, laws):
                best.contracts.append((crate, it))
            else:
                yield f"{it.place}: the contract is on no page of docs/promises"
    for section in sections:
        yield from (f"{section.heading}: `{it}` has no contract" for it in section.selectors if not selects(crates, it))
        section.contracts.sort(key=lambda pair: section.order(pair[0].name, pair[1].module))


def cell(text: str) -> str:
    """Returns a comment as a table cell, without citations and without the sources' links, which don't work there."""
    text = CITED.sub("", text)
    text = re.sub(r"\[(`[^`]+`)\](?:\([^)]*\))?", r"\1", text)
    parts = re.split(r"(`[^`]*`)", text)
    parts[::2] = [re.sub(r"([*<])", r"\\\1", part) for part in parts[::2]]
    return "".join(parts).replace("|", "\\|")


def sentences_of(crate: Crate, it: Contract, shared: set[str]) -> Iterator[str]:
    """Yields the doc comment of a contract. Then yields, for each clause, its comment and the comment of the definition
    that it applies, with the names of the clauses that share it. Text that the doc comment contains word for word isn't
    repeated."""
    own: dict[str, list[str]] = {}
    for clause in it.clauses:
        by = crate.definition(it, clause)
        for said in [sentence(clause.comment) if clause.comment else "", by[1] if by and by[0] not in shared else ""]:
            if said and said not in it.sentences:
                own.setdefault(said, []).append(clause.name)
    yield cell(it.sentences)
    for said, names in own.items():
        yield (", ".join(f"`{name}`" for name in names if name) or "Definition") + f": {cell(said)}"


def common(sections: list[Section]) -> dict[str, tuple[str, dict[str, list[str]]]]:
    """Returns the definitions that several contracts on a page share: each comment, and the contracts by clause."""
    found: dict[str, tuple[str, dict[str, list[str]]]] = {}
    for crate, it in (pair for section in sections for pair in section.contracts):
        for clause in it.clauses:
            if by := crate.definition(it, clause):
                named = found.setdefault(by[0], (by[1], {}))[1].setdefault(clause.name, [])
                named += [] if it.path in named else [it.path]
    return {name: by for name, by in found.items() if len({path for paths in by[1].values() for path in paths}) > 1}


def row(crate: Crate, it: Contract, shared: set[str]) -> list[str]:
    """Returns a contract, with a link to its file and its clauses, and its sentences."""
    names = [f"`{clause.name}`" for clause in it.clauses if clause.name]
    contract = f"[`{it.path}`]({Path('../..') / it.file.relative_to(ROOT)})"
    return [contract + (": " if names else "") + ", ".join(names), " ".join(sentences_of(crate, it, shared))]


def section_text(section: Section, shared: set[str]) -> str:
    rows = [row(crate, it, shared) for crate, it in section.contracts]
    crates = ", ".join(f"`{name}`" for name in dict.fromkeys(crate.name for crate, _ in section.contracts))
    return f"\n## {section.heading}\n\n{crates}.\n\n" + table(["Contract", "Promise"], rows)


def shared_text(shared: dict[str, tuple[str, dict[str, list[str]]]]) -> str:
    """Returns the clauses of several contracts that apply the same definition."""
    rows = []
    for said, clauses in shared.values():
        places = [
            (f"`{name}` of " if name else "") + ", ".join(f"`{path}`" for path in paths)
            for name, paths in clauses.items()
        ]
        rows.append(["; ".join(places), cell(said)])
    return "\n## Clauses of several contracts\n\n" + table(["Clauses", "Promise"], rows) if rows else ""


def page_text(name: str, sections: list[Section]) -> str:
    """Returns a page: its handwritten part, its sections, and the shared clauses."""
    by_hand = (FOLDER / name).read_text(encoding="utf-8").partition(MARK)[0]
    shared = common(sections)
    written = "".join(section_text(section, set(shared)) for section in sections)
    return by_hand + MARK + written + shared_text(shared)


def statements(text: str) -> int:
    return len(re.findall(r"[.;:](?=\s|$)|, (?:and|but|nor) ", text))


def faults_of(crate: Crate, it: Contract) -> Iterator[str]:
    """Yields the faults of a contract's comments."""
    if not it.sentences:
        yield f"{it.place}: the contract has no doc comment"
    said = statements(it.sentences)
    unsaid = [c for c in it.clauses if not c.comment and not crate.definition(it, c) and c.body]
    if len(unsaid) > max(said, 1):
        names = ", ".join(c.name for c in unsaid)
        yield f"{it.place}: its comments have {said} statements for the clauses {names}"


def named(text: str) -> Iterator[tuple[str, list[str]]]:
    """Yields the contracts that a handwritten text names together with their crates, each with the clauses that are
    named after it."""
    for found in re.finditer(r"`(\w+(?:::\w+)+)`((?:, `\w+`)*): ((?:`\w+`(?:, )?)+)|`(\w+(?:::\w+)+)`", text):
        yield found[1] or found[4], re.findall(r"\w+", found[3] or "")


def faults_by_hand(crates: dict[str, Crate]) -> Iterator[str]:
    """Yields the contracts and clauses that the handwritten parts name but that don't exist."""
    for page in sorted(FOLDER.glob("*.md")):
        text = re.sub(r"\s+", " ", page.read_text(encoding="utf-8").partition(MARK)[0])
        for path, clauses in named(text):
            name, _, rest = path.partition("::")
            if name in crates:
                yield from (f"{page.relative_to(ROOT)}: {it}" for it in missing(crates[name], path, rest, clauses))


def missing(crate: Crate, path: str, rest: str, clauses: list[str]) -> Iterator[str]:
    """Yields the contract or the clauses that a page names but the crate lacks."""
    found = [it for it in crate.all if rest == it.path or rest.endswith(f"::{it.path}")]
    if not found and rest not in crate.types | {it.module for it in crate.all}:
        yield f"there is no `{path}`"
    there = {clause.name for it in found for clause in it.clauses}
    yield from (f"`{path}` has no clause `{it}`" for it in clauses if found and it not in there)


def main() -> int:
    parser = argparse.ArgumentParser(description=__doc__, formatter_class=argparse.RawDescriptionHelpFormatter)
    parser.add_argument("--check", action="store_true")
    only_check = parser.parse_args().check
    crates = {it.name: Crate(it.name) for it in sorted((ROOT / "crates").iterdir()) if (it / "src").is_dir()}
    known = pages()
    faults = list(distributed(crates, [section for sections in known.values() for section in sections]))
    faults += [fault for crate in crates.values() for it in crate.public() for fault in faults_of(crate, it)]
    faults += faults_by_hand(crates)
    stale = renewed({FOLDER / name: page_text(name, sections) for name, sections in known.items()}, only_check)
    return report(faults) or int(stale and only_check)


if __name__ == "__main__":
    sys.exit(main())
