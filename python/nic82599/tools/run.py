"""A run as the page and the drawings show it, independent of the source of its steps.

A source of steps fills a `Run`; `of_script` does so for a script on the bench. The page (page.py) and the drawings
(draw.py) use only the `Run`: they start no program and read no instructions of a script.

A source numbers its steps from 0. It gives each step (`trace.Step`) the reply that `nicbench run` would print, and the
ring that the step concerns. It also notes what the step changed, wrote, lent, received and sent. `start` needs every
register that a step changes, and the rings' registers. A step's `pc` is an index into `line_of`; several steps may
share one.
"""

from __future__ import annotations

import re
from dataclasses import dataclass, field
from pathlib import Path

from .about import give_rings
from .advice import Advice
from .memory import Seen, look
from .reason_table import Reason
from .reasons import Reasons
from .regs import OFFSETS
from .script import Bench, comment_of, instruction_of, read_bytes, text_of
from .trace import Step, Trace, trace


@dataclass
class Finding:
    """What a script from the explorer reports: the outcome and message of the failure, its step, and why the
    script ends earlier, if it does."""

    outcome: str
    words: str
    step: int | None
    cut: str = ""


@dataclass
class Run:
    """The data to show. `lines` are shown on the left; `line_of` is the line number for each `pc`, counted from 1;
    `before` lines of the file come before them. `start` has the registers before the first step, as far as a step can
    change them; `seen` are the rings and frames; `reasons` say for each step why it did nothing. `last` is the run's
    last line, and `warnings` are niclint's, by `pc`."""

    name: str
    lines: list[str]
    line_of: list[int]
    steps: list[Step]
    start: dict[int, int]
    seen: Seen
    reasons: list[list[Reason]]
    last: str
    notes: list[str]
    vfs: int
    fifo: int
    options: list[str]
    finding: Finding | None = None
    before: int = 0
    is_recorded: bool = False
    warnings: dict[int, list[str]] = field(default_factory=dict)

    def line(self, pc: int) -> int:
        """Returns the line number of a step in its file."""
        return self.before + self.line_of[pc]

    def shown(self, pc: int) -> str:
        """Returns a step's text, without its comment."""
        return instruction_of(self.lines[self.line_of[pc] - 1])

    def offset(self, pc: int) -> str:
        """If a step accesses a register by a virtual function's offset, returns the register's name; otherwise ""."""
        found = OFFSET.match(self.shown(pc))
        return OFFSETS.get(int(found[1], 0), "") if found else ""

    def comment(self, pc: int) -> str:
        """Returns a step's comment, with the name of a virtual function's register."""
        said, name = comment_of(self.lines[self.line_of[pc] - 1]), self.offset(pc)
        return said if not name or name in said else "; ".join(filter(None, (name, said)))

    @property
    def failed_ring(self) -> tuple[str, int] | None:
        """The ring that the finding's message names, if it is in use: `tx 2`, or queue 2 on either side."""
        named = RING.search(self.finding.words) if self.finding else None
        if named is None or self.finding is None:
            return None
        side = "tx" if SENDS.search(self.finding.words) else "rx"
        sides = [named[1]] if named[1] else [side, "rx" if side == "tx" else "tx"]
        rings = [(side, int(named[2] or named[3])) for side in sides]
        return next((ring for ring in rings if ring in self.seen.sides), None)

    @property
    def opening(self) -> int | None:
        """The step to show first: the finding's; otherwise the first that failed, faulted, dropped a frame or was
        refused; otherwise the first idle one, or the last in a recording; otherwise the first stray access; otherwise
        the last step, or None."""
        if self.finding and self.finding.step is not None and not self.last.startswith("failed"):
            return self.finding.step
        numbers = [step.number for step in self.steps if step.is_trouble]
        if numbers:
            return numbers[0]
        idle = [step.number for step in self.steps if step.kind == "idle"]
        if idle:
            return idle[-1 if self.is_recorded else 0]
        strays = [step.number for step in self.steps if step.kind == "stray"]
        if strays:
            return strays[0]
        return self.steps[-1].number if self.steps else None


# Matches a ring in a finding's message, and words about sending.
RING = re.compile(r"\b(rx|tx) (\d{1,4})\b|\bqueue (\d{1,4})\b")
SENDS = re.compile(r"\b(transmit|sends?|sent|goes out|went out|reclaim|TDT|TDH)\b")
# Matches an access by a virtual function; scripts have no names for these registers.
OFFSET = re.compile(r"v[rw] \w+ (0x[0-9a-fA-F]+|[1-9][0-9]*|0)(?: |$)")
FAILED = re.compile(r"\s*# FAILED (\w+): (.*)")
CUT = re.compile(r"\s*# CUT: (.*)")
SIZES = re.compile(r"\s*# .*, by: nicbench run --vfs ([0-9]{1,6}) --fifo ([0-9]{1,6})\s*")


def finding_of(run: Trace) -> Finding | None:
    """Returns the finding in a script from the explorer (docs/explore.md): a comment after the step at which the run
    failed. An `expect` isn't a step of that run."""
    found, cut = None, ""
    for number, line in enumerate(run.script.lines, 1):
        if match := CUT.fullmatch(line):
            cut = match[1]
        if match := FAILED.fullmatch(line):
            found = number, match
    if found is None:
        return None
    number, match = found
    script = run.script
    before = [
        step.number
        for step in run.steps
        if script.line_of[step.pc] < number and not script.instructions[step.pc].is_local
    ]
    return Finding(match[1], match[2].strip(), before[-1] if before else None, cut)


def sizes_of(lines: list[str]) -> tuple[int, int] | None:
    """Returns the device's sizes from the second line of a script from the explorer; None if the line has none."""
    match = SIZES.fullmatch(lines[1]) if len(lines) > 1 and lines[0].startswith("#") else None
    return (int(match[1]), int(match[2])) if match else None


def bench_of(bench: Bench, text: str) -> Bench:
    """Returns the bench for a script. A script from the explorer names its device's sizes; options override these."""
    sizes = None if bench.options else sizes_of(text.split("\n", 2))
    return Bench(*sizes) if sizes else bench


def of_trace(run: Trace) -> Run:
    """Returns the run of a traced script."""
    script, bench = run.script, run.bench
    seen = look(run)
    give_rings(run, seen)
    reasons = Reasons(run, seen).all()
    name = Path(script.path).name if script.path != "-" else "standard input"
    warnings = warnings_of(run)
    return Run(
        name, script.lines, script.line_of, run.steps, run.start, seen, reasons, run.last, run.notes,
        bench.vfs, bench.fifo, bench.options, finding_of(run), script.before, run.warnings is not None, warnings,
    )  # fmt: skip


def warnings_of(run: Trace) -> dict[int, list[str]]:
    """Returns niclint's warnings by instruction. For a part of a script, also adds a note with the number of earlier
    lines that have warnings."""
    script = run.script
    found = run.warnings
    if found is None:
        found = [(one.line, one.text) for one in Advice(script).all()]
    at = {script.before + line: pc for pc, line in enumerate(script.line_of)}
    warnings: dict[int, list[str]] = {}
    for line, text in found:
        if line in at:
            warnings.setdefault(at[line], []).append(text)
    before = sum(line not in at for line, _ in found)
    if before:
        lines = "a line" if before == 1 else f"{before} lines"
        run.notes.append(f"niclint warns about {lines} before the first step shown")
    return warnings


def of_script(bench: Bench, path: str, limit: int = 4_096, raw: bytes | None = None) -> Run:
    """Runs the script in a file, for at most `limit` steps. A script from the explorer names its device's sizes."""
    text = text_of(path, read_bytes(path) if raw is None else raw)
    return of_trace(trace(bench_of(bench, text), path, text, limit))
