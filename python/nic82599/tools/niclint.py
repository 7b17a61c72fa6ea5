"""Says what is wrong with a script: why the bench refuses it, or what its author may have forgotten.

    tools/niclint SCRIPT            refusals, each with the wrong word and similar names; or warnings
    tools/niclint SCRIPT --trace    also runs it, and explains steps that were idle, dropped frames, faulted or failed

SCRIPT is a register script, a debugger session (only the part before the `%` line is used), or - for standard input.
It may also be a recording made by the C library (NIC82599_RECORD), of any length; then all its lines are checked for
warnings, and --trace replays its last N events on the library and explains them (--limit N).

Exit status: 0 nothing is wrong; 1 there are warnings, or with --trace a failed expect, a fault, a dropped frame or a
refused access; 2 the script is refused or can't be read; 3 the arguments are invalid; 4 ./nicbench can't be
started or has failed.
"""

from __future__ import annotations

import argparse
from collections import Counter
from collections.abc import Callable

from .advice import Advice, Warning
from .forms import MOST_DESCRIPTION, Place, explained
from .lines import Source
from .printable import shortened
from .recording import is_recording, of_recording, read, refuse_sizes
from .refusals import most_of, refusals
from .run import Run, of_trace
from .script import Bench, Refused, Script, of_text, text_of
from .tool import Parser, called, ended, limit, limit_of_script, sizes
from .trace import Step, trace_of

# The maximum number of lines shown for the same warning.
SHOWN = 3


def words() -> argparse.Namespace:
    parser = Parser(description=called(__doc__ or ""), formatter_class=argparse.RawDescriptionHelpFormatter)
    parser.add_argument("script", metavar="SCRIPT")
    parser.add_argument("--trace", action="store_true", help="run the script, and explain idle and failed steps")
    sizes(parser)
    limit(parser, 4_096, "the maximum number of steps to run")
    return parser.parse_args()


def refusal(path: str, text: str, refused: Refused, place: Place) -> None:
    """Prints a refusal and the refused line, and marks the wrong word in that line."""
    where = f"{path}:{place.line}:{place.column + 1}" if place.line else path
    close = f"; near: {', '.join(place.near)}" if place.near else ""
    print(f"{where}: refused {refused.name}: {place.text}{shortened(close, MOST_DESCRIPTION)}")
    if place.line:
        line = text.split("\n")[place.line - 1].rstrip("\r").replace("\t", " ")
        begin = max(0, min(place.column - 60, len(line) - 100))
        print(f"    {line[begin : begin + 100]}")
        print("    " + " " * (place.column - begin) + "^" * max(1, min(place.length, 100)))


def lint(path: str, script: Script, run: Callable[[], Run] | None) -> int:
    """Prints what is wrong with a script, in this order: failures of its run, warnings, stray accesses (which seldom
    matter), and the run's other steps that did nothing. Returns the status."""
    warnings = Advice(script).all()
    strays = [one for one in warnings if one.family]
    made = run() if run else None
    if made:
        explain(path, made, lambda step: step.is_trouble)
    tell_warnings(path, [one for one in warnings if not one.family])
    tell_strays(path, strays)
    if made:
        named = {one.line for one in strays}
        rest = [step for step in made.steps if not step.is_trouble]
        shown = {step.number for step in rest if step.kind != "stray" or made.line(step.pc) not in named}
        explain(path, made, lambda step: step.number in shown)
        for note in made.notes:
            print(f"{path}: note: {note}")
        print(f"{path}: {made.last}")
    elif not warnings:
        print(f"{path}: {len(script.instructions)} instructions, no warnings")
    return 1 if warnings or (made and any(step.is_trouble or step.kind == "stray" for step in made.steps)) else 0


def tell_warnings(path: str, warnings: list[Warning]) -> None:
    counts: Counter[str] = Counter()
    for one in warnings:
        counts[one.text] += 1
        if counts[one.text] <= SHOWN:
            print(f"{path}:{one.line}: warning: {one.text}")
    for warning, count in counts.items():
        if count > SHOWN:
            print(f"{path}: warning: at {count - SHOWN} more lines: {warning}")


def tell_strays(path: str, strays: list[Warning]) -> None:
    """Prints a line for each family of absent registers: the first access, and how many further lines access the
    family."""
    families: dict[str, list[Warning]] = {}
    for one in strays:
        families.setdefault(one.family, []).append(one)
    for first, *more in families.values():
        others = f" ({len(more)} more of this family)" if more else ""
        print(f"{path}:{first.line}: warning: {first.text}{others}")


def explain(path: str, run: Run, which: Callable[[Step], bool]) -> None:
    """Prints why the selected steps did nothing, failed or were refused."""
    for step, reasons in zip(run.steps, run.reasons):
        held = [reason.text for reason in reasons if reason.held]
        if held and which(step):
            where = f"{path}:{run.line(step.pc)}: step {step.number}"
            name = f" ({offset})" if (offset := run.offset(step.pc)) else ""
            print(f"{where}: {run.shown(step.pc)}{name} -> {step.answer}: {'; '.join(held)}")


def of_script(asked: argparse.Namespace, source: Source) -> int:
    """Checks a script."""
    text, most = text_of(asked.script, source.whole()), limit_of_script(asked.limit)
    bench = Bench(asked.vfs, asked.fifo)
    try:
        script = of_text(bench, asked.script, text)
    except Refused as first:
        found = [(refused, explained(shown, refused)) for refused, shown in refusals(bench, text, first)]
        for refused, place in sorted(found, key=lambda one: one[1].line or len(text)):
            refusal(asked.script, text, refused, place)
        if len(found) == most_of(text):
            print(f"{asked.script}: further lines may be refused; only the first {len(found)} refusals are shown")
        return 2
    return lint(asked.script, script, (lambda: of_trace(trace_of(bench, script, text, most))) if asked.trace else None)


def of_recorded(asked: argparse.Namespace, source: Source) -> int:
    """Checks a recording."""
    refuse_sizes(asked.script, asked.vfs, asked.fifo)
    made = read(asked.script, source)
    for fault in made.bad:
        print(fault)
    if made.bad:
        return 2
    run = (lambda: of_recording(asked.script, asked.limit, source)) if asked.trace else None
    return lint(asked.script, made.script(), run)


def main() -> int:
    asked = words()
    source = Source(asked.script)
    return of_recorded(asked, source) if is_recording(source) else of_script(asked, source)


def command() -> int:
    """The `niclint` command."""
    return ended(main, "niclint")
