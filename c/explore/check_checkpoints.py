"""Checks that an exhaustive search does the same from checkpoints as with each schedule from its start. `c/test` calls
it."""

from __future__ import annotations

import os
import re
from pathlib import Path

from explore.check import C, HERE, Kit, Wrong, corpus, modes_of, must_print, ran

# Sources with modes, and the modes that end the process.
SOURCES: dict[str, tuple[str, ...]] = {
    "pthreads": ("overflow", "small_stack"),
    "races": (),
    "points": (),
    "freed": (),
    "named": (),
    "continued": (),
    "fenced": (),
}
# Modes in which no schedule continues from a checkpoint, because a call changes what isn't known.
LEAVING = ("flushes",)
# Schedules are compared up to this number for each mode.
MOST = 400

# All variables of the link form's archive, by object. A checkpoint restores these, or has them undone:
SAVED = {
    "access": "is_settled next_taken outside outside_call taken_back",
    "c11": "beginnings",
    "coverage": "inside",
    "form": "nicxi_posix",
    "heap": "memory",
    "program": "program",
    "races": "fences is_looking now objects sat shadow",
    "run": "nicxi",
    "state": "local own_errno",
    "stored": "stored",
    "taken": "freed piece units",
    "threads": "nicxi_keys",
    "time": "of_epoch slept",
    "tsan": "callers",
}
# These don't change while a schedule's threads run, or nothing that a schedule does depends on them: constants, what is
# set when a scenario is opened or by `begin`, what only reports and other strategies use, and weak memory, with which
# there are no checkpoints.
OTHERS = {
    "access": "nicxi_gives_up",
    "actors": "first names nicxi_few_queues",
    "checkpoint": "all nicxi_checkpoint_at nicxi_checkpoints_apart nicxi_has_checkpoints undo",
    "coverage": "names room",
    "demangle": "escapes",
    "device": "is_copied kept",
    "fiber": "left",
    "form": "form nicxi_alone nicxi_program_ends nicxi_program_opens nicxi_program_part",
    "heap": "kept kept_size mark nothing searcher",
    "independent": "rows",
    "kit": "frame",
    "main": "paths",
    "memory": "known name nicxi_memory_is_point",
    "names": "offsets registers",
    "objects": "kinds",
    "options": "names",
    "outside": "found intercepted leaves_nothing nicxi_is_outside nicxi_is_silent",
    "overflow": "before reported room",
    "page": "lines",
    "places": "count epoch nicxi_ask_for_begin nicxi_ask_for_lines nicxi_ask_for_wait seen",
    "process": "nicxi_for_threads odd_ticks seconds_given seconds_left seen ticked_at watched",
    "races": "is_open late past races",
    "replay": "it",
    "run": "maker mark nicxi_ask_for_memory nicxi_asked_points nicxi_form nicxi_races",
    "scenario": "names own",
    "schedule_file": "points",
    "search": "before counted jobs part state strategies",
    "shrink": "new old",
    "state": "kept_bss kept_data kept_keys",
    "symbols": "asked image own",
    "taken": "kept_freed kept_piece kept_size kept_units nicxi_taken_from",
    "tell": "nicxi_form_options nicxi_to_be_seen",
    "tsan": "calls",
    "turn": "going",
    "unpointed": "code_begins code_ends logged nicxi_is_stepping points",
    "weak": "given_memory weak",
    "words": "names nicxi_calls nicxi_condition orders verbs why words",
}


def check_variables() -> str:
    """Each variable of the engine and the link form is known to be restored, or not to need it."""
    known = {(of, name) for table in (SAVED, OTHERS) for of, names in table.items() for name in names.split()}
    count = 0
    for line in ran(["nm", "-A", C / "out/libnic82599_threads.a"]).splitlines():
        found = re.match(r".*?([a-z_0-9]+)\.o:\S* +[bBdDsSC] (\w+)(\.\d+)*$", line)
        # (the library's variables aren't restored for a schedule from its start either)
        if not found or (found[1] == "device" and found[2] not in ("is_copied", "kept")):
            continue
        count += 1
        if (found[1], found[2]) not in known:
            raise Wrong(
                f"{found[1]}.c has a new variable, {found[2]}: if schedules change it, add it to a checkpoint, and "
                f"list it in {Path(__file__).name}"
            )
    return f"{count} variables"


def build(kit: Kit, source: Path, *defines: str) -> Path:
    """Builds a test or a driver of the corpus, with tests/checkpoints.c in place of the search."""
    program = kit.out("compared") / "-".join([source.stem, *defines]).lower()
    flags = [f"-I{C}/include", f"-I{HERE}/corpus", f"-I{C}/explore", "-std=gnu11", "-g", "-O1"]
    made = [program.with_suffix(f".{name}.o") for name in ("driver", "search")]
    # (accesses that are seen race in continued.c, which shares memory without a lock)
    seen = [] if source.stem == "continued" else ["-fsanitize=thread", "-Wno-tsan"]
    driver = [*seen, "-Dnicx_main=compared_main", *(f"-D{one}" for one in defines), source]
    linked = [kit.compiler, *made, f"-L{C}/out", f"@{C}/out/nic82599_threads.opts", "-o", program]
    kit.make(
        program,
        source,
        [kit.compiler, *flags, "-c", *driver, "-o", made[0]],
        [kit.compiler, *flags, "-c", HERE / "tests/checkpoints.c", "-o", made[1]],
        linked,
    )
    return program


def compared(program: Path, *mode: str) -> tuple[int, int]:
    """Returns how many schedules a program ran, and how many of them continued from a checkpoint."""
    said = ran([program, *mode, 2, MOST])
    found = re.search(r": (\d+) schedules, (\d+) from checkpoints, equal$", said.strip())
    if not found:
        raise Wrong(f"{program.name} {' '.join(mode)}: {said}")
    return int(found[1]), int(found[2])


def check_equal(kit: Kit) -> str:
    """Each schedule does the same from a checkpoint as from its start: the same choices, steps, results and notes."""
    pairs = []
    for name, ending in SOURCES.items():
        program = build(kit, HERE / f"tests/{name}.c")
        for mode in dict.fromkeys(modes_of(HERE / f"tests/{name}.c")):
            if mode not in ending:
                pairs.append(compared(program, mode))
            if mode in LEAVING and pairs[-1][1]:
                raise Wrong(f"{name} {mode}: continues from a checkpoint, although it changes more than is known")
    pairs += [compared(build(kit, source, "FIXED")) for source in corpus()]
    if compared(build(kit, HERE / "tests/continued.c", "RANDOM"), "chance")[1]:
        raise Wrong("continued chance: continues from a checkpoint, although it calls rand")
    every, continued = (sum(pair[k] for pair in pairs) for k in (0, 1))
    if os.uname().machine == "x86_64" and continued < every // 2:
        raise Wrong(f"only {continued} of {every} schedules continue from a checkpoint")
    return f"{continued} of {every} schedules from checkpoints"


def files_of(out: Path) -> dict[str, str]:
    """Returns the files of a search, but not how long the search took."""
    files = {path.name: path.read_text() for path in sorted(out.iterdir())}
    files["result"] = re.sub(r"(?m)^(milliseconds|sum) .*$", "", files["result"])
    return files


def check_program(kit: Kit) -> str:
    """A search of a whole program prints the same both ways, and writes the same files."""
    source, said = HERE / "examples/forwarder.c", []
    for defines in ((), ("FIXED",)):
        for of_memory in (False, True):
            program = kit.build_form(source, *defines, form="program", of_memory=of_memory)
            both = []
            for name in ("continued", "from-start"):
                out = kit.out(f"program-{name}")
                for path in out.iterdir():
                    path.unlink()
                words = [program, "--strategy", "exhaustive", "--quiet", "--no-shrink", "--jobs", 1, "--runs", 3000]
                more = ["--result", out / "result", "--out", out]
                changed = {"NICX_NO_CHECKPOINTS": "1"} if name == "from-start" else {}
                text = ran([*words, *more], None, env={**os.environ, **changed})
                text = re.sub(r", \d+\.\d s \(\d+ schedules per second\)", "", text.replace(str(out), "OUT"))
                both.append((text, files_of(out)))
            if both[0] != both[1]:
                raise Wrong(f"{program.name} differs without checkpoints:\n{both[0][0]}\n{both[1][0]}")
            said.append(both[0][0])
    must_print(said[1], "FAILED race: transmit", "forwarder")
    must_print(said[3], "3000 schedules", "forwarder, fixed")
    return "the same files"


def check_checkpoints(kit: Kit) -> list[str]:
    return [check_variables(), check_equal(kit), check_program(kit)]
