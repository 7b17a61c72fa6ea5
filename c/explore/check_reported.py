"""Checks how a failure is reported: shrunk, with lines and names, with its turning point, and by a lenient replay
with a changed driver. `c/test` calls it."""

from __future__ import annotations

import json
import os
import re
import shutil
from dataclasses import replace
from pathlib import Path
from typing import Any

from explore.check import CRASHES, HERE, NO_HANG, Kit, Wrong, must_print, ran

SOURCE = HERE / "tests/reported.c"
FOUND = r"found by .*, (\d+) points? and (\d+) switch(?:es)?; shrunk in \d+ tr(?:y|ies) to (\d+) and (\d+)"
RESOLVERS = ("addr2line", "llvm-symbolizer")


def found_by(kit: Kit, program: Path, mode: str, *words: object) -> tuple[str, str]:
    """Returns what a search that finds a failure prints, and its schedule, which must fail again the same way."""
    out = kit.out("reported-out")
    said = ran([program, mode, "--quiet", "--jobs", 1, "--out", out, *words], 1)
    again = ran([program, mode, "--replay", out / "reported.schedule"], 1)
    if re.findall(r"FAILED .*", said) != re.findall(r"FAILED .*", again):
        raise Wrong(f"reported {mode}: --replay shows a different failure:\n{said}{again}")
    return said, (out / "reported.schedule").read_text()


def points_of(schedule: str) -> list[str]:
    """Returns the actors in a schedule's file."""
    lines = [line.partition("#")[0].strip() for line in schedule.splitlines()]
    heads = ("scenario ", "without ", "cycle", "memory ", "points ")
    return [line for line in lines if line and not line.startswith(heads)]


def check_shrinking(kit: Kit, program: Path) -> str:
    """Shrinking leaves out what a failure doesn't need, but not what `end` counts."""
    left = "without 2 tasks, 1 handler, 4 frames, 4 link changes"
    seen = []
    for seed in range(1, 6):
        said, schedule = found_by(kit, program, "much", "--seed", seed)
        numbers = re.search(FOUND, said)
        if not numbers or not int(numbers[1]) > 40 or not int(numbers[3]) < 18 or left not in said:
            raise Wrong(f"reported much isn't shrunk to what it needs:\n{said}")
        must_print(schedule, "without task watch\nwithout task count\nwithout handler isr\n", "reported much")
        must_print(said, "point of no return: point", "reported much")
        seen.append((int(numbers[1]), int(numbers[3])))
    said, schedule = found_by(kit, program, "counted")
    if "without 2 tasks, 1 handler, 4 link changes\n" not in said or points_of(schedule).count("arrive") != 6:
        raise Wrong(f"reported counted: shrinking left out frames that `end` counts:\n{said}{schedule}")
    ran([program, "fixed", "--quiet", "--runs", 500, "--out", kit.folder])
    return ", ".join(f"{found} points shrunk to {shrunk}" for found, shrunk in seen)


def check_cycle(kit: Kit, program: Path) -> str:
    """An endless schedule is reported with its cycle, which is shown once."""
    said, schedule = found_by(kit, program, "round")
    must_print(said, r"FAILED endless: .*\n.*shrunk in \d+ tries to \d+ and \d+, the last \d points repeating", "round")
    points, lines = points_of(schedule), schedule.splitlines()
    where = next(number for number, line in enumerate(lines) if line.startswith("cycle "))
    round_of = points_of("\n".join(lines[where + 1 :]))
    if len(points) > 12 or not {"task one", "task other"} == set(round_of):
        raise Wrong(f"reported round: the cycle is too long, or not the expected one:\n{schedule}")
    again = ran([program, "round", "--replay", kit.folder / "reported-out/reported.schedule"], 1)
    must_print(again, f"and so on: the last {len(round_of)} points repeat", "reported round")
    script = (kit.folder / "reported-out/reported.nic").read_text()
    if script.count("# task one: ") != points.count("task one"):
        raise Wrong(f"reported round: its script and its schedule have different steps:\n{script}")
    file = kit.folder / "reported-out/round.schedule"
    for text, wanted in {
        "scenario reported\ntask one\ncycle\n": ":3: the cycle has no point",
        "scenario reported\ncycle\ntask one\ncycle\n": ":4: the file already has a cycle",
        "scenario reported\ntask one\nwithout task other\n": ":3: \"without\" lines must precede the first point",
        "scenario reported\nwithout frame 2\n": ':2: the scenario has no "frame 2"',
        "scenario reported\nwithout frame 18446744073709551617\n": ":2: the scenario has no",
        "scenario reported\nwithout task nobody\n": ':2: the scenario has no "task nobody"',
        "scenario reported\nwithout task \x7f\n": ':2: the scenario has no "task \\?"',
        "scenario reported\ntask \x9b31m\n": ':2: the scenario has no "task \\?\\?31m"',
        "scenario reported\nwithout rx\n": ':2: the scenario has no "rx"',
        "scenario reported\nwithout task other\ntask other\n": ':3: "task other" can\'t act at this point',
        "scenario reported\ntask one\ncycle\nrx\n": ':4: "rx" can\'t act at this point',
    }.items():
        file.write_text(text)
        must_print(ran([program, "round", "--replay", file], 2), wanted, repr(text))
    return f"{len(points)} points with a cycle of {len(round_of)}"


def check_places(kit: Kit, program: Path) -> str:
    """Each point has its line, and locks and conditions have their names, whichever program reads the debug
    information."""
    wanted = {}
    for number, line in enumerate(SOURCE.read_text().splitlines(), 1):
        if found := re.search(r"/\* here: (.*?) \*/", line):
            wanted[number] = found[1]
    found_resolvers = [name for name in RESOLVERS if shutil.which(name)]
    folder = kit.folder / "resolvers"
    for name in [*found_resolvers, ""]:
        shutil.rmtree(folder, ignore_errors=True)
        folder.mkdir()
        if name:
            (folder / name).symlink_to(shutil.which(name) or "")
        words = [program, "names", "--replay", kit.folder / "reported-out/reported.schedule"]
        if name == (found_resolvers or [""])[0]:
            found_by(kit, program, "names", "--no-shrink")
        said = ran(words, 1, env={**os.environ, "PATH": str(folder)})
        for number, what in wanted.items():
            pattern = re.escape(what) if name else re.escape(what).replace("far_lock", "lock 1")
            place = rf".* (at|<) reported.c:{number}$" if name else ""
            if what != "helper" and not re.search(f"# {pattern}{place}", said, re.M):
                raise Wrong(f"with {name or 'no resolver'}: line {number} isn't reported as \"{what}\":\n{said}")
        helpers = re.findall(r"w EIMC .* at reported.c:(\d+) < reported.c:\d+$", said, re.M)
        if name and [wanted.get(int(one)) for one in helpers] != ["helper", "helper"]:
            raise Wrong(f"with {name}: the two lines of a helper aren't reported:\n{said}")
        if not name and "reported.c:" in said:
            raise Wrong(f"no program can look up lines, but the output contains some:\n{said}")
    if found_resolvers:
        check_late_lines(kit, program, found_resolvers[0])
    return f"lines from {' and '.join(found_resolvers) or 'no program: none is installed'}"


def check_late_lines(kit: Kit, program: Path, name: str) -> None:
    """A search waits for source lines that are resolved late, as on a busy machine, because they are part of a
    failure's message. If only one of two runs had them, the messages would differ, and the search would blame `begin`
    for not initializing everything."""
    folder, out = kit.folder / "late", kit.folder / "late-out"
    for made in (folder, out):
        shutil.rmtree(made, ignore_errors=True)
        made.mkdir()
    late = folder / name
    late.write_text(f'#!/bin/sh\n{shutil.which("sleep")} 2.5\nexec {shutil.which(name)} "$@"\n')
    late.chmod(0o755)
    words = [program, "names", "--no-shrink", "--quiet", "--jobs", 1, "--out", out]
    said = ran(words, 1, env={**os.environ, "PATH": str(folder)})
    (schedule,) = out.glob("*.schedule")
    if f"{SOURCE.name}:" not in schedule.read_text() or "misuse" in said:
        raise Wrong(f"the search doesn't wait for source lines that are resolved late:\n{said}")


PARTS = {
    "reader": ["the run follows the whole schedule", "FAILED check: the head moved"],
    "mended": [
        r"departs from the schedule here, at .*:\d+\n.*it was: task reader, r RDH\[0\] = 0x00000001.*\n"
        r".*it is:  task reader, w EIMC 0x00000020",
        "FAILED check: the head moved",
    ],
    "renamed": [
        r"departs from the schedule here, at .*:\d+ \(this actor can't act now\)\n"
        r'.*it was: "task reader" \(not in the scenario\)\n',
        r"reported: (fine|FAILED check: the head moved)$",
    ],
    "frameless": [
        r"departs from the schedule here, at .*:\d+ \(this actor can't act now\)\n.*it was: arrive, done\n"
        r".*it is:  task reader, r RDH\[0\] = 0x00000000",
        "reported: fine$",
    ],
}


def page_of(path: Path) -> dict[str, Any]:
    """Returns the data in a page, as the page's script reads it."""
    found = re.search(r'<script type="application/json" id="data">\n(.*?)\n</script>', path.read_text(), re.S)
    if not found:
        raise Wrong(f"{path} has no data")
    made: dict[str, Any] = json.loads(re.sub(r",\s*\]\}\s*$", "]}", found[1]))
    return made


OBJECTS = {
    "corpus/eicr_cleared_after_poll.c": {"frame 1", "rx 0 slot 1", "rx 0"},
    "corpus/lock_in_handler_and_poll.c": {"lock counters", "interrupts of pf"},
    "corpus/mailbox_not_taken.c": {"mailbox 0"},
    "corpus/buffer_again_before_dd.c": {"tx 0 slot 0", "tx 0"},
    "corpus/missing_wmb.c": {"tx 0 slot 0", "tx 0"},
}


def check_page(kit: Kit, program: Path) -> str:
    """A page has the points of the schedule, the objects of each, and the turning point."""
    out = kit.folder / "reported-out"
    for name, wanted in OBJECTS.items():
        source = HERE / name
        said = ran([kit.build(source), "--quiet", "--jobs", 1, "--out", out], 1)
        data, schedule = page_of(out / f"{source.stem}.html"), (out / f"{source.stem}.schedule").read_text()
        if [step["actor"] for step in data["steps"]] != points_of(schedule):
            raise Wrong(f"{name}: its page and its schedule have different points")
        seen = {one for step in data["steps"] for one in step["objects"]}
        turn = re.search(r"point of no return: point (\d+)", said)
        if not wanted <= seen or not turn or int(turn[1]) != data["turn"]:
            raise Wrong(f"{name}: its page has {sorted(seen)}, and the turning point {data.get('turn')}:\n{said}")
        lines = schedule.splitlines()
        where = next(number for number, line in enumerate(lines) if line.startswith("# point of no return: if "))
        if points_of("\n".join(lines[:where])) != points_of(schedule)[: data["turn"]]:
            raise Wrong(f"{name}: its schedule and its page have different turning points")
    faulty = kit.build(HERE / "tests/faulty.c")
    for mode in ("crash", "end"):  # (during a step; text that looks like a tag)
        ran([faulty, mode, "--quiet", "--jobs", 1, *NO_HANG, "--out", out], 1, env={**os.environ, **CRASHES})
        data = page_of(out / "faulty.html")
        if data["outcome"] != mode or not data["steps"]:
            raise Wrong(f"faulty {mode}: its page has no steps, or the wrong outcome")
    words = [faulty, "crash", "--quiet", "--jobs", 1, *NO_HANG, "--strategy", "priorities"]
    said = ran([*words, "--out", out], 1, env={**os.environ, **CRASHES})
    must_print(said, "found by random before run 0,", "a crash before the first run")
    found_by(kit, program, "round")
    if page_of(out / "reported.html")["cycle"] != len(page_of(out / "reported.html")["steps"]) - 4:
        raise Wrong("reported round: its page has the wrong cycle")
    return f"{len(OBJECTS) + 3} pages"


def check_lenient(kit: Kit, program: Path) -> str:
    """A changed driver follows the schedule as far as possible, and the point where it departs is reported."""
    found_by(kit, program, "reader")
    schedule = kit.folder / "reported-out/reported.schedule"
    for mode, parts in PARTS.items():
        said = ran([program, mode, "--replay", schedule, "--lenient"], None)
        for wanted in parts:
            if not re.search(wanted, said, re.M):
                raise Wrong(f"reported {mode} --lenient: no line of the output matches {wanted}:\n{said}")
        if len(re.findall("departs from the schedule|follows the whole schedule", said)) != 1:
            raise Wrong(f"reported {mode} --lenient: it departs more than once:\n{said}")
    other = schedule.with_name("other.schedule")
    other.write_text(schedule.read_text().replace("scenario reported\n", "scenario old\n"))
    said = ran([program, "reader", "--replay", other, "--lenient"], 1)
    must_print(said, r"^reported: note: the schedule is for scenario old\n", "another scenario's, --lenient")
    must_print(said, "the run follows the whole schedule", "another scenario's, --lenient")
    said = ran([program, "reader", "--replay", other], 2)
    must_print(said, "the schedule is for scenario old, but this program is reported", "other")
    must_print(ran([program, "reader", "--lenient"], 2), "--lenient: only valid with --replay", "--lenient")
    return f"{len(PARTS)} drivers follow a schedule as far as possible"


def made(said: str) -> int:
    return int(re.findall(r": (\d+) schedules?,", said)[0])


def check_same_answer(kit: Kit) -> str:
    """The exhaustive search finds the same failure in the same number of schedules with any number of processes, and
    reports if a limit ended it early."""
    source, out = HERE / "corpus/eicr_cleared_after_poll.c", kit.folder / "reported-out"
    words = ["--quiet", "--no-shrink", "--strategy", "exhaustive", "--out", out]
    wrong, right = kit.build(source), kit.build(source, "FIXED")
    alone, whole = made(ran([wrong, *words, "--jobs", 1], 1)), made(ran([right, *words, "--jobs", 1]))
    schedules, bounds = set(), 3
    for jobs in (1, 2, 3):
        ran([wrong, *words, "--jobs", jobs, "--runs", alone - 1])
        ran([wrong, *words, "--jobs", jobs, "--runs", alone], 1)
        schedules.add((out / f"{source.stem}.schedule").read_text())
        count = made(ran([right, *words, "--jobs", jobs]))
        if count != whole + bounds * (jobs - 1):  # (each process runs the first schedule of each bound)
            raise Wrong(f"{jobs} processes run {count} schedules, but one runs {whole}")
    large = kit.build(HERE / "outside/rss_rebalance.c", "FIXED")
    few = [large, *words, "--preemptions", "any", "--no-sleep"]
    runs, seconds = ["--runs", 50], ["--seconds", "0.05"]
    for end in (runs, ["--shard", "1/2", *runs], seconds, ["--runs", 10**9, *seconds]):
        said = ran([*few, "--jobs", 2, *end])
        must_print(
            said, f"didn't search all schedules: {end[-2]} ended the search\n", "an exhaustive search that was ended"
        )
    part = "didn't search all schedules"
    if part in ran([right, *words]) or part in ran([right, "--quiet", "--runs", 50]):
        raise Wrong("a complete search or a random one is reported as incomplete")
    if len(schedules) != 1:
        raise Wrong("with a different number of processes, the exhaustive search finds a different schedule")
    return f"the same failure after {alone} schedules, and {whole} schedules of the twin, with 1, 2 and 3 processes"


def check_reported(kit: Kit) -> list[str]:
    """Runs all checks in this file."""
    program = replace_flags(kit).build(SOURCE)
    return [
        check_shrinking(kit, program),
        check_cycle(kit, program),
        check_places(kit, program),
        check_page(kit, program),
        check_lenient(kit, program),
        check_same_answer(kit),
    ]


def replace_flags(kit: Kit) -> Kit:
    """Returns the kit with debug information, without which no lines are known."""
    return replace(kit, flags=[*kit.flags, "-g"])
