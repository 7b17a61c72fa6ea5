"""Checks results of searches as files: several are merged, and invalid ones are refused. `c/test` calls it."""

from __future__ import annotations

import random
import re
import subprocess
import xml.etree.ElementTree
from pathlib import Path

from explore.check import HERE, Kit, Wrong, must_print, ran

RACE = HERE / "examples/race.c"


def numbers(said: str) -> dict[str, int]:
    """Returns the numbers of schedules, points and distinct schedules in the output."""
    found = re.search(r"(\d+) schedules?, (\d+) points?", said)
    distinct = re.search(r"(\d+) distinct schedules?", said)
    if not found:
        raise Wrong(f"the output doesn't say how many schedules ran:\n{said}")
    return {"schedules": int(found[1]), "points": int(found[2]), "distinct": int(distinct[1]) if distinct else 0}


def check_sums(kit: Kit) -> str:
    """Merged shards equal one search. Missing shards are reported, and no shard counts twice."""
    program, out = kit.build(RACE, "FIXED"), kit.out("results")
    ways: list[list[object]] = [["--runs", 500], ["--strategy", "exhaustive", "--preemptions", 1, "--no-sleep"]]
    for way in ways:
        words = [program, "--quiet", "--out", out, *way]
        whole = ran([*words, "--jobs", 1, "--result", out / "whole"])
        files = [out / f"shard-{k}" for k in (1, 2, 3)]
        for k, file in enumerate(files, 1):
            ran([*words, "--jobs", k, "--shard", f"{k}/3", "--result", file])
        merged = ran([program, "--merge", *files, "--out", out])
        got, wanted = numbers(merged), numbers(whole)
        if "exhaustive" in way:
            must_print(merged, "searched all schedules", "shards of the exhaustive search")
            firsts = 2 * (2 + 1 + 2)  # (each process of each shard runs the first schedule of both bounds)
            if not wanted["schedules"] <= got["schedules"] <= wanted["schedules"] + firsts:
                raise Wrong(f"the shards ran {got}, but a single search ran {wanted}")
        elif got != wanted:
            raise Wrong(f"the shards ran {got}, but a single search ran {wanted}")
        alone = ran([program, "--merge", out / "whole", "--out", out])
        if numbers(alone) != wanted:
            raise Wrong(f"a result merged by itself has {numbers(alone)}, but its search ran {wanted}")
        part = ran([program, "--merge", files[0], files[2], "--out", out])
        must_print(part, r"note: missing shards: 2 \(1 of 3\)", "two shards of three")
        if "searched all schedules" in part or ("didn't search all schedules\n" in part) != ("exhaustive" in way):
            raise Wrong(f"two shards of three are reported as a complete search:\n{part}")
        must_print(
            ran([program, "--merge", files[0], files[0]], 2), "shard 1/3 of this search is also in", "a shard twice"
        )
        ran([program, "--merge", *files, "--out", out, "--strict"])
    return "merged shards equal one search"


def check_causes(kit: Kit) -> str:
    """Each cause is reported once, from its lowest run, with its schedule, in JUnit too."""
    race, out = kit.build(RACE), kit.out("results")
    files = [out / f"race-{k}" for k in range(4)]
    for k, file in enumerate(files[:3]):
        ran([race, "--quiet", "--jobs", 1, "--shard", f"{k + 1}/3", "--out", out, "--result", file], 1)
    ran([race, "--quiet", "--jobs", 1, "--seed", 2, "--runs", 5, "--out", out, "--result", files[3]])
    one = ran([race, "--quiet", "--jobs", 1, "--out", out], 1)
    run = re.findall(r"found by ([\w-]+ in run \d+)", one)[0]
    merged = ran([race, "--merge", *files, "--out", out, "--junit", out / "all.xml"], 1)
    if merged.count("FAILED") != 1 or f"found by {run}," not in merged or "in 3 results" not in merged:
        raise Wrong(f"the failure that three shards found isn't reported exactly once, as found by {run}:\n{merged}")
    ran([race, "--replay", out / "race.schedule"], 1)
    faulty = kit.build(HERE / "tests/faulty.c")
    for mode, status in (("end", 1), ("check", 1), ("fine", 0)):
        words = [faulty, mode, "--quiet", "--jobs", 1, "--runs", 200, "--out", out]
        ran([*words, "--seed", len(mode), "--result", out / mode], status)
    said = ran([faulty, "end", "--merge", *(out / one for one in ("end", "check", "fine")), "--out", out, "--junit",
                out / "all.xml"], 1)  # fmt: skip
    must_print(said, r"doesn't reproduce the failure: the schedule is \S+/faulty-2.schedule", "another program's")
    ran([faulty, "lines", "--quiet", "--jobs", 1, "--runs", 200, "--out", out, "--result", out / "lines"], 1)
    said = ran([faulty, "lines", "--merge", out / "lines", "--out", out], 1)
    must_print(said, r"FAILED end: rx 0: nobody\?\? takes it; int 5: no message\n", "words of several lines")
    must_print(said, r"again: \S+ --replay \S+/faulty.schedule", "words of several lines")
    cases = xml.etree.ElementTree.parse(out / "all.xml").findall("testcase/failure")
    if [case.get("type") for case in cases] != ["end", "check"] or not all("scenario faulty" in (case.text or "")
                                                                          for case in cases):  # fmt: skip
        raise Wrong(f"two causes: the JUnit file has {[case.get('type') for case in cases]}")
    vacuous = kit.build(HERE / "tests/vacuous.c")
    for seed in (1, 2):
        ran([vacuous, "waits", "--quiet", "--runs", 20, "--seed", seed, "--out", out, "--result", out / f"v{seed}"])
    said = ran([vacuous, "waits", "--merge", out / "v1", out / "v2", "--strict", "--out", out], 3)
    must_print(said, "task poll never got past its first wait", "what never ran in two results")
    return "each cause reported once"


def summed(lines: list[str]) -> str:
    """Returns the lines of a result, followed by the checksum they must end in."""
    total = 0xCBF29CE484222325
    for byte in "".join(lines).encode("latin-1"):
        total = (total ^ byte) * 0x100000001B3 % 2**64
    return "".join(lines) + f"sum {total:016x}\n"


FIELDS = {
    "nicx-result 1": ("nicx-result 2", ":1: nicx-result: wrong version: this program reads version 1"),
    "scenario race": ("scenario other", ":2: the result is for scenario other, but this program is race"),
    "strategy mixed": ("strategy best", ':3: strategy: unknown strategy "best"'),
    "seed 1": ("seed 18446744073709551616", ":4: seed: \"18446744073709551616\" isn't a number from 0 to"),
    "first 0": ("first -1", ":5: first: \"-1\" isn't a number"),
    "runs 10000": ("runs 010000", ":6: runs: \"010000\" isn't a number"),
    "shard 1": ("shard 0", ": no shard 0 among 3"),
    "tasks 1": ("tasks 2", ": tasks: the file has 2, but the scenario has 1"),
    "task 1 poll": ("task 1 pall", ': task: the file has "1 pall", but the scenario has poll'),
    "frames 2": ("frames 3", ": frames: the file has 3, but the scenario has 2"),
    "distinct exact": ("distinct maybe", ": distinct: expected exact, about or none"),
    "failure 1": ("failure 2", ": failure: \"2\" isn't a number from 0 to 1"),
    "outcome end": ("outcome bad", ': outcome: unknown outcome "bad"'),
    "without-threads 0": ("without-threads 2", ': expected "without" but found "without-frames 0"'),
    "point arrive": ("point nobody", ': point: the scenario has no "nobody"'),
    "whole 0": ("whole", ': expected "whole" but found "whole"'),
}


def check_refused(kit: Kit, tries: int) -> str:
    """Each field is checked when it is read: changed files are refused, or are valid results with other numbers."""
    race, out = kit.build(RACE), kit.out("results")
    file, bad = out / "race-0", out / "bad"
    lines = file.read_text().splitlines(keepends=True)[:-1]
    if summed(lines) != file.read_text():
        raise Wrong("a result file's checksum doesn't match its lines")
    for old, (new, wanted) in FIELDS.items():
        at = lines.index(f"{old}\n")
        bad.write_text(summed([*lines[:at], f"{new}\n", *lines[at + 1 :]]))
        must_print(ran([race, "--merge", bad, "--out", out], 2), re.escape(wanted), f"{old} as {new}")
    for text, wanted in {
        "": ":1: the file is truncated",
        "".join(lines): "the file is truncated",
        file.read_text() + "\n": "the file continues after its last line",
        file.read_text().replace("seed 1\n", "seed 2\n"): "sum: doesn't match the lines before it",
        "x" * 600: ":1: the line has no newline",
        "nicx-result 1\nscenario \x01\n": ":2: the line isn't printable ASCII",
    }.items():
        bad.write_text(text)
        must_print(ran([race, "--merge", bad, "--out", out], 2), re.escape(wanted), repr(text[:40]))
    must_print(ran([race, "--merge", "/nowhere"], 2), "/nowhere: can't read the file", "no file")
    must_print(ran([race, "--merge"], 2), "--merge: missing value", "no word")
    must_print(ran([race, "--result", "/nowhere/file"], 2), "--result: can't write /nowhere/file", "no folder")
    chance, taken = random.Random(1), 0
    for _ in range(tries):
        taken += is_taken(race, out, changed(lines, chance))
    return f"{len(FIELDS) + 9} refusals, {tries} changed files, {taken} of them accepted"


def changed(lines: list[str], chance: random.Random) -> str:
    """Returns a file with a line removed, repeated or moved, or with a changed byte or number, mostly with a valid
    checksum."""
    made = list(lines)
    for _ in range(chance.randint(1, 3)):
        at, other = chance.randrange(len(made)), chance.randrange(len(made))
        way = chance.randrange(5)
        if way == 0:
            del made[at]
        elif way == 1:
            made.insert(other, made[at])
        elif way == 2:
            made[at], made[other] = made[other], made[at]
        elif way == 3:
            where = chance.randrange(len(made[at]))
            made[at] = made[at][:where] + chr(chance.randrange(1, 256)) + made[at][where + 1 :]
        else:
            made[at] = re.sub(r"\d+", lambda _: str(chance.choice((0, 1, 2, 255, 2**32, 2**63))), made[at], count=1)
    return summed(made) if chance.randrange(4) else "".join(made)


def is_taken(race: Path, out: Path, text: str) -> bool:
    (out / "bad").write_bytes(text.encode("latin-1"))
    words = [race, "--merge", out / "bad", "--out", out]
    made = subprocess.run(words, stdout=subprocess.PIPE, stderr=subprocess.STDOUT, text=True, check=False)
    if made.returncode not in (0, 1, 2) or (made.returncode == 2) != ("/bad:" in made.stdout.split(" ")[0]):
        raise Wrong(f"a changed file was merged with status {made.returncode}:\n{made.stdout}\n{text}")
    return made.returncode != 2


def check_results(kit: Kit, tries: int) -> list[str]:
    """Runs all checks in this file."""
    return [check_sums(kit), check_causes(kit), check_refused(kit, tries)]
