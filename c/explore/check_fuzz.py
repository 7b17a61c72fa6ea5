"""Checks the harness for fuzzers: the scenario's own program replays an input's schedule, and libFuzzer, if clang
has it, finds the example's race. `c/test` calls it."""

from __future__ import annotations

import re
import shutil
from pathlib import Path

from explore.check import HERE, STRICT, C, Kit, Wrong, must_print, ran

RACE = HERE / "examples/race.c"
HARNESS = HERE / "fuzz/fuzz.c"
FAILS = "a frame is in the ring, but nothing will poll it"


def built(kit: Kit, name: str, compiler: str, *words: str) -> Path:
    """Builds the example with the harness."""
    program = kit.folder / name
    libraries = [kit.explorer, C / "out/libnic82599.a"]
    ran([compiler, *STRICT, *words, f"-I{C}/include", RACE, HARNESS, *libraries, "-o", program])
    return program


def check_inputs(kit: Kit) -> int:
    """Runs schedules for fixed inputs; the example's program replays each as the harness wrote it."""
    show, race, failing = built(kit, "race-show", kit.compiler, *kit.flags), kit.build(RACE), 0
    for number in range(100):
        given = bytes(number * (k + 3) * (k + 7) // 5 % 251 for k in range(number % 40))
        (kit.folder / "input").write_bytes(given)
        said = ran([show, "input"], None, cwd=kit.folder)
        is_failing = f"race: FAILED: {FAILS}" in said
        if not is_failing and "race: fine;" not in said:
            raise Wrong(f"input {given.hex()}: {said}")
        again = ran([race, "--replay", kit.folder / "race.schedule"], int(is_failing))
        must_print(again, f"FAILED end: {FAILS}" if is_failing else "race: fine", f"input {given.hex()}")
        failing += is_failing
    must_print(ran([show, "/nowhere"], 2), "/nowhere: can't read the file", "an input that isn't there")
    must_print(ran([show], 2), "pass an input file", "no input")
    return failing


def check_fuzz(kit: Kit) -> str:
    """Checks the harness with fixed inputs, and with libFuzzer."""
    failing = check_inputs(kit)
    if not failing:
        raise Wrong("none of the 100 inputs finds the race")
    said = f"{failing} of 100 inputs fail, and are replayed"
    if not shutil.which("clang"):
        return f"{said}; libFuzzer isn't tried, because clang isn't installed"
    words = ["-O1", "-fsanitize=fuzzer", "-DNICX_LIBFUZZER", "-Dmain=nicx_scenario_main"]
    try:
        program = built(kit, "race-libfuzzer", "clang", *words)
    except Wrong:
        return f"{said}; libFuzzer isn't tried, because this clang doesn't include it"
    out = ran([program, "-max_len=64", "-seed=1", "-runs=300000", f"-artifact_prefix={kit.folder}/"], None)
    found = re.search(r"Test unit written to (\S+)", out)
    if not found or FAILS not in out:
        raise Wrong(f"libFuzzer finds no race:\n{out[-1000:]}")
    must_print(ran([kit.folder / "race-show", found[1]], 1, cwd=kit.folder), FAILS, "libFuzzer's input")
    return f"{said}; libFuzzer finds the race"
