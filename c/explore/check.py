"""Checks the explorer: its corpus, its table of independent steps, how it reports each fault, what it refuses.

`c/test` calls these checks; `c/explore/table` takes the corpus from here too.
"""

from __future__ import annotations

import os
import re
import shutil
import subprocess
import xml.etree.ElementTree
from dataclasses import dataclass, field, replace
from pathlib import Path

HERE = Path(__file__).resolve().parent
C = HERE.parent
# A limit in elapsed seconds, which only a hang exceeds, even on a busy machine.
HANGS = 3600
# A crash may be reported late, and a schedule's process may be scheduled late: neither is a hang.
NO_HANG = ["--hang", 600]
STRICT = ["-std=c99", "-Wall", "-Wextra", "-pedantic", "-Werror"]
STRATEGIES = ("random", "priorities", "exhaustive")


class Wrong(Exception):
    """A check failed."""


def ran(words: list[object], wanted: int | None = 0, **how: object) -> str:
    """Returns what a program prints on both streams; raises Wrong if it exits with another status."""
    made = subprocess.run(
        [str(word) for word in words], stdout=subprocess.PIPE, stderr=subprocess.STDOUT, text=True, check=False, **how
    )
    if wanted is not None and made.returncode != wanted:
        shown = " ".join(str(word) for word in words)
        raise Wrong(f"status {made.returncode} instead of {wanted} from: {shown}\n{made.stdout}".rstrip())
    return made.stdout


def links(compiler: str, flags: list[str], folder: Path, text: str = "int main(void) { return 0; }\n") -> bool:
    """Whether a program with these flags links and runs here: an empty program, or this source."""
    source, program = folder / "empty.c", folder / "empty"
    source.write_text(text)
    try:
        ran([compiler, *flags, source, "-o", program])
        ran([program])
    except (Wrong, OSError):
        return False
    return True


@dataclass
class Kit:
    """How programs are built, and the folder they go to."""

    folder: Path
    compiler: str
    flags: list[str]
    explorer: Path
    nicbench: str
    # The command lines and source of each program built, so that it isn't built again.
    built: dict[Path, object] = field(default_factory=dict)

    def out(self, name: str) -> Path:
        """Returns a folder for a program's output."""
        folder = self.folder / name
        folder.mkdir(exist_ok=True)
        return folder

    def build(self, source: Path, *defines: str) -> Path:
        """Builds a program from one source, linked with the explorer."""
        if of_known_memory(source):
            return self.build_form(source, *defines, of_memory=True)
        program = self.folder / "-".join([source.stem, *defines]).lower()
        includes = [f"-I{C}/include", f"-I{HERE}/corpus", f"-I{self.folder}"]
        words = [self.compiler, *STRICT, *self.flags, *includes, *(f"-D{one}" for one in defines), source]
        self.make(program, source, [*words, self.explorer, C / "out/libnic82599.a", "-o", program])
        return program

    def make(self, program: Path, source: Path, *lines: list[object]) -> None:
        """Builds a program with these command lines, unless its last build used the same ones: several checks share a
        program."""
        wanted = lines, source.read_bytes()
        if self.built.get(program) != wanted:
            for line in lines:
                ran(line)
            self.built[program] = wanted

    def build_form(self, source: Path, *defines: str, of_memory: bool = False, form: str = "threads") -> Path:
        """Builds with the link form that intercepts a driver's own threads, or the one for a whole program, whose
        own output isn't printed. With `of_memory`, memory accesses are observed."""
        program = self.folder / "-".join([source.stem, form, *["memory"] * of_memory, *defines]).lower()
        made = program.with_suffix(".o")
        kind = ["-fsanitize=thread"] if of_memory else []
        words = [self.compiler, "-std=gnu11", *STRICT[1:], "-g", "-O1", *kind, f"-I{C}/include", f"-I{HERE}/corpus"]
        compiled = [*words, *(f"-D{one}" for one in defines), "-c", source, "-o", made]
        linked = [self.compiler, made, f"-L{C}/out", f"@{C}/out/nic82599_{form}.opts", "-o", program]
        self.make(program, source, compiled, linked)
        return program


def of_known_memory(source: Path) -> bool:
    """Whether a corpus driver's comment says that its bug shows only if memory accesses are observed."""
    return "-fsanitize=thread" in source.read_text().partition("*/")[0] and source.parent.name == "corpus"


def corpus() -> list[Path]:
    return sorted((HERE / "corpus").glob("*.c"))


def outside() -> list[Path]:
    """Returns the drivers that weren't written for the search."""
    return sorted((HERE / "outside").glob("*.c"))


def vfs_of(source: Path) -> int:
    found = re.search(r"\.vfs = (\d+)", source.read_text())
    return int(found[1]) if found else 0


# --- the corpus ---


def check_files(kit: Kit, source: Path, program: Path, out: Path) -> None:
    """A replay of a failure's schedule fails again, and the expects in its script hold."""
    name = source.stem
    output = ran([program, "--replay", out / f"{name}.schedule"], 1)
    if "FAILED" not in output:
        raise Wrong(f"{name}: its schedule doesn't fail again")
    with open(out / f"{name}.nic", encoding="ascii") as script:
        last = ran([kit.nicbench, "run", "--vfs", vfs_of(source)], stdin=script).splitlines()[-1]
    if not last.startswith("ok "):
        raise Wrong(f"{name}: its script ends with {last}")
    check_script(kit, out / f"{name}.nic")


ACCESS = re.compile(r"[rw] (\S+)")


def check_script(kit: Kit, path: Path) -> None:
    """A failure's script names registers as the bench reads them, and ends with the failure."""
    lines = path.read_text().splitlines()
    accesses = [found[1] for line in lines if (found := ACCESS.match(line))]
    if not accesses or any(one.startswith("0x") for one in accesses):
        raise Wrong(f"{path}: registers without names: {[one for one in accesses if one.startswith('0x')]}")
    if not re.fullmatch(r"# FAILED \w+: .+", lines[-1]) or lines[-1][len("# FAILED ") :] != lines[0][2:]:
        raise Wrong(f"{path} ends with {lines[-1]}, and begins with {lines[0]}")
    if any(line and not line.startswith(("#", "data ", "expect ")) and "#" not in line for line in lines):
        raise Wrong(f"{path} has a step without an actor")


def check_names(kit: Kit) -> str:
    """Each address in the register table and each virtual function's offset is named; other addresses aren't. Rust
    names are reported as in the source."""
    ran([kit.build(HERE / "tests/demangle.c")])
    return ran([kit.build(HERE / "tests/names.c")]).strip()


def check_pair(kit: Kit, source: Path, runs: int) -> tuple[str, Path, Path]:
    """A bug is found, and its twin passes `runs` schedules. Returns the output, the twin, and the folder of the
    files."""
    out = kit.out("found")
    wrong, right = kit.build(source), kit.build(source, "FIXED")
    found = ran([wrong, "--quiet", "--jobs", 2, "--out", out], 1)
    check_files(kit, source, wrong, out)
    ran([right, "--quiet", "--jobs", 2, "--runs", runs, "--out", out])
    return found, right, out


def check_corpus(kit: Kit, runs: int, preemptions: int, each: int = 1) -> str:
    """Each bug in the corpus is found. Its twin passes `runs` random schedules, and up to ten times as many schedules
    of the exhaustive search. With `each`, only every `each`-th driver is tried."""
    for source in corpus()[::each]:
        _, right, out = check_pair(kit, source, runs)
        words = ["--strategy", "exhaustive", "--preemptions", preemptions, "--runs", 10 * runs]
        ran([right, "--quiet", "--jobs", 2, *words, "--out", out])
    return f"{len(corpus()[::each])} bugs found, and their twins pass"


# How each bug of these drivers must be reported.
OUTSIDE = {
    "interrupt_moderation": "end: a frame wasn't received",
    "mailbox_withdrawn_request": "end: the virtual function never learned its address",
    "ring_resize_jumbo": "check: a frame is incomplete",
    "rss_rebalance": "end: the frames of a flow are out of order",
    "transmit_watchdog": "end: (the frames on the wire differ from the frames sent|more frames were transmitted)",
}


def check_outside(kit: Kit, runs: int, each: int = 1) -> str:
    """Checks the drivers that weren't written for the search. Each bug must be found as the failure listed above."""
    sources = outside()
    if [source.stem for source in sources] != list(OUTSIDE):
        raise Wrong(f"OUTSIDE must list the drivers in outside/: {', '.join(source.stem for source in sources)}")
    for source in sources[::each]:
        found, _, _ = check_pair(kit, source, runs)
        must_print(found, f"FAILED {OUTSIDE[source.stem]}", source.stem)
    return f"{len(sources[::each])} bugs of other drivers found, and their twins pass"


# --- the examples ---

PMD_BUGS = {
    1: "check: the driver handed out a block that holds no packet",
    2: "end: a frame was transmitted with another frame's bytes",
    3: "end: a frame was never transmitted",
    4: "end: the driver reports idle while a packet is outstanding",
}


def check_examples(kit: Kit, runs: int) -> str:
    """The guide's example fails and its fixed twin passes; `pmd` in C passes, and each incorrect version is found."""
    out = kit.out("examples")
    words = ["--quiet", "--jobs", 2, "--out", out]
    race, pmd = HERE / "examples/race.c", HERE / "examples/pmd.c"
    must_print(ran([kit.build(race), *words], 1), "FAILED end: a frame is in the ring", "race")
    must_print(
        ran([kit.build(race, "FIXED"), *words, "--strategy", "exhaustive"]), "searched all schedules", "race, fixed"
    )
    for bug, wanted in PMD_BUGS.items():
        must_print(ran([kit.build(pmd, f"BUG={bug}"), *words], 1), f"FAILED {wanted}", f"pmd, bug {bug}")
    right = kit.build(pmd)
    ran([right, *words, "--runs", runs])
    ran([right, *words, "--strategy", "exhaustive", "--preemptions", 1])
    return f"race, pmd and {len(PMD_BUGS)} wrong ones"


# --- how faults are reported ---

# Keeps a sanitizer that reports a crash from looking up lines, which takes longer than everything else.
CRASHES = dict.fromkeys(("ASAN_OPTIONS", "UBSAN_OPTIONS"), "symbolize=0")

FAULTS = {
    "end": "end: it ended <here> & \"now\"",
    "lines": "end: rx 0: nobody\u00e9 takes it; int 5: no message\n",
    "always": "always: the head moved",
    "locks": "deadlock: (up|down) waits for (first|second), which (up|down) holds",
    "waits": r"deadlock: faulty waits( at faulty\.c:\d+)?, and no actor can act\n",
    "endless": r"endless: still running after 200 points; the last to act was task faulty: does its loop need "
    r"nicx_wait\?",
    "ticks": r"endless: .*; the last to act was .*: tick fires again and again: is it re-armed each time\?",
    "memory": r"memory: faulty at faulty\.c:\d+ reads 0x0, which isn't lent\n",
    "unlock": "misuse: faulty unlocks first without holding it",
    "interrupts": "misuse: faulty ends with its interrupts disabled",
    "check": "check: the head moved",
    "crash": r"crash: the process (was killed by signal 11 .*|exited with status 1)",
    "exit": "crash: the process exited with status 5",
    "hang": r"hang: task faulty reached no further point: does its loop need nicx_wait\?",
    "look": "misuse: always calls a function with side effects: it may only read",
    "look_fails": "check: always asks",
    "condition": "misuse: a condition of nicx_wait_until calls a function with side effects: it may only read",
    "settle": "misuse: faulty calls nicx_settle, which only bring_up may call",
    "settle_at_end": "misuse: only bring_up may call nicx_settle",
    "lend_all": "misuse: faulty calls nicx_lend_all, which only bring_up may call",
    "memory_in_place": "misuse: faulty calls nic_lend_memory, but the search can't see stores",
    "memory_elsewhere": "misuse: faulty calls nic_lend_memory, but the search can't see stores",
    "held": "misuse: faulty ends while it holds second",
    "left": "misuse: begin doesn't initialize all of the driver's state: .* check: the twentieth schedule",
    "beyond": r"deadlock: faulty waits at faulty\.c:\d+, and no actor can act; if that is a delay, call "
    r"nicx_pause there",
}

# Notes printed in addition, with the search's status.
NOTES = {
    "stray": (0, r"note: \d+ access(es)? to addresses without a register, the first by faulty: r 0x1f000 .*\(stray"),
    "beyond": (1, r"note: queue 5 isn't below \.queues, so it never turns on"),
    "left": (1, "the schedule doesn't fail by itself: to find the failure again, use the same options"),
}

# Exactly what is reported as never having run, for each scenario.
NEVER = {
    "fine": [],
    "faults": [],
    "vector": [
        "task poll never got past its first wait",
        "handler isr never started: no message pf vector 5 was sent; these were sent: pf vector 6",
    ],
    "filter": [
        "task poll never got past its first wait",
        "handler isr never started: no message pf vector 5 was sent",
        "no frame was ever written to memory: dropped filter",
    ],
    "all": [
        "task poll never got past its first wait",
        "handler isr never started: no message pf vector 5 was sent",
        "no frame was ever written to memory: dropped filter",
    ],
    "slots": [
        "task poll never got past its first wait",
        "handler isr never started: no message pf vector 5 was sent",
        "no frame was ever written to memory: still waiting inside the device",
    ],
    "waits": ["task poll never got past its first wait"],
    "queue": ["queue 0 was on but sent nothing"],
    "link": ["link change 0 (up) had no effect"],
}

# Modes that must pass: loops that end, and two handlers for one vector.
FINE = ("fine", "polls", "spins", "two", "descriptor", "handlers")

REFUSALS = {
    "stuck": "bring_up waits forever: .*; last access: r RXDCTL.1. = 0x00000000; queue 1 isn't below .queues",
    "stuck_spinning": "bring_up waits forever: .*; last access: r RXDCTL.1. = 0x00000000; queue 1",
    "begin_waits": "begin waits forever: .*; last access: r RDH.0. = 0x00000000",
    "refused": "bring_up: there is no cable",
    "checked": "bring_up: a check of the bring-up",
    "memory_early": "bring_up: the scenario calls nic_lend_memory, but the search can't see stores",
    "no_tasks": "begin creates no task",
    "name": "a task's or a handler's name has 1 to 63 letters",
    "fifo": "can't open the device: bad fifo",
    "queues": ".queues must be 1 to 128",
    "twice": "two tasks or handlers are named faulty",
    "group": "a handler belongs to a virtual function that doesn't exist",
    "nowhere": "a handler runs on a task that doesn't exist",
    "stack": ".stack is below 16,384 bytes",
    "memory_kind": ".memory isn't a value of enum nicx_memory",
    "two_memories": ".memory is both NICX_WEAK and NICX_TSO: choose one",
    "vfs": "can't open the device: ",
    "points": ".points is above 1,000,000",
    "no_end": ".bring_up, .begin and .end must all be set",
    "scenario": ".name must have 1 to 63 letters",
}

WORDS = {
    "--runs": "--runs: missing value",
    "--runs 0": "\"0\" isn't a number from 1 to",
    "--runs 12x": "\"12x\" isn't a number from 1 to",
    "--seconds -1": "--seconds: \"-1\" isn't a number of seconds above 0 and up to 1000000000",
    "--seconds 0x10": "\"0x10\" isn't a number of seconds",
    "--seconds nan": "\"nan\" isn't a number of seconds",
    "--seconds 1e10": "\"1e10\" isn't a number of seconds",
    "--seconds": "--seconds: missing value",
    "--strategy": "--strategy: missing value",
    "--strategy best": "--strategy: expected random, priorities, exhaustive or mixed",
    "--depth 17": "\"17\" isn't a number from 1 to 16",
    "--jobs 257": "\"257\" isn't a number from 1 to 256",
    "--jobs 1.5": "\"1.5\" isn't a number from 1 to 256",
    "--jobs +4": "\"\\+4\" isn't a number from 1 to 256",
    "--frames 3": "--frames: no such option",
    "--nonsense 1": "--nonsense: no such option",
    "words": "words: no such option",
    "--memory": "--memory: missing value",
    "--memory week": "--memory: expected weak, tso or strong",
    "--seed 18446744073709551616": "isn't a number from 0 to",
    "--preemptions 1001": "\"1001\" isn't a number from 0 to 1000",
    "--shard": "--shard: missing value",
    "--shard 2": "--shard: expected K/N, for example 1/4",
    "--shard /2": "--shard: expected K/N, for example 1/4",
    "--shard 1/": "--shard: expected K/N, for example 1/4",
    "--shard 0/2": "\"0\" isn't a number from 1 to 2",
    "--shard 3/2": "\"3\" isn't a number from 1 to 2",
    "--shard 1/65537": "\"65537\" isn't a number from 1 to 65536",
    "--shard 1/2/3": "\"2/3\" isn't a number from 1 to 65536",
    "--hang 0": "\"0\" isn't a number from 1 to 86400",
    "--out /nowhere": "no such folder",
    "--out /dev/null": "no such folder",
    "--out": "--out: missing value",
    "--out " + "./" * 510: "--out: the folder's path is too long",
    "--junit /nowhere/result.xml": "--junit: can't write /nowhere/result.xml",
    "--junit /tmp": "--junit: can't write /tmp",
    "--junit": "--junit: missing value",
    "--result": "--result: missing value",
    "--result /tmp": "--result: can't write /tmp",
    "--merge": "--merge: missing value",
    "--lenient": "--lenient: only valid with --replay",
    "--replay /tmp": "/tmp: can't read the file",
    "--replay /nowhere": "/nowhere: can't read the file",
}


def must_print(text: str, wanted: str, what: str) -> None:
    if not re.search(wanted, text):
        raise Wrong(f"{what}: expected \"{wanted}\" in this output:\n{text}")


def check_faults(kit: Kit) -> str:
    """Each fault is reported by itself, with a schedule, and also as JUnit."""
    out = kit.out("faults")
    program = replace(kit, flags=[*kit.flags, "-g"]).build(HERE / "tests/faulty.c")  # (so reports contain lines)
    for mode, wanted in FAULTS.items():
        junit = out / "result.xml"
        words = [program, mode, "--quiet", "--jobs", 2, "--out", out, "--junit", junit]
        words += ["--no-shrink"] if mode in ("hang", "endless", "ticks") else []
        words += ["--hang", 2] if mode == "hang" else NO_HANG
        must_print(ran(words, 1, env={**os.environ, **CRASHES}), f"FAILED {wanted}", mode)
        failure = xml.etree.ElementTree.parse(junit).find("testcase/failure")
        if failure is None or not (failure.text or "").strip().startswith("# "):
            raise Wrong(f"{mode}: the JUnit file has no failure with its schedule")
        if mode not in ("crash", "exit", "hang", "left"):
            must_print(ran([program, mode, "--replay", out / "faulty.schedule"], 1), "FAILED", mode)
    said = ran([program, "check", "--quiet", "--jobs", 2, "--out", f"{out}/"], 1)
    must_print(
        said, f"the schedule is {out}/faulty.schedule, the script for nicbench is {out}/faulty.nic", "a folder and a /"
    )
    words = [program, "strange", "--quiet", "--jobs", 1, "--strategy", "exhaustive", "--out", out]
    must_print(ran(words, 1), "misuse: a schedule ran differently the second time", "strange")
    for mode, (status, wanted) in NOTES.items():
        must_print(ran([program, mode, "--quiet", "--jobs", 2, "--runs", 100, "--out", out], status), wanted, mode)
    for mode in FINE:
        ran([program, mode, "--quiet", "--jobs", 2, "--runs", 500, "--out", out])
        ran([program, mode, "--quiet", "--jobs", 2, "--strategy", "exhaustive", "--preemptions", 1, "--out", out])
    ran([program, "fine", "--quiet", "--runs", 500, "--out", out, "--junit", out / "result.xml"])
    if xml.etree.ElementTree.parse(out / "result.xml").find("testcase/failure") is not None:
        raise Wrong("the JUnit file of a search without a failure contains one")
    return f"{len(FAULTS) + 1} faults reported"


def check_never(kit: Kit) -> str:
    """What a scenario names but never runs is reported, in JUnit too; with --strict, the search exits with a separate
    status."""
    program, out = kit.build(HERE / "tests/vacuous.c"), kit.out("never")
    ways: list[list[object]] = [["--runs", 200], ["--strategy", "exhaustive", "--preemptions", 1]]
    for mode, wanted in NEVER.items():
        for way in ways:
            words = [program, mode, "--quiet", "--jobs", 2, "--out", out, "--junit", out / "result.xml", *way]
            said = ran(words)
            lines = [line.partition(": note: ")[2] for line in said.splitlines() if ": note: " in line]
            if [line for line in lines if not line.startswith("faults are allowed")] != wanted:
                raise Wrong(f"vacuous {mode}: the report doesn't say correctly what never ran:\n{said}")
            suite = xml.etree.ElementTree.parse(out / "result.xml").getroot()
            if [one.get("value") for one in suite.iterfind("properties/property[@name='never']")] != wanted:
                raise Wrong(f"vacuous {mode}: the JUnit file has the wrong properties")
            strict = ran([*words, "--strict"], 3 if wanted else 0)
            suite = xml.etree.ElementTree.parse(out / "result.xml").getroot()
            if (suite.find("testcase/failure") is not None) != bool(wanted) or "FAILED" in strict:
                raise Wrong(f"vacuous {mode}: with --strict, the JUnit file has the wrong verdict")
    must_print(ran([program, "faults", "--runs", 9]), "note: faults are allowed, but none occurred", "faults")
    one = ran([program, "fine", "--quiet", "--jobs", 1, "--runs", 300])
    two = ran([program, "fine", "--quiet", "--jobs", 2, "--runs", 300])
    counts = [re.findall(r"(\d+) distinct schedules", said) for said in (one, two)]
    if counts[0] != counts[1] or not 10 < int(counts[0][0]) < 300:
        raise Wrong(f"unexpected numbers of distinct schedules: {counts}")
    return f"{len(NEVER)} scenarios, with and without parts that never run; {ran([count_program(kit)]).strip()}"


# Chosen values and timers: what is printed, and the status.
CHOICES = {
    "fine": (0, "no failure was found"),
    "values": (1, "check: a value of at least 2, and one of at least 1"),
    "all": (1, "check: the last combination of values"),
    "inputs": (1, "end: three frames came"),
    "endless": (1, "endless: still running after 200 points; the last to act was nicx_choose"),
    "none": (1, "misuse: nicx_choose takes 1 to 256 values, not 0"),
    "many": (1, "misuse: nicx_choose takes 1 to 256 values, not 257"),
    "hang": (1, "hang: task chooses reached no further point"),
    "early": (2, "bring_up: only begin, tasks and handlers may call nicx_choose"),
    "late": (1, "misuse: only begin, tasks and handlers may call nicx_choose"),
    "rest": (0, "note: timer other never fired\n.*no failure was found"),
    "begin": (0, "note: timer other never fired\n.*no failure was found"),
    "again": (0, "note: timer other never fired\n.*no failure was found"),
    "twice": (0, "note: timer other never fired\n.*no failure was found"),
    "bound": (0, "note: timer other never fired\n.*no failure was found"),
    "never": (0, "note: timer timer never fired\n.*note: timer other never fired"),
    "disarm": (1, "check: a disarmed timer fires"),
    "disarmed": (0, "note: timer timer never fired\n.*note: timer other never fired"),
    "sixth": (1, "check: the sixth point"),
    "first": (1, "check: the first point"),
    "unknown": (1, "misuse: no such timer: 99"),
}

# The values expected in the shrunk schedule: the lowest ones that fail.
LOWEST = {"values": ["value 2", "value 1"], "all": ["value 4", "value 2"], "inputs": ["value 2"]}


def check_choices(kit: Kit) -> str:
    """Values and timers with each strategy: checks the failure found, how it is shrunk, and that its schedule fails
    again."""
    program, out = kit.build(HERE / "tests/choices.c"), kit.out("chosen")
    for mode, (status, wanted) in CHOICES.items():
        # (each schedule tried while shrinking would hang this long)
        limit = ["--hang", 1, "--no-shrink"] if mode == "hang" else NO_HANG
        for strategy in STRATEGIES:
            words = [program, mode, "--quiet", "--jobs", 2, *limit, "--out", out, "--strategy", strategy]
            words += ["--runs", 2000]
            must_print(ran(words, status), wanted, f"choices {mode}, {strategy}")
            schedule = out / "choices.schedule"
            lines = schedule.read_text().splitlines() if status == 1 else []
            values = [line.partition("#")[0].strip() for line in lines if line.startswith("value ")]
            if mode in LOWEST and values != LOWEST[mode]:
                raise Wrong(f"choices {mode}: with {strategy}, it isn't shrunk to the lowest values but to {values}")
            if status == 1 and mode not in ("hang", "endless"):
                must_print(ran([program, mode, "--replay", schedule], 1), wanted, f"choices {mode}, again")
    whole = [program, "fine", "--quiet", "--jobs", 1, "--strategy", "exhaustive", "--preemptions", 0, "--no-sleep"]
    must_print(ran(whole), "searched all schedules", "choices fine")
    (out / "choices.schedule").write_text("scenario choices\ntask chooses\nvalue 5\n")
    refused = ran([program, "fine", "--replay", out / "choices.schedule"], 2)
    must_print(refused, ':3: "value 5" can\'t act at this point', "a value")
    return f"{len(CHOICES)} scenarios with values and timers"


# --- weak memory ---


def check_weak(kit: Kit) -> str:
    """Litmus tests pass; the file of a schedule found with weak memory says so, and --memory overrides a scenario's
    model."""
    out = kit.out("weakly")
    said = ran([kit.build(HERE / "tests/weak.c")], timeout=HANGS).strip()
    program = kit.build(HERE / "corpus/missing_wmb.c")
    words = [program, "--quiet", "--jobs", 2, "--out", out]
    ran([*words, "--memory", "strong"])
    ran(words, 1)
    schedule = out / "missing_wmb.schedule"
    lines = schedule.read_text().splitlines()
    if "memory weak" not in lines or not any(", on its way" in line for line in lines):
        raise Wrong(f"{schedule} doesn't say that memory is weak")
    ran([program, "--replay", schedule], 1)
    ran([program, "--replay", schedule, "--memory", "strong"], 1)
    schedule.write_text("\n".join(line for line in lines if line != "memory weak") + "\n")
    must_print(
        ran([program, "--replay", schedule], 2), "can't act at this point|has no \"store|run ends|still", "no line"
    )
    strong = kit.build(HERE / "corpus/length_before_dd.c", "FIXED")
    words = [strong, "--quiet", "--jobs", 2, "--out", out]
    ran(words)
    must_print(ran([*words, "--memory", "weak"], 1), "FAILED end: a frame has the wrong length", "by --memory weak")
    ran([strong, "--replay", out / "length_before_dd.schedule"], 1)
    return said


SIMPLE = ("length_before_dd", "link_change_lost", "tail_before_descriptor")


def check_bounds(kit: Kit) -> str:
    """The exhaustive search finds a failure with as few preemptions as possible."""
    out, found = kit.out("bounds"), 0
    for source in (one for one in corpus() if one.stem in SIMPLE):
        program, schedules = kit.build(source), []
        for bound in (1, 2, 4, "any"):
            words = [program, "--quiet", "--no-shrink", "--strategy", "exhaustive", "--out", out, "--jobs", 1]
            ran([*words, "--preemptions", bound], 1)
            schedules.append((out / f"{source.stem}.schedule").read_text())
        found += 1
        if len(set(schedules)) != 1 or "by exhaustive in part" not in schedules[0]:
            raise Wrong(f"{source.stem}: with a different bound, the exhaustive search finds a different failure first")
    return f"{found} failures with one preemption found first"


def check_shards(kit: Kit) -> str:
    """Together, shards run the schedules that a single search runs, each once, except the first schedule of each
    bound."""
    fixed, race = kit.build(HERE / "examples/race.c", "FIXED"), kit.build(HERE / "examples/race.c")
    out, shards = kit.out("shards"), 3

    def made(*words: object, jobs: int = 1) -> int:
        said = ran([fixed, "--quiet", "--jobs", jobs, "--out", out, *words])
        if "exhaustive" in words and "searched all schedules" not in said:
            raise Wrong(f"a shard isn't searched completely:\n{said}")
        return int(re.findall(r": (\d+) schedules?,", said)[0])

    every = ["--strategy", "exhaustive", "--preemptions", 1, "--no-sleep"]
    parts = [made(*every, "--shard", f"{k}/{shards}") for k in range(1, shards + 1)]
    if sum(parts) != made(*every) + 2 * (shards - 1) or min(parts) < 20:
        raise Wrong(f"the shards of the exhaustive search run {parts} schedules: too few in one, or a wrong sum")
    for jobs in (1, 2):
        parts = [made("--runs", 100, "--shard", f"{k}/{shards}", jobs=jobs) for k in range(1, shards + 1)]
        if parts != [34, 33, 33]:
            raise Wrong(f"the shards of 100 schedules run {parts}, not [34, 33, 33]")
    words = [race, "--quiet", "--no-shrink", "--jobs", 2, "--out", out]
    found = [ran([*words, "--shard", f"{k}/{shards}"], 1) for k in range(1, shards + 1)]
    runs = [int(re.findall(r"in run (\d+)", said)[0]) for said in found]
    whole = int(re.findall(r"in run (\d+)", ran(words, 1))[0])
    if [run % shards for run in runs] != list(range(shards)) or min(runs) != whole:
        raise Wrong(f"shards find the failure in runs {runs}, but a single search in run {whole}")
    return f"{shards} shards run the schedules of a single search"


def count_program(kit: Kit) -> Path:
    """Builds the test that counts distinct schedules. It calls the engine directly."""
    program = kit.folder / "distinct"
    words = [kit.compiler, *STRICT, *kit.flags, f"-I{C}/include", f"-I{HERE}/engine", HERE / "tests/distinct.c"]
    ran([*words, kit.explorer, C / "out/libnic82599.a", "-o", program])
    return program


def check_refusals(kit: Kit) -> str:
    """Invalid input is refused with status 2 and the reason, and for a schedule's file with the line too."""
    ran([kit.build(HERE / "tests/again.c")])
    program, out = kit.build(HERE / "tests/faulty.c"), kit.folder / "faults"
    for mode, wanted in REFUSALS.items():
        must_print(ran([program, mode, "--quiet"], 2), wanted, mode)
    for words, wanted in WORDS.items():
        said = ran([program, "fine", *words.split()], 2)
        must_print(said, wanted, words)
        if not words.startswith(("--out ", "--junit ", "--replay ", "--result ")):
            must_print(said, "usage: .*options", words)
    schedule = out / "bad.schedule"
    fine = "scenario faulty\ntask faulty\n"
    for text, wanted in {
        "": r"bad.schedule:0: missing line",
        "task faulty\n": r':1: the first line must be "scenario NAME"',
        "scenario other\n": r":1: the schedule is for scenario other",
        f"{fine}\n# words\ntask nobody\n": r':5: the scenario has no "task nobody"',
        f"{fine}rx\n": r':3: "rx" can\'t act at this point',
        f"{fine}handler isr\n": r':3: "handler isr" can\'t act at this point',
        fine: r":2: the schedule ends, but an actor can still act",
        "scenario faulty\n" + "x" * 1100: r":2: the line is longer",
        f"{fine}rx\0\n": r":3: the line isn't printable ASCII",
        "scenario faulty\npoints memory\n": r':2: points: "memory": no accesses are visible',
        "\0" * 600: r":1: the line isn't printable ASCII",
    }.items():
        schedule.write_text(text)
        must_print(ran([program, "fine", "--replay", schedule], 2), wanted, repr(text))
    ran([program, "check", "--quiet", "--out", out], 1)
    schedule.write_text((out / "faulty.schedule").read_text() + "task other\n")
    must_print(ran([program, "check", "--replay", schedule], 2), "the run ends before this point", "a longer schedule")
    lost = out / "lost"
    (lost / "faulty.schedule").mkdir(parents=True, exist_ok=True)
    said = ran([program, "check", "--quiet", "--out", lost], 1)
    must_print(said, "faulty.schedule: can't write the file", "a schedule without a file")
    must_print(said, "scenario faulty\n(?:.*\n)*task faulty +# r RDH", "a schedule without a file")
    return f"{len(REFUSALS) + len(WORDS) + 13} refusals"


# --- a driver's own memory, if its accesses aren't observed ---

MISSING = {
    "count": r"note: count\(\) in task \w+ (reads and writes driver|touches driver at unpointed.c:\d+ and driver) at "
    r"unpointed.c:\d+ without a point in between, and count\(\) in task \w+ touches driver too, at unpointed.c:\d+: "
    r"call nicx_point\(\) in between, or compile with -fsanitize=thread and link with @nic82599_threads.opts",
    "push": r"note: push\(\) in task \w+ touches .* without a point in between, and push\(\) in task",
}
POINTED = {"count": "FAILED end: a count is lost", "push": "FAILED end: a slot is lost"}


def check_unpointed(kit: Kit) -> str:
    """If a driver lacks a point between accesses to memory that other tasks access too, the search reports that. In
    the version that has all its points, nothing is reported, and the bug is found. If accesses are observed, the bug is
    found without any point."""
    if os.uname().machine != "x86_64":
        return "missing points not checked: the search looks for them only on x86-64"
    source, out = HERE / "tests/unpointed.c", kit.out("unpointed-found")
    debug = replace(kit, flags=[*kit.flags, "-g"])
    silent, pointed, seen = debug.build(source), debug.build(source, "POINTED"), kit.build_form(source, of_memory=True)
    words = ["--quiet", "--jobs", 2, "--no-shrink", "--out", out, "--runs", 400]
    for mode, wanted in MISSING.items():
        said = ran([silent, mode, *words])
        must_print(said, wanted, mode)
        must_print(ran([silent, mode, *words, "--strategy", "exhaustive", "--preemptions", 2]), wanted, mode)
        found = ran([pointed, mode, *words], 1) + ran([seen, mode, *words], 1)
        must_print(found, f"{POINTED[mode]}(.*\n)*.*FAILED race: driver", mode)
        if "without a point in between" in found:
            raise Wrong(f"unpointed {mode}: a point is reported as missing although it is there:\n{found}")
    for mode in ("locked", "flags", "atomic"):
        if "without a point in between" in ran([silent, mode, *words]):
            raise Wrong(f"unpointed {mode}: a point is reported as missing although no schedule needs it")
    wanted = r"note: interrupted\(\) in task one .* and interrupt\(\) in handler"
    must_print(ran([silent, "interrupt", *words]), wanted, "interrupt")
    must_print(ran([seen, "interrupt", *words], 1), "FAILED end: a count is lost", "interrupt")
    must_print(ran([seen, "interrupt", "--replay", out / "unpointed.schedule"], 1), "start isr on one", "interrupt")
    masked = kit.build_form(source, "POINTED", of_memory=True)
    ran([masked, "interrupt", *words, "--strategy", "exhaustive", "--preemptions", "any"])
    return f"{len(MISSING)} drivers without a point that they need"


# --- the table of independent steps ---


def check_orders(kit: Kit, states: int) -> str:
    """Runs each row's steps in both orders, from random states."""
    return ran([kit.build(HERE / "tests/orders.c"), states, 1], timeout=HANGS).strip().splitlines()[-1]


# The modes of tests/sleeping.c, whose first comment explains them.
SLEEPING = ("", "vf", "apart", "vf apart", "seen", "vf seen", "vf weak", "three", "four")


def check_sleeping(kit: Kit, scenarios: int) -> str:
    """The exhaustive search reaches the same final states with sleep sets as without."""
    program = kit.build(HERE / "tests/sleeping.c")
    said = {mode: ran([program, scenarios, 1, *mode.split()], timeout=HANGS).strip() for mode in SLEEPING}
    return "; ".join(f"{mode or 'host'}: {line}" for mode, line in said.items())


def check_apart(kit: Kit) -> str:
    """If a scenario says that it is race-free, fewer schedules run, with the same verdict."""
    program, out = kit.build(HERE / "tests/apart.c"), kit.out("apart-found")
    counts = []
    words = ["--quiet", "--jobs", 1, "--strategy", "exhaustive", "--preemptions", "any", "--out", out]
    for mode in ("fine", "free"):
        said = ran([program, mode, *words])
        must_print(said, "searched all schedules", f"apart {mode}")
        counts.append(int(re.findall(r": (\d+) schedules?,", said)[0]))
        must_print(
            ran([program, mode.replace("fine", "bug").replace("free", "bug-free"), *words], 1), "transmitted", mode
        )
    if counts[1] * 3 > counts[0]:
        raise Wrong(f"apart: {counts[0]} schedules, but still {counts[1]} if the scenario is race-free")
    return f"{counts[0]} schedules, {counts[1]} if the scenario is race-free"


def check_kit(kit: Kit) -> str:
    """Checks the kit's flows, frames and mailboxes."""
    out = kit.out("kit-found")
    ran([kit.build(HERE / "tests/kit.c"), "--quiet", "--jobs", 2, "--runs", 300, "--strict", "--out", out])
    return "the kit's flows and mailboxes"


# --- a driver's own threads, and races on its memory ---

# What is reported for these modes; in all other modes nothing is found.
FORM_FAULTS = {
    "orders": r"deadlock: (run|thread-1) waits for (first|second) at pthreads\.c:\d+, held by (run|thread-1) since "
    r"pthreads\.c:\d+; (run|thread-1) waits for (first|second) at pthreads\.c:\d+, held by",
    "again": r"deadlock: run waits for first at pthreads\.c:\d+, but holds it itself since pthreads\.c:\d+",
    "held": r"misuse: thread-1 ends while it holds first, taken at pthreads\.c:\d+",
    "not_held": r"misuse: run unlocks first at pthreads\.c:\d+ without holding it",
    "destroyed": r"misuse: run uses first at pthreads\.c:\d+ after it was destroyed",
    "without": r"misuse: run calls pthread_cond_wait at pthreads\.c:\d+ with first, but doesn't hold it",
    "lost": r"deadlock: run waits in pthread_cond_wait for changed at pthreads\.c:\d+, and no actor can act",
    "wait_for_nobody": r"deadlock: run waits in sem_wait for semaphore at pthreads\.c:\d+, and no actor can act",
    "cancel": r"misuse: run calls pthread_cancel at pthreads\.c:\d+, which the explorer can't schedule",
    "poll": r"misuse: run calls poll at pthreads\.c:\d+, which the explorer can't schedule",
    "too_many": r"misuse: run calls pthread_create at pthreads\.c:\d+, but all 16 tasks are in use",
    "overflow": "crash: thread-1 overflows its 65536-byte stack",
    "small_stack": f"crash: thread-1 overflows its {max(32768, os.sysconf('SC_THREAD_STACK_MIN'))}-byte stack",
}

# What is reported for these modes without the link form.
REAL_FAULTS = {
    "thread": r"misuse: a thread that isn't a task calls the explorer: link with @nic82599_threads\.opts",
    "lock": r"hang: task \w+ waits for a lock that the explorer doesn't control, .*: link with @nic82599_threads\.opts",
    "stack": "crash: two overflows its 20480-byte stack",
}


def modes_of(source: Path) -> list[str]:
    """Returns the modes in a test's table."""
    return re.findall(r'\{"([a-z0-9_]+)", [a-z]', source.read_text())


def check_form(kit: Kit) -> str:
    """Each intercepted thread call does what it should in every schedule tried, and each fault is reported."""
    source, out = HERE / "tests/pthreads.c", kit.out("form")
    program, modes = kit.build_form(source), modes_of(source)
    words = ["--quiet", "--jobs", 2, *NO_HANG, "--out", out]
    for mode in modes:
        if mode in FORM_FAULTS:
            must_print(ran([program, mode, *words, "--no-shrink"], 1), f"FAILED {FORM_FAULTS[mode]}", mode)
        else:
            must_print(ran([program, mode, *words, "--runs", 1000]), UNSEEN, mode)
    for mode in ("mutex", "cond", "rwlock", "barriers", "keys", "state"):
        ran([program, mode, *words, "--strategy", "exhaustive", "--preemptions", 1])
    for mode in ("orders", "again", "held", "lost"):
        ran([program, mode, *words], 1)
        must_print(ran([program, mode, "--replay", out / "pthreads.schedule"], 1), f"FAILED {FORM_FAULTS[mode]}", mode)
    must_print(ran([program, "early", "--quiet"], 2), "pthread_create at .*: only tasks may create threads", "early")
    real = replace(kit, flags=[*kit.flags, "-pthread"]).build(HERE / "tests/real_threads.c")
    for mode, wanted in REAL_FAULTS.items():
        if mode != "stack" or "-fsanitize=address,undefined" not in kit.flags:
            must_print(ran([real, mode, *words, "--no-shrink"], 1), f"FAILED {wanted}", mode)
    must_print(
        ran([real, "thread_early", "--quiet"], 2), "a thread that isn't a task calls the explorer", "thread_early"
    )
    return f"{len(modes)} uses of a driver's own threads"


CPP = {
    "MUTEX": "no failure was found",
    "LOST": r"FAILED deadlock: run waits in pthread_cond_wait",
    "ORDER=seq_cst": "no failure was found",
    "ORDER=relaxed": r"FAILED race: \(anonymous namespace\)::driver\+0x\w+, 4 bytes: run at std_threads\.cc:\d+ "
    r"reads, and thread-1 at std_threads\.cc:\d+ wrote it before",
}


def check_cpp(kit: Kit) -> str:
    """C++ threads work in the link form. Not checked if g++ isn't installed."""
    if not shutil.which("g++"):
        return "C++ threads not checked: g++ isn't installed"
    source, words = HERE / "tests/std_threads.cc", ["--quiet", "--jobs", 2, "--no-shrink", "--out", kit.folder]
    for define, wanted in CPP.items():
        program, made = kit.folder / "std_threads", kit.folder / "std_threads.o"
        seen = [] if define == "LOST" else ["-fsanitize=thread"]
        line = ["g++", "-std=c++11", *STRICT[1:], "-g", "-O1", *seen, f"-D{define}", f"-I{C}/include"]
        ran([*line, "-c", source, "-o", made])
        ran(["g++", made, "-static-libstdc++", f"-L{C}/out", f"@{C}/out/nic82599_threads.opts", "-o", program])
        must_print(ran([program, *words, "--runs", 1000], 1 if "FAILED" in wanted else 0), wanted, define)
    return "threads, locks, conditions and atomics of C++"


def check_points_line(program: Path, schedule: Path) -> None:
    """A schedule's file says which accesses are points. If that line is missing, the option replaces it in a replay."""
    text, line = schedule.read_text(), "points memory:data\n"
    words = [program, "no_lock", "--replay", schedule]
    if f"scenario races\n{line}" not in text:
        raise Wrong(f"{schedule} doesn't say which accesses are points")
    for more in ([], ["--points", "memory:data"], ["--points", "memory:other"], ["--lenient"]):
        must_print(ran([*words, *more], 1), "FAILED race: data", "a line of points")
    for bad in ("registers", "memory:", "memory:two names", "memory:" + "x" * 96, "memories"):
        schedule.write_text(text.replace(line, f"points {bad}\n"))
        must_print(ran(words, 2), f'points: "{bad[:100]}": expected memory, or memory:NAME', f"points {bad}")
    schedule.write_text(text.replace(line, "") + line)
    must_print(ran([*words, "--points", "memory:data"], 2), "must precede the first point", "a late line of points")
    schedule.write_text(text.replace(line, ""))
    ran(words, 2)
    must_print(ran([*words, "--points", "memory:data"], 1), "FAILED race: data", "no line of points")


def check_races(kit: Kit) -> str:
    """With each compiler, unordered accesses are reported as a race, and ordered ones aren't."""
    source, out = HERE / "tests/races.c", kit.out("races")
    words, modes = ["--quiet", "--jobs", 2, "--out", out, "--no-shrink"], modes_of(source)
    for compiler in filter(shutil.which, ("gcc", "clang")):
        program = replace(kit, folder=kit.out(compiler), compiler=compiler).build_form(source, of_memory=True)
        for mode in modes:
            said = ran([program, mode, *words, "--runs", 500], 1 if mode.startswith("no_") else 0)
            if mode.startswith("no_"):
                must_print(
                    said, r"FAILED race: .*races\.c:\d+ (it before|writes|reads)?.*without an order between", mode
                )
        points = ["--points", "memory:data"]
        must_print(ran([program, "no_lock", *words, *points], 1), "again: .*/races.schedule\n", "points")
        check_points_line(program, out / "races.schedule")
        ways = [["--points", "memory"], points, []]
        made = [ran([program, "mutex", *words, "--runs", 100, *one]) for one in ways]
        counts = [int(re.findall(r"(\d+) points", one)[0]) for one in made]
        if not counts[0] >= counts[1] > counts[2]:
            raise Wrong(f"with --points memory, memory:data and without, there are {counts} points")
    return f"{len(modes)} orders of accesses"


# What is reported about freed memory in each mode of tests/freed.c. Each begins with the thread and the place.
FREED_BY = r"freed by \w+ at freed\.c:\d+ < \S+; allocated at freed\.c:\d+\n"
FREED = {
    "poll": rf"use after free: receive at freed\.c:\d+ < freed\.c:\d+ (reads|writes) 4 bytes that were {FREED_BY}",
    "lock": rf"use after free: receive at \S+ < \S+ calls pthread_mutex_lock on an object that was {FREED_BY}",
    "copy": rf"use after free: receive at \S+ < \S+ reads 32 bytes that were {FREED_BY}",
    "reuse": rf"use after free: receive at \S+ < \S+ (reads|writes) 4 bytes that were {FREED_BY}",
    "timer": r"use after free: receive at \S+ < \S+ \w+ 4 bytes that were freed by watchdog at freed\.c:\d+ < ",
    "rcu": r"race: malloc\(freed\.c:\d+\)\+0x\w+, \d+ bytes: stop at freed\.c.* frees, and receive at .* read it",
    "twice": r"double free: \w+ frees at \S+ < \S+ memory that stop freed at freed\.c:\d+ < \S+; "
    r"allocated at freed\.c:\d+\n",
    "moves": rf"use after free: receive at \S+ < \S+ writes 8 bytes that were {FREED_BY}",
    "aligned": rf"use after free: receive at \S+ < \S+ writes 32 bytes that were {FREED_BY}",
    "past": r"out of bounds: receive at \S+ < \S+ writes 8 bytes at offset 24 of 24 bytes, allocated at freed\.c:\d+\n",
    "before": r"out of bounds: receive at .* writes 4 bytes at offset -4 of 24 bytes, allocated at freed\.c:\d+\n",
    "middle": r"bad free: receive frees at .* a pointer 16 bytes into the allocation from freed\.c:\d+\n",
    "kinds": "",
    "woken": "",
}


def check_freed(kit: Kit) -> str:
    """Finds use after free, double frees and out-of-bounds accesses, even if a lock orders the accesses. Each schedule
    fails again, and nothing is found in the correct drivers."""
    source, out = HERE / "tests/freed.c", kit.out("freed")
    words = ["--quiet", "--jobs", 2, "--out", out]
    if set(modes_of(source)) != set(FREED):
        raise Wrong(f"FREED must list the modes of freed.c: {', '.join(modes_of(source))}")
    for compiler in filter(shutil.which, ("gcc", "clang")):
        it = replace(kit, folder=kit.out(compiler), compiler=compiler)
        wrong, right = (it.build_form(source, *defines, of_memory=True) for defines in ([], ["FIXED"]))
        for mode, wanted in FREED.items():
            ran([right, mode, *words, "--runs", 10_000 if wanted else 200])
            if not wanted:
                continue
            wanted = f"FAILED {wanted if wanted.startswith('race') else f'memory: {wanted}'}"
            must_print(ran([wrong, mode, *words], 1), wanted, mode)
            must_print(ran([wrong, mode, "--replay", out / "freed.schedule"], 1), wanted, f"{mode}, again")
            must_print(ran([right, mode, "--replay", out / "freed.schedule", "--lenient"]), ": fine", f"{mode}, fixed")
    bounds = ["--strategy", "exhaustive", "--preemptions", 2]
    must_print(ran([wrong, "timer", *words, *bounds], 1), "FAILED memory: use after free", "timer, exhaustive")
    must_print(ran([right, "timer", *words, *bounds]), "searched all schedules", "timer, fixed")
    return f"{sum(map(bool, FREED.values()))} uses of freed memory"


# For each mode of tests/named.c: what is printed, what its schedule contains, and what its page traces.
NAMED: dict[str, tuple[str, list[str], str]] = {
    "atomics": (
        "check: shown",
        [
            r"loads ready \(relaxed\): 0",
            r"stores ready \(release\): 1",
            r"atomic_thread_fence \(seq_cst\)",
            r"changes count \(acq_rel\): 0 to 0x11170",
            r"compares owner \(seq_cst\): 0, expected 7",
            r"changes owner \(seq_cst\): 0 to 1",
        ],
        "owner",
    ),
    "signals": (
        "check: shown",
        ["pthread_cond_signal changed, while nothing waited", "pthread_cond_broadcast changed, while nothing waited"],
        "condition changed",
    ),
    "helper": (
        r"race: flag, 4 bytes: \w+ at named\.c:\d+ < named\.c:\d+ (reads|writes), and \w+ at named\.c:\d+ < "
        r"named\.c:\d+ (read|wrote) it before, without an order between them",
        [],
        "",
    ),
    "locks": (
        r"deadlock: receive waits for lock at named\.c:\d+ < named\.c:\d+, held by stop since named\.c:\d+ < "
        r"named\.c:\d+; stop waits for malloc\(named\.c:\d+\)\+0x8 at ",
        [r"pthread_mutex_lock lock", r"pthread_mutex_lock malloc\(named\.c:\d+\)\+0x8"],
        "lock lock",
    ),
    "heap": (r"race: malloc\(named\.c:\d+\), 4 bytes: ", [], ""),
    "slot": (
        r"race: packet memory 0x818, queue 0's receive slot 1, 8 bytes: \w+ at named\.c:\d+ < \S+ writes, and ",
        ["poke 0x00818, 8 bytes"],
        "rx 0 slot 1",
    ),
    "lent": (
        r"memory: watchdog at named\.c:\d+ reads 0x818, queue 0's receive slot 1, which isn't lent; receive took block "
        r"1 back at named\.c:\d+\n",
        [r"peek 0x00818, 8 bytes \(not lent\)"],
        "rx 0 slot 1",
    ),
    "delay": (
        r"deadlock: receive waits at named\.c:\d+ < named\.c:\d+, and no actor can act; if that is a delay, call "
        "nicx_pause there",
        [],
        "",
    ),
    "given": (
        r"fault: queue 0: 0x7000 isn't lent; receive wrote that descriptor at named\.c:\d+ < named\.c:\d+\n",
        ["poke 0x00800, 8 bytes"],
        "",
    ),
    "moved": (r"fault: queue 0: 0x0 isn't lent; receive last wrote RDT\[0\] at named\.c:\d+ < \S+\n", [], ""),
    "based": (r"fault: queue 0: 0x7000 isn't lent; receive last wrote RDBAL\[0\] at named\.c:\d+ < \S+\n", [], ""),
}

# What the script of a page traces initially.
FOLLOWED = """
const [html] = process.argv.slice(1).map((path) => require("fs").readFileSync(path, "utf8"));
const [, text, script] = /id="data">\\n(.*?)<\\/script>\\s*<script>(.*?)<\\/script>/s.exec(html);
const part = script.slice(script.indexOf("function namedObject"), script.indexOf("function aboutStep"));
const data = JSON.parse(text.replace(/,\\s*\\]\\}\\s*$/, "]}"));
console.log(new Function("data", part + "return namedObject();")(data) ?? "");
"""


def check_named(kit: Kit) -> str:
    """A failure's report names the call that led to a helper, a ring's slot, the call that took memory back, and a
    signal that woke no thread. Its schedule shows each atomic operation with its value, and its page traces what
    the report is about."""
    source, out = HERE / "tests/named.c", kit.out("named")
    program = kit.build_form(source, of_memory=True)
    if list(dict.fromkeys(modes_of(source))) != list(NAMED):
        raise Wrong(f"NAMED must list the modes of named.c: {', '.join(modes_of(source))}")
    for mode, (words, lines, followed) in NAMED.items():
        said = ran([program, mode, "--quiet", "--jobs", 1, "--out", out], 1)
        must_print(said, f"FAILED {words}", mode)
        schedule, page = (out / "named.schedule").read_text(), out / "named.html"
        for line in lines:
            must_print(schedule, rf"# {line} at named\.c:\d+", mode)
        if followed and f'"{followed}"' not in page.read_text():
            raise Wrong(f"{mode}: nothing on its page is about {followed}")
        if followed and "check" not in words and shutil.which("node"):
            must_print(ran(["node", "-e", FOLLOWED, page]), f"^{re.escape(followed)}$", f"{mode}, its page")
    once: list[object] = ["--quiet", "--runs", 1, "--jobs", 1, "--out", out]
    must_print(ran([program, "helper", *once], None), r": 1 schedule, \d+ points?, ", "one")
    return f"{len(NAMED)} failures that name what they are about"


UNSEEN = "the search can't see plain accesses and atomics, so it misses bugs in their order: compile with -fsanitize"

# What is reported for these drivers, which break only if another thread acts just before a call takes effect.
IN_VAIN = r".*, and no actor can act; thread-1 signalled it at points\.c:\d+, but nothing was waiting\n"
POINTS = {
    "wait": rf"deadlock: run waits in pthread_cond_wait for changed at points\.c:\d+{IN_VAIN}",
    "broadcast": rf"deadlock: run waits in pthread_cond_wait for changed at points\.c:\d+{IN_VAIN}",
    "cnd_wait": rf"deadlock: run waits in cnd_wait for changed11 at points\.c:\d+{IN_VAIN}",
    "return": "check: a thread that said it is done hasn't ended",
    "exit": "check: a thread that said it is done hasn't ended",
    "detach": "check: a thread that is to be detached was joined",
}


def check_points(kit: Kit) -> str:
    """Finds bugs that need another thread to act just before a call takes effect. The twins pass each schedule."""
    source, out = HERE / "tests/points.c", kit.out("points")
    words = ["--quiet", "--jobs", 2, "--out", out, "--no-shrink"]
    wrong, right = (kit.build_form(source, *defines, of_memory=True) for defines in ([], ["FIXED"]))
    if modes_of(source) != list(POINTS):
        raise Wrong(f"POINTS must list the modes of points.c: {', '.join(modes_of(source))}")
    for mode, wanted in POINTS.items():
        must_print(ran([wrong, mode, *words], 1), f"FAILED {wanted}", mode)
        if mode == "cnd_wait":
            schedule = (out / "points.schedule").read_text()
            must_print(schedule, r"# thrd_create wake11 at points\.c:\d+ .*\n", "a thread of C11")
            must_print(schedule, r"task thread-1 +# begins at points\.c:\d+\n", "a thread of C11")
        bounds = ["--strategy", "exhaustive", "--preemptions", 2]
        must_print(ran([right, mode, *words, *bounds]), "searched all schedules", f"{mode}, fixed")
    source = HERE / "tests/main_returns.c"
    program, twin = (
        kit.build_form(source, *defines, of_memory=True, form="program") for defines in ([], ["FIXED"])
    )
    must_print(ran([program, *words], 1), "FAILED end: the program exits with status 3", "main_returns")
    ran([twin, *words, "--runs", 1000])
    return f"{len(POINTS) + 1} drivers that break just before a call's effect"


ASSEMBLY = {
    "x86_64": {
        "MFENCE": "mfence",
        "SFENCE": "sfence",
        "LOCK_OR": "lock or",
        "LOCK_ADD": "lock add",
        "LOCK_CMPXCHG": "lock cmpxchg or xadd",
    },
    "aarch64": {"DMB": "dmb", "DSB": "dsb"},
}


def check_assembly(kit: Kit) -> str:
    """The report's first line names a barrier in inline assembly, but reports none for a driver without one."""
    source, barriers = HERE / "tests/assembly.c", ASSEMBLY.get(os.uname().machine, {})
    words = ["--quiet", "--jobs", 1, "--runs", 5]
    for define, name in barriers.items():
        said = ran([kit.build_form(source, f"BARRIER={define}", of_memory=True), *words])
        wanted = rf"assembly: the search can't see inline assembly, so {name} at assembly\.c:\d+ orders nothing"
        must_print(said.splitlines()[0], wanted, define)
    distance = ["BARRIER=DISTANCE", "PADDED"] if os.uname().machine == "x86_64" else []
    if "inline assembly" in ran([kit.build_form(source, *distance, of_memory=True), *words]):
        raise Wrong("assembly.c: a call's displacement is mistaken for a barrier")
    for right in (source, HERE / "tests/points.c", HERE / "examples/forwarder.c"):
        form = "program" if right.parent.name == "examples" else "threads"
        program = kit.build_form(right, "FIXED", of_memory=True, form=form)
        if "inline assembly" in ran([program, *([] if right != HERE / "tests/points.c" else ["wait"]), *words]):
            raise Wrong(f"{right.name}: inline assembly is reported, but there is none")
    return f"{len(barriers)} barriers in inline assembly"


STOPPED = "end: the queue stays stopped, although a descriptor is free"
UNSEEN_ATOMICS = "weak memory needs the driver's atomics and fences: compile the driver with -fsanitize"


def check_own_memory(kit: Kit) -> str:
    """Stores to the driver's own memory may be late. Litmus tests pass. Without a full barrier, a queue stays stopped
    forever: the search finds this, and the shrunk schedule reproduces it. With the barrier, nothing is found."""
    out, source = kit.out("own"), HERE / "tests/stop_wake.c"
    said = ran([kit.build_form(HERE / "tests/litmus.c", of_memory=True)], timeout=HANGS).strip()
    wrong, right = (kit.build_form(source, *defines, of_memory=True) for defines in ([], ["FIXED"]))
    schedule = out / "stop_wake.schedule"
    for mode in ("flags", "release", "lent"):
        words = [mode, "--quiet", "--jobs", 2, "--out", out]
        every = ["--strategy", "exhaustive", "--preemptions", "any"]
        ran([wrong, *words, *every, "--memory", "strong"])
        for memory in ("tso", "weak"):
            must_print(ran([wrong, *words, "--memory", memory], 1), f"FAILED {STOPPED}", f"{mode}, {memory}")
            if f"memory {memory}" not in schedule.read_text().splitlines():
                raise Wrong(f"{schedule} doesn't name its memory model")
            late = r"stores is_stopped \((relaxed|release)\): 1, on its way"
            must_print(ran([wrong, mode, "--replay", schedule], 1), late, f"{mode}, {memory}")
            must_print(ran([right, mode, "--replay", schedule, "--lenient"]), ": fine", f"{mode}, {memory}, fixed")
            ran([right, *words, "--memory", memory, "--runs", 1000])
    must_print(ran([right, "flags", *words[1:], *every, "--memory", "tso"]), "searched all schedules", "tso, fixed")
    blind = kit.build_form(source)
    for memory in ("tso", "weak"):
        must_print(ran([blind, "flags", "--memory", memory], 2), UNSEEN_ATOMICS, f"{memory}, unseen")
    return said


def check_program(kit: Kit, runs: int) -> str:
    """A whole program is searched unchanged. Its bug is found from how the program ends, and as a race. Its twin
    passes."""
    source, out = HERE / "examples/forwarder.c", kit.out("program")
    words = ["--quiet", "--jobs", 2, "--out", out]
    lost = "(end: main returns 1|deadlock: main waits in pthread_cond_wait for sent)"
    for of_memory, wanted in ((False, lost), (True, r"race: transmit.*: thread-\d at forwarder")):
        program = kit.build_form(source, form="program", of_memory=of_memory)
        said = ran([program, *words], 1)
        must_print(said, f"FAILED {wanted}", "forwarder")
        schedule = re.findall(r"the schedule is (.+?),", said)[0]
        must_print(ran([program, "--replay", schedule], 1), f"FAILED {wanted}", "forwarder")
        twin = kit.build_form(source, "FIXED", form="program", of_memory=of_memory)
        said = ran([twin, *words, "--runs", runs, "--strict"])
        if (UNSEEN in said) == of_memory:
            raise Wrong(f"the report doesn't say correctly whether the search sees accesses:\n{said}")
        must_print(ran([twin, *words, "--runs", 2, "--", 1]), "no failure was found", "forwarder with one frame")
    with open(schedule.replace(".schedule", ".nic"), encoding="ascii") as script:
        if not ran([kit.nicbench, "run", "--fifo", 64], stdin=script).splitlines()[-1].startswith("ok "):
            raise Wrong("the script of a program doesn't end with ok")
    return "a whole program"


# --- other threads of the process ---

THREAD = ["-g", "-O1", "-fsanitize=thread"]
# Maps as much memory as searches do, a gigabyte each time. On arm64 the thread sanitizer terminates a program with
# memory outside its ranges. QEMU's user emulation leaves these ranges after a few gigabytes.
ROOMS = """#include <stddef.h>
#include <sys/mman.h>

int main(void)
{
    void *room = NULL;
    for (int k = 0; k < 8 && room != MAP_FAILED; k++)
        room = mmap(NULL, (size_t)1 << 30, PROT_READ | PROT_WRITE, MAP_PRIVATE | MAP_ANONYMOUS | MAP_NORESERVE, -1, 0);
    return room == MAP_FAILED;
}
"""


def check_threads(kit: Kit, searches: int) -> str:
    """Searches run while another thread uses devices. Without other sanitizers, they run under the thread sanitizer
    too."""
    kits, more = [kit], ""
    if "-fsanitize=address,undefined" not in kit.flags:
        if links(kit.compiler, THREAD, kit.folder, ROOMS):
            folder = kit.out("thread")
            (explorer,) = sanitized_engine(folder, kit.compiler, THREAD, "explore")
            kits.append(replace(kit, folder=folder, flags=THREAD, explorer=explorer))
        else:
            more = ", not under the thread sanitizer, which isn't installed or can't map a search's memory"
    for it in kits:
        threaded = replace(it, flags=[*it.flags, "-pthread"])
        said = ran([threaded.build(HERE / "tests/threads.c"), it.folder, searches], timeout=HANGS).splitlines()[-1]
        if said != f"{searches} searches beside another thread's devices":
            raise Wrong(f"threads: {said}")
    return said + more


def sanitized_engine(folder: Path, compiler: str, flags: list[str], *parts: str) -> list[Path]:
    """Builds the named archives of the engine with sanitizers."""
    made = folder / "engine"
    # (a relative path: make refuses a name with a space)
    out = os.path.relpath(made, C)
    flagged = [f"{name}_FLAGS={' '.join(flags)}" for name in ("EXPLORE", "DRIVE")]
    names = [f"libnic82599_{part}.a" for part in parts]
    ran(["make", "-s", "-C", C, f"OUT={out}", f"CC={compiler}", *flagged, *(f"{out}/{name}" for name in names)])
    return [made / name for name in names]


# For each amount: states for the table's test; scenarios for the test of sleep sets; random schedules of each twin;
# preemptions in a twin's exhaustive search; N, to try every Nth driver in the corpus; searches while another thread
# runs.
AMOUNTS = {
    "few": (300, 4, 500, 1, 4, 5),  # with sanitizers
    "plain": (1_000, 16, 3_000, 1, 1, 20),
    "full": (10_000, 100, 100_000, 2, 1, 200),
}


def check_forms(kit: Kit, runs: int) -> list[str]:
    """Checks searches of a driver's own threads and memory. The link form's archive is built without sanitizers."""
    checks = (check_form, check_points, check_own_memory, check_assembly, check_cpp, check_races)
    return [*(check(kit) for check in (*checks, check_freed, check_named)), check_program(kit, runs)]


def check_reported_faults(kit: Kit) -> list[str]:
    """Checks how faults, values and refusals are reported."""
    parts = (check_names, check_faults, check_never, check_choices, check_weak, check_kit, check_bounds)
    return [check(kit) for check in (*parts, check_shards, check_refusals, check_unpointed)]


def check_searches(kit: Kit, amount: str) -> list[str]:
    """Checks the orders of independent steps, the corpus, the examples, and searches while other threads run."""
    states, scenarios, runs, preemptions, each, searches = AMOUNTS[amount]
    return [
        check_orders(kit, states),
        check_sleeping(kit, scenarios),
        check_apart(kit),
        check_corpus(kit, runs, preemptions, each),
        check_outside(kit, runs, each),
        check_examples(kit, runs),
        check_threads(kit, searches),
        *([] if amount == "few" else check_forms(kit, runs // 10)),
    ]


def check_all(kit: Kit, amount: str) -> list[str]:
    """Runs all checks in this file, to the given extent."""
    return [*check_reported_faults(kit), *check_searches(kit, amount)]
