#!/usr/bin/env python3
"""Checks the recipes for CI: two YAML readers agree on each recipe, and each recipe's commands run here in order.

    recipes/check.py        checks all recipes; status 0: all passed; 1: at least one didn't

The commands run in a folder that resembles a runner's folder: a repository with a driver, an `apt-get` that records its
arguments, and a `git` that provides this clone instead of fetching one. A card is produced, but nothing is fetched, no
module is built and no search runs: drivers/qemu/search checks its arguments and prints the workload of a seed, and the
kinds of findings are made up. `make` is recorded.
"""

from __future__ import annotations

import os
import re
import shutil
import stat
import subprocess
import sys
import tempfile
from dataclasses import dataclass, field
from pathlib import Path
from typing import Any

sys.dont_write_bytecode = True
HERE = Path(__file__).resolve().parent
ROOT = HERE.parent
sys.path.insert(0, str(HERE))
from yaml_subset import Refused, read  # noqa: E402

# The packages that recipes install to build the bench, and more for a search and a kernel module.
FOR_THE_BENCH = {"ca-certificates", "gcc", "git", "libc6-dev", "make", "python3", "rustc"}
FOR_A_SEARCH = FOR_THE_BENCH | {"binutils", "bzip2", "libelf1", "patch", "xz-utils"}

# Rows of c/drive/examples/small.c: one that it passes, and one that it fails.
PASSES, FAILS = "receive-one\n", "setup-crc\n"
# Findings in a driver: those of the unmodified one, and one more.
USUAL, MORE = "| kernel | ok | tail off |\n", "| kernel | ok | lockup | tail off |\n"

# Inputs that the reader must refuse.
BAD = [
    *("a: b: c\n", "a:\n  - b\n   - c\n", "a: 1\na: 2\n", "a: 'b'\n", "a: b # c\n", "a: *b\n", "a: {b: c}\n"),
    "just words\n",
]

APT = """#!/bin/sh
[ "$1" = update ] || echo "$*" >>"$NOTES/apt"
"""
GIT = """#!/bin/sh
[ "$1 $2 $3 $4" = "clone --depth 1 https://git.example/nic82599.git" ] || exit 1
mkdir "$5" "$5/drivers" "$5/drivers/qemu"
ln -s "$BENCH_HERE/c" "$BENCH_HERE/course" "$BENCH_HERE/python" "$BENCH_HERE/tools" "$5"
cp "$NOTES/search" "$NOTES/run" "$NOTES/module" "$5/drivers/qemu"
"""
RUN = """#!/bin/sh
[ "$*" = "--fetch qemu tools kernel-6.1" ] && touch "$NOTES/fetched"
"""
MODULE = """#!/bin/sh
[ "$1" = --from ] && [ -d "$2" ] && [ -e "$NOTES/fetched" ] && touch "$NOTES/ixgbe.ko" && echo "$NOTES/ixgbe.ko"
"""
# A search that found something exits with status 1.
SEARCH = """#!/bin/sh
"$BENCH_HERE/drivers/qemu/search" "$@" --workload 1 >"$NOTES/workload" || exit 2
case $* in *--module*) kinds=$NOTES/kinds ;; *) kinds=$NOTES/usual ;; esac
while [ "$1" != --out ]; do shift; done
mkdir -p "$2" && cp "$kinds" "$2/summary.md" && echo "<testsuite/>" >"$2/junit.xml"
exit 1
"""
# The bench is already built here; `make` is only recorded.
MAKE = """#!/bin/sh
echo "$*" >>"$NOTES/make"
"""


class Wrong(Exception):
    """A recipe fails a check."""


@dataclass
class Job:
    """What a runner reads from a recipe: its variables, the scripts of its steps, the files that it keeps, the files
    read as JUnit, and the scripts that run even after a failure."""

    name: str
    variables: dict[str, str]
    pieces: list[str]
    kept: list[str]
    junit: list[str] = field(default_factory=list)
    always: list[str] = field(default_factory=list)


def of_github(name: str, text: dict[str, Any]) -> Job:
    (job,) = text["jobs"].values()
    steps = job["steps"]
    for step in steps:
        if bool(step.get("run")) == bool(step.get("uses")):
            raise Wrong(f"{name}: a step must contain either `run` or `uses`: {step}")
    kept = [step["with"]["path"] for step in steps if step.get("uses", "").startswith("actions/upload-artifact@")]
    always = [step["run"] for step in steps if "run" in step and step.get("if") == "always()"]
    return Job(name, job["env"], [step["run"] for step in steps if "run" in step], kept, always=always)


def of_gitlab(name: str, text: dict[str, Any]) -> Job:
    """Returns the job of a recipe for GitLab, whose runner runs before_script and script together."""
    (job,) = text.values()
    lines = "\n".join([*job["before_script"], *job["script"]])
    return Job(name, job["variables"], [lines], job["artifacts"]["paths"], [job["artifacts"]["reports"]["junit"]])


def parsed(path: Path) -> dict[str, Any]:
    """Returns a recipe as parsed by this reader, after comparing it with PyYAML's result if PyYAML is installed."""
    text = path.read_text()
    made: dict[str, Any] = read(text)
    try:
        import yaml
    except ImportError:
        return made
    other = yaml.safe_load(text)
    if True in other:  # PyYAML reads `on` as a boolean; runners don't
        other["on"] = other.pop(True)
    if other != made:
        raise Wrong(f"{path}: PyYAML reads {other}, but this reader reads {made}")
    return made


def write_program(folder: Path, name: str, text: str) -> None:
    path = folder / name
    path.write_text(text)
    path.chmod(path.stat().st_mode | stat.S_IXUSR)


def environment(job: Job, folder: Path) -> dict[str, str]:
    """Returns a job's variables, and those of the programs that replace a runner's."""
    how = {**os.environ, "PATH": f"{folder / 'programs'}:{os.environ['PATH']}"}
    how |= {"NOTES": str(folder / "notes"), "BENCH_HERE": str(ROOT)}
    how |= {name: str(value) for name, value in job.variables.items()}
    if "DRIVERS_WORK" in how:
        how["DRIVERS_WORK"] = str(folder / "work")
    return how | {"GITHUB_STEP_SUMMARY": str(folder / "notes/summary"), "CI_PROJECT_DIR": str(folder / "repository")}


def run_pieces(job: Job, pieces: list[str], folder: Path) -> None:
    """Runs commands of a job. Raises Wrong if one fails."""
    # (in a container, GitHub's runner uses sh; GitLab's uses bash if the image contains it)
    shell = ["sh", "-e", "-c"] if "github" in job.name else ["bash", "-e", "-o", "pipefail", "-c"]
    for piece in pieces:
        words = [*shell, piece]
        how = {"cwd": folder / "repository", "env": environment(job, folder), "capture_output": True, "text": True}
        made = subprocess.run(words, check=False, **how)
        if made.returncode:
            raise Wrong(f"{job.name}: status {made.returncode} of\n{piece}\n{made.stdout}{made.stderr}")


def run_lines(job: Job, folder: Path, given: str) -> None:
    """Runs a job's commands in a repository with a driver. `given` are the required rows, or what a search finds.
    Raises Wrong if a command fails."""
    notes, programs, repository = (folder / name for name in ("notes", "programs", "repository"))
    for it in (notes, programs, repository, repository / "ixgbe"):
        it.mkdir(parents=True)
    for name, text in {"apt-get": APT, "git": GIT, "make": MAKE}.items():
        write_program(programs, name, text)
    for name, text in {"search": SEARCH, "run": RUN, "module": MODULE}.items():
        write_program(notes, name, text)
    (notes / "usual").write_text(USUAL)
    (notes / "kinds").write_text(given)
    shutil.copy(ROOT / "c/drive/examples/small.c", repository / "driver.c")
    (repository / "required.rows").write_text(given)
    run_pieces(job, job.always, folder)  # after an earlier step has failed
    (notes / "summary").unlink(missing_ok=True)
    run_pieces(job, job.pieces, folder)
    check_left(job, folder)


def check_left(job: Job, folder: Path) -> None:
    """Checks that the files to keep exist, and that the recipe installs exactly the packages that it needs."""
    for name in [*job.kept, *job.junit]:
        if not (folder / "repository" / name).exists():
            raise Wrong(f"{job.name}: it keeps {name}, which no command creates")
    asked = (folder / "notes/apt").read_text().split()
    wanted = FOR_A_SEARCH if "search" in job.name else FOR_THE_BENCH
    if asked[:3] != ["install", "-y", "--no-install-recommends"] or set(asked[3:]) != wanted:
        raise Wrong(f"{job.name}: it installs {asked}; wanted: {sorted(wanted)}")
    if "search" in job.name and not (folder / "notes/workload").read_text():
        raise Wrong(f"{job.name}: drivers/qemu/search printed no workload")
    summary = folder / "notes/summary"
    if "github" in job.name and not summary.exists():
        raise Wrong(f"{job.name}: no summary is shown")
    if job.name == "github/report-card.yml":
        check_summary(job.name, summary.read_text(), (folder / "repository/card/points.txt").read_text())


def check_summary(name: str, summary: str, points: str) -> None:
    """Checks that the summary, which is Markdown, contains the points as a block. Otherwise their lines could be
    joined."""
    if summary != f"```\n{points}```\n":
        raise Wrong(f"{name}: the summary isn't a block with the points:\n{summary}")


def check_container() -> None:
    """Checks that the container file installs what the recipes install, and has the expected instructions."""
    text = (HERE / "Containerfile").read_text().replace("\\\n", " ")
    lines = [line for line in text.splitlines() if line and not line.startswith("#")]
    kinds = [line.split()[0] for line in lines]
    if kinds != ["FROM", "RUN", "COPY", "RUN", "WORKDIR", "ENTRYPOINT"]:
        raise Wrong(f"Containerfile: unexpected instructions: {kinds}")
    hidden = (ROOT / ".dockerignore").read_text().splitlines()
    if missing := {".git", "c/drive/tests/course", "c/drive/corpus"} - set(hidden):
        raise Wrong(f".dockerignore: the image would contain {', '.join(sorted(missing))}")
    install = re.search(r"install -y --no-install-recommends ([a-z0-9 -]+?) +&&", re.sub(r" +", " ", lines[1]))
    if not install or set(install[1].split()) != FOR_THE_BENCH:
        raise Wrong(f"Containerfile: it installs {install and install[1]}")


def check_reader() -> None:
    for text in BAD:
        try:
            made = read(text)
        except Refused:
            continue
        raise Wrong(f"the reader accepts {text!r} as {made}")


def check_failure(job: Job, given: str) -> None:
    """Checks that a job fails, and that the command that judges the driver is the one that fails."""
    with tempfile.TemporaryDirectory() as folder:
        try:
            run_lines(job, Path(folder), given)
        except Wrong as fault:
            if f"status 1 of\n{job.pieces[-1 if 'gitlab' in job.name else -2]}" in str(fault):
                return
            raise
    raise Wrong(f"{job.name}: the job passes although {given!r} is required or found")


def check_jobs(path: Path) -> None:
    """Checks that a recipe's job passes; that the card's job fails if a required row fails, also with a course's lists;
    and that a search's job fails only for kinds of findings that the unmodified driver doesn't have."""
    name = f"{path.parent.name}/{path.name}"
    job = (of_github if path.parent.name == "github" else of_gitlab)(name, parsed(path))
    good, bad = (PASSES, FAILS) if "card" in name else (USUAL, MORE)
    with tempfile.TemporaryDirectory() as folder:
        run_lines(job, Path(folder), good)
    check_failure(job, bad)
    if "card" in name:
        # (the list of the first milestone; the others take longer)
        job.variables |= {"LISTS": "bench/course/milestones/1-*.rows", "MEMORY": "weak"}
        job.variables["DRIVER"] = "bench/course/c/driver.c"
        check_failure(job, PASSES)


def main() -> int:
    if not shutil.which("cc") or not shutil.which("bash"):
        print("recipes/check.py: not tried: cc or bash isn't installed")
        return 0
    recipes = sorted(HERE.glob("git*/*.yml"))
    try:
        check_reader()
        check_container()
        for path in recipes:
            check_jobs(path)
    except (Wrong, Refused) as fault:
        print(f"recipes/check.py: FAILED: {fault}")
        return 1
    print(f"recipes/check.py: {len(recipes)} recipes and the container file passed")
    return 0


if __name__ == "__main__":
    sys.exit(main())
