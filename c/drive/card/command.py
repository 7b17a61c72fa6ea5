"""Writes a driver's report card: runs each scenario under many orders of steps and judges it by what the device did.

    nicdrive my_driver.c                compiles, links, searches, and writes card/card.html
    nicdrive ./my_driver                does the same for a program that is already linked
    nicdrive --list                     lists the rows, each with what it tries
    nicdrive --compare OLD NEW          compares two cards: what passes now and what no longer does
    nicdrive my_driver.c --require FILE runs the rows that a file lists, and counts their points

A driver is a source file that names its functions in a struct (nic82599_drive.h) and calls nicd_main; or several
sources, objects, or a program. The card's folder receives card.html, card.txt, card.json and, for CI, card.xml in JUnit
format. For each failed row it also receives the schedule, as text and as a page, and the run, as a script for nicbench
and as a nicview page. Each row is searched in its own process: if the driver crashes or hangs, its row fails, and
the others continue.

Sources are compiled with -fsanitize=thread, so that each access to the driver's own memory is observed: two accesses
without an order between them fail a row. If that isn't possible, the first line says so, and why.

A row in which nothing failed passes if it reached what it tries, for example frames on each queue, or a reset while
frames were in flight. Otherwise the row is reported as "not reached", with what is missing.

A --require file lists rows, one per line, each with its points (1 by default); a comment begins with '#'. Only these
rows and the rows named by --rows run. The points are printed, and written to points.txt and, as JUnit, to points.xml. A
row that isn't applicable earns no points.

Exit status: 0 if each applicable row passed (with --require, each row in its files); 1 if a row didn't or, with
--compare, if a row that passed no longer does; 2 if the driver or the arguments can't be used: one line says why.
"""

from __future__ import annotations

import argparse
import os
import resource
import subprocess
import sys
import tempfile
import time
from pathlib import Path

from nic82599.tools.tool import add_version, printable_output

from . import page, report, require, where
from .build import Words, build
from .rows import FAILED, NOT_REACHED, Budget, Refused, Row, Runner, listed, make_all, name_of

ALL_PASSED, ONE_FAILED, REFUSED = 0, 1, 2
NICBENCH = where.programs()


def joined(given: list[str]) -> list[str]:
    """Joins --flags and the argument after it. Otherwise argparse wouldn't accept a value that begins with '-'."""
    if "--flags" not in given[:-1]:
        return given
    place = given.index("--flags")
    return [*given[:place], f"--flags={given[place + 1]}", *joined(given[place + 2 :])]


def words() -> argparse.Namespace:
    how = argparse.RawDescriptionHelpFormatter
    parser = argparse.ArgumentParser(prog="nicdrive", description=__doc__, formatter_class=how)
    add_version(parser, "nicdrive")
    given = "sources and objects of the driver, or its program"
    parser.add_argument("driver", nargs="*", type=Path, metavar="DRIVER", help=given)
    folder = "write the card to this folder (card)"
    parser.add_argument("-o", "--out", type=Path, default=Path("card"), metavar="FOLDER", help=folder)
    rows = "run only these rows: names, families or prefixes of names, separated by commas"
    parser.add_argument("--rows", metavar="NAMES", help=rows)
    wanted = "require the rows listed in FILE to pass, each with its points; may be repeated"
    parser.add_argument("--require", type=Path, action="append", default=[], metavar="FILE", help=wanted)
    every = "list the rows without running them; with a driver, also say which aren't applicable"
    parser.add_argument("--list", action="store_true", help=every)
    runs = "random schedules for each row (%(default)s)"
    parser.add_argument("--runs", type=int, default=Budget.runs, metavar="N", help=runs)
    seconds = "time limit for each row's random schedules, in seconds (%(default)s)"
    parser.add_argument("--seconds", type=float, default=Budget.seconds, metavar="S", help=seconds)
    every = "at most N schedules in the exhaustive search for each row (%(default)s)"
    parser.add_argument("--every", type=int, default=Budget.every, metavar="N", help=every)
    hang = "elapsed seconds without a call to the card, after which the driver counts as hung (%(default)s)"
    parser.add_argument("--hang", type=int, default=Budget.hang, metavar="S", help=hang)
    parser.add_argument("--seed", type=int, default=1, metavar="N", help="seed of the random choices (1)")
    memory = "weak: without a barrier, stores to DMA memory may be late and loads stale (strong)"
    parser.add_argument("--memory", choices=("strong", "weak"), default="strong", help=memory)
    jobs = "rows to run at a time (one for each core)"
    parser.add_argument("--jobs", type=int, default=os.cpu_count() or 1, metavar="N", help=jobs)
    parser.add_argument("--cc", default=os.environ.get("CC", "cc"), metavar="CC", help="the compiler (cc)")
    parser.add_argument("--flags", default="", metavar="WORDS", help="additional compiler arguments, in quotes")
    blind = "don't observe the driver's own memory: faster, because compiled without -fsanitize=thread"
    parser.add_argument("--no-accesses", action="store_true", help=blind)
    archives = "folder of the libraries (c/out in a clone, otherwise where they are installed)"
    parser.add_argument("--libraries", type=Path, default=where.libraries(), metavar="FOLDER", help=archives)
    parser.add_argument("--no-pages", action="store_true", help="don't write pages for the runs of failed rows")
    parser.add_argument("--compare", nargs=2, type=Path, metavar=("OLD", "NEW"), help="compare two cards, run no rows")
    return parser.parse_args(joined(sys.argv[1:]))


def chosen(rows: list[Row], names: str | None) -> list[Row]:
    """Returns the rows that --rows selects by name or family; if there are none, by a prefix of their names."""
    if names is None:
        return rows
    wanted = set()
    for name in filter(None, names.split(",")):
        found = [row.name for row in rows if name in (row.name, row.family)]
        found = found or [row.name for row in rows if row.name.startswith(name)]
        if not found:
            families = ", ".join(dict.fromkeys(row.family for row in rows))
            raise Refused(f"--rows: no row or family is named {name}; the families are {families}")
        wanted.update(found)
    if not wanted:
        raise Refused("--rows names no row")
    return [row for row in rows if row.name in wanted]


def asked_for(rows: list[Row], given: argparse.Namespace, milestones: list[require.Milestone]) -> list[Row]:
    """Returns the rows that --rows and --require select, or all rows if neither is given."""
    require.check_names(milestones, rows)
    if given.rows is None and not milestones:
        return rows
    names = require.named(milestones)
    names.update(row.name for row in chosen(rows, given.rows) if given.rows is not None)
    return [row for row in rows if row.name in names]


def draw(row: Row, folder: Path) -> None:
    """Writes the page of a failed row's run with tools/nicview."""
    script = folder / f"{row.name}.nic"
    if row.state != FAILED or not script.exists():
        return
    target = folder / f"{row.name}.run.html"
    words = [*where.nicview(), script, "-o", target]
    made = subprocess.run(words, capture_output=True, text=True, check=False)
    if made.returncode == 0 and target.exists():
        row.run = target.name
    else:
        said = (made.stderr.strip() or "nicview wrote nothing").splitlines()[-1]
        row.notes.append(f"can't write a page of the run: {said}")


def draw_all(rows: list[Row], folder: Path) -> None:
    """Writes the pages of all failed rows' runs. The first may have to wait until ./nicbench is compiled."""
    if any(row.state == FAILED for row in rows) and where.clone() and not any(map(Path.exists, NICBENCH)):
        notice = "nicdrive: compiling ./nicbench for the pages (only once, takes half a minute)"
        print(notice, file=sys.stderr, flush=True)
    for row in rows:
        draw(row, folder)


def tell(row: Row) -> None:
    print(report.line(row), flush=True)


def tell_names(rows: list[Row]) -> int:
    for row in rows:
        print(f"{row.name:26} {row.family:12} {row.lack or row.title}")
    return ALL_PASSED


def how_of(given: argparse.Namespace) -> Words:
    return Words(given.cc, given.flags, given.libraries, not given.no_accesses)


def list_all(given: argparse.Namespace) -> int:
    """Lists the rows without a driver of the user's, by building one of the bench's."""
    lister = next(filter(Path.exists, where.LISTERS), where.LISTERS[0])
    with tempfile.TemporaryDirectory() as folder:
        rows = listed(build([lister], Path(folder), how_of(given)).program)
    for row in rows:
        row.lack = ""
    return tell_names(asked_for(rows, given, [require.read(path) for path in given.require]))


def processor_seconds() -> float:
    used = resource.getrusage(resource.RUSAGE_CHILDREN)
    return used.ru_utime + used.ru_stime


def mark(results: list[require.Result], folder: Path) -> int:
    """Prints and writes the points. Returns the exit status: whether each row of each list passed."""
    require.write(results, folder)
    print(require.text(results), end="")
    print(f"the points are in {folder / 'points.txt'}, and for CI in points.xml")
    return ONE_FAILED if any(result.missed for result in results) else ALL_PASSED


def make(given: argparse.Namespace) -> int:
    folder: Path = given.out
    milestones = [require.read(path) for path in given.require]
    try:
        folder.mkdir(parents=True, exist_ok=True)
    except OSError as fault:
        raise Refused(f"{folder}: can't be created: {fault.strerror}") from fault
    built = build(given.driver, folder, how_of(given))
    program = built.program
    rows = asked_for(listed(program.resolve()), given, milestones)
    if given.list:
        return tell_names(rows)
    if built.blind:
        print(report.blindness(built.blind), flush=True)
    budget = Budget(given.runs, given.seconds, given.every, hang=given.hang, seed=given.seed, memory=given.memory)
    began, used = time.monotonic(), processor_seconds()
    make_all(Runner(program, folder, budget), rows, given.jobs, tell)
    if not given.no_pages:
        draw_all(rows, folder)
    spent = time.monotonic() - began, processor_seconds() - used
    card = report.Card(name_of(program.resolve()), rows, budget, *spent, blind=built.blind)
    card.write(folder / "card.json")
    (folder / "card.txt").write_text(report.text(card))
    report.write_junit(card, folder / "card.xml")
    (folder / "card.html").write_text(page.page(card))
    print("\n".join([report.summary(card), *report.unmodelled(card)]))
    print(f"the card is {folder / 'card.html'}; card.txt is its text, card.xml is for CI")
    if milestones:
        return mark(require.results(milestones, rows), folder)
    return ONE_FAILED if card.count(FAILED) or card.count(NOT_REACHED) else ALL_PASSED


def command() -> int:
    with printable_output():
        return _command(words())


def _command(given: argparse.Namespace) -> int:
    try:
        if given.compare:
            differences, is_worse = report.compare(report.read(given.compare[0]), report.read(given.compare[1]))
            print(differences, end="")
            return ONE_FAILED if is_worse else ALL_PASSED
        if given.list and not given.driver:
            return list_all(given)
        if not given.driver:
            raise Refused("name a driver: sources, objects, or a program (--help)")
        if min(given.jobs, given.runs, given.every, given.hang) < 1 or given.seconds <= 0:
            raise Refused("--jobs, --runs, --every, --hang and --seconds must be above 0")
        return make(given)
    except Refused as fault:
        print(f"nicdrive: {fault}", file=sys.stderr)
        return REFUSED
    except BrokenPipeError:
        return REFUSED
