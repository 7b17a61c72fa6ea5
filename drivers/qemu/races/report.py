"""A search's output: one line per seed, a table, JUnit, and a folder for each failure."""

from __future__ import annotations

import itertools
import shutil
import subprocess
import threading
import time
from collections import Counter
from collections.abc import Callable, Iterable, Iterator, Sequence
from contextlib import contextmanager
from pathlib import Path
from xml.etree import ElementTree

from bench import Outcome
from guests import started
from verdict import KINDS
from windows import Window, text_of, with_tails

ROOT = Path(__file__).resolve().parents[3]
EVENTS = 3000  # maximum number of events on a recording's page
EVENTS_DOWN = 12_000  # maximum number of events on a page about a period in which the card was down
AFTER = 60  # lines of the recording to show after such a period
CONSOLE_LINES = 2000  # maximum number of lines of a seed's console
TELL_SECONDS = 10  # seconds between two progress lines


@contextmanager
def telling(what: Callable[[], str]) -> Iterator[None]:
    """Prints progress, immediately and every ten seconds, with the time taken."""
    is_over, began = threading.Event(), time.time()

    def tell() -> None:
        while not is_over.wait(TELL_SECONDS):
            print(f"drivers/qemu/search: {what()}, {time.time() - began:.0f} s", flush=True)

    print(f"drivers/qemu/search: {what()}", flush=True)
    teller = threading.Thread(target=tell, daemon=True)
    teller.start()
    try:
        yield
    finally:
        is_over.set()
        teller.join()


def said(it: Outcome) -> str:
    """Returns all findings of one try."""
    findings = "; ".join(f"{finding.kind}: {finding.text}" for finding in it.findings)
    return findings if it.fails or it.is_untried else "ok" + (f" ({findings})" if findings else "")


def again(it: Outcome) -> str:
    """Returns the result of the second try: the same verdict, a different one, or none."""
    if it.again is None:
        return ""
    if it.again.verdict == it.verdict:
        return "; the same verdict when run alone"
    repeated = any(finding.kind == it.verdict for finding in it.again.findings)
    how = "it recurred" if repeated else "it didn't recur"
    return f"; {how} when run alone: {said(it.again)}"


def plural(many: int, what: str) -> str:
    return f"{many} {what}{'' if many == 1 else 's'}"


def line(it: Outcome) -> str:
    """Returns the line for a seed."""
    took = f"{plural(it.rounds, 'round')} in {it.seconds:.0f} s"
    return f"{it.kernel} {it.driver} seed {it.seed}: {took}: {said(it)}{again(it)}"


def table(outcomes: Sequence[Outcome]) -> str:
    """Returns a table by kernel and driver: seeds, rounds, and the number of seeds with each kind of finding."""
    groups: dict[tuple[str, str], list[Outcome]] = {}
    for it in outcomes:
        groups.setdefault((it.kernel, it.driver), []).append(it)
    kinds = [kind for kind in KINDS if any(kind == f.kind for it in outcomes for f in it.findings)]
    head = ["kernel", "driver", "seeds", "rounds", "ok", *kinds]
    rows = [head, ["---"] * len(head)]
    for (kernel, driver), each in sorted(groups.items()):
        counts = Counter(finding.kind for it in each for finding in it.findings)
        rows.append([kernel, driver, str(len(each)), str(sum(it.rounds for it in each)),
                     str(sum(it.verdict == "ok" for it in each)), *(str(counts[kind]) for kind in kinds)])
    return "\n".join("| " + " | ".join(row) + " |" for row in rows) + "\n"


def junit(outcomes: Iterable[Outcome], to: Path) -> None:
    """Writes a test case for each seed."""
    suite = ElementTree.Element("testsuite", name="drivers/qemu/search")
    for it in outcomes:
        name = f"seed {it.seed}" + ("" if it.rounds else ", nothing ran")
        case = ElementTree.SubElement(suite, "testcase", classname=f"{it.kernel}.{it.driver}", name=name,
                                      time=f"{it.seconds:.1f}")
        if it.fails:
            failure = ElementTree.SubElement(case, "failure", message=f"{it.verdict}: {it.failures[0].text}"[:300])
            failure.text = line(it)
        elif it.is_untried:
            ElementTree.SubElement(case, "skipped", message=said(it)[:300])
    suite.set("tests", str(len(suite)))
    suite.set("failures", str(len(suite.findall("testcase/failure"))))
    suite.set("skipped", str(len(suite.findall("testcase/skipped"))))
    ElementTree.ElementTree(suite).write(to, encoding="utf-8", xml_declaration=True)


def draw(record: Path, events: int = EVENTS) -> Path | None:
    """Draws the page of a recording's end with tools/nicview. Returns None if it can't be drawn."""
    page = record.with_suffix(".html")
    words = [str(ROOT / "tools/nicview"), str(record), "--limit", str(events), "-o", str(page)]
    with telling(lambda: f"drawing the end of {record.name}, {megabytes(record)} MB, as {page.name}"):
        process = started(words, stdout=subprocess.DEVNULL, stderr=subprocess.PIPE)
        _, said = process.communicate()
    if process.returncode not in (0, 1):
        page.with_suffix(".txt").write_bytes(said)
        return None
    return page


def draw_down(record: Path, window: Window) -> None:
    """Draws down.html, a page about a period in which the card was down, from the recording up to that period."""
    last = window.accesses[-1].line + AFTER
    cut = record.with_name("down.nic")
    with open(record, encoding="latin-1") as lines, open(cut, "w", encoding="latin-1") as to:
        to.writelines(itertools.islice(lines, last))
    draw(cut, min(EVENTS_DOWN, last - window.accesses[0].line + 2 * AFTER))
    cut.unlink()


def megabytes(file: Path) -> str:
    return f"{file.stat().st_size / 1e6:,.0f}"


def keep_record(record: Path) -> None:
    """Writes pages of a recording next to it."""
    lines = Lines(record)
    with telling(lambda: f"reading {record}: {lines.read / 1e6:,.0f} of {megabytes(record)} MB"):
        found = with_tails(lines)
    record.with_name("down.txt").write_text(text_of(found))
    if found:
        draw_down(record, found[-1])
    draw(record)


class Lines:
    """Iterates over the lines of a file, and counts the bytes read."""

    def __init__(self, file: Path) -> None:
        self.file, self.read = file, 0

    def __iter__(self) -> Iterator[str]:
        with open(self.file, encoding="latin-1") as lines:
            for line in lines:
                self.read += len(line)
                yield line


def keep_console(it: Outcome, is_again: bool, out: Path) -> None:
    """Writes the end of a seed's console, so that a passing seed also shows what ran."""
    out.mkdir(exist_ok=True)
    name = f"{it.kernel}-{it.driver}-{it.seed}{'.again' if is_again else ''}.txt"
    (out / name).write_text("\n".join(it.lines[-CONSOLE_LINES:]) + "\n")


def keep_failure(it: Outcome, workload: str, out: Path) -> Path:
    """Writes the logs and pages of a failure into a separate folder."""
    number, folder = 1, out / f"{it.kernel}-{it.driver}-{it.seed}"
    while folder.exists():
        number += 1
        folder = out / f"{it.kernel}-{it.driver}-{it.seed}.{number}"
    folder.mkdir(parents=True)
    (folder / "verdict.txt").write_text(line(it) + "\n")
    (folder / "console.txt").write_text("\n".join(it.lines) + "\n")
    (folder / "server.txt").write_text(it.output)
    (folder / "why.txt").write_text(it.why + "\n")
    (folder / "workload.sh").write_text(workload)
    if it.record and it.record.exists():
        record = folder / "record.nic"
        shutil.move(it.record, record)
        keep_record(record)
    return folder
