"""Searches a kernel's driver for races, over seeds. drivers/qemu/search starts it and documents its options.

    main.py FETCHED OUT SERVER [WORDS OF search]
    main.py --needs [WORDS OF search]               the sets of packages that these words need
"""

from __future__ import annotations

import argparse
import atexit
import shutil
import signal
import sys
import threading
import time
import traceback
from collections import deque
from collections.abc import Sequence
from dataclasses import dataclass
from pathlib import Path

sys.dont_write_bytecode = True
HERE = Path(__file__).resolve().parent
sys.path[:0] = [str(HERE), str(HERE.parent)]
from bench import Bench, Kernel, NoBoot, Outcome, Setting  # noqa: E402
from cases import CASES, Case  # noqa: E402
from guests import Place, Wrong, end_all  # noqa: E402
from images import Unfit, check_module, check_modules, check_script, kernel_version  # noqa: E402
from modules import Unreadable, unpack_modules  # noqa: E402
from report import draw, junit, keep_console, keep_failure, line, plural, table  # noqa: E402
from verdict import Finding, spoken, worst_first  # noqa: E402
from words import BISECT, ENDS_BISECT, KERNELS, NAME, NOT_TRIED, needs, read_words  # noqa: E402
from workload import Plan, script  # noqa: E402

STOP_SECONDS = 15  # after an interruption, limit for the threads to end


class Interrupted(BaseException):
    """A signal ends the search. Its status is 128 plus the signal's number."""

    def __init__(self, number: int) -> None:
        super().__init__(number)
        self.status = 128 + number


@dataclass(frozen=True)
class Task:
    """A seed to try; `first` is its earlier result if it is tried again."""

    seed: int
    first: Outcome | None = None


class Search:
    """Seeds, and the threads that try them."""

    def __init__(self, place: Place, kernel: Kernel, plan: Plan, words: argparse.Namespace) -> None:
        self.place, self.kernel, self.plan, self.words = place, kernel, plan, words
        self.setting = setting_of(words)
        self.tasks = deque(Task(seed) for seed in words.seeds)
        self.outcomes: list[Outcome] = []
        self.lock = threading.Lock()
        self.case: Case | None = CASES.get(words.case)
        self.is_over = self.is_interrupted = False
        self.found: Path | None = None
        self.fault: Exception | None = None  # an error in a thread, which ends the search

    # ---- one thread ----

    def take(self) -> Task | None:
        with self.lock:
            return self.tasks.popleft() if self.tasks and not self.is_over else None

    def work(self) -> None:
        try:
            self.try_seeds()
        except Exception as fault:  # the main thread raises it again
            self.fault, self.is_over = self.fault or fault, True

    def try_seeds(self) -> None:
        bench: Bench | None = None
        while (task := self.take()) is not None:
            if bench and (task.first or bench.seeds_done >= self.words.seeds_a_boot or self.has_enough(bench)):
                self.end(bench)
                bench = None
            outcome, bench = self.attempt(task, bench)
            if bench and (outcome.is_fatal or task.first or self.is_the_case(outcome)):
                bench.end()
                outcome.record, bench = bench.record, None
            self.judge(task, outcome)
        if bench:
            self.end(bench)

    def has_enough(self, bench: Bench) -> bool:
        """Returns whether the recording has reached its limit: drawing a longer one takes minutes."""
        record = bench.record
        return record is not None and record.exists() and record.stat().st_size > self.words.record_most << 20

    @staticmethod
    def end(bench: Bench) -> None:
        """Ends a guest, and deletes its recording."""
        bench.end()
        if bench.record:
            bench.record.unlink(missing_ok=True)

    def attempt(self, task: Task, bench: Bench | None) -> tuple[Outcome, Bench | None]:
        """Tries a seed in an existing guest, or in a new one."""
        seeds = sorted({*self.words.seeds, task.seed})
        try:
            records = self.words.record or self.case is not None or task.first is not None
            bench = bench or Bench(self.place, self.kernel, self.plan, seeds, records, self.setting)
            return bench.run(task.seed), bench
        except NoBoot as fault:
            memory = [it for it in spoken(fault.lines) if it.kind == "memory"]
            found = worst_first([Finding("boot", str(fault)), *memory])
            return Outcome(self.kernel.name, self.plan.driver, task.seed, found, 0, 0.0, fault.lines), None
        except Wrong as fault:
            lines = bench.guest.lines if bench else []
            if bench:
                bench.end()
            found = [Finding("server", str(fault))]
            return Outcome(self.kernel.name, self.plan.driver, task.seed, found, 0, 0.0, lines), None

    def is_the_case(self, it: Outcome) -> bool:
        case = self.case
        return case is not None and any(f.kind == case.kind for f in it.findings) and it.matches(case.pattern)

    def counts(self, it: Outcome) -> bool:
        """Returns whether a seed failed in the way that the search looks for. In a bisect, a script that can't run, or
        a guest that ran out of memory, doesn't count, but a finding in such a guest may match --match."""
        if self.words.bisect and (it.is_broken or it.is_unrun or (it.is_starved and not self.words.match)):
            return False
        return it.fails and (not self.words.match or it.matches(self.words.match))

    def ends_bisect(self, it: Outcome) -> bool:
        """Returns whether a bisect's status is known after this seed."""
        return self.counts(it) or it.is_broken or it.is_untried or it.is_unrun or it.is_starved

    def judge(self, task: Task, outcome: Outcome) -> None:
        """Records a seed's result, or makes the search try the seed again."""
        with self.lock:
            if self.is_interrupted:
                return
            if task.first:
                task.first.again = outcome
                self.note(task.first)
            elif self.counts(outcome) and self.is_tried_again(outcome):
                print(f"{line(outcome)}; trying it again, alone", flush=True)
                self.tasks.appendleft(Task(outcome.seed, outcome))
            else:
                self.note(outcome)
            if self.words.bisect and self.ends_bisect(outcome):
                self.is_over = True
        self.keep(task, outcome)

    def keep(self, task: Task, outcome: Outcome) -> None:
        """Keeps a seed's console, and a failure in its own folder."""
        keep_console(outcome, task.first is not None, self.words.out / "consoles")
        if outcome.fails and (not task.first or outcome.record) and (not self.case or self.is_the_case(outcome)):
            if self.is_the_case(outcome):
                self.is_over = True
            folder = keep_failure(outcome, script(outcome.seed, self.plan), self.words.out / "failures")
            self.found = folder if self.is_the_case(outcome) else self.found
        elif outcome.record:
            outcome.record.unlink(missing_ok=True)

    def is_tried_again(self, outcome: Outcome) -> bool:
        if self.case or self.words.again == "none":
            return False
        seen = any(it.verdict == outcome.verdict for it in self.outcomes)
        return self.words.again == "each" or not seen

    def note(self, outcome: Outcome) -> None:
        self.outcomes.append(outcome)
        print(line(outcome), flush=True)
        with open(self.words.out / "seeds.txt", "a", encoding="utf-8") as seeds:
            seeds.write(line(outcome) + "\n")

    # ---- all ----

    def run(self) -> int:
        many = min(self.words.jobs, len(self.tasks))
        what = f"{plural(many, 'guest')} at a time {'tries' if many == 1 else 'try'} {plural(len(self.tasks), 'seed')}"
        print(f"{NAME}: {what}; each guest boots first", flush=True)
        threads = [threading.Thread(target=self.work, daemon=True) for _ in range(many)]
        try:
            for thread in threads:
                thread.start()
            for thread in threads:
                thread.join()
        except Interrupted:
            self.stop()
            raise
        if self.fault:
            raise self.fault
        return self.summed_up()

    def stop(self) -> None:
        """Ends the guests and servers, and waits for the threads, which could otherwise write into removed folders."""
        self.is_interrupted = self.is_over = True
        end = time.time() + STOP_SECONDS
        others = [it for it in threading.enumerate() if it is not threading.current_thread()]
        while any(it.is_alive() for it in others) and time.time() < end:
            end_all()
            time.sleep(0.1)

    def summed_up(self) -> int:
        """Writes and prints the results of all seeds. Returns the search's status."""
        self.outcomes.sort(key=lambda it: it.seed)
        (self.words.out / "summary.md").write_text(table(self.outcomes))
        junit(self.outcomes, self.words.out / "junit.xml")
        print(table(self.outcomes), end="")
        return self.tell_case() if self.case else self.status()

    @property
    def is_clean(self) -> bool:
        """Returns whether every seed was tried and none failed."""
        return bool(self.outcomes) and not any(it.fails or it.is_untried for it in self.outcomes)

    def status(self) -> int:
        """Returns the search's status. 0: no failure counted; 1: one did; 2: nothing could be tried. For `git bisect
        run`, 125 if the guest or the script couldn't be tried; if the server ended or the script can't run, a status
        that ends the bisect."""
        if any(self.counts(it) for it in self.outcomes):
            return 1
        untried = [it for it in self.outcomes if it.is_untried or it.is_broken or it.is_unrun]
        if not self.words.bisect:
            return 2 if untried and len(untried) == len(self.outcomes) else 0
        if any(it.verdict == "server" or it.is_unrun for it in untried):
            return ENDS_BISECT + 2
        return NOT_TRIED if untried or any(it.is_starved for it in self.outcomes) else 0

    def tell_case(self) -> int:
        assert self.case
        if not self.found:
            seeds = plural(len(self.outcomes), "seed")
            print(f"{NAME}: {self.words.case} didn't appear in {seeds}; --seeds tries others")
            return 1
        print(f"{self.words.case}: {self.case.text}.\n"
              f"  {self.found} contains the console log, the recording, and the recording as a page")
        return 0


def setting_of(given: argparse.Namespace) -> Setting:
    return Setting(f"{given.memory}M", given.patience, given.script, tuple(given.add))


def plan_of(given: argparse.Namespace) -> Plan:
    own = "" if not given.script else "beside" if given.beside else "alone"
    driver = "ixgbevf" if given.function else "ixgbe"
    return Plan(driver, given.rounds, given.processors, own, given.limit * given.patience, not given.no_traffic)


def kernel_of(place: Place, given: argparse.Namespace) -> Kernel:
    """Returns Debian's kernel, or the author's own. Raises Unfit or Unreadable if a file can't be used."""
    if given.kernel:
        name, image, version = given.kernel.name, given.kernel, kernel_version(given.kernel)
        modules = given.modules or unpack_modules(given.initrd, place.folder / "modules" / "kernel")
        check_modules(modules, version)
    else:
        name = given.linux or "linux-6.1"
        image, modules = place.kernel(KERNELS[name]), place.modules(KERNELS[name])
        version = kernel_version(image)
    if given.module:
        check_module(given.module, version)
    return Kernel(name, image, modules, given.module)


def without_guests(given: argparse.Namespace) -> int | None:
    """Handles options that need no guest. Returns their status."""
    if given.workload:
        print(script(given.workload, plan_of(given)), end="")
        return 0
    if given.draw:
        page = draw(given.draw)
        print(page or f"{NAME}: {given.draw} can't be drawn")
        return 0 if page else 2
    return None


def raise_interrupted(number: int, _: object) -> None:
    for each in SIGNALS:
        signal.signal(each, signal.SIG_IGN)
    raise Interrupted(number)


SIGNALS = (signal.SIGTERM, signal.SIGHUP, signal.SIGINT)


def searched(place: Place, given: argparse.Namespace) -> int:
    """Searches, and removes the files that nobody needs. Returns the search's status."""
    search: Search | None = None
    try:
        if given.script:
            check_script(given.script, place.fetched / "tools/root/bin/busybox")
        kernel = kernel_of(place, given)
        given.out.mkdir(parents=True)
        search = Search(place, kernel, plan_of(given), given)
        return search.run()
    except (Unfit, Unreadable) as fault:
        print(f"{NAME}: {fault}", file=sys.stderr)
        return 2
    finally:
        forget(place, given.out, search)


def forget(place: Place, out: Path, search: Search | None) -> None:
    """Removes the guests' files, and the results too if the user named no folder for them and nothing was found."""
    if out.parent != place.folder or search is None or search.is_clean or not any(out.iterdir()):
        place.forget()
    else:
        for folder in place.folder.iterdir():
            if folder != out:
                shutil.rmtree(folder, ignore_errors=True)
    if out.exists() and search is not None:
        names = sorted(it.name for it in out.iterdir())
        print(f"{NAME}: {out} contains {', '.join(names) or 'nothing'}", flush=True)


def main(words: Sequence[str]) -> int:
    if words[:1] == ["--needs"]:
        print(*needs(read_words(words[1:])), sep="\n")
        return 0
    given = read_words(words[3:])
    done = without_guests(given)
    if done is not None:
        return done
    for number in SIGNALS:
        signal.signal(number, raise_interrupted)
    atexit.register(end_all)
    try:
        place = Place(*(Path(it) for it in words[:3]))
        given.out = (given.out or place.folder / "out").resolve()
        status = searched(place, given)
    except Interrupted as fault:
        print(f"{NAME}: interrupted; the guests were stopped", file=sys.stderr)
        return fault.status
    except Exception:
        traceback.print_exc()
        status = 2
    if given.bisect:
        status += ENDS_BISECT if status in (2, 3) else 0
        print(f"{NAME}: status {status}: {BISECT[status]}")
    return status


if __name__ == "__main__":
    sys.exit(main(sys.argv[1:]))
