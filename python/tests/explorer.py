"""Tests of nic82599.explore: what it finds, how each fault is reported, schedule files, and the pytest plugin if a
Python with pytest is installed."""

from __future__ import annotations

import os
import re
import signal
import subprocess
import sys
import tempfile
import threading
import time
import unittest
from pathlib import Path
from unittest import mock

HERE = Path(__file__).resolve().parent
sys.path[:0] = [str(HERE.parent), str(HERE.parent / "examples")]
from nic82599 import BadMemory, places  # noqa: E402
from nic82599.explore import (  # noqa: E402
    BESIDE,
    BadSchedule,
    BadWord,
    Failure,
    Mutex,
    Scenario,
    Search,
    Vacuous,
    replay,
    search,
)
from race import Fixed, Race  # noqa: E402


class Faulty(Scenario):
    """A scenario with two tasks, each a list of steps."""

    name, points = "faulty", 200

    def __init__(self, *tasks: str) -> None:
        self.tasks = tasks
        self.one, self.other = Mutex("first"), Mutex("second")

    def begin(self) -> None:
        self.count = 0
        for number, steps in enumerate(self.tasks):
            self.task(f"t{number}", lambda steps=steps: [getattr(self, f"do_{step}")() for step in steps.split()])

    def do_die(self) -> None:
        self.point()
        if self.count == 0:
            os.kill(os.getpid(), signal.SIGSEGV)

    def do_up(self) -> None:
        with self.holding(self.one), self.holding(self.other):
            self.count += 1

    def do_down(self) -> None:
        with self.holding(self.other), self.holding(self.one):
            self.count += 1

    def do_loop(self) -> None:
        while True:
            self.point()

    def do_lend_memory(self) -> None:
        self.nic.memory.lend(0x800, bytearray(2048))

    def do_wait(self) -> None:
        self.wait_until(lambda: False)

    def do_pause(self) -> None:
        self.pause()

    def do_await(self) -> None:
        while not self.count:
            self.wait()

    def do_poll(self) -> None:
        while not self.count:
            self.read32("STATUS")

    def do_point(self) -> None:
        self.point()

    def do_count(self) -> None:
        self.point()
        self.count += 1

    def do_check(self) -> None:
        self.check(self.count, "it wasn't counted")

    def do_assert(self) -> None:
        assert self.count, "an assertion"

    def do_raise(self) -> None:
        raise KeyError("here")

    def do_read(self) -> None:
        self.get64(0x800)

    def do_unlock(self) -> None:
        self.unlock(self.one)

    def do_hang(self) -> None:
        self.point()
        while True:
            pass

    def do_stop(self) -> None:
        """Stops the whole process for three seconds, as a machine that is given no CPU."""
        words = ["sh", "-c", 'sleep 3; kill -s CONT "$0"', str(os.getpid())]
        with subprocess.Popen(words):
            os.kill(os.getpid(), signal.SIGSTOP)

    def do_signals(self) -> None:
        for _ in range(200):
            os.kill(os.getpid(), signal.SIGUSR1)
            time.sleep(0.001)

    def do_add(self) -> None:
        seen = self.count
        self.point()
        self.count = seen + 1


class Looking(Faulty):
    def always(self) -> str | None:
        return "it was counted" if self.count else None


class Vector(Fixed):
    """A cause that is assigned another vector than its handler's, or a filter that rejects all frames."""

    def __init__(self, is_filtered: bool) -> None:
        self.is_filtered = is_filtered

    def bring_up(self) -> None:
        super().bring_up()
        self.write32("IVAR[0]", 0x86)
        self.write32("EIMS", 0x60)
        if self.is_filtered:
            self.write32("FCTRL", 0)

    def end(self) -> None:
        return None


class Twice(Faulty):
    def end(self) -> str | None:
        return None if self.count == 2 else f"{self.count} and not 2"


class Interrupted(Scenario):
    """A handler that may start anywhere, unless interrupts are off."""

    name, blocks, is_masked, where = "interrupted", 2, False, "main"

    def bring_up(self) -> None:
        Race.bring_up(self)

    def begin(self) -> None:
        self.inside = self.seen = False
        self.task("main", self.main)
        self.handler("isr", self.isr, vector=5, where=self.where)
        self.frame(bytes.fromhex("02000000000102000000000288b5") + bytes(46))

    def isr(self) -> None:
        self.seen |= self.inside
        self.write32("EIMC", 1 << 5)

    def section(self) -> None:
        self.inside = True
        self.point()
        self.inside = False

    def main(self) -> None:
        if not self.is_masked:
            self.section()
            return
        with self.interrupts_off():
            self.section()

    def end(self) -> str | None:
        return "it came inside" if self.seen else None


class Traced(Scenario):
    """Three tasks with two steps each. Each schedule adds a line with the order of its steps to a file."""

    name = "traced"

    def __init__(self, path: Path) -> None:
        self.path = path

    def begin(self) -> None:
        self.trace = ""
        for name in ("a", "b", "c"):
            self.task(name, lambda name=name: self.act(name))

    def act(self, name: str) -> None:
        for _ in range(2):
            self.point()
            self.trace += name

    def end(self) -> str | None:
        with self.path.open("a") as file:
            file.write(f"{self.trace}\n")
        return None


class Slow(Traced):
    """Takes so long for all its schedules, on any machine, that a time limit ends the search first."""

    name = "slow"

    def end(self) -> str | None:
        time.sleep(0.01)
        return super().end()


BOUNDS = 3


def traced(**words: object) -> list[str]:
    """Returns the schedules that a search runs in its own processes."""
    with tempfile.TemporaryDirectory() as folder:
        path = Path(folder) / "traces"
        search(Traced(path), None, preemptions=BOUNDS - 1, **words)
        return path.read_text().splitlines()


class Found(unittest.TestCase):
    def failure(self, scenario: Scenario, *words: object, **more: object) -> str:
        with self.assertRaises(Failure) as caught:
            search(scenario, *words, **more)
        return str(caught.exception)

    def test_race(self) -> None:
        for strategy in ("random", "priorities", "mixed", "exhaustive"):
            output = self.failure(Race(), None if strategy == "exhaustive" else 1_000, strategy=strategy)
            self.assertIn("end: a frame is in the ring", output, strategy)
        search(Fixed(), 300)
        search(Fixed(), None, strategy="exhaustive", preemptions=0)

    def test_same_again(self) -> None:
        self.assertEqual(self.failure(Race(), seed=7), self.failure(Race(), seed=7))
        self.assertEqual(self.failure(Race(), seed=7, shrink=False), self.failure(Race(), seed=7, shrink=False))

    def test_faults(self) -> None:
        for steps, wanted in {
            ("up", "down"): "deadlock: t",
            ("wait",): "deadlock: t0 waits at explorer.py:",
            ("await",): "deadlock: t0 waits at explorer.py:",
            ("loop",): "endless: still running after 200 points; the last to act was task t0",
            ("check", "count"): "check: it wasn't counted",
            ("assert",): "check: an assertion",
            ("raise",): "crash: t0: KeyError: 'here'",
            ("read",): "reads 0x800, which isn't lent",
            ("unlock",): "misuse: t0 unlocks first without holding it",
            ("lend_memory",): "misuse: t0 lends memory in place, but the search can't see stores to it",
        }.items():
            self.assertIn(wanted, self.failure(Faulty(*steps), 200, shrink=False), steps)
        delay = r"waits at explorer\.py:\d+.*, and no actor can act; if that is a delay, call pause there\n"
        self.assertRegex(self.failure(Faulty("await"), 200), delay)
        self.assertNotRegex(self.failure(Faulty("wait"), 200), delay)
        self.assertIn("always: it was counted", self.failure(Looking("count", "pause")))
        self.assertRegex(self.failure(Faulty("read"), 200), r"memory: t0 at explorer\.py:\d+.* reads 0x800, which")
        self.assertIn("hang: task t0 reached no further point: does its loop need wait?",
                      self.failure(Faulty("hang"), hang=0.2))  # fmt: skip
        for strategy in ("random", "priorities", "exhaustive"):
            self.assertIn("end: 1 and not 2", self.failure(Twice("add", "add"), 500, strategy=strategy), strategy)

    def test_traceback(self) -> None:
        """An exception in a scenario's function is reported with its traceback; one in the bring-up is raised."""
        class Ends(Faulty):
            def end(self) -> str | None:
                return str(1 // 0)

        class Begins(Faulty):
            def bring_up(self) -> None:
                self.do_raise()

        output = self.failure(Faulty("point raise"), 50, shrink=False)
        lines = output[output.index("Traceback (") :].splitlines()
        self.assertRegex(lines[1], r'  File ".*explorer\.py", line \d+, in <lambda>')
        self.assertEqual(lines[-1], "KeyError: 'here'")
        self.assertRegex(self.failure(Ends("point"), 50), r"crash: end: ZeroDivisionError: .*\n(.*\n)+.*in end\n")
        with self.assertRaisesRegex(KeyError, "here"):
            search(Begins("point"), 50)

    def test_threads_of_its_own(self) -> None:
        """Calls from a thread that isn't a task are refused, and so is a search by a task."""
        class Own(Faulty):
            def do_own(self) -> None:
                with mock.patch("threading.excepthook", lambda _args: None):
                    own = threading.Thread(target=self.do_poll)
                    own.start()
                    own.join()

            def do_search(self) -> None:
                search(Fixed(), 5)

        self.assertIn("misuse: a thread that isn't a task calls", self.failure(Own("own"), 5, shrink=False))
        self.assertIn("race_fixed can't be searched", self.failure(Own("search"), 5, shrink=False))

    def test_interrupted(self) -> None:
        """An interrupt ends a search with all its processes, even if background processes ignore it."""
        code = "import signal; signal.signal(signal.SIGINT, signal.default_int_handler)\n"
        code += "from race import Fixed; from nic82599.explore import search; print('.', flush=True)\n"
        code += "search(Fixed(), None, seconds=1_000, jobs=2)"
        how = {**os.environ, "PYTHONPATH": f"{HERE.parent}:{HERE.parent / 'examples'}", "PYTHONDONTWRITEBYTECODE": "1"}
        pipes = {"stdout": subprocess.PIPE, "stderr": subprocess.PIPE, "text": True}
        with subprocess.Popen([sys.executable, "-c", code], env=how, start_new_session=True, **pipes) as made:
            made.stdout.read(1)
            time.sleep(0.3)
            os.killpg(made.pid, signal.SIGINT)
            try:
                output = made.communicate(timeout=600)[1]  # ends when every process has closed its standard error
            except subprocess.TimeoutExpired:
                os.killpg(made.pid, signal.SIGKILL)
                raise
        self.assertEqual(output.splitlines()[-1], "KeyboardInterrupt")

    def test_no_memory_in_place(self) -> None:
        class Early(Faulty):
            def bring_up(self) -> None:
                self.do_lend_memory()

        with self.assertRaisesRegex(BadMemory, "faulty lends memory in place, but the search can't see stores to it"):
            search(Early("pause"), 10)

    def test_fine(self) -> None:
        search(Faulty("up", "up"), None, strategy="exhaustive", preemptions=2)
        search(Faulty("await", "count"), 200)
        search(Faulty("await", "await", "count"), 200)
        search(Faulty("poll", "count"), 200)
        search(Faulty("pause", "pause"), 50)

    def test_never(self) -> None:
        """What never ran in a scenario is reported in the same words as in C; a strict search raises Vacuous with these
        words."""
        unsent = "handler isr never started: no message pf vector 5 was sent"
        wrong = ["task poll never got past its first wait", unsent]
        filtered = "no frame was ever written to memory: dropped filter"
        for jobs in (1, 2):
            for is_filtered, lines in ((False, [wrong[0], f"{wrong[1]}; these were sent: pf vector 6"]),
                                       (True, [*wrong, filtered])):  # fmt: skip
                for how in ({"runs": 60}, {"runs": None, "strategy": "exhaustive", "preemptions": 0}):
                    report = search(Vector(is_filtered), jobs=jobs, **how)
                    self.assertEqual(report.never, lines)
            with self.assertRaisesRegex(Vacuous, "part of the scenario never ran: task poll never got"):
                search(Vector(True), 30, strict=True, jobs=jobs)
            report = search(Fixed(), 60, strict=True, jobs=jobs)
            self.assertEqual((report.never, report.faults), ([], 0))
            self.assertTrue(10 < report.distinct <= 60)

    def test_interrupts(self) -> None:
        self.assertIn("end: it came inside", self.failure(Interrupted(), 500))
        masked = Interrupted()
        masked.is_masked = True
        search(masked, 300)
        masked.where = BESIDE
        self.assertIn("start isr beside", self.failure(masked, 500))

    def test_jobs(self) -> None:
        """Several processes find the same failure as one. If a process dies, its run is reported."""
        twice = Twice("add", "add", "point")
        for scenario, strategy in ((Race(), "mixed"), (Race(), "exhaustive"), (twice, "exhaustive")):
            runs = None if strategy == "exhaustive" else 500
            output = [self.failure(scenario, runs, strategy=strategy, jobs=jobs) for jobs in (1, 2, 3)]
            output[0] = re.sub(r"(by exhaustive) in run \d+", r"\1", output[0])
            self.assertEqual(len(set(output)), 1, output)
        search(Fixed(), 60, jobs=3)
        search(Faulty("up", "up"), None, strategy="exhaustive", preemptions=2, jobs=3)
        output = self.failure(Faulty("die", "point"), 200, jobs=2, shrink=False)
        self.assertIn("crash: the process was killed by signal 11", output)
        self.assertRegex(output, r"(in|before) run \d+ of seed 1")

    def test_shares(self) -> None:
        """Exhaustive searches with several processes run the same schedules as with one."""
        one = traced(strategy="exhaustive")
        many = traced(strategy="exhaustive", jobs=3)
        self.assertEqual(set(one), set(many))
        self.assertGreater(len(set(one)), 10)
        self.assertLessEqual(len(many), len(one) + 2 * BOUNDS)  # each process runs the first schedule of each bound

    def test_words(self) -> None:
        for name, values in {
            "strategy": ("best", None, ""),
            "runs": (0, None, "ten", 1.5, True),
            "seed": (-1, "abc", 1 << 64),
            "depth": (0, 17, "3"),
            "preemptions": (-1, 1_001, "any", None),
            "jobs": (0, 257, "4", 2.0),
            "hang": (0, -1, "x", float("nan"), None),
            "seconds": (0, -1, "x", float("nan"), 1e10),
            "out": ("/nowhere", "/dev/null", 5),
        }.items():
            for value in values:
                with self.assertRaisesRegex(BadWord, f"^{name}: .*{re.escape(repr(value))}"):
                    search(Race(), **{name: value})
        self.assertRaises(BadWord, replay, Race(), HERE / "race.schedule", 0)
        wrong = Interrupted()
        wrong.where = "nobody"
        for scenario, text in ((Faulty(), "begin creates no task"), (wrong, "isr runs on a task that doesn't exist")):
            with self.assertRaisesRegex(ValueError, text):
                search(scenario, 5)
        for name in ("", "a name", "a/b", "x" * 64):
            wrong = Faulty("point")
            wrong.name = name
            self.assertRaises(ValueError, search, wrong, 5)


class All(Scenario):
    """A step of each kind, with a failure at the end."""

    name, vfs, blocks = "all", 1, 3

    def bring_up(self) -> None:
        self.write32("GCR_EXT", 3)
        for block in range(3):
            self.lend(block)

    def begin(self) -> None:
        self.task("all", self.all)
        self.link_change(False)

    def all(self) -> None:
        self.vf_write32(0, "VFMAILBOX", 4)
        self.check(self.vf_read32(0, "VFMAILBOX") & 4, "the mailbox isn't taken")
        self.dma_write(0x804, b"abcdefg")
        self.check(self.dma_read(0x805, 3) == b"bcd", "other bytes")
        self.point()
        self.take(2)

    def end(self) -> str | None:
        return "it ends"


def ran(script: str, *words: str) -> str:
    """Returns the bench's output for a script."""
    made = subprocess.run([places.program(), "run", *words], input=script, capture_output=True, text=True, check=False)
    return made.stdout


def without_place(text: str) -> str:
    """Returns a file's text without the source lines, the name of a condition, and the point of no return."""
    text = re.sub(r"# point of no return: .*\n", "", text)
    text = re.sub(r"waited until \S+\(.*\)", "waited until", text)
    return re.sub(r"(:|,)? at \S+:\d+( < \S+:\d+)*$", "", text, flags=re.M)


class Much(Scenario):
    """A driver that loses a frame, with steps that have nothing to do with the loss."""

    name, points = "much", 200

    def bring_up(self) -> None:
        Race.bring_up(self)

    def begin(self) -> None:
        self.got = 0
        self.service("take", self.take)
        self.task("count", self.count)
        self.handler("isr", self.isr, vector=5)
        for _ in range(4):
            self.frame(bytes.fromhex("02000000000102000000000288b5") + bytes(46))
        self.link_change(True)

    def count(self) -> None:
        for _ in range(3):
            self.point()

    def isr(self) -> None:
        self.write32("EIMC", 1 << 5)

    def take(self) -> None:
        slot = 0
        while slot < 7:
            self.wait()
            while slot < 7 and self.get64(16 * slot + 8) & 1:
                head = self.read32("RDH")
                self.got += 1
                slot += 1 + (self.read32("RDH") != head)

    def end(self) -> str | None:
        return None if self.got == self.came else "a frame is lost"


class Counted(Much):
    def end(self) -> str | None:
        return None if self.got == 4 else "a frame is lost"


class Polite(Scenario):
    """Two tasks; each sets its flag, then waits while the other's flag is set."""

    name, points = "polite", 100

    def begin(self) -> None:
        self.wants = [False, False]
        self.task("one", lambda: self.polite(0))
        self.task("other", lambda: self.polite(1))

    def polite(self, mine: int) -> None:
        self.wants[mine] = True
        self.point()
        while self.wants[1 - mine]:
            self.write32("EIMC", 1)
            self.wait()
        self.wants[mine] = False

    def end(self) -> str | None:
        return None


class Reader(Scenario):
    name = "reader"
    is_mended = False

    def bring_up(self) -> None:
        Race.bring_up(self)

    def begin(self) -> None:
        self.task("reader", self.reader)
        self.frame(bytes.fromhex("02000000000102000000000288b5") + bytes(46))

    def reader(self) -> None:
        head = self.read32("RDH")
        if self.is_mended:
            self.write32("EIMC", 1)
        self.check(self.read32("RDH") == head, "the head moved")

    def end(self) -> str | None:
        return None


class Failures(unittest.TestCase):
    """How a failure is reported: shrunk, with its cycle, and for a driver that was changed."""

    def found(self, scenario: Scenario, **words: object) -> Failure:
        with self.assertRaises(Failure) as caught:
            search(scenario, 500, **words)
        return caught.exception

    def test_without(self) -> None:
        left = {"task count", "handler isr", "frame 3", "link 0"}
        result = self.found(Much()).result
        self.assertTrue(left <= result.without and len(result.points) < 20, result)
        self.assertLess(len(result.points), len(self.found(Much(), shrink=False).result.points))
        counted = self.found(Counted()).result
        self.assertFalse([name for name in counted.without if name.startswith("frame")], counted)
        with tempfile.TemporaryDirectory() as folder:
            path = self.found(Much(), out=folder).path
            text = path.read_text()
            self.assertIn("without task count\n", text)
            self.assertRegex(text, r"task take +# peek 0x\w+, 8 bytes at explorer\.py:\d+\n")
            self.assertEqual(replay(Much(), path).words, "a frame is lost")

    def test_turn(self) -> None:
        """The report has a line for the point of no return, before that point's step; the steps' lines name their
        source lines. If there is no such point, a line says that all schedules fail."""
        failure = self.found(Race())
        turn, lines = failure.result.turn, str(failure).splitlines()
        self.assertIsNotNone(turn)
        place = next(number for number, line in enumerate(lines) if "# point of no return: if task poll acted" in line)
        self.assertEqual((turn.point, turn.other), (place - 2, "task poll"), failure)
        self.assertRegex(lines[place - 1], r"task poll +# peek 0x\w+, 8 bytes at race\.py:\d+$")
        self.assertRegex(lines[place + 1], r"rx +# wrote queue 0 slot \d end$")
        with tempfile.TemporaryDirectory() as folder:
            path = self.found(Race(), out=folder).path
            self.assertIn(f"\n{turn.line}\n", path.read_text())
            self.assertEqual(replay(Race(), path).outcome, "end")
        always = self.found(Faulty("wait")).result
        self.assertIsNone(always.turn.point, always)
        self.assertIn("the order of steps doesn't matter", always.turn.line)
        self.assertEqual(self.found(Polite()).result.turn.other, "task other")

    def test_hang(self) -> None:
        """A schedule that hangs is replayed in this process, which continues afterwards."""
        with tempfile.TemporaryDirectory() as folder:
            path = self.found(Faulty("hang"), hang=1, out=folder).path
            for _ in range(2):
                result = replay(Faulty("hang"), path, 1)
                self.assertEqual((result.outcome, result.words), ("hang", "t0 runs without reaching a point"))
        self.assertEqual(search(Fixed(), 20).never, [])

    def test_stopped(self) -> None:
        """A schedule isn't taken for one that hangs because its process is stopped for longer than the limit."""
        class Stopped(Faulty):
            def begin(self) -> None:
                self.do_stop()
                super().begin()

        self.assertEqual(search(Stopped("point"), 1, strategy="random", hang=1).distinct, 1)
        with Search(Faulty("stop point"), hang=1) as searching:
            self.assertEqual(searching.run(lambda can: can[0]).outcome, "fine")

    def test_interrupted_often(self) -> None:
        """A schedule isn't taken for one that hangs because signals interrupt its process often."""
        former = signal.signal(signal.SIGUSR1, lambda _signal, _frame: None)
        try:
            with Search(Faulty("signals"), hang=100) as searching:
                self.assertEqual(searching.run(lambda can: can[0]).outcome, "fine")
        finally:
            signal.signal(signal.SIGUSR1, former)

    def test_seconds(self) -> None:
        """A search ends at its time limit with any strategy, but each process runs at least one schedule. Without that
        limit, it completes its runs."""
        ways = ({"strategy": "random"}, {"strategy": "exhaustive", "preemptions": 1_000}, {"jobs": 2})
        most, few = 1_500, 20
        with tempfile.TemporaryDirectory() as folder:
            path = Path(folder) / "traces"
            slow = Slow(path)
            for words in ways:
                for seconds in (0.3, 1e-6):  # (even if the machine takes longer than this to start a process)
                    path.write_text("")
                    report = search(slow, None if "preemptions" in words else most, seconds=seconds, **words)
                    self.assertGreater(report.distinct, 0, words)
                    self.assertLess(len(path.read_text().splitlines()), most, words)
            path.write_text("")
            search(slow, few, strategy="random", seconds=1_000_000)
            self.assertEqual(len(path.read_text().splitlines()), few)
        self.assertEqual(search(Fixed(), few, seconds=1_000_000).distinct, search(Fixed(), few).distinct)

    def test_cycle(self) -> None:
        with tempfile.TemporaryDirectory() as folder:
            failure = self.found(Polite(), out=folder)
            self.assertEqual((failure.result.outcome, failure.result.cycle), ("endless", 4), failure)
            self.assertLess(len(failure.result.points), 12)
            text, again = failure.path.read_text(), replay(Polite(), failure.path)
            self.assertIn("cycle                    # repeats from here on:\n", text)
            self.assertEqual((again.outcome, again.points, again.cycle), ("endless", failure.result.points, 4))
            script = (Path(folder) / "polite.nic").read_text()
            self.assertEqual(script.count("# task one: "), failure.result.actors.count("task one"))
            for wrong, message in {
                "task one\ncycle\n": "the cycle has no point",
                "cycle\ntask one\ncycle\n": ":4: the file already has a cycle",
                "task one\nwithout task one\n": ":3: \"without\" lines must precede",
                "without rx\n": ':2: the scenario has no "rx"',
            }.items():
                failure.path.write_text(f"scenario polite\n{wrong}")
                with self.assertRaisesRegex(BadSchedule, message):
                    replay(Polite(), failure.path)

    def test_lenient(self) -> None:
        with tempfile.TemporaryDirectory() as folder:
            path = self.found(Reader(), out=folder).path
            same = replay(Reader(), path, lenient=True)
            self.assertEqual((same.outcome, str(same.parting)), ("check", "the run follows the whole schedule"))
            mended = Reader()
            mended.is_mended = True
            result = replay(mended, path, lenient=True)
            self.assertEqual(result.outcome, "check")
            self.assertRegex(str(result.parting), r"^the run departs from the schedule at \S+/reader.schedule:\d+; "
                             r"it was: task reader, r RDH\[0\] = 0x00000001.*; "
                             r"it is: task reader, w EIMC 0x00000001 at explorer\.py:\d+$")  # fmt: skip
            self.assertRaises(BadSchedule, replay, mended, path)

    def test_shards(self) -> None:
        """Together, the shards run every schedule of an undivided search, and one of them reports the first seed that
        fails."""
        whole = traced(strategy="exhaustive")
        parts = [traced(strategy="exhaustive", shard=(k, 3)) for k in (1, 2, 3)]
        self.assertEqual(set().union(*map(set, parts)), set(whole))
        self.assertTrue(sum(map(len, parts)) <= len(whole) + 2 * BOUNDS and min(map(len, parts)) > 3)
        lines = [self.found(Race(), shard=(k, 3)).args[0].splitlines()[1] for k in (1, 2, 3)]
        runs = [int(re.search(r"in run (\d+) of", line)[1]) for line in lines]
        whole_run = int(re.search(r"in run (\d+) of", self.found(Race()).args[0].splitlines()[1])[1])
        self.assertEqual(([run % 3 for run in runs], min(runs)), ([0, 1, 2], whole_run))
        for wrong in ((0, 2), (3, 2), (1, 65_537), (1,), "1/2", None, (1.0, 2)):
            with self.assertRaisesRegex(BadWord, "^shard: "):
                search(Race(), 5, shard=wrong)


class Single(unittest.TestCase):
    def test_choosing(self) -> None:
        """A schedule in which the test chooses the actor at each point."""
        with Search(Faulty("add", "add")) as searching:
            result = searching.run(lambda can: can[0])
            self.assertEqual((result.outcome, result.switches, searching.is_cut), ("fine", 1, False))
            result = searching.run(lambda can: can[-1])
            self.assertEqual(result.actors.count("task t0"), 2)
            self.assertEqual(searching.run(lambda _can: None).points, [])
            self.assertTrue(searching.is_cut)
            with self.assertRaisesRegex(ValueError, "scenario faulty is still open"):
                Search(Faulty("add"))


class Files(unittest.TestCase):
    def test_of_c(self) -> None:
        """A schedule that the explorer in C found for the same scenario: each point has the same effect here."""
        result = replay(Race(), HERE / "race.schedule")
        lines = [without_place(line).split("#") for line in (HERE / "race.schedule").read_text().splitlines()]
        wanted = [(line[0].strip(), line[1].strip()) for line in lines if len(line) == 2 and line[0]]
        self.assertEqual(result.points, wanted)
        self.assertEqual(f"# {result.outcome}: {result.words}", "#".join(lines[0]))
        is_thread = [name.startswith(("task", "handler")) for name in result.actors]
        places = [place for place, is_one in zip(result.places, is_thread) if is_one]
        self.assertTrue(all(re.fullmatch(r"race\.py:\d+", place) for place in places), places)

    def test_written(self) -> None:
        with tempfile.TemporaryDirectory() as folder:
            with self.assertRaises(Failure) as caught:
                search(Race(), out=folder)
            self.assertEqual(caught.exception.path, Path(folder) / "race.schedule")
            again = replay(Race(), caught.exception.path)
            script = (Path(folder) / "race.nic").read_text()
        self.assertEqual(again, caught.exception.result)
        self.assertIn("w RDT[0] 7                   # bring-up\n", script)
        self.assertRegex(script, r"w EICR 0x20                  # task poll: at race\.py:\d+\npeek 0x0 2 ")
        self.assertIn("expect 0x00000003 0xffffffff\n", script)
        self.assertEqual(script.splitlines()[-1], "# FAILED end: a frame is in the ring, but nothing will poll it")
        self.assertEqual(ran(script, "--vfs", "0", "--fifo", "64").splitlines()[-1].split()[0], "ok")

    def test_script(self) -> None:
        """A script contains accesses by virtual functions, memory writes and link changes. If it is cut, it says so."""
        with tempfile.TemporaryDirectory() as folder:
            with self.assertRaises(Failure):
                search(All(), 50, out=folder, seed=3)
            script = (Path(folder) / "all.nic").read_text()
        for part in ("vw 0 0x2fc 4", "# task all: VFMAILBOX", "poke 0x800 d", "link down                    # link: ",
                     "unlend 2                     # task all", "# task all: a point"):  # fmt: skip
            self.assertIn(part, script)
        self.assertEqual(ran(script, "--vfs", "1", "--fifo", "64").splitlines()[-1].split()[0], "ok")

    def test_refused(self) -> None:
        with tempfile.TemporaryDirectory() as folder:
            file = Path(folder) / "bad"
            for text, wanted in {
                "": "missing line",
                "task poll\n": ":1: the first line must be",
                "scenario other\n": ":1: the schedule is for scenario other, but this program is race",
                "scenario race\n\ntask nobody\n": ':3: the scenario has no "task nobody"',
                "scenario race\ntask \x1b[31m\n": ":2: the line isn't printable ASCII",
                "scenario race\ntask \u202e\n": ':2: the scenario has no "task ???"',
                "scenario race\nrx\n": ':2: "rx" can\'t act at this point',
                "scenario race\narrive\n": ":2: the schedule ends, but an actor can still act",
            }.items():
                file.write_text(text)
                with self.assertRaises(BadSchedule) as caught:
                    replay(Race(), file)
                self.assertIn(wanted, str(caught.exception), text)
        self.assertRaises(BadSchedule, replay, Race(), "/nowhere")


TESTS = """
import pytest
from race import Fixed, Race

@pytest.mark.nic_schedules(500)
def test_race(tmp_path):
    return Race()

@pytest.mark.nic_schedules(50)
def test_fixed():
    return Fixed

@pytest.mark.nic_schedules(5)
def test_nothing():
    pass

@pytest.mark.nic_schedules(walks=5)
def test_words():
    return Race()

@pytest.mark.nic_schedules(depth=17)
def test_depth():
    return Race()

def test_unmarked():
    pass
"""


def with_pytest() -> str | None:
    """Returns a Python that has pytest."""
    for program in (sys.executable, "/usr/bin/python3"):
        words = [program, "-c", "import sys, pytest; sys.exit(sys.version_info < (3, 11))"]
        if Path(program).exists() and not subprocess.run(words, capture_output=True, check=False).returncode:
            return program
    return None


@unittest.skipUnless(with_pytest(), "pytest isn't installed")
class Plugin(unittest.TestCase):
    def pytest(self, folder: str, *words: str) -> str:
        how = {**os.environ, "PYTHONPATH": f"{HERE.parent}:{HERE.parent / 'examples'}", "PYTHONDONTWRITEBYTECODE": "1"}
        line = [with_pytest(), "-m", "pytest", "-p", "nic82599.pytest_plugin", "-p", "no:cacheprovider", "-W", "error"]
        made = subprocess.run([*line, *words], cwd=folder, env=how, capture_output=True, text=True, check=False)
        return made.stdout + made.stderr

    def test_all(self) -> None:
        with tempfile.TemporaryDirectory() as folder:
            (Path(folder) / "test_it.py").write_text(TESTS)
            output = self.pytest(folder, "--nic-out", folder, "--strict-markers", "--nic-jobs", "2")
            self.assertTrue((Path(folder) / "race.nic").exists())
            self.assertIn("4 failed, 2 passed", output)
            self.assertIn("end: a frame is in the ring", output)
            self.assertIn("test_nothing returns no Scenario", output)
            self.assertIn("nic_schedules: walks isn't one of runs, seed", output)
            self.assertIn("nic_schedules: depth: 17 isn't a whole number from 1 to 16", output)
            self.assertIn("--nic-jobs: 0 isn't a whole number", self.pytest(folder, "--nic-jobs", "0"))
            self.assertIn("--nic-shard: (3, 2) isn't (K, N)",
                          self.pytest(folder, "--nic-shard", "3/2"))  # fmt: skip
            self.assertIn("1 passed", self.pytest(folder, "--nic-shard", "1/2", "-k", "fixed"))
            self.assertIn("--nic-out: no such folder", self.pytest(folder, "--nic-out", "/nowhere"))
            output = self.pytest(folder, "--nic-replay", "race.schedule", "-k", "race or fixed")
            self.assertIn("1 failed, 1 skipped", output)
            self.assertIn("replayed", output)

    def test_example(self) -> None:
        example = HERE.parent / "examples/race.py"
        self.assertIn("1 passed, 1 xfailed", self.pytest(str(HERE), str(example)))
