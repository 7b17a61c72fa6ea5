"""Tests of the report card for drivers in Python. A correct driver passes every applicable row. A wrong one fails in
the row that names its fault. A forbidden action fails its row, while other rows pass."""

from __future__ import annotations

import array
import ctypes
import os
import re
import struct
import subprocess
import sys
import tempfile
import unittest
from pathlib import Path
from unittest import mock
from xml.etree import ElementTree

import card_drivers as drivers
from nic82599 import places
from nic82599.drive import Can, Driver
from nic82599.drive.calls import CARD, OPTIONAL, Refused
from nic82599.drive.row import checked, driver_of, load, program

HERE = Path(__file__).resolve().parent
SMALL = HERE.parent / "examples/small.py"
# On a busy machine, rows still run all requested schedules and report no hang.
PATIENT = ["--seconds", "1800", "--hang", "600"]

# The entry in the card's list for a missing function; no row needs only `rearm` or `thread`.
LACKS = {
    "reclaim": {"no reclaim"},
    "rearm": set(),
    "thread": set(),
    "suspend": {"no suspend or no resume"},
    "resume": {"no suspend or no resume"},
    "mailbox_send": {"no mailbox_send or no mailbox_receive"},
    "mailbox_receive": {"no mailbox_send or no mailbox_receive"},
}

# The entry for a driver with Can.SHARED_DEVICE.
NO_RESET = "no device reset (NICD_SHARED_DEVICE)"

# For each class of card_drivers.py, the row that fails and a pattern of its message.
WRONG = {
    "SlotWithoutDd": ("receive-empty", "check: receive returned true, but no frame arrived"),
    "StopThatDoesNotWait": ("close-during-frames", "queue 0 is on although the driver is closed"),
    "IdleReportedEarly": ("send-wrap", r"check: reclaim reports all of queue 0 as transmitted, but frame \d+ .*isn't"),
    "LengthBeforeDd": ("receive-one", "check: a 0-byte frame is delivered from queue 0"),
    "LockTwice": ("receive-one", "deadlock: receive0 waits for counters, which receive0 holds"),
    "RaisesInReceive": ("receive-one", r"check: IndexError: list index out of range \(card_drivers.py:\d+\)"),
    "RaisesInOpen": ("open-close", r"check: the EEPROM has no address \(card_drivers.py:\d+\)"),
    "RaisesInInit": ("open-close", r"AttributeError: .* no attribute 'nowhere' \(card_drivers.py:\d+\)"),
    "RaisesInACondition": ("receive-one", r"check: IndexError: list index out of range \(card_drivers.py:\d+\)"),
    "HangsInReceive": ("receive-one", "hang: task receive0 reached no further point"),
    "WaitsForAThreadsLock": ("both-ways", "hang: task (receive|send)0 reached no further point"),
    "TakesEveryException": ("receive-one", "misuse: receive0 continues after its schedule has ended"),
    "Recurses": ("receive-one", "check: RecursionError: "),
    "OpenAnswersNone": ("receive-one", "TypeError: open returned NoneType, not True or False"),
    "CountsInTwoSteps": ("stats-receive", "check: stats: rx_frames is 1 and rx_bytes 0 for 60-byte frames"),
    "StatsAnswersText": ("stats-send", "check: TypeError: stats returned str, not Stats"),
    "ReceiveAnswersText": ("receive-one", "check: TypeError: receive returned str, not bytes"),
    "ReclaimAnswersBelowZero": ("send-one", "check: TypeError: reclaim returned -1, not a number"),
    "FrameTooLong": ("receive-one", "check: a 9725-byte frame is delivered from queue 0"),
    "WordTooLong": ("interrupt-receive", "check: ValueError: 4294967296 doesn't fit into a 32-bit register"),
    "OutsideDma": ("receive-one", r"memory: receive0 at \S+\.py:\d+.* writes 0x1000, which isn't lent"),
    "ReadsTooMuch": ("receive-one", r"memory: receive0 at \S+\.py:\d+.* reads 0x0, which isn't lent"),
    "ExitsInReceive": ("receive-one", "check: SystemExit: 0"),
    "EndsTheProcess": ("receive-one", "crash: the process exited with status 0"),
    "AbortsInClose": ("open-close", "crash: the process was killed by signal 6"),
    "PieceLeft": ("open-close", "1 nicd_alloc allocation wasn't freed"),
    "FromAThread": ("receive-one", "a call comes from a thread that the driver created itself"),
    "StateLeft": ("receive-wrap", "misuse: begin doesn't initialize all of the driver's state"),
}
# Drivers that fail each row before the first schedule, so no row passes.
NONE_PASSES = ("RaisesInOpen", "RaisesInInit", "OpenAnswersNone")


def ran(driver: type[Driver], *words: str) -> tuple[int, str]:
    """Runs a driver's program and returns its status and output."""
    with tempfile.TemporaryFile() as file:
        sys.stdout.flush()  # otherwise the child would also write this buffer's contents to the file
        process = os.fork()
        if not process:
            os.dup2(file.fileno(), 1)
            os.dup2(file.fileno(), 2)
            status = program(driver, ["card", *words])
            sys.stdout.flush()
            ctypes.CDLL(None).fflush(None)  # the library's output
            os._exit(status)
        status = os.waitstatus_to_exitcode(os.waitpid(process, 0)[1])
        file.seek(0)
        return status, file.read().decode()


def row(driver: type[Driver], name: str, runs: int, folder: str, hang: int = 600) -> tuple[int, str]:
    words = ["--row", name, "--quiet", "--jobs", "1", "--runs", str(runs), "--hang", str(hang), "--no-shrink"]
    return ran(driver, *words, "--out", folder)


def rows_of(driver: type[Driver]) -> dict[str, str]:
    """Returns a driver's rows, and what it lacks for each."""
    status, output = ran(driver, "--list")
    assert status == 0, output
    return {line.split("\t")[0]: line.split("\t")[2] for line in output.splitlines()}


class Cards(unittest.TestCase):
    def test_a_right_driver_passes(self) -> None:
        rows = rows_of(drivers.Both)
        self.assertGreater(len(rows), 100)
        with tempfile.TemporaryDirectory() as folder:
            for name, lack in rows.items():
                status, output = row(drivers.Both, name, 25, folder)
                self.assertEqual(status, 0 if lack == "-" else 4, output)

    def test_what_is_wrong_is_reported(self) -> None:
        for name, (failed, words) in WRONG.items():
            driver = getattr(drivers, name)
            with self.subTest(name), tempfile.TemporaryDirectory() as folder:
                status, output = row(driver, failed, 300, folder, 2 if words.startswith("hang") else 600)
                self.assertEqual(status, 2 if name == "RaisesInInit" else 1, output)
                self.assertRegex(output, words)
                if status == 1:
                    self.assertIn("# ", (Path(folder) / f"{failed}.schedule").read_text())
                if name not in NONE_PASSES:
                    status, output = row(driver, "setup-ring-values", 25, folder)
                    self.assertEqual(status, 0, output)

    def test_an_exception_has_its_lines(self) -> None:
        with tempfile.TemporaryDirectory() as folder:
            _, text = row(drivers.RaisesInReceive, "receive-one", 50, folder)
            text = (Path(folder) / "receive-one.traceback").read_text()
            self.assertRegex(text, r"(?s)return bytes\(self.rx.buffers\[99\]\).+\nIndexError: list index out of range")
            self.assertNotIn("calls.py", text)
            schedule = Path(folder) / "receive-one.schedule"
            self.assertRegex(schedule.read_text(), r"r EICS = 0x\w+ at card_drivers.py:\d+\n")
            status, text = ran(drivers.RaisesInReceive, "--row", "receive-one", "--replay", str(schedule))
            self.assertEqual(status, 1)
            self.assertRegex(text, r"(?m)^IndexError: list index out of range$")

    def test_what_is_left_out_is_reported(self) -> None:
        everything = set(rows_of(drivers.Everything).values())
        self.assertEqual(everything, {"-", NO_RESET})
        for name in OPTIONAL:
            kept = {key: value for key, value in vars(drivers.Everything).items() if key != name}
            lacks = set(rows_of(type("Without", (Driver,), kept)).values()) - {"-", NO_RESET}
            self.assertEqual(lacks, LACKS.get(name, {f"no {name}"}), name)


    def test_what_a_driver_never_does_is_reported(self) -> None:
        nevers = (Can.NO_MODERATION, Can.NO_HEADS, Can.ONE_VECTOR, Can.ONE_BUFFER, Can.NO_ADDRESS, Can.NO_MSIX)
        for flag in nevers:
            kept = dict(vars(drivers.Everything)) | {"can": drivers.Everything.can | flag}
            lacks = set(rows_of(type("Never", (Driver,), kept)).values()) - {"-", NO_RESET}
            self.assertRegex(", ".join(lacks), rf"^[a-z ]+ \(NICD_{flag.name}\)$")


class Refusals(unittest.TestCase):
    """Drivers that are refused."""

    def refused(self, words: str, text: str, name: str = "") -> None:
        with tempfile.TemporaryDirectory() as folder:
            path = Path(folder) / "given.py"
            path.write_text("from nic82599.drive import Driver\n" + text)
            with self.assertRaisesRegex(Refused, words):
                checked(driver_of(load(path), name, path), path)
        sys.path.remove(folder)

    def test_files(self) -> None:
        self.refused("can't load it: NameError: .* \\(given.py:2\\)", "nothing\n")
        self.refused("can't load it: SystemExit", "raise SystemExit\n")
        self.refused("it has 0 subclasses of Driver$", "")
        self.refused("it has 2 subclasses of Driver: A, B; select one", "class A(Driver): ...\nclass B(Driver): ...\n")
        self.refused("it has no subclass C of Driver: A; select one", "class A(Driver): ...\n", "C")
        with self.assertRaisesRegex(Refused, "no such Python file"):
            load(Path("/nowhere.py"))

    def test_classes(self) -> None:
        self.refused("A has no open", "class A(Driver): ...\n")
        begin = "class A(Driver):\n    def open(self, setup): ...\n    def close(self): ...\n"
        self.refused("A.receive isn't a function", begin + "    receive = 3\n")
        self.refused("A.queues is 'two', not an allowed number", begin + "    queues = 'two'\n")
        self.refused("A.threads is -1, not an allowed number", begin + "    threads = -1\n")
        self.refused("A.name isn't a string, or A.can isn't a Can", begin + "    name = 3\n")

    def test_what_the_card_refuses(self) -> None:
        fields = {"name": "a b", "queues": 5, "slots": 12, "frame": 9, "threads": 1}
        for field, value in fields.items():
            status, output = ran(type("Wrong", (drivers.Both,), {field: value}), "--list")
            self.assertEqual(status, 2)
            self.assertRegex(
                output, "card: the driver is refused: the name|queues is|slots must|frame must|thread isn't"
            )

    def test_lengths_are_bytes(self) -> None:
        """Item sizes don't matter, nor does what the driver's bytes claim about themselves."""

        class Long(bytes):
            def __len__(self) -> int:
                return 1500

        calls: list[tuple[object, ...]] = []
        driver = Driver()
        with mock.patch.object(CARD, "call", lambda *words: calls.append(words) or 0):
            driver.dma_write(0, array.array("Q", [1, 2]))  # type: ignore[arg-type]
            driver.dma_write(0, Long(b"abc"))
            driver.deliver(1, memoryview(bytes(120)).cast("I"))  # type: ignore[arg-type]
        words = struct.pack("<QQ", 1, 2)
        self.assertEqual(
            calls, [("dma_write", 0, words, 16), ("dma_write", 0, b"abc", 3), ("deliver", 1, bytes(120), 120)]
        )

    def test_a_call_without_a_card(self) -> None:
        with self.assertRaisesRegex(RuntimeError, "only a driver in a report card may call read32"):
            drivers.Both().read32("STATUS")


def adopts() -> bool:
    """Returns whether this process can adopt its grandchildren."""
    given = ctypes.c_int()
    return sys.platform == "linux" and ctypes.CDLL(None).prctl(37, ctypes.byref(given), 0, 0, 0) == 0


def is_there(process: int) -> bool:
    """Returns whether a process is running."""
    try:
        state = Path(f"/proc/{process}/stat").read_text().rpartition(")")[2].split()[0]
    except OSError:
        return False
    return state != "Z"


class Command(unittest.TestCase):
    """The command as an author runs it."""

    def test_nothing_acts_on_the_terminal(self) -> None:
        if places.clone() is None:
            self.skipTest("the command needs a clone")
        how = {**os.environ, "PYTHONPATH": str(HERE.parent)}
        with tempfile.TemporaryDirectory() as folder:
            rows = ["--rows", "receive-one", "--runs", "10", "--every", "10", "--no-pages", *PATIENT, "-o", folder]
            driver = f"{HERE / 'card_drivers.py'}:ActsOnTheTerminal"
            words = [sys.executable, "-P", "-m", "nic82599.drive", driver, *rows]
            made = subprocess.run(words, env=how, capture_output=True, text=True, check=False)
            self.assertIn(r"check: red \x1b[31m and \u202e turned", made.stdout)
            texts = [made.stdout, made.stderr, *((Path(folder) / f"card.{it}").read_text() for it in ("txt", "html"))]
            self.assertEqual(re.findall("[\x00-\x08\x0b-\x1f\x7f-\x9f\u202e]", "".join(texts)), [])
            failure = ElementTree.parse(Path(folder) / "card.xml").find("testcase/failure")
            self.assertIn(r"red \x1b[31m", failure.get("message") if failure is not None else "")

    def test_nothing_is_left(self) -> None:
        """Every process that a driver starts ends with its row, and doesn't keep the card from finishing."""
        if places.clone() is None or not Path("/proc/self/stat").exists():
            self.skipTest("the command needs a clone, and the test /proc")
        for name in ("Forks", "ForksAndGoesOn", *(["LeavesADaemon"] if adopts() else [])):
            with self.subTest(name), tempfile.TemporaryDirectory() as folder:
                listing = Path(folder) / "processes"
                listing.touch()
                how = {**os.environ, "PYTHONPATH": str(HERE.parent), "PROCESSES": str(listing)}
                rows = ["--rows", "receive-one", "--runs", "10", "--every", "10", "--no-pages", *PATIENT, "-o", folder]
                words = [sys.executable, "-P", "-m", "nic82599.drive", f"{HERE / 'card_drivers.py'}:{name}", *rows]
                made = subprocess.run(words, env=how, capture_output=True, text=True, timeout=3600, check=False)
                self.assertIn(f"{drivers.Both.name}: 1 passed, 0 failed", made.stdout, made.stderr)
                processes = [int(it) for it in listing.read_text().split()]
                self.assertEqual(len(processes) > 0, name != "ForksAndGoesOn")
                self.assertEqual([it for it in processes if is_there(it)], [])

    def test_a_card(self) -> None:
        how = {**os.environ, "PYTHONPATH": str(HERE.parent)}
        rows = ["--rows", "receive-one,send-one,open-close", "--runs", "50", "--every", "50", "--no-pages", *PATIENT]
        if places.clone() is None:
            self.skipTest("the command needs a clone")
        with tempfile.TemporaryDirectory() as folder:
            words = [sys.executable, "-P", "-m", "nic82599.drive", SMALL, *rows, "-o", folder]
            made = subprocess.run(words, env=how, capture_output=True, text=True, check=False)
            self.assertEqual(made.returncode, 0, made.stdout + made.stderr)
            self.assertRegex(made.stdout, r"small: 2 passed, 0 failed, 1 not applicable, \d+ s")
            self.assertEqual(len(re.findall("<testcase ", (Path(folder) / "card.xml").read_text())), 3)
            words[4:5] = [f"{HERE / 'card_drivers.py'}:RaisesInReceive"]
            made = subprocess.run(words, env=how, capture_output=True, text=True, check=False)
            self.assertEqual(made.returncode, 1, made.stdout + made.stderr)
            self.assertRegex(made.stdout, "both: 2 passed, 1 failed, 0 not applicable")
            page = (Path(folder) / "card.html").read_text()
            self.assertIn("IndexError: list index out of range (card_drivers.py:", page)
            self.assertIn("return bytes(self.rx.buffers[99])", page)


if __name__ == "__main__":
    unittest.main()
