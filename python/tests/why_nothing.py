"""Tests of `Nic.why` with the setups in rust/nic82599/tests/why.cases, of single steps, and of what the pytest plugin
adds to a failed test."""

from __future__ import annotations

import contextlib
import os
import re
import subprocess
import sys
import tempfile
import unittest
from collections.abc import Iterator
from pathlib import Path

import nic82599
from explorer import with_pytest
from nic82599 import Message, Nic

ROOT = Path(__file__).resolve().parents[2]
PLACEHOLDER = "rx"


def numbers(words: list[str]) -> list[int]:
    return [int(word, 0) for word in words]


def make(nic: Nic, line: str) -> None:
    """Runs a line of a setup."""
    word, *rest = line.split()
    given = numbers(rest)
    if word == "w":
        nic.write32(*given)
    elif word == "vw":
        nic.vf(given[0]).write32(*given[1:])
    elif word == "lend":
        nic.lend(*range(*given))
    elif word == "put":
        bus, first, second = given
        with contextlib.suppress(nic82599.NotLent):
            nic.memory.write(bus, first.to_bytes(8, "little") + second.to_bytes(8, "little"))
    elif word == "arrive":
        last, length, first = [*given, 60, 0][:2] + [given[2] if given[2:] else 0]
        to = bytes([first] * 5 if first else [2, 0, 0, 0, 0]) + bytes([last])
        nic.arrive((to + bytes.fromhex("020000000009080045")).ljust(length, b"\0"))
    elif word == "int":
        nic.int_step(given[0] - 1 if given[0] else None)
    else:
        {"settle": nic.settle, "rx": nic.rx_step, "take": nic.take, "link": nic.link}[word](*given)


def cases() -> Iterator[tuple[str, list[str], list[str]]]:
    """Yields the name of each case, the lines of its setup, and the expected output."""
    lines = [line.rstrip() for line in (ROOT / "rust/nic82599/tests/why.cases").read_text().splitlines()]
    base, *parts = re.split(r"^case ", "\n".join(lines), flags=re.M)
    labelled = dict(part for line in bare(base) if len(part := line.split(": ", 1)) == 2)
    for part in parts:
        name, _, rest = part.partition("\n")
        yield name, set_up(labelled, bare(rest)), [line[2:] for line in rest.splitlines() if line.startswith("> ")]


def bare(text: str) -> list[str]:
    """Returns lines without their comments and without the expected output."""
    found = [line.partition("#")[0].strip() for line in text.splitlines() if not line.startswith(">")]
    return [line for line in found if line]


def set_up(base: dict[str, str], lines: list[str]) -> list[str]:
    """Returns the lines of a case: the base with its changes, and its own lines."""
    made, more = ({} if "alone" in lines else dict(base)), []
    for line in lines:
        label, _, rest = line.partition(": ")
        if line.startswith("without "):
            made[line.split()[1]] = PLACEHOLDER
        elif rest and label in made:
            made[label] = rest
        elif line != "alone":
            more.append(line)
    return [*made.values(), *more]


class Why(unittest.TestCase):
    def test_cases(self) -> None:
        count = 0
        for name, lines, wanted in cases():
            with self.subTest(name), Nic(2, 8, 8) as nic:
                for line in lines:
                    make(nic, line)
                self.assertEqual(nic.why().splitlines(), wanted)
            count += 1
        self.assertGreater(count, 45)

    def test_long(self) -> None:
        """An explanation longer than the first buffer is returned complete."""
        with Nic(fifo=1, blocks=1) as nic:
            for queue in range(128):
                nic[f"RDLEN[{queue}]"] = 128
            reasons = nic.why().splitlines()
            self.assertEqual(len([line for line in reasons if line.endswith("the queue is off")]), 128)
            self.assertEqual(reasons[-1], "rx 127: SRRCTL[127].DESCTYPE 0: the bench supports only 1")

    def test_restored(self) -> None:
        """Drops are counted since the restored snapshot, separately for each controller."""
        frame = bytes([2, 0, 0, 0, 0, 9]) + bytes(54)
        with Nic(blocks=1) as nic, Nic(blocks=1) as other, nic.snapshot() as kept:
            for _ in range(2):
                nic.arrive(frame)
            other["RXCTRL"] = 1
            other.arrive(frame)
            self.assertEqual(nic.why(), "2 frames were dropped: RXCTRL.RXEN was 0")
            self.assertIn("1 frame was dropped: FCTRL.UPE was 0", other.why())
            nic.restore(kept)
            self.assertEqual(nic.why(), "")
            nic.arrive(frame)
            self.assertEqual(nic.why(), "1 frame was dropped: RXCTRL.RXEN was 0")

    def test_example(self) -> None:
        """The example prints the stored text."""
        example = ROOT / "python/examples/why.py"
        how = {**os.environ, "PYTHONPATH": str(ROOT / "python"), "PYTHONDONTWRITEBYTECODE": "1"}
        ran = subprocess.run([sys.executable, example], env=how, capture_output=True, text=True, check=True)
        self.assertEqual(ran.stdout, example.with_suffix(".out").read_text())

    def test_closed(self) -> None:
        nic = Nic()
        nic.close()
        with self.assertRaises(nic82599.Closed):
            nic.why()


class Steps(unittest.TestCase):
    def test_same_as_settle(self) -> None:
        for name, lines, _ in cases():
            with self.subTest(name), Nic(2, 8, 8) as left, Nic(2, 8, 8) as right:
                for line in lines:
                    make(left, line)
                    make(right, line)
                self.assertEqual(list(left.steps(4)), right.settle(4))

    def test_handler(self) -> None:
        with Nic() as nic:
            nic["EIMS"] = nic["EICS"] = 3
            steps = nic.steps(1)
            self.assertEqual(next(steps), Message(None, 0))
            nic["EIMC"] = 3
            self.assertEqual(list(steps), [])

    def test_refused(self) -> None:
        with Nic() as nic, self.assertRaises(nic82599.NoQueue):
            next(nic.steps(129))


FAILING = '''
import gc

import pytest
from nic82599 import Nic


def broken():
    nic = Nic()
    nic.lend()
    nic["RDLEN"], nic["SRRCTL"], nic["RXDCTL"] = 128, 0x0200_0002, 0x0200_0000
    nic.settle(1)
    return nic


@pytest.fixture
def given():
    with broken() as nic:
        yield nic


@pytest.fixture(scope="session")
def shared():
    with broken() as nic:
        yield nic


def test_in_a_with():
    with broken() as nic:
        assert nic["RDH"] == 1


def test_by_a_fixture(given):
    assert given["RDH"] == 1


def test_of_a_session(shared):
    pass


def test_of_a_session_again(shared):
    assert shared["RDH"] == 1


def test_still_open():
    nic = broken()
    assert nic["RDH"] == 1


def test_two():
    one, two = broken(), Nic()
    two["EICS"] = 1
    assert False


def test_gone():
    broken()
    Nic().close()
    with broken():
        pass
    gc.collect()
    assert False


def test_nothing_waits():
    nic = Nic()
    assert False


def test_dropped():
    nic = Nic()
    nic["RXCTRL"] = 1
    assert nic.arrive(bytes([2, 0, 0, 0, 0, 9]) + bytes(54)) is None


def test_fine():
    assert broken()["RDH"] == 0
'''
OFF = "RXCTRL.RXEN 0: receiving is off\nrx 0: RDH[0] 0, RDT[0] 0: head and tail meet"


@unittest.skipUnless(with_pytest(), "pytest isn't installed")
class Plugin(unittest.TestCase):
    def printed(self, *words: str) -> str:
        """Runs pytest and returns its output."""
        with tempfile.TemporaryDirectory() as folder:
            (Path(folder) / "test_broken.py").write_text(FAILING)
            path = f"{ROOT / 'python'}:{os.environ.get('PYTHONPATH', '')}"
            how = {**os.environ, "PYTHONPATH": path, "PYTHONDONTWRITEBYTECODE": "1"}
            line = [with_pytest() or "", "-m", "pytest", "-p", "nic82599.pytest_plugin", "-p", "no:cacheprovider"]
            ran = subprocess.run([*line, *words, folder], cwd=folder, env=how, capture_output=True, text=True)
            return ran.stdout + ran.stderr

    def test_sections(self) -> None:
        text = self.printed()
        self.assertIn("8 failed, 2 passed", text)
        parts = dict(re.findall(r"^_+ (test_\w+) _+$(.*?)(?=^_+ test_|^=+ short)", text, re.M | re.S))
        for name in ("in_a_with", "by_a_fixture", "of_a_session_again", "still_open", "two"):
            self.assertIn(OFF, parts[f"test_{name}"], name)
            self.assertIn("why nothing happens in <Nic of 0 virtual functions and 256 blocks", parts[f"test_{name}"])
        self.assertIn("EICR 0x00000001 (RTxQ[0]), EIMS 0x00000000", parts["test_two"])
        self.assertIn("256 blocks> (2 of 2)", parts["test_two"])
        self.assertIn("1 frame was dropped: FCTRL.UPE was 0", parts["test_dropped"])
        self.assertIn("the last one was addressed to 02:00:00:00:00:09", parts["test_dropped"])
        for name in ("gone", "nothing_waits"):
            self.assertNotIn("why nothing happens", parts[f"test_{name}"], name)
        self.assertEqual(text.count("why nothing happens"), 7)


if __name__ == "__main__":
    unittest.main()
