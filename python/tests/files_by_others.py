"""Tests with scripts, recordings and captures from elsewhere. Invalid ones are refused in one line that names the file
and its line, nothing in them acts on the terminal, and what they request is limited."""

from __future__ import annotations

import re
import struct
import tempfile
import unittest
from pathlib import Path
from unittest import mock

import nic82599
from ends import started
from nic82599.pcap import ENHANCED, INTERFACE, SECTION, SIMPLE, NoCapture, frames_of
from nic82599.tools import page, recording, refusals, regs
from nic82599.tools.forms import TOO_LARGE, explained, near_words, number_of
from nic82599.tools.nic2pcap import NoFrame, frames_in
from nic82599.tools.script import Fault, Refused

DIGITS = "9" * 5000
HEAD = "#: nic vfs 0 fifo 64 blocks 256\n"
# Sequences that act on a terminal, and a direction control that reverses the reading order.
ESCAPES = "\x1b]0;title\x07\x1b[31m red \x1b[2J \x9b31m \u202e turned \x7f\r"
ACTS = re.compile("[\x00-\x08\x0b-\x1f\x7f-\x9f\u202a-\u202e]")
# A file, the tools to run on it, their status, and a pattern of the line that they print.
LONG_NUMBERS: list[tuple[str, list[str], int, str]] = [
    (f"#: nic vfs {DIGITS} fifo 64 blocks 256\n", ["nicview --text", "niclint", "nicdebug"], 2, ":1: incomplete"),
    (HEAD + f"w 0x00000 {DIGITS} # done\n", ["nicview --text", "niclint", "nicview --script"], 2, ":2: this line"),
    (HEAD + f"#: restore {DIGITS}\n", ["nicview --text"], 2, ":2: this line of a recording"),
    (
        "#: nic vfs 64 fifo 64 blocks 2\nrx # idle\n",
        ["nicview --text", "nicview --script"],
        2,
        " can't be replayed: A controller has 63 virtual functions at most. (64 virtual functions, 64 frames, ",
    ),
    (
        "#: nic vfs 0 fifo 0 blocks 2\nrx # idle\n",
        ["nicview --text", "nicview --script"],
        2,
        " can't be replayed: The number of frames that may wait must be 1 to 4,096. "
        "(0 virtual functions, 0 frames, 2 blocks)",
    ),
    (f"w RDT[0] {DIGITS}\n", ["niclint"], 2, ":1:10: refused Range: VALUE is at most 4294967295, not 999"),
    (f"w RDT[{DIGITS}] 1\n", ["niclint"], 2, ":1:3: refused Range: RDT has 128 registers"),
    (f"# a\n# b, by: nicbench run --vfs {DIGITS} --fifo 3\nrx\n", ["nicview --text"], 0, "line 3: rx"),
]


class Files(unittest.TestCase):
    def setUp(self) -> None:
        kept = tempfile.TemporaryDirectory()
        self.addCleanup(kept.cleanup)
        self.folder = Path(kept.name)

    def file(self, text: str, name: str = "given") -> Path:
        path = self.folder / name
        path.write_text(text, newline="")
        return path

    def test_long_numbers(self) -> None:
        for text, tools, status, line in LONG_NUMBERS:
            path = self.file(text)
            for tool in tools:
                with self.subTest(text[:40], tool=tool):
                    name, *words = tool.split()
                    made = started(name, *words, str(path))
                    self.assertEqual(made.returncode, status, made.stderr)
                    output = made.stdout + made.stderr
                    self.assertIn(f"{path}{line}" if status else line, output)
                    self.assertNotIn("Traceback", output)
                    self.assertLess(max(map(len, made.stderr.splitlines()), default=0), 400)
        for word, number in (("007", 7), ("0x" + "0" * 5000 + "1f", 31), (DIGITS, TOO_LARGE)):
            self.assertEqual(number_of(word), number)

    def test_frames_that_are_none(self) -> None:
        """Invalid frames on the standard input of nic2pcap."""
        for line in (f"{DIGITS} frame queue 0 00", f"1 frame queue {DIGITS} 00", "1 frame queue 0 0", "1 frame \xff"):
            with self.file(f"0 done\n{line}\n").open() as file:
                made = started("nic2pcap", str(self.folder / "out"), stdin=file)
            self.assertEqual(made.returncode, 1, made.stderr)
            self.assertRegex(made.stderr, r"^nic2pcap: standard input:2: not a frame line: .{0,100}\n$")

    def test_escapes(self) -> None:
        script = self.file(f"r STATUS # {ESCAPES}\nw RDT[0] 1 # {ESCAPES}\nexpect 5 # {ESCAPES}\n")
        refused = self.file(f"frob{ESCAPES.split()[0]} # {ESCAPES}\n", "refused")
        notes = ESCAPES.encode("ascii", "ignore").decode()
        made = self.file(HEAD + f"# note: {notes}\nr 0x00008 # word {notes}\nrx # idle\n", "recording")
        for name, *words in (
            ("nicview", script, "--text"), ("nicview", made, "--text"), ("nicview", made, "--script"),
            ("nicview", script, "--svg", 0), ("nicview", script, "--perfetto"), ("nicview", made, "-o", "page"),
            ("nicview", made, "--text", "-o", "text"), ("niclint", script, "--trace"), ("niclint", refused),
            ("niclint", made, "--trace"), ("nicdebug", script), ("nicview", self.folder / "no\x1b[31mfile", "--text"),
            ("nicview", script, "--\x1b[31m"),
        ):  # fmt: skip
            with self.subTest(name, words=words):
                ran = started(name, *map(str, words), cwd=self.folder)
                self.assertNotIn("Traceback", ran.stderr)
                self.assertEqual(ACTS.findall(ran.stdout + ran.stderr), [])
        for name in ("page", "text"):
            self.assertEqual(ACTS.findall((self.folder / name).read_text()), [])

    def test_snapshots_have_bounds(self) -> None:
        snapshots = "".join(f"#: snapshot {k}\n" for k in range(1, 99))
        lines = HEAD + "#: lend 0 to 255 # done\n" + snapshots + "#: restore 1\n"
        path = self.file(lines)
        refused = rf"{re.escape(str(path))}:10: .*TooMuch its snapshots and frames need more than 4 MiB, "
        with mock.patch.object(recording, "MOST_HELD", 1 << 22), self.assertRaisesRegex(Fault, refused):
            recording.of_recording(str(path))
        # dropped snapshots don't count
        drops = "".join(f"#: drop {k}\n" for k in range(2, 99))
        path = self.file(lines.replace("#: restore", drops + "#: restore"))
        self.assertEqual(recording.of_recording(str(path)).last, "ok 1")
        each = "".join(f"#: snapshot {k}\n#: drop {k}\n" for k in range(1, 99))
        path = self.file(HEAD + "#: lend 0 to 255 # done\n" + each + "#: snapshot 1\n#: restore 1\n")
        with mock.patch.object(recording, "MOST_HELD", 1 << 21):
            self.assertEqual(recording.of_recording(str(path)).last, "ok 1")

    def test_frames_have_bounds(self) -> None:
        """Frames that were sent but never collected count towards the memory limit."""
        path = self.folder / "sent"
        self.assertTrue(nic82599.record(path))
        self.addCleanup(nic82599.record, None)
        with nic82599.Nic(blocks=16) as nic:
            nic.lend()
            nic["DMATXCTL"], nic["TDLEN[0]"], nic["TXDCTL[0]"] = 1, 4096, 1 << 25
            nic.settle(1)
            for slot in range(200):
                second = 1500 | 3 << 20 | 1 << 24 | 1 << 25 | 1 << 29 | 1500 << 46
                nic.memory.write(16 * slot, struct.pack("<QQ", 0x2000, second))
            nic["TDT[0]"] = 200
            nic.settle(1)
        nic82599.record(None)
        self.assertEqual(recording.of_recording(str(path)).last[:2], "ok")
        for limit in (1, 4096):
            with mock.patch.object(recording, "MOST_HELD", 1 << 18), self.assertRaisesRegex(Fault, "TooMuch"):
                recording.of_recording(str(path), limit)

    def test_refusals_have_bounds(self) -> None:
        """Fewer refusals of a long script are reported. Only the beginning of a long word is compared and shown."""

        class Refusing:
            asked = 0

            def call(self, _words: list[str], text: bytes) -> None:
                self.asked += 1
                raise Refused("UnknownName", text.decode().split("\n").index("w NOSUCH 1") + 1)

        self.assertEqual([refusals.most_of("w" * size) for size in (1, 1 << 19, 1 << 20, 1 << 23)], [100, 100, 64, 8])
        for looked, count in ((1 << 26, 100), (1 << 15, 14)):
            bench, text = Refusing(), "w NOSUCH 1\n" * 200
            with mock.patch.object(refusals, "LOOKED", looked):
                found = list(refusals.refusals(bench, text, Refused("UnknownName", 1)))  # type: ignore[arg-type]
            self.assertEqual((len(found), bench.asked), (count, count - 1))
        place = explained("w " + "RDT" * 100_000 + " 1", Refused("UnknownName", 1))
        self.assertLess(len(place.text), 400)
        with mock.patch("difflib.get_close_matches", return_value=[]) as compared:
            regs.near("A" * 100_000, ["B" * 100_000, "RDT"])
            near_words("A" * 100_000)
        self.assertLessEqual(max(len(call.args[0]) for call in compared.mock_calls), regs.MOST_COMPARED)
        self.assertEqual(compared.mock_calls[0].args[1], ["RDT"])

    def test_frames_of_a_run(self) -> None:
        """A frame in the output of `nicbench run` has two digits per byte."""
        self.assertEqual(list(frames_in(["7 frame queue 3 0aff"])), [(7, 3, b"\x0a\xff")])
        for line in ("7 frame queue 3 0af", "7 frame queue 3 0A", "7 frame queue 3 0a 0b"):
            with self.assertRaises(NoFrame):
                list(frames_in([line]))

    def test_a_name_that_is_a_mark(self) -> None:
        """A page's title is the file's name, even if it looks like one of the template's marks."""
        for name in ("{{CODE}}", "{{DATA}}", "{{TITLE}}", "a</title><b>"):
            made = page.page({"name": name})
            shown = name.replace("<", "&lt;")
            self.assertIn(f"<title>{shown}: a run on the bench</title>", made)
            self.assertEqual(made.count('"use strict"'), page.page({"name": ""}).count('"use strict"'))

    def test_captures(self) -> None:
        """A frame must fit its block, a section must have a byte order, and a missing part counts as truncated."""
        section = struct.pack("<IIIHHqI", SECTION, 28, 0x1A2B3C4D, 1, 0, -1, 28)
        interface = struct.pack("<IIHHII", INTERFACE, 20, 1, 0, 0, 20)
        frame = struct.pack("<IIIIIII", ENHANCED, 96, 0, 0, 0, 64, 64) + bytes(64) + struct.pack("<I", 96)
        whole = section + interface + frame
        self.assertEqual(list(frames_of(whole)), [bytes(64)])
        unknown = struct.pack("<III", 0xBAD, 12, 12)
        self.assertEqual(list(frames_of(whole + unknown)), [bytes(64)])
        simple = struct.pack("<III", SIMPLE, 20, 5) + bytes(4) + struct.pack("<I", 20)
        for data, why in (
            (whole[:-1], "is cut off"), (whole + unknown[:-1], "is cut off"), (whole + whole[:20], "is cut off"),
            (section.replace(b"\x4d\x3c\x2b\x1a", b"\x4d\x3c\x2b\x1b"), "byte order"),
            (section + interface + frame.replace(struct.pack("<II", 64, 64), struct.pack("<II", 68, 68)), "its block"),
            (section + interface + simple, "its block"),
            (section + struct.pack("<IIII", INTERFACE, 16, 1, 16), "16 bytes"),
            (section + struct.pack("<II", 5, 1 << 28), "impossible size of 268435456 bytes"),
        ):  # fmt: skip
            with self.subTest(why), self.assertRaisesRegex(NoCapture, why):
                list(frames_of(data))


if __name__ == "__main__":
    unittest.main()
