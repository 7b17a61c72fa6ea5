"""Tests of how the tools exit: if their output can't be written, if its reader is gone, and with --version."""

from __future__ import annotations

import os
import subprocess
import sys
import tempfile
import unittest
from pathlib import Path
from typing import Any

from nic82599 import __version__, write_pcap

ROOT = Path(__file__).resolve().parents[2]
SCRIPT = str(ROOT / "examples/queue.nic")
TOOLS = sorted(it.name for it in (ROOT / "tools").iterdir())
# The tools for frames have status 1 for anything that they can't read or write.
UNWRITTEN = {"pcap2nic": 1, "nic2pcap": 1, "nicframe": 1}
FULL = "standard output can't be written (No space left on device)"


def started(name: str, *words: str, **how: Any) -> subprocess.CompletedProcess[str]:
    """Starts a tool with buffered output, which is the default."""
    plain = {key: value for key, value in os.environ.items() if key != "PYTHONUNBUFFERED"}
    call = [sys.executable, ROOT / "tools" / name, *words]
    how = {"stdin": subprocess.DEVNULL, "stdout": subprocess.PIPE, **how}
    return subprocess.run(call, stderr=subprocess.PIPE, text=True, env=plain, check=False, **how)


class Ends(unittest.TestCase):
    def setUp(self) -> None:
        kept = tempfile.TemporaryDirectory()
        self.addCleanup(kept.cleanup)
        capture = Path(kept.name) / "frames.pcap"
        write_pcap(capture, [bytes(60)] * 1000)
        self.calls = [
            ("niclint", SCRIPT), ("niclint", SCRIPT, "--trace"), ("nicdebug", SCRIPT), ("nicview", SCRIPT),
            ("nicview", SCRIPT, "--text"), ("nicview", SCRIPT, "--svg", "3"), ("pcap2nic", str(capture)),
            ("nicframe", "tcp", "10.0.0.1:1", "10.0.0.2:2", "--count", "500"),
        ]  # fmt: skip

    def test_full(self) -> None:
        """If its output can't be written, a tool prints one line instead of a traceback."""
        for name, *words in self.calls + [(it, word) for it in TOOLS for word in ("--help", "--version")]:
            with self.subTest(name, words=words), open("/dev/full", "w") as full:
                made = started(name, *words, stdout=full)
                want = (UNWRITTEN.get(name, 2), f"{name}: {FULL}\n")
                self.assertEqual((made.returncode, made.stderr), want)

    def test_nobody_reads(self) -> None:
        for name, *words in self.calls:
            with self.subTest(name, words=words):
                read, write = os.pipe()
                os.close(read)
                with open(write, "w") as nobody:
                    made = started(name, *words, stdout=nobody)
                self.assertEqual((made.returncode, made.stderr), (0, ""))

    def test_closed(self) -> None:
        for name, *words in self.calls:
            with self.subTest(name, words=words):
                made = started(name, *words, preexec_fn=lambda: os.close(1))
                self.assertEqual((made.returncode, made.stderr), (0, ""))

    def test_versions(self) -> None:
        for name in TOOLS:
            made = started(name, "--version")
            self.assertEqual((made.returncode, made.stdout, made.stderr), (0, f"{name} {__version__}\n", ""))
