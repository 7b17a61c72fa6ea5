#!/usr/bin/env python3
"""Tests the program at the other end of the cable in drivers/qemu/run --measure: other_end.py PROGRAM FOLDER.

The test is the card. It takes the program's numbered frames and sends them back with swapped addresses, as a guest
sends frames with these numbers. The program must count each frame that arrives unchanged, and no other.
"""

from __future__ import annotations

import socket
import subprocess
import sys
from collections.abc import Callable
from dataclasses import dataclass
from pathlib import Path

CARD, PEER = bytes.fromhex("020000008299"), bytes.fromhex("020000000001")
COUNT = 3  # frames that the test sends
MANY = 20_000  # as many as measure.py expects


@dataclass
class Case:
    """What happens to the frames on their way back, and what the program must answer to `came`."""

    name: str
    change: Callable[[list[bytes]], list[bytes]]
    answer: str  # without the number of expected frames


def altered(frames: list[bytes]) -> list[bytes]:
    return [*frames[:-1], frames[-1][:-1] + bytes([frames[-1][-1] ^ 1])]


CASES = [
    Case("all", lambda frames: frames, "3 of {}, twice 0, wrong 0"),
    Case("in reverse", lambda frames: frames[::-1], "3 of {}, twice 0, wrong 0"),
    Case("one missing", lambda frames: frames[1:], "2 of {}, twice 0, wrong 0"),
    Case("one altered", altered, "2 of {}, twice 0, wrong 1"),
    Case("one longer", lambda frames: [*frames[:-1], frames[-1] + b"\0"], "2 of {}, twice 0, wrong 1"),
    Case("one twice", lambda frames: [*frames, frames[0]], "3 of {}, twice 1, wrong 0"),
    Case("none", lambda _: [], "0 of {}, twice 0, wrong 0"),
]


def swapped(frame: bytes) -> bytes:
    """Returns the frame as its receiver would send it back."""
    return frame[6:12] + frame[:6] + frame[12:]


def question() -> bytes:
    """Returns the ARP request for 10.0.0.1, padded to 60 bytes."""
    arp = bytes.fromhex("0806 0001 0800 0604 0001") + CARD + bytes([10, 0, 0, 2]) + bytes(6) + bytes([10, 0, 0, 1])
    return (b"\xff" * 6 + CARD + arp).ljust(60, b"\0")


class OtherEnd:
    """The program, with its standard input and its wire."""

    def __init__(self, program: str, path: Path) -> None:
        self.process = subprocess.Popen([program, str(path)], text=True, bufsize=1, stdin=subprocess.PIPE,
                                        stdout=subprocess.PIPE)
        self.ask("came")  # it answers when it listens
        self.wire = socket.socket(socket.AF_UNIX)
        self.wire.connect(str(path))
        self.frames = self.wire.makefile("rb")
        self.settle()

    def ask(self, words: str) -> list[str]:
        """Returns the lines of the answer, without the "ok"."""
        assert self.process.stdin and self.process.stdout
        self.process.stdin.write(f"{words}\n")
        lines = []
        for line in self.process.stdout:
            if line == "ok\n":
                return lines
            lines.append(line.rstrip())
            assert not line.startswith("error"), f"{words}: {line}"
        raise AssertionError(f"{words}: the program ended after {lines}")

    def take(self) -> bytes:
        length = int.from_bytes(self.frames.read(4), "big")
        frame = self.frames.read(length)
        assert len(frame) == length > 0, "the program closed the wire"
        return frame

    def give(self, frame: bytes) -> None:
        self.wire.sendall(len(frame).to_bytes(4, "big") + frame)

    def settle(self) -> None:
        """Waits until the program has taken all frames sent so far: it answers a question after them."""
        self.give(question())
        answer = self.take()
        assert answer[:12] == CARD + PEER and answer[20:22] == b"\0\2", answer.hex()

    def end(self) -> None:
        assert self.process.stdin
        self.process.stdin.close()
        status = self.process.wait()
        assert status == 0, f"status {status}"


def check(end: OtherEnd, case: Case, expected: int, most: int) -> None:
    where = f"{expected} frames of 60 to {most} bytes, {case.name}"
    end.ask(f"expect {expected} {most}")
    end.ask(f"frames {COUNT} {most}")
    frames = [end.take() for _ in range(COUNT)]
    assert all(it[:12] == CARD + PEER and 60 <= len(it) <= most for it in frames), where
    for frame in case.change([swapped(it) for it in frames]):
        end.give(frame)
    end.settle()
    [answer] = end.ask("came")
    assert answer.startswith(case.answer.format(expected) + ", in "), f"{where}: {answer}"


def main(words: list[str]) -> int:
    path = Path(words[1]) / "wire"
    end = OtherEnd(words[0], path)
    for most in (60, 1514):
        for case in CASES:
            check(end, case, COUNT, most)
            check(end, case, MANY, most)
    end.end()
    assert not path.exists(), f"{path} is left"
    print(f"other_end: {4 * len(CASES)} cases passed")
    return 0


if __name__ == "__main__":
    sys.exit(main(sys.argv[1:]))
