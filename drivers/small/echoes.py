"""The far end of a small kernel's wire: sends frames, and checks that each comes back correctly, even after the wire
was unplugged.

    echoes.py RUN FRAMES [--own] WORDS..

drivers/small/run calls it with the script that boots a kernel, the number of frames to send, and the words for that
script. With --own, the kernel is the user's: nothing that it prints is expected. The wire uses the format of QEMU's
`-netdev stream`: each frame follows its length, four bytes in big-endian order.
"""

from __future__ import annotations

import contextlib
import os
import random
import re
import socket
import subprocess
import sys
import tempfile
import threading
import time
from collections.abc import Sequence
from pathlib import Path

SECONDS = float(os.environ.get("ECHO_SECONDS", "60"))  # seconds to wait for a line from the kernel, or for a frame
FETCHING = 3600.0  # seconds to wait until QEMU has been fetched
PROBING = 1.0  # seconds between the frames that find out whether the user's kernel is ready
ON_THE_WAY = 32  # frames in flight: fewer than the kernel's ring has slots
LATER = 200  # frames after the wire is plugged in again
SHOWN = 15  # lines of the console that are printed after a failure
KEPT = 1 << 20  # characters of the console that are kept at least
OWN = bytes.fromhex("020000000001")
USUAL = bytes.fromhex("020000008299")  # the card's address without --mac
KIND = b"\x88\xb5"  # the frames' type, for local experiments
PROBE = 0xFFFFFFFF  # the number of a probe


class Wrong(Exception):
    """A check failed."""


class Kernel:
    """QEMU with the kernel on its card, and its console. What the scripts and the server report goes to standard
    error."""

    def __init__(self, run: str, words: Sequence[str], wire: Path) -> None:
        at = words.index("--") if "--" in words else len(words)
        line = [run, *words[:at], f"--server=--wire=listen:{wire}", *words[at:]]
        self.process = subprocess.Popen(line, stdin=subprocess.PIPE, stdout=subprocess.PIPE, bufsize=0)
        self.text, self.at, self.has_ended = "", 0, False
        self.changed = threading.Condition()
        threading.Thread(target=self.read_all, daemon=True).start()

    def read_all(self) -> None:
        """Reads the console until it ends. If nothing read it, a kernel that prints a lot would hang."""
        assert self.process.stdout
        while came := os.read(self.process.stdout.fileno(), 65536):
            self.keep(came.decode(errors="replace").replace("\r", ""))
        with self.changed:
            self.has_ended = True
            self.changed.notify_all()

    def keep(self, text: str) -> None:
        """Adds text to the console, and forgets the oldest if there is too much."""
        with self.changed:
            self.text += text
            if (extra := len(self.text) - KEPT) > KEPT:
                self.text, self.at = self.text[extra:], max(0, self.at - extra)
            self.changed.notify_all()

    def wait_for(self, pattern: str, seconds: float = SECONDS) -> re.Match[str]:
        """Waits for a line that matches the pattern, after those already matched."""
        limit = time.monotonic() + seconds
        with self.changed:
            while not (found := re.compile(pattern, re.MULTILINE).search(self.text, self.at)):
                left = limit - time.monotonic()
                if self.has_ended or left <= 0:
                    end = "and ended" if self.has_ended else f"in {seconds:.0f} s"
                    raise Wrong(f"the kernel didn't print {pattern!r} {end}")
                self.changed.wait(left)
            self.at = found.end()
            return found

    def skip(self) -> None:
        """Treats all that the console has shown as matched."""
        with self.changed:
            self.at = len(self.text)

    def last_lines(self) -> str:
        """Returns the end of the console, without terminal control sequences."""
        with self.changed:
            text = self.text
        lines = re.sub(r"\x1b\[[0-9;?]*[A-Za-z]|\x1bc", "", text).strip().splitlines()
        return "\n".join(f"  {line}" for line in lines[-SHOWN:])

    def end(self) -> str:
        """Ends QEMU through its console keys. Returns the server's output after that."""
        assert self.process.stdin
        with contextlib.suppress(BrokenPipeError):
            self.process.stdin.write(b"\x01x")
        with self.changed:
            self.changed.wait_for(lambda: self.has_ended, SECONDS)
        self.process.terminate()
        self.process.wait(timeout=SECONDS)
        with self.changed:
            return self.text[self.at :]


class Wire:
    """A connection to the card's wire."""

    def __init__(self, path: Path) -> None:
        self.socket = socket.socket(socket.AF_UNIX)
        self.socket.connect(str(path))
        self.came = b""

    def send(self, frame: bytes) -> None:
        self.socket.settimeout(SECONDS)
        self.socket.sendall(len(frame).to_bytes(4, "big") + frame)

    def any_frame(self, seconds: float) -> bytes:
        """Returns the next frame. Raises TimeoutError if it doesn't arrive in time."""
        self.socket.settimeout(seconds)
        while len(self.came) < 4 or len(self.came) < 4 + int.from_bytes(self.came[:4], "big"):
            part = self.socket.recv(65536)
            if not part:
                raise Wrong("the card closed the connection")
            self.came += part
        end = 4 + int.from_bytes(self.came[:4], "big")
        frame, self.came = self.came[4:end], self.came[end:]
        return frame

    def receive(self, left: int) -> bytes:
        """Returns the next frame of the test. Ignores what a kernel sends by itself, and probes that came late."""
        while True:
            try:
                frame = self.any_frame(SECONDS)
            except TimeoutError:
                raise Wrong(f"no frame came back for {SECONDS:.0f} s, and {left} were on the way") from None
            if frame[12:14] == KIND and frame[14:18] != PROBE.to_bytes(4, "big"):
                return frame


def made(card: bytes, number: int, rest: bytes) -> tuple[bytes, bytes]:
    """Returns a frame to the card, and what must come back."""
    end = KIND + number.to_bytes(4, "big") + rest
    return card + OWN + end, OWN + card + end


def echo_all(wire: Wire, card: bytes, count: int, chance: random.Random) -> None:
    """Sends `count` frames of 60 to 1,514 bytes, and compares each that comes back, in order."""
    waiting: list[bytes] = []
    for number in range(count):
        frame, wanted = made(card, number, chance.randbytes(chance.randint(42, 1_496)))
        wire.send(frame)
        waiting.append(wanted)
        if len(waiting) == ON_THE_WAY:
            compare(wire.receive(len(waiting)), waiting.pop(0))
    while waiting:
        compare(wire.receive(len(waiting)), waiting.pop(0))


def compare(came: bytes, wanted: bytes) -> None:
    if came != wanted:
        number = int.from_bytes(wanted[14:18], "big")
        at = next((k for k, (one, other) in enumerate(zip(came, wanted)) if one != other), min(len(came), len(wanted)))
        raise Wrong(f"frame {number}: {len(came)} of {len(wanted)} bytes came back; at byte {at}: "
                    f"{came[at:at + 16].hex()}, expected: {wanted[at:at + 16].hex()}")


def probe(wire: Wire, card: bytes) -> None:
    """Sends frames until one comes back: the user's kernel is ready."""
    frame, wanted = made(card, PROBE, bytes(42))
    for _ in range(int(SECONDS / PROBING)):
        wire.send(frame)
        limit = time.monotonic() + PROBING
        with contextlib.suppress(TimeoutError):
            while (left := limit - time.monotonic()) > 0:
                if wire.any_frame(left) == wanted:
                    return
    raise Wrong(f"no frame came back in {SECONDS:.0f} s; each must come back to its sender, from {card.hex(':')}")


def run(kernel: Kernel, path: Path, frames: int) -> None:
    """The check of the kernel in this folder, which prints what it finds."""
    chance = random.Random(82599)
    kernel.wait_for("^kernel: started$")
    card = bytes.fromhex(kernel.wait_for(r"^kernel: card ([0-9a-f:]{17})$")[1].replace(":", ""))
    kernel.wait_for("^kernel: link up$")
    wire = Wire(path)
    timed(wire, card, frames, chance)
    wire.socket.close()
    kernel.wait_for("^kernel: link down$")
    wire = Wire(path)
    kernel.wait_for("^kernel: link up$")
    later(wire, card, chance)


def run_own(path: Path, card: bytes, frames: int) -> None:
    """The same check of the user's kernel, whose console means nothing to it."""
    chance = random.Random(82599)
    wire = Wire(path)
    probe(wire, card)
    timed(wire, card, frames, chance)
    wire.socket.close()
    time.sleep(PROBING)
    wire = Wire(path)
    probe(wire, card)
    later(wire, card, chance)


def timed(wire: Wire, card: bytes, frames: int, chance: random.Random) -> None:
    began = time.monotonic()
    echo_all(wire, card, frames, chance)
    print(f"{frames:,} frames came back unchanged, in {time.monotonic() - began:.1f} s", flush=True)


def later(wire: Wire, card: bytes, chance: random.Random) -> None:
    echo_all(wire, card, LATER, chance)
    print(f"the wire was unplugged and plugged in again, and {LATER} more frames came back", flush=True)
    wire.socket.close()


def why(control: str) -> str:
    """Returns the server's answer to `why`, or an empty string if the server has ended."""
    text = ""
    with contextlib.suppress(OSError), socket.socket(socket.AF_UNIX) as asked:
        asked.settimeout(SECONDS)
        asked.connect(control)
        asked.sendall(b"why\n")
        while not re.search(r"^(ok|error:.*)$", text, re.MULTILINE) and (part := asked.recv(65536)):
            text += part.decode(errors="replace")
    return "\n".join(f"  {line}" for line in text.splitlines() if line != "ok")


def card_of(words: Sequence[str]) -> bytes:
    """Returns the card's address: the one given to the server, or the usual one."""
    given = [it.removeprefix("--server=--mac=") for it in words if it.startswith("--server=--mac=")]
    return bytes.fromhex(given[-1].replace(":", "")) if given else USUAL


def wrong_interrupts(words: Sequence[str], output: str) -> str:
    """Returns what is wrong with the interrupts that the server counted for this folder's kernel."""
    if "--server=--interrupts=msi" in words:
        return "" if re.search(r" MSI:[1-9]", output) else "no MSI was sent"
    is_kvm = "accel=kvm" in words and not re.search(r"INTx:\d+ \(unmasked by an eventfd [1-9]", output)
    return "the line was never unmasked by an eventfd" if is_kvm else ""


def failed(kernel: Kernel, fault: Exception, control: str, words: Sequence[str]) -> int:
    """Prints what is known about a failure. Returns the status."""
    if not control:  # drivers/qemu/run has reported why
        print("drivers/small/run: no guest was started", file=sys.stderr)
        return 2
    reasons = why(control)
    text = f"drivers/small/run: {fault}\nthe console's last lines:\n{kernel.last_lines()}\n"
    text += f"the server's answer to `why`:\n{reasons}\n" if reasons else ""
    if "accel=kvm" in words:
        text += "Not every KVM runs every instruction: see the paragraph on `iret` in drivers/small/README.md.\n"
    print(text, end="", file=sys.stderr)
    kernel.skip()
    print(kernel.end().strip())
    return 1


def main(script: str, frames: int, words: Sequence[str]) -> int:
    is_own, words = words[0] == "--own", [it for it in words if it != "--own"]
    with tempfile.TemporaryDirectory(prefix="small-") as folder:
        path, control = Path(folder) / "wire", ""
        kernel = Kernel(script, words, path)
        try:
            control = kernel.wait_for(r"^drivers/qemu/run: .*control socket is (\S+)$", FETCHING)[1]
            if is_own:
                run_own(path, card_of(words), frames)
                kernel.skip()
            else:
                run(kernel, path, frames)
        except (Wrong, OSError) as fault:
            return failed(kernel, fault, control, words)
        output = kernel.end().strip()
        print(output)
    if not is_own and (fault := wrong_interrupts(words, output)):
        print(f"drivers/small/run: {fault}", file=sys.stderr)
        return 1
    return 0


if __name__ == "__main__":
    sys.exit(main(sys.argv[1], int(sys.argv[2]), sys.argv[3:]))
