#!/usr/bin/env python3
"""Compares the card of nic82599-vfio-user with QEMU's own e1000e and igb: same QEMU, guest, commands and other end.

    measure.py FETCHED OUT SERVER TURNS

drivers/qemu/run --measure calls it. The cards take turns. The output is a Markdown table with the best value of each
figure, because other work on the machine can only make a figure worse.
"""

from __future__ import annotations

import os
import platform
import re
import subprocess
import sys
import tempfile
from collections.abc import Iterator
from contextlib import contextmanager
from dataclasses import dataclass
from pathlib import Path

sys.dont_write_bytecode = True
from guests import (  # noqa: E402
    HERE,
    Guest,
    Machine,
    Place,
    Server,
    Wrong,
    answer_of,
    begin,
    device,
    has,
    running,
    started,
)  # fmt: skip

READS, WRITES, FRAMES = 20_000, 100_000, 20_000  # register reads and writes; frames each way
MEGABYTES = 32  # sent from one guest to the other


@dataclass
class Card:
    """A network card: its driver, and a mask register to which writing 0 has no effect."""

    name: str
    module: str
    mask: str


CARDS = [Card("82599", "ixgbe", "888"), Card("e1000e", "e1000e", "d8"), Card("igb", "igb", "1528")]


@dataclass
class Figure:
    """A row in the table: its name and unit, and whether more is better."""

    name: str
    unit: str
    is_rate: bool


FIGURES = [
    Figure("QEMU's start to carrier", "s", False),
    Figure("driver's start to carrier", "s", False),
    Figure("QEMU's start to the first echo reply", "s", False),
    Figure("register reads", "per second", True),
    Figure("register writes", "per second", True),
    Figure("60-byte frames out", "per second", True),
    Figure("60-byte frames in", "per second", True),
    Figure("60- to 1,514-byte frames out", "per second", True),
    Figure("60- to 1,514-byte frames in", "per second", True),
    Figure(f"{MEGABYTES} MiB over HTTP, guest to guest", "MB per second", True),
]


def built(place: Place, name: str) -> Path:
    """Returns the path of a program that `make -C c/vfio-user measure` builds."""
    return place.program.parent / "vfio-user" / name


class OtherEnd:
    """The program at the other end of the cable. It accepts the same requests as the server's control socket."""

    def __init__(self, place: Place) -> None:
        self.folder = Path(tempfile.mkdtemp(prefix="other.", dir=place.folder))
        self.path = self.folder / "wire"
        self.process = started([built(place, "other_end"), self.path], stdin=subprocess.PIPE, stdout=subprocess.PIPE)

    def ask(self, words: str) -> list[str]:
        assert self.process.stdin and self.process.stdout
        self.process.stdin.write(f"{words}\n".encode())
        self.process.stdin.flush()
        return answer_of(raw.decode() for raw in self.process.stdout)

    def end(self) -> None:
        self.process.terminate()
        self.process.wait()


@contextmanager
def plugged(place: Place, card: Card, name: str, wire: str, mac: str) -> Iterator[list[str]]:
    """Returns QEMU's arguments for a guest with the card; `wire` is stream:PATH or listen:PATH."""
    way, _, path = wire.partition(":")
    if card.name == "82599":
        server = Server(place, name, f"--wire={wire}", f"--mac={mac}")
        with running(server):
            yield device(server.path)
            server.end()
        return
    serves = "on" if way == "listen" else "off"
    yield ["-netdev", f"stream,id=n0,server={serves},addr.type=unix,addr.path={path}",
           "-device", f"{card.name},bus=rp,netdev=n0,mac={mac}"]


MACS = ("02:00:00:00:82:99", "02:00:00:00:82:9a")


def seconds_in(text: str, pattern: str) -> float:
    found = re.search(pattern, text, re.MULTILINE)
    if not found:
        raise Wrong(f"no line matches {pattern!r}; the last are:\n" + "\n".join(text.splitlines()[-20:]))
    return max(1e-6, float(found[1]))


def alone(place: Place, card: Card) -> list[float]:
    """Measures all figures but the last, in one guest."""
    script = (HERE / "guest/measure.sh").read_text()
    counts = {"READS": READS, "WRITES": WRITES, "FRAMES": FRAMES}
    for name, value in ({"MODULE": card.module, "MASK": card.mask} | counts).items():
        script = script.replace(name, str(value))
    other = OtherEnd(place)
    # otherwise a program may not map a driver's registers
    machine = Machine(place, "kernel-6.1", script, modules=(card.module,), append="iomem=relaxed")
    with plugged(place, card, "card", f"stream:{other.path}", MACS[0]) as words:
        guest = machine.start("guest", other, *words)
        try:
            text = guest.end()
        finally:
            guest.kill()
    other.end()
    has(text, "guest", "3 packets received")
    if card.name == "82599":
        none_wrong(text, card)
    counts = ", ".join(f"{it.count:,}" for it in arrived(text))
    print(f"{card.name}: of {FRAMES:,} frames arrived {counts}", file=sys.stderr, flush=True)
    return [guest.when("guest: carrier at"), *figures_of(text, guest)]


def none_wrong(text: str, card: Card) -> None:
    """Requires that no frame arrived twice or with changed bytes. Frames that are lost because of a full ring or a late
    guest only lower the rate."""
    for end in (rf"^control: \d+ of {FRAMES}, twice 0, wrong 0", rf"^frames: received \d+ of {FRAMES} .* wrong 0$"):
        if len(re.findall(end, text, re.MULTILINE)) != 2:
            raise Wrong(f"{card.name}: frames arrived twice or changed:\n" + "\n".join(text.splitlines()[-20:]))


@dataclass
class Arrived:
    """How many frames arrived, and the seconds from the first to the last."""

    count: int
    seconds: float


def arrived(text: str) -> list[Arrived]:
    """Returns what arrived in the order of the figures: out, in, and both again with longer frames."""
    ways = []
    for begin in ("control: ", "frames: received "):
        found = re.findall(rf"^{begin}(\d+) of {FRAMES}\b.* in ([\d.]+) s", text, re.MULTILINE)
        ways.append([Arrived(int(count), float(seconds)) for count, seconds in found])
    if [len(it) for it in ways] != [2, 2]:
        raise Wrong("a count of frames is missing; the last lines are:\n" + "\n".join(text.splitlines()[-20:]))
    return [it for pair in zip(*ways) for it in pair]


def figures_of(text: str, guest: Guest) -> list[float]:
    loaded, carrier = seconds_in(text, r"^guest: loads at ([\d.]+)"), seconds_in(text, r"^guest: carrier at ([\d.]+)")
    reads = READS / seconds_in(text, r"^registers: \d+ reads in ([\d.]+) s")
    writes = WRITES / seconds_in(text, r"^registers: \d+ writes in ([\d.]+) s")
    rates = [it.count / max(1e-6, it.seconds) for it in arrived(text)]
    return [carrier - loaded, guest.when("bytes from 10.0.0.1"), reads, writes, *rates]


def between_two(place: Place, card: Card) -> float:
    """Returns the HTTP throughput from one guest to another, in megabytes per second."""
    folder = Path(tempfile.mkdtemp(prefix="two.", dir=place.folder))
    scripts = []
    for name in ("serve", "get"):
        text = (HERE / f"guest/{name}.sh").read_text().replace("MTU", "1500").replace("count=8", f"count={MEGABYTES}")
        scripts.append(text.replace("up 10.0.0.2", f"up 10.0.0.2 {card.module}").replace(
            "up 10.0.0.3", f"up 10.0.0.3 {card.module}"))
    wire, other = folder / "wire", OtherEnd(place)
    with plugged(place, card, "left", f"listen:{wire}", MACS[0]) as left, \
            plugged(place, card, "right", f"stream:{wire}", MACS[1]) as right:
        machines = [Machine(place, "kernel-6.1", script, modules=(card.module,)) for script in scripts]
        serving = machines[0].start("serve", other, *left)
        try:
            serving.wait_for("SERVES")
            text = machines[1].start("get", other, *right).end()
        finally:
            serving.kill()
    other.end()
    has(text, "guest", r"^checksums match$")
    minutes, seconds = re.findall(r"^real\s+(\d+)m ([\d.]+)s$", text, re.MULTILINE)[-1]
    return MEGABYTES * 1.048576 / (60 * int(minutes) + float(seconds))


def row(name: str, values: list[str]) -> str:
    return "| " + " | ".join([name, *values]) + " |"


def shown(value: float) -> str:
    return f"{value:,.0f}" if value >= 100 else f"{value:.1f}" if value >= 10 else f"{value:.2f}"


def machine_name(load: float) -> str:
    """Returns the processors, and the load average before the run and now."""
    text = Path("/proc/cpuinfo").read_text()
    model = re.search(r"^model name\s*: (.*)$", text, re.MULTILINE)
    loads = f"load {load:.1f} before and {os.getloadavg()[0]:.1f} at the end"
    return f"{os.cpu_count()} processors, {model[1] if model else platform.machine()}, {loads}"


def main(words: list[str]) -> int:
    place = Place(Path(words[0]), Path(words[1]), Path(words[2]))
    begin(place)
    load = os.getloadavg()[0]
    best: dict[str, list[float]] = {}
    try:
        for turn in range(int(words[3])):
            for card in CARDS:
                got = alone(place, card)
                figures = ", ".join(shown(it) for it in got)
                print(f"turn {turn + 1}, {card.name}, alone: {figures}", file=sys.stderr, flush=True)
                got.append(between_two(place, card))
                print(f"turn {turn + 1}, {card.name}, two guests: {shown(got[-1])}", file=sys.stderr, flush=True)
                old = best.get(card.name, got)
                best[card.name] = [(max if it.is_rate else min)(a, b) for it, a, b in zip(FIGURES, old, got)]
    except Wrong as fault:
        print(f"WRONG: {fault}\n  (logs: {place.folder})")
        place.is_kept = True
        return 1
    print(row(f"{machine_name(load)}; best of {words[3]}", [it.name for it in CARDS]))
    print(row("---", ["---:"] * len(CARDS)))
    for number, figure in enumerate(FIGURES):
        print(row(f"{figure.name}, {figure.unit}", [shown(best[it.name][number]) for it in CARDS]))
    print(subprocess.run([built(place, "socket")], capture_output=True, text=True, check=True).stdout.strip())
    return 0


if __name__ == "__main__":
    sys.exit(main(sys.argv[1:]))
