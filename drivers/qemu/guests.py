#!/usr/bin/env python3
"""Boots QEMU guests with a card of nic82599-vfio-user, and compares what they and the server report.

    guests.py FETCHED OUT SERVER [--quick | --only NAME .. | --turn | --kernel PATH ..]
    guests.py --list | --needs [the same words]

drivers/qemu/run calls this program and documents its options. A guest's script is part of its initial file system. When
the script prints an "@control WORDS" line, these words go to the server's control socket, and the answer goes to the
guest's log.
"""

from __future__ import annotations

import atexit
import os
import re
import shutil
import signal
import socket
import subprocess
import sys
import tempfile
import threading
import time
from collections.abc import Callable, Iterable, Iterator, Sequence
from contextlib import contextmanager
from dataclasses import dataclass, field
from pathlib import Path
from typing import Any, Protocol

sys.dont_write_bytecode = True
from initrd import Initrd  # noqa: E402

HERE = Path(__file__).resolve().parent
FRAMES = 2000
SECONDS = 1800  # limit in seconds for a guest: most take 15 to 40, but up to 500 at ten times the load


class Wrong(Exception):
    """A run failed."""


# ---- processes that end with this process ----

processes: list[subprocess.Popen[bytes]] = []
ENDING = (signal.SIGTERM, signal.SIGHUP, signal.SIGINT)


def started(words: Sequence[str | Path], **how: Any) -> subprocess.Popen[bytes]:
    """Starts a process that is killed when this process exits for any reason."""
    process = subprocess.Popen(words, **how)
    processes.append(process)
    return process


def end_all(those: Iterable[subprocess.Popen[bytes]] = processes) -> None:
    """Ends these processes. Asks each to exit first, so that QEMU restores the terminal."""
    for process in those:
        if process.poll() is None:
            process.terminate()
    for process in those:
        try:
            process.wait(timeout=5)
        except subprocess.TimeoutExpired:
            process.kill()
            process.wait()


def end_on_signals() -> None:
    """Makes SIGTERM, SIGHUP and SIGINT end this process so that the processes it started end too. Only the first of
    these signals counts: `timeout` sends two."""

    def end(got: int, _: object) -> None:
        for number in ENDING:
            signal.signal(number, signal.SIG_IGN)
        sys.exit(128 + got)

    for number in ENDING:
        signal.signal(number, end)


# ---- programs ----


@dataclass
class Place:
    """The paths that runs use."""

    fetched: Path
    out: Path
    program: Path
    folder: Path = field(default_factory=lambda: Path(tempfile.mkdtemp(prefix="nic82599-guests.")))
    is_kept: bool = field(default=False, init=False)  # a run failed, so keep its logs

    def qemu(self, name: str) -> list[str]:
        """Returns the command for QEMU with its own loader and libraries, which aren't installed on this machine."""
        root = self.fetched / "qemu/root"
        libraries = root / "usr/lib/x86_64-linux-gnu"
        loader = next(it for it in (libraries, root / "usr/lib64", root / "lib64") if (it / LOADER).exists()) / LOADER
        paths = ":".join(str(it) for it in (libraries, root / "lib/x86_64-linux-gnu", libraries / "pulseaudio"))
        words = [str(loader), "--library-path", paths, str(root / "usr/bin" / name)]
        for share in ("qemu", "seabios", "ipxe/qemu"):
            words += ["-L", str(root / "usr/share" / share)]
        return words

    def forget(self) -> None:
        """Removes the written files, unless they are kept."""
        if not self.is_kept:
            shutil.rmtree(self.folder, ignore_errors=True)

    def kernel(self, name: str) -> Path:
        root = self.fetched / name / "root"
        return next(it for it in [*root.glob("boot/vmlinuz-*"), *root.glob("usr/lib/modules/*/vmlinuz")])

    def modules(self, name: str) -> Path:
        root = self.fetched / name / "root"
        return next(it for it in [*root.glob("usr/lib/modules/*"), *root.glob("lib/modules/*")])


def begin(place: Place) -> None:
    """Makes sure that, however this process exits, the processes it started end and their folder is then removed."""
    atexit.register(place.forget)
    atexit.register(end_all)
    end_on_signals()


LOADER = "ld-linux-x86-64.so.2"


def answer_of(lines: Iterable[str]) -> list[str]:
    """Returns the lines of a control socket's answer, without the "ok"."""
    found: list[str] = []
    for line in lines:
        found.append(line.rstrip())
        if found[-1] == "ok" or found[-1].startswith("error"):
            break
    return [it for it in found if it != "ok"]


class Server:
    """A server with its sockets in a private folder. Its messages are in its output, or, with `is_live`, on this
    process's standard error as they come. Then it ends only when asked, so that its counts follow all messages."""

    def __init__(self, place: Place, name: str, *words: str, is_live: bool = False) -> None:
        self.folder = Path(tempfile.mkdtemp(prefix=f"{name}.", dir=place.folder))
        self.path, self.output = self.folder / "card", self.folder / "said"
        given = [f"--socket-path={self.path}", f"--control={self.folder}/control", *words]
        with open(self.output, "wb") as output:
            self.process = started([place.program, *given], stdout=output, start_new_session=is_live,
                                   stderr=None if is_live else subprocess.STDOUT)
        self.socket = socket.socket(socket.AF_UNIX)
        self.connect()
        self.answers = self.socket.makefile("r")

    def connect(self) -> None:
        """Waits until the server has its control socket."""
        for _ in range(200):
            try:
                return self.socket.connect(str(self.folder / "control"))
            except OSError:
                time.sleep(0.05)
            if self.process.poll() is not None:
                break
        raise Wrong(f"the server didn't start: {self.output.read_text()}".rstrip(": \n"))

    def ask(self, words: str) -> list[str]:
        self.socket.sendall(f"{words}\n".encode())
        return answer_of(self.answers)

    def end(self) -> str:
        """Ends the server. Returns its output."""
        self.process.terminate()
        status = self.process.wait(timeout=20)
        output = self.output.read_text()
        if status:
            raise Wrong(f"the server exited with status {status}: {output[-600:]}")
        return output


class Peer(Protocol):
    """A process that answers a guest's requests: a server, or another process with the same control protocol."""

    folder: Path

    def ask(self, words: str) -> list[str]: ...


class Guest:
    """A running guest. Its output lines are kept with their times, and lines with requests are passed on."""

    stdin = subprocess.DEVNULL

    def __init__(self, words: Sequence[str], server: Peer, log: Path) -> None:
        self.server, self.lines, self.began, self.log = server, list[str](), time.time(), log
        self.times: list[float] = []
        self.process = started(words, stdin=self.stdin, stdout=subprocess.PIPE, stderr=subprocess.STDOUT)
        self.reader = threading.Thread(target=self.read, daemon=True)
        self.reader.start()

    def add(self, line: str) -> None:
        self.times.append(time.time() - self.began)
        self.lines.append(line)
        with open(self.log, "a", encoding="utf-8") as log:
            log.write(f"{time.time() - self.began:7.2f} {line}\n")

    def asked(self, words: str) -> list[str]:
        """Answers a guest's request. Waits for frames in flight as long as more arrive."""
        answer = self.server.ask(words)
        while words == "came" and answer and not re.match(r"(\d+) of \1,", answer[0]):
            time.sleep(2)
            before, answer = answer, self.server.ask(words)
            if answer == before:
                break
        return answer

    def read(self) -> None:
        """Reads the guest's output, without terminal control sequences."""
        assert self.process.stdout
        for raw in self.process.stdout:
            self.take(re.sub(r"\x1b\[[0-9;?]*[A-Za-z]|\x1bc", "", raw.decode("latin-1")).strip())

    def take(self, line: str) -> None:
        self.add(line)
        if line.startswith("@control "):
            for answer in self.asked(line.removeprefix("@control ")):
                self.add(f"control: {answer}")

    def wait_for(self, text: str, seconds: float = SECONDS) -> None:
        """Waits for a line that contains this string. If the guest exits, its last output is still searched."""
        end = time.time() + seconds
        is_over = False
        while not any(text in it for it in list(self.lines)):
            if is_over:
                raise Wrong(f"the guest didn't print {text!r}; its last lines: {self.lines[-12:]}")
            time.sleep(0.05)
            is_over = time.time() > end or not self.reader.is_alive()

    def end(self) -> str:
        """Waits until the guest's script is over, and returns all lines. (If the guest switches itself off, the last
        lines may be lost.)"""
        try:
            self.wait_for("guest: end at", max(1, self.began + SECONDS - time.time()))
        finally:
            self.kill()
        self.reader.join(5)
        return "\n".join(self.lines)

    def when(self, text: str) -> float:
        """Returns the seconds from the guest's start to the first line that contains this string."""
        return next(at for at, line in zip(self.times, self.lines) if text in line)

    def kill(self) -> None:
        if self.process.poll() is None:
            self.process.kill()
            self.process.wait()


# ---- starting guests ----


def device(path: Path, **more: object) -> list[str]:
    """Returns QEMU's arguments for a card in a root port's slot."""
    parts = ['"driver":"vfio-user-pci"', '"bus":"rp"', f'"socket":{{"type":"unix","path":"{path}"}}']
    parts += [f'"{key}":{str(value).lower() if isinstance(value, bool) else f"{chr(34)}{value}{chr(34)}"}'
              for key, value in more.items()]
    return ["-device", "{" + ",".join(parts) + "}"]


def memory(size: str) -> list[str]:
    """Returns arguments for memory that the server can map."""
    return ["-m", size, "-object", f"memory-backend-memfd,id=ram,size={size},share=on"]


def port() -> list[str]:
    return ["-device", "pcie-root-port,id=rp,chassis=1"]


def machine_words(place: Place, memory_size: str, processors: int) -> list[str]:
    """Returns arguments for an x86 machine with no other devices."""
    return [*place.qemu("qemu-system-x86_64"), "-machine", "q35,accel=tcg,memory-backend=ram", *QUIET,
            *memory(memory_size), "-cpu", "max", "-smp", str(processors)]


QUIET = ["-nographic", "-nodefaults", "-serial", "stdio", "-monitor", "none", "-no-reboot"]


@dataclass
class Machine:
    """An x86 guest with a stock kernel and a script."""

    place: Place
    kernel: str
    script: str
    processors: int = 1
    memory: str = "512M"
    append: str = ""
    before: tuple[str, ...] = ()
    modules: tuple[str, ...] = ("ixgbe", "ixgbevf", "8021q")
    more: Callable[[Initrd], None] | None = None  # adds to its initial file system

    def initrd(self, to: Path) -> None:
        """Writes the guest's initial file system."""
        tools = self.place.fetched / "tools/root"
        initrd = Initrd(self.place.modules(self.kernel), tools / "bin/busybox")
        for module in self.modules:
            initrd.add_module(module)
        initrd.add_program(tools / "sbin/ethtool", tools)
        for name in ("frames", "registers"):
            initrd.add_file(f"bin/{name}", (self.place.out / name).read_bytes(), 0o755)
        initrd.add_file("script", (LIBRARY + self.script).encode(), 0o644)
        if self.more:
            self.more(initrd)
        initrd.write(to)

    def start(self, name: str, server: Peer, *devices: str) -> Guest:
        """Boots the guest with these devices."""
        file = server.folder / f"{name}.initrd"
        self.initrd(file)
        words = [
            *machine_words(self.place, self.memory, self.processors), "-kernel", str(self.place.kernel(self.kernel)),
            "-initrd", str(file), "-append", f"console=ttyS0 quiet panic=-1 no_timer_check {self.append}",
            *self.before, *port(), *devices,
        ]  # fmt: skip
        return Guest(words, server, server.folder / f"{name}.log")


LIBRARY = (HERE / "guest/library.sh").read_text()


# ---- checks ----


def has(text: str, what: str, pattern: str) -> None:
    """Requires a line that matches the pattern."""
    if not re.search(pattern, text, re.MULTILINE):
        raise Wrong(f"{what}: no line matches {pattern!r}; the last are:\n" + "\n".join(text.splitlines()[-15:]))


def clean(output: str) -> None:
    """Requires that the server reported no fault and no refused access."""
    has(output, "server", r"^device: .* faults 0$")
    has(output, "server", r"^rings: .* accesses refused 0,")
    has(output, "server", r"^wire: lost: no other end 0, other end full 0, too long 0$")


def passed_frames(text: str, many: int, count: int = FRAMES) -> None:
    """Requires that frames passed each way `many` times with every byte correct."""
    for pattern in (rf"^control: {count} of {count}, twice 0, wrong 0$",
                    rf"^frames: received {count} of {count} .* twice 0, wrong 0$"):
        found = len(re.findall(pattern, text, re.MULTILINE))
        if found != many:
            raise Wrong(f"{found} of {many} lines match {pattern!r}:\n" + "\n".join(text.splitlines()[-25:]))


def seconds_of(text: str) -> str:
    """Returns a line with the time at which the guest got its carrier, and the rates of frames."""
    carrier = re.search(r"carrier at ([\d.]+) s", text)
    sent = re.search(r"^frames: sent (\d+) .* in ([\d.]+) s", text, re.MULTILINE)
    got = re.search(r"^frames: received \d+ of (\d+) .* in ([\d.]+) s", text, re.MULTILINE)
    figures = [f"carrier {carrier[1]} s after the kernel's start"] if carrier else []
    for what, found in (("out", sent), ("in", got)):
        if found:
            figures.append(f"{what} {int(found[1]) / max(0.001, float(found[2])):,.0f} frames/s")
    return ", ".join(figures)


@contextmanager
def running(server: Server, *guests: Guest) -> Iterator[None]:
    """Ends the server and the guests in any case."""
    try:
        yield
    finally:
        for guest in guests:
            guest.kill()
        if server.process.poll() is None:
            server.process.terminate()
            server.process.wait()


def alone(machine: Machine, *words: str) -> tuple[str, str]:
    """Runs one guest with one card. Returns the guest's log and the server's output."""
    server = Server(machine.place, "one", *words)
    guest = machine.start("guest", server, *device(server.path))
    with running(server, guest):
        return guest.end(), server.end()


# ---- the runs ----


def ipxe(place: Place) -> str:
    """iPXE's own driver, with legacy descriptors."""
    script = place.folder / "script.ipxe"
    lines = ["#!ipxe", "ifopen net0", "set net0/ip 10.0.0.2", "set net0/netmask 255.255.255.0",
             "ping --count 4 10.0.0.1", "ifstat", "echo all is printed", "sleep 600"]
    script.write_text("\n".join(lines) + "\n")
    server = Server(place, "ipxe")
    words = [*place.qemu("qemu-system-x86_64"), "-machine", "q35,accel=tcg,memory-backend=ram", *QUIET, *memory("256M"),
             "-kernel", str(place.fetched / "qemu/root/usr/lib/ipxe/ipxe.lkrn"), "-initrd", str(script), *port(),
             *device(server.path)]
    guest = Guest(words, server, server.folder / "guest.log")
    with running(server, guest):
        guest.wait_for("all is printed", 120)
        guest.kill()
        output = server.end()
    text = "\n".join(guest.lines)
    has(text, "iPXE", r"seq=4")
    has(text, "iPXE", r"using 82599")
    has(output, "server", r"^wire: out .*, of which replies 5,")
    has(output, "server", r"^device: received 5 frames in 5 descriptors, .* faults 0$")
    return "4 of 4 pings, legacy descriptors both ways"


def arm64(place: Place) -> str:
    """arm64, where memory begins at 1 GiB."""
    initrd = Initrd(place.modules("kernel-arm64"), place.fetched / "tools-arm64/root/bin/busybox")
    initrd.add_module("ixgbe")
    script = "up 10.0.0.2\nping -c 4 10.0.0.1\nping -c 4 -s 1400 10.0.0.1\n"
    initrd.add_file("script", (LIBRARY + script).encode(), 0o644)
    server = Server(place, "arm64")
    initrd.write(server.folder / "initrd")
    words = [*place.qemu("qemu-system-aarch64"), "-machine", "virt,accel=tcg,memory-backend=ram", *QUIET,
             *memory("256M"), "-cpu", "cortex-a72", "-smp", "2", "-kernel", str(place.kernel("kernel-arm64")),
             "-initrd", str(server.folder / "initrd"), "-append", "console=ttyAMA0 quiet panic=-1", *port(),
             *device(server.path, romfile="")]
    guest = Guest(words, server, server.folder / "guest.log")
    with running(server, guest):
        text, output = guest.end(), server.end()
    if len(re.findall("4 packets received", text)) != 2:
        raise Wrong("not all 8 pings were answered:\n" + text[-1500:])
    clean(output)
    return f"8 of 8 pings, {seconds_of(text)}"


TRAFFIC = """
up 10.0.0.2
ping -c 3 10.0.0.1
passes 1514
counts
"""


def boots(kernel: str, processors: int = 1) -> Callable[[Place], str]:
    """A stock kernel boots, and frames pass both ways with every byte correct."""

    def run(place: Place) -> str:
        text, output = alone(Machine(place, kernel, TRAFFIC, processors))
        has(text, "guest", "3 packets received")
        passed_frames(text, 1)
        clean(output)
        return f"{FRAMES} frames each way, every byte correct; {seconds_of(text)}"

    return run


def four_queues(place: Place) -> str:
    """Four processors, so four queues each way, and memory beyond 4 GiB."""
    script = TRAFFIC + "ethtool -l eth0 | tail -1\ngrep -c TxRx /proc/interrupts | sed 's/^/vectors: /'\n"
    text, output = alone(Machine(place, "kernel-6.1", script, 4, "5G"))
    passed_frames(text, 1)
    has(text, "guest", r"^vectors: 4$")
    clean(output)
    return f"4 queues, 5 GiB; {FRAMES} frames each way; {seconds_of(text)}"


def without_msix(kind: str) -> Callable[[Place], str]:
    """Gives a guest a card without MSI-X: the stock driver uses the single MSI message, or the interrupt line."""

    def run(place: Place) -> str:
        script = TRAFFIC + "grep -E 'eth0|ixgbe' /proc/interrupts\n"
        text, output = alone(Machine(place, "kernel-6.1", script, 2), f"--interrupts={kind}")
        has(text, "guest", "3 packets received")
        passed_frames(text, 1)
        has(text, "guest", r"PCI-MSI .*eth0" if kind == "msi" else r"IO-APIC .*fasteoi .*eth0")
        clean(output)
        raised = re.search(r"interrupts: (MSI|INTx):(\d+)", output)
        if not raised or raised[1].lower() != kind or int(raised[2]) < 100:
            raise Wrong(f"the guest wasn't interrupted by {kind}: {output}")
        return f"{FRAMES} frames each way, {raised[2]} interrupts by {raised[1]}; {seconds_of(text)}"

    return run


def jumbo(place: Place) -> str:
    """MTU 9,000, and a VLAN."""
    script = "up 10.0.0.2\nip link set eth0 mtu 9000\ncarrier\npasses 9014\nload 8021q\n"
    script += "ip link add link eth0 name v7 type vlan id 7\nip addr add 10.7.0.2/24 dev v7\nip link set v7 up\n"
    script += "ping -c 2 -W 1 10.7.0.1 >/dev/null\necho '@control counts'\nsleep 1\n"
    text, output = alone(Machine(place, "kernel-6.1", script))
    passed_frames(text, 1)
    has(text, "guest", r"^control: offloads: checksums in \d+ frames, tags in [1-9]\d*")
    clean(output)
    return f"{FRAMES} frames of up to 9,014 bytes each way; tags inserted"


def links(place: Place) -> str:
    """Links, rings, queues and MTU change, and frames pass after each change."""
    script = (HERE / "guest/links.sh").read_text()
    text, output = alone(Machine(place, "kernel-6.1", script, 4))
    passed = len(re.findall(r"^1 packets transmitted, 1 packets received", text, re.MULTILINE))
    if passed != 8:
        raise Wrong(f"{passed} of 8 pings were answered:\n" + text[-2000:])
    has(output, "server", r"^device: .* faults 0$")
    return "8 changes (link, reset, rings, queues, MTU, interface down and up, driver reloaded), a ping after each"


def removal(place: Place) -> str:
    """The card is removed while the guest runs."""
    server = Server(place, "removal")
    script = "up 10.0.0.2\nping -c 1 10.0.0.1\necho READY\nsleep 6\ndmesg | grep -i removed\necho STILL HERE\n"
    guest = Machine(place, "kernel-6.1", script).start("guest", server, *device(server.path))
    with running(server, guest):
        guest.wait_for("READY")
        server.end()
        text = guest.end()
    has(text, "guest", r"Adapter removed")
    has(text, "guest", r"^STILL HERE$")
    return 'the driver reports "Adapter removed", and the guest continues'


def iommu(place: Place) -> str:
    """A strict IOMMU: every buffer is mapped and unmapped."""
    before = ("-device", "intel-iommu,caching-mode=on,intremap=off")
    machine = Machine(place, "kernel-6.1", TRAFFIC, append="intel_iommu=on iommu.strict=1", before=before)
    text, output = alone(machine)
    passed_frames(text, 1)
    clean(output)
    maps = re.search(r"memory: (\d+) maps, (\d+) unmaps", output)
    if not maps or int(maps[2]) < 100:
        raise Wrong(f"the IOMMU isn't used: {output}")
    return f"{FRAMES} frames each way, {maps[1]} maps and {maps[2]} unmaps"


@contextmanager
def function_guest(place: Place, script: str) -> Iterator[tuple[Server, Guest]]:
    """Boots a guest with the physical function, and then a guest with a virtual function that runs a script."""
    server = Server(place, "host", "--functions=2", "--hairpin")
    host = Machine(place, "kernel-6.1", (HERE / "guest/host.sh").read_text())
    shadows = [device(Path(f"{server.path}.shadow{v}"), addr=f"0.{v + 1}") for v in range(2)]
    first = host.start("host", server, *device(server.path, multifunction=True, addr="0.0"), *shadows[0], *shadows[1])
    with running(server, first):
        first.wait_for("HOST READY")
        other = Machine(place, "kernel-6.1", (HERE / f"guest/{script}.sh").read_text())
        second = other.start("function", server, *device(Path(f"{server.path}.vf0")))
        with running(server, second):
            yield server, second
            first.kill()


def functions(place: Place) -> str:
    """A virtual function's traffic, to the wire and to the physical function."""
    with function_guest(place, "function") as (_, guest):
        text = guest.end()
    has(text, "function", r"^4 packets transmitted, 4 packets received")
    has(text, "function", r"^3 packets transmitted, 3 packets received")
    has(text, "function", r"^control: 2000 of 2000, twice 0, wrong 0$")
    return "sriov_numvfs, ixgbevf in another guest: pings to the wire and to the host, 2000 frames out"


def function_reset(place: Place) -> str:
    """A function level reset of a virtual function: its driver sets it up again, and frames pass."""
    with function_guest(place, "flr") as (_, guest):
        text = guest.end()
    after = text.split("AFTER")[-1]
    has(after, "function", r"^3 packets transmitted, 3 packets received")
    return "a function level reset under ixgbevf, then the interface down and up: 3 of 3 pings"


def add_testpmd(place: Place) -> Callable[[Initrd], None]:
    def add(initrd: Initrd) -> None:
        root = place.fetched / "dpdk/root"
        initrd.add_program(root / "usr/bin/dpdk-testpmd", root)
        for name in ("librte_mempool_ring.so.23", "librte_net_ixgbe.so.23"):
            initrd.add_library(name, root)

    return add


def dpdk(place: Place) -> str:
    """DPDK's testpmd in the guest: Debian's packages, with uio_pci_generic."""
    script = (HERE / "guest/dpdk.sh").read_text()
    machine = Machine(place, "kernel-6.1", script, 2, "1G", modules=("uio_pci_generic",), more=add_testpmd(place))
    text, output = alone(machine)
    has(text, "server", rf"^control: {FRAMES} of {FRAMES}, twice 0, wrong 0$")
    has(text, "testpmd", rf"RX-packets: {FRAMES} +RX-dropped: 0 ")
    has(text, "testpmd", rf"TX-packets: {FRAMES} +TX-dropped: 0 ")
    clean(output)
    (package,) = [it for it in (place.fetched / "dpdk/packages").read_text().split() if it.startswith("dpdk-dev_")]
    return f"testpmd {package.split('_')[1]}, macswap: {FRAMES} frames in and out, every byte correct"


def back_to_back(place: Place, name: str, scripts: Sequence[str]) -> tuple[str, str, str]:
    """Runs two guests on one wire; the second guest starts when the first guest's script prints SERVES. Returns the
    second guest's log, its server's output, and the output of the first guest's server."""
    left = Server(place, f"left{name}", f"--wire=listen:{place.folder}/wire{name}")
    right = Server(place, f"right{name}", f"--wire=stream:{place.folder}/wire{name}", "--mac=02:00:00:00:82:9a")
    server = Machine(place, "kernel-6.1", scripts[0]).start("guest", left, *device(left.path))
    with running(left, server):
        server.wait_for("SERVES")
        client = Machine(place, "kernel-6.1", scripts[1]).start("guest", right, *device(right.path))
        with running(right, client):
            text, output = client.end(), right.end()
        server.kill()
    other = left.output.read_text()
    for each in (output, other):
        has(each, "server", r"^device: .* faults 0$")
    return text, output, other


def vlan(place: Place) -> str:
    """A VLAN's frames of full size, both ways: MTU 1,500 on the VLAN and on the card, so 1,518 bytes with the tag."""
    scripts = [(HERE / f"guest/{it}.sh").read_text() for it in ("vlan_serve", "vlan_get")]
    text, output, other = back_to_back(place, "vlan", scripts)
    has(text, "guest", r"^MTU: 1500 1500$")
    if len(re.findall(r"^10 packets transmitted, 10 packets received", text, re.MULTILINE)) != 2:
        raise Wrong("not all 20 pings were answered:\n" + text[-2000:])
    has(text, "guest", r"^checksums match$")
    has(text, "guest", r"^fragments made: 0$")
    longer: list[str] = []
    for each in (output, other):
        has(each, "server", r"^offloads: .* tags in [1-9]\d*; .* received longer by a tag [1-9]\d*$")
        longer += re.findall(r"received longer by a tag (\d+)$", each, re.MULTILINE)
    frames = " and ".join(longer)
    return f"MTU 1,500 on a VLAN: 20 pings with 1,472 bytes, 4 MiB over HTTP; {frames} frames longer by a tag"


def two_guests(mtu: int) -> Callable[[Place], str]:
    """Two guests back to back: HTTP with the checksum offloads and TSO that stock kernels request."""

    def run(place: Place) -> str:
        scripts = [(HERE / f"guest/{it}.sh").read_text().replace("MTU", str(mtu)) for it in ("serve", "get")]
        text, _, other = back_to_back(place, str(mtu), scripts)
        has(text, "guest", r"^checksums match$")
        took = re.search(r"^real\s+(\S.*)$", text, re.MULTILINE)
        has(other, "server", r"[1-9]\d* TSO sends in [1-9]\d* segments, dropped 0, given up 0;")
        return f"8 MiB over HTTP, checksums match, in {took[1] if took else '?'}; " + other.splitlines()[-1]

    return run


def flipped(place: Place) -> str:
    """Changes one byte each way, which must be reported."""
    script = TRAFFIC.replace("passes 1514", "echo '@control turn 77 99'\npasses 1514")
    text, _ = alone(Machine(place, "kernel-6.1", script))
    count = FRAMES - 1
    has(text, "server", rf"^control: {count} of {FRAMES}, twice 0, wrong 1$")
    has(text, "guest", rf"^frames: received {count} of {FRAMES} .* twice 0, wrong 1$")
    return "both were reported"


@dataclass
class Run:
    """A run, and the sets that must be fetched for it in addition to QEMU."""

    run: Callable[[Place], str]
    needs: tuple[str, ...] = ("tools", "kernel-6.1")


RUNS: dict[str, Run] = {
    "ipxe": Run(ipxe, ()),
    "arm64": Run(arm64, ("tools-arm64", "kernel-arm64")),
    "linux-6.1": Run(boots("kernel-6.1")),
    "linux-6.12": Run(boots("kernel-6.12"), ("tools", "kernel-6.12")),
    "linux-sid": Run(boots("kernel-sid"), ("tools", "kernel-sid")),
    "queues": Run(four_queues),
    "intx": Run(without_msix("intx")),
    "msi": Run(without_msix("msi")),
    "jumbo": Run(jumbo),
    "vlan": Run(vlan),
    "links": Run(links),
    "removal": Run(removal),
    "iommu": Run(iommu),
    "functions": Run(functions),
    "function-reset": Run(function_reset),
    "http": Run(two_guests(1500)),
    "http-9000": Run(two_guests(9000)),
    "dpdk": Run(dpdk, ("tools", "kernel-6.1", "dpdk")),
}
TURN = Run(flipped)
QUICK = ["ipxe", "arm64"]


def run_named(name: str) -> Run:
    return TURN if name == "turn" else RUNS[name]


def names_of(words: list[str]) -> list[str]:
    """Returns the runs that the arguments select."""
    return {"--quick": QUICK, "--turn": ["turn"], "--only": words[1:]}.get(words[0] if words else "", list(RUNS))


def needs_of(words: list[str]) -> list[str]:
    """Returns the package sets to fetch for these arguments."""
    if words[:1] == ["--fetch"] and words[1:]:
        return words[1:]
    if words[:1] == ["--measure"]:
        return ["qemu", "tools", "kernel-6.1"]
    if is_own(words):
        return ["qemu"]
    return list(dict.fromkeys(["qemu", *(it for name in names_of(words) for it in run_named(name).needs)]))


# ---- a user's own guest ----


OWN_FILES = ("--kernel", "--initrd", "--disk")


def own_words(words: list[str]) -> tuple[dict[str, str], list[str], list[str]]:
    """Splits the arguments into the guest's files and --gdb, arguments for the server, and arguments for QEMU."""
    given: dict[str, str] = {}
    for_server: list[str] = []
    rest = list(words)
    while rest and rest[0] != "--":
        name = rest.pop(0)
        if name.startswith("--server="):
            for_server.append(name.removeprefix("--server="))
        elif name == "--gdb":
            given[name] = ""
        elif name in OWN_FILES and rest and rest[0] != "--":
            given[name] = rest.pop(0)
        else:
            raise Wrong(f"{name} needs a file" if name in OWN_FILES else f"unknown argument: {name}")
    return given, for_server, rest[1:]


# In an ELF file: what QEMU's Multiboot loader looks for, and the note with which QEMU loads a 64-bit kernel (PVH).
MULTIBOOT = (0x1BADB002).to_bytes(4, "little")
PVH = re.compile(rb"\x04\0\0\0.\0\0\0\x12\0\0\0Xen\0", re.DOTALL)
FOR_64_BITS = ("it's a 64-bit ELF file, and QEMU loads only 32-bit ones. If its entry is 32-bit code, copy it with "
               "`objcopy -O elf32-i386`; otherwise boot a disk image with your boot loader (--disk)")


def own_fault(path: Path, is_kernel: bool) -> str:
    """Returns why a guest can't start from the user's file, and what to do; an empty string if it can."""
    if not path.is_file():
        return "no such file"
    start = path.read_bytes() if is_kernel else b""
    is_refused = start[:5] == b"\x7fELF\x02" and (MULTIBOOT in start[:8192] or not PVH.search(start))
    return FOR_64_BITS if is_refused else ""


def own_status(words: list[str]) -> int:
    """Checks the arguments for the user's own guest. Returns 0, or prints the fault and returns the status to exit
    with."""
    try:
        given, _, _ = own_words(words)
    except Wrong as fault:
        print(f"drivers/qemu/run: {fault}", file=sys.stderr)
        return 3
    for name in (it for it in OWN_FILES if it in given):
        if fault := own_fault(Path(given[name]), name == "--kernel"):
            print(f"drivers/qemu/run: {given[name]}: {fault}", file=sys.stderr)
            return 2
    return 0


def own_line(place: Place, given: dict[str, str], card: Path) -> list[str]:
    """Returns QEMU's arguments for the user's own guest."""
    line = [*place.qemu("qemu-system-x86_64"), "-machine", "q35,accel=tcg,memory-backend=ram", "-nographic",
            "-nic", "none", *memory("2G"), "-cpu", "max", "-smp", "2", *port(), *device(card)]
    for name in ("--kernel", "--initrd"):
        line += [name[1:], given[name]] if name in given else []
    line += ["-append", "console=ttyS0"] if "--kernel" in given else []
    line += ["-drive", f"file={given['--disk']},if=virtio"] if "--disk" in given else []
    return [*line, *(["-s", "-S"] if "--gdb" in given else [])]


def last_words(server: Server) -> str:
    """Ends the server. Returns its counts, or why there are none."""
    try:
        return server.end()
    except Wrong as fault:
        return f"drivers/qemu/run: {fault}"


def own(place: Place, words: list[str]) -> int:
    """Boots the user's kernel or disk on this terminal, and prints the server's counts at the end, also after a
    signal."""
    given, for_server, for_qemu = own_words(words)
    try:
        server = Server(place, "own", *for_server, is_live=True)
    except Wrong as fault:
        print(f"drivers/qemu/run: {fault}", file=sys.stderr)
        return 2
    answers = "" if any(it.startswith("--wire=") for it in for_server) else "the card's wire answers at 10.0.0.1; "
    print(f"drivers/qemu/run: {answers}ctrl-A X ends QEMU; the server's control socket is {server.folder}/control",
          flush=True)
    guest = started([*own_line(place, given, server.path), *for_qemu])
    try:
        return guest.wait()
    finally:
        end_all([guest])
        print(last_words(server), flush=True)


def all_runs(place: Place, names: list[str]) -> int:
    failed = 0
    for name in names:
        began = time.time()
        try:
            said = run_named(name).run(place)
            print(f"{name:11} {said} ({time.time() - began:.0f} s)", flush=True)
        except Wrong as fault:
            print(f"{name:11} WRONG: {fault}\n  (logs: {place.folder})", flush=True)
            place.is_kept = True
            failed += 1
    print("all runs passed" if not failed else f"{failed} of {len(names)} runs failed")
    return 1 if failed else 0


def is_own(words: list[str]) -> bool:
    return words[:1] in (["--kernel"], ["--disk"])


def ask(asks: str, words: list[str]) -> int:
    """Answers drivers/qemu/run's queries. Refuses an own guest that can't start before anything is fetched for it."""
    if is_own(words) and (status := own_status(words)):
        return status
    print(*(RUNS if asks == "--list" else needs_of(words)), sep="\n")
    return 0


def main(words: list[str]) -> int:
    asks = words.pop(0) if words[:1] in (["--list"], ["--needs"]) else ""
    fetched, words = ([], words) if asks else (words[:3], words[3:])
    names = names_of(words)
    unknown = [it for it in names if it not in RUNS and it != "turn"]
    no_sets = [it for it in words[1:] if it not in needs_of([])] if words[:1] == ["--fetch"] else []
    if no_sets:
        print(f"drivers/qemu/run: {no_sets[0]} isn't a set; the sets are {', '.join(needs_of([]))}", file=sys.stderr)
        return 3
    if unknown or not names:
        reason = f"unknown name: {' '.join(unknown)}" if unknown else "--only needs a name"
        print(f"drivers/qemu/run: {reason}; --list prints the names", file=sys.stderr)
        return 3
    if asks:
        return ask(asks, words)
    os.environ["LC_ALL"] = "C.UTF-8"
    place = Place(Path(fetched[0]), Path(fetched[1]), Path(fetched[2]))
    begin(place)
    return own(place, words) if is_own(words) else all_runs(place, names)


if __name__ == "__main__":
    sys.exit(main(sys.argv[1:]))
