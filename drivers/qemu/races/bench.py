"""A guest under search, with its server: boots it, runs a seed's script in it, and judges the result."""

from __future__ import annotations

import re
import subprocess
import sys
import threading
import time
from collections.abc import Sequence
from dataclasses import dataclass, field
from pathlib import Path

HERE = Path(__file__).resolve().parent
sys.path.insert(0, str(HERE.parent))
from guests import LIBRARY, Guest, Place, Server, Wrong, device, machine_words, port  # noqa: E402
from initrd import Initrd  # noqa: E402
from verdict import (  # noqa: E402
    FATAL,
    NOTES,
    SKIPS,
    Finding,
    checked,
    counted,
    numbers,
    scripted,
    spoken,
    went_on,
    worst_first,
)
from workload import Plan, script  # noqa: E402

# Time limits of a search without --patience, which multiplies each of them.
BOOT_SECONDS = 300
SILENT_SECONDS = 90  # a healthy guest prints something within this many seconds
LOCKED_SECONDS = 60  # after a reported lockup, a guest that recovers begins another operation within this time
STUCK_SECONDS = 40  # limit for an operation
WATCHDOG_SECONDS, WATCHDOG_MOST = 5, 60  # the kernel's threshold, and its maximum
STALL_SECONDS = 21  # the kernel's default time until RCU reports a stall
FUNCTION_MAC = "02:00:00:00:00:55"
REQUEST = re.compile(r"@(control|await|search|host) (.*)$")
WORKLOAD = LIBRARY + (HERE / "guest.sh").read_text()


class Asked(Server):
    """A server that two threads query: the guest's reader, and the judge."""

    def __init__(self, place: Place, name: str, *words: str) -> None:
        self.lock = threading.Lock()
        super().__init__(place, name, *words)

    def ask(self, words: str) -> list[str]:
        """Sends a request to the server. Raises Wrong if the server has exited."""
        try:
            with self.lock:
                answer = super().ask(words)
        except OSError:
            answer = []
        if self.process.poll() is not None:
            raise Wrong(f"the server has exited with status {self.process.poll()}: {self.output.read_text()[-500:]}")
        return answer


class NoBoot(Wrong):
    """The guest doesn't boot, or its driver has no interface."""

    def __init__(self, text: str, lines: list[str]) -> None:
        super().__init__(text)
        self.lines = lines


@dataclass(frozen=True)
class Setting:
    """A search's settings for its guests, except the kernel: memory, the factor for all limits, the reporter's own
    script, and programs for the script."""

    memory: str = "384M"
    patience: int = 1
    script: Path | None = None
    programs: tuple[Path, ...] = ()

    @property
    def append(self) -> str:
        """The kernel's arguments."""
        threshold = min(WATCHDOG_MOST, WATCHDOG_SECONDS * self.patience)
        words = f"console=ttyS0 quiet loglevel=5 panic=-1 no_timer_check watchdog_thresh={threshold}"
        if self.patience > 1:
            words += f" rcupdate.rcu_cpu_stall_timeout={min(300, STALL_SECONDS * self.patience)}"
        return words


@dataclass(frozen=True)
class Kernel:
    """A kernel and its modules. `module` is a file to load instead of one of them."""

    name: str
    image: Path
    modules: Path
    module: Path | None = None


@dataclass
class Outcome:
    """The result of one seed."""

    kernel: str
    driver: str
    seed: int
    findings: list[Finding]
    rounds: int
    seconds: float
    lines: list[str] = field(default_factory=list, repr=False)
    output: str = field(default="", repr=False)
    why: str = field(default="", repr=False)
    record: Path | None = None
    again: Outcome | None = None  # the result of a second try, alone in a fresh guest; None without a second try

    @property
    def is_fatal(self) -> bool:
        return any(it.kind in FATAL for it in self.findings)

    @property
    def failures(self) -> list[Finding]:
        return [it for it in self.findings if it.kind not in NOTES[self.driver]]

    @property
    def fails(self) -> bool:
        return bool(self.failures)

    @property
    def is_broken(self) -> bool:
        """Returns whether nothing was tried, because the server or the guest failed first."""
        return any(it.kind in ("server", "boot") for it in self.findings)

    @property
    def is_unrun(self) -> bool:
        """Returns whether the reporter's script can't run in the guest, which says nothing about the driver."""
        return any(it.kind == "can't run" for it in self.findings)

    @property
    def is_starved(self) -> bool:
        """Returns whether the guest ran out of memory, which may be the cause of its other findings."""
        return any(it.kind == "memory" for it in self.findings)

    @property
    def is_untried(self) -> bool:
        """Returns whether the reporter's script can't be tried or can't run in this guest, and nothing else failed."""
        return not self.fails and any(it.kind in SKIPS for it in self.findings)

    @property
    def verdict(self) -> str:
        if self.fails:
            return self.failures[0].kind
        return next((it.kind for it in self.findings if it.kind in SKIPS), "ok")

    def matches(self, pattern: str) -> bool:
        """Returns whether the pattern matches a finding, or the guest's output if the guest was discarded."""
        if any(re.search(pattern, f"{it.kind}: {it.text}") for it in self.findings):
            return True
        return self.is_fatal and any(re.search(pattern, line) for line in self.lines)


class Relay(Guest):
    """A guest that takes commands on its serial line. Its requests go to the server, or to the guest with the physical
    function."""

    stdin = subprocess.PIPE

    def __init__(self, words: Sequence[str], server: Server, log: Path, host: Relay | None = None) -> None:
        self.host, self.last = host, time.time()
        super().__init__(words, server, log)

    def send(self, words: str) -> None:
        assert self.process.stdin
        try:
            self.process.stdin.write(f"{words}\n".encode())
            self.process.stdin.flush()
        except OSError:
            pass

    def take(self, line: str) -> None:
        self.last = time.time()
        found = REQUEST.search(line)
        self.add(found[0] if found else line)
        if found and found[1] in ("control", "await"):
            self.relay(found[2])
        if found and found[1] == "await":
            self.send(": answered")
        if found and found[1] == "host" and self.host:
            self.host.send(found[2])

    def relay(self, words: str) -> None:
        try:
            for answer in self.server.ask(words):
                self.add(f"control: {answer}")
        except Wrong:
            self.add("control: the server has exited")

    @property
    def has_ended(self) -> bool:
        return self.process.poll() is not None and not self.reader.is_alive()


def is_locked(lines: Sequence[str]) -> bool:
    """Returns whether a lockup was reported, and no operation has begun since the last such report."""
    for line in reversed(lines):
        if line.startswith("@search doing"):
            return False
        if "BUG: soft lockup" in line:
            return True
    return False


@dataclass
class Bench:
    """One server and its guests, used until one of them fails."""

    place: Place
    kernel: Kernel
    plan: Plan
    seeds: Sequence[int]
    is_recorded: bool
    setting: Setting = field(default_factory=Setting)
    seeds_done: int = 0

    def __post_init__(self) -> None:
        words = ["--functions=1", "--hairpin"] if self.plan.is_function else []
        record = self.place.folder / f"record.{id(self)}"
        self.record = record if self.is_recorded else None
        self.server = Asked(self.place, self.kernel.name, *words, *([f"--record={record}"] if self.record else []))
        self.host: Relay | None = None
        try:
            if self.plan.is_function:
                shadow = device(Path(f"{self.server.path}.shadow0"), addr="0.1")
                first = device(self.server.path, multifunction=True, addr="0.0")
                self.host = self.boot("host", "host.sh", 1, [*first, *shadow], None)
                self.guest = self.boot("function", "function.sh", self.plan.processors,
                                       device(Path(f"{self.server.path}.vf0")), self.host)
            else:
                self.guest = self.boot("guest", "", self.plan.processors, device(self.server.path), None)
        except Wrong:
            self.end()
            raise

    def initrd(self, start: str) -> Initrd:
        """Returns the initial file system: busybox, tools, the driver, and the scripts of all seeds."""
        tools = self.place.fetched / "tools/root"
        it = Initrd(self.kernel.modules, tools / "bin/busybox")
        for applet in ("arp", "stty"):
            it.files[f"bin/{applet}"] = (0o120777, b"busybox")
        for module in ("ixgbe", "ixgbevf"):
            it.add_module(module)
        if self.kernel.module:
            it.add_file(f"modules/{self.kernel.module.name}", self.kernel.module.read_bytes(), 0o644)
        it.add_program(tools / "sbin/ethtool", tools)
        for name in ("frames", "xdp"):
            it.add_file(f"bin/{name}", (self.place.out / name).read_bytes(), 0o755)
        self.add_own(it)
        begins = (HERE / start).read_text() if start else "start() { up 10.0.0.2; }\n"
        patience = f"PATIENCE={self.setting.patience}\n"
        it.add_file("script", f"{patience}{WORKLOAD}{begins}start\nobey\n".encode(), 0o644)
        it.files["seeds"] = (0o040755, b"")
        for seed in self.seeds:
            it.add_file(f"seeds/{seed}", script(seed, self.plan).encode(), 0o644)
        return it

    def add_own(self, it: Initrd) -> None:
        """Adds the reporter's script and programs."""
        if self.setting.script:
            it.files["own"] = (0o040755, b"")
            it.add_file(f"own/{self.setting.script.name}", self.setting.script.read_bytes(), 0o755)
        for program in self.setting.programs:
            if program.read_bytes()[:4] == b"\x7fELF":
                it.add_program(program, Path("/"))
            else:
                it.add_file(f"bin/{program.name}", program.read_bytes(), 0o755)

    def boot(self, name: str, start: str, processors: int, devices: Sequence[str], host: Relay | None) -> Relay:
        file = self.server.folder / f"{name}.initrd"
        self.initrd(start).write(file)
        words = [
            *machine_words(self.place, self.setting.memory, processors), "-kernel", str(self.kernel.image),
            "-initrd", str(file), "-append", self.setting.append, *port(), *devices,
        ]  # fmt: skip
        guest = Relay(words, self.server, self.server.folder / f"{name}.log", host)
        try:
            guest.wait_for("@search ready", BOOT_SECONDS * self.setting.patience)
        except Wrong as fault:
            guest.kill()
            raise NoBoot(str(fault), guest.lines) from None
        if "@search no interface" in guest.lines:
            guest.kill()
            raise NoBoot(f"the driver had no interface; last: {guest.lines[-8:]}", guest.lines)
        return guest

    # ---- a seed ----

    def run(self, seed: int) -> Outcome:
        """Runs a seed's script in the guest, and judges the result."""
        began, first, before = time.time(), len(self.guest.lines), numbers(self.server.ask("counts"))
        self.seeds_done += 1
        self.guest.send(f". /seeds/{seed}")
        ends = self.wait(f"@search done {seed}", first)
        lines = self.guest.lines[first:]
        findings = [*spoken(lines), *counted(before, numbers(self.server.ask("counts")))]
        if ends != "done":
            findings.append(Finding("stuck", f"{ends}; last: {self.last_operation(lines)}"))
        else:
            script_name = self.setting.script.name if self.setting.script else ""
            own = scripted(lines, self.plan.limit, script_name)
            findings = [*went_on(findings), *own, *checked(lines, self.plan.is_function)]
        rounds = len({it for it in lines if it.startswith("@search doing round")})
        outcome = Outcome(self.kernel.name, self.plan.driver, seed, worst_first(findings), rounds,
                          time.time() - began, lines)
        if outcome.fails:
            outcome.why = "\n".join(self.server.ask("why") or ["nothing in the device is waiting"])
            outcome.output = "\n".join([self.server.output.read_text(), *self.server.ask("counts"), ""])
        self.server.ask("seed off")
        return outcome

    def wait(self, text: str, first: int) -> str:
        """Waits until the guest reports that it is done. Returns "done", or why it can't finish."""
        locked, patience = 0.0, self.setting.patience
        silent = SILENT_SECONDS * patience + (self.plan.limit if self.plan.own else 0)
        while True:
            lines = self.guest.lines[first:]
            if text in lines:
                return "done"
            if self.guest.has_ended:
                return "the guest exited"
            if is_locked(lines):
                locked = locked or time.time()
                if time.time() - locked > LOCKED_SECONDS * patience:
                    return "a processor locked up"
            else:
                locked = 0.0
            if "@search stuck was reported" in lines:
                return f"an operation took more than {STUCK_SECONDS * patience} s"
            if time.time() - self.guest.last > silent:
                return f"the guest printed nothing for {silent} s"
            time.sleep(0.1)

    def last_operation(self, lines: Sequence[str]) -> str:
        said = [it for it in lines if it.startswith("@search doing")]
        return said[-1].removeprefix("@search doing ") if said else "none"

    def end(self) -> None:
        for guest in (getattr(self, "guest", None), self.host):
            if guest:
                guest.kill()
                guest.reader.join(5)
        if self.server.process.poll() is None:
            self.server.process.terminate()
            self.server.process.wait()
