#!/usr/bin/env python3
"""Tests how a search judges, and the arguments for a user's own guest, without booting one. Run
drivers/qemu/races/check.py; it takes a second. Status 0: all passed."""

from __future__ import annotations

import argparse
import contextlib
import dataclasses
import email
import gzip
import io
import os
import random
import signal
import struct
import subprocess
import sys
import tempfile
from collections.abc import Callable, Sequence
from pathlib import Path

sys.dont_write_bytecode = True
HERE = Path(__file__).resolve().parent
sys.path.insert(0, str(HERE))
from bench import Outcome, Setting, is_locked  # noqa: E402
from guests import Wrong, needs_of, own_fault, own_words  # noqa: E402
from images import Unfit, check_module, check_modules, check_script, kernel_version  # noqa: E402
from initrd import Initrd, find_module  # noqa: E402
from main import Search, Task, plan_of  # noqa: E402
from modules import Unreadable, unpack_modules  # noqa: E402
from report import junit, keep_console, line, table  # noqa: E402
from verdict import Finding, checked, counted, numbers, scripted, spoken, went_on, worst_first  # noqa: E402
from windows import rows_of, windows  # noqa: E402
from words import machine_memory, needs, read_words  # noqa: E402
from workload import Plan, script  # noqa: E402

LOCKUP = """[   35.242358] watchdog: BUG: soft lockup - CPU#1 stuck for 13s! [ip:129]
[   35.243421] CPU: 1 PID: 129 Comm: ip Not tainted 6.1.0
[   35.243421] RIP: 0010:ixgbe_clean_tx_ring+0x90/0x190 [ixgbe]""".splitlines()
COUNTS = ["device: received 5 frames in 5 descriptors, sent 5 from 5; faults {faults}",
          "rings: 9 descriptors, 9 bytes of frames; at most 4 KB of rings; accesses refused {refused}, of which tails "
          "outside {outside}, rings without room 0; tails in rings that are off {off}, writes lost in resets {lost}"]
GOOD = """@search carrier 1
@search answered 1
control: 300 of 300, twice 0, wrong 0
frames: received 300 of 300 frames of at most 1400 bytes in 0.1 s, twice 0, wrong 0
@search pings 10 10""".splitlines()
RECORD = """w 0x03000 0x00000001         # done
w 0x06018 0x00000002         # done
w 0x03000 0x00000000         # done
r 0x042a4                    # word 0x70000000
w 0x08900 0x00000000         # stray 0x00000000
w 0x08904 0x00000000         # stray 0x00000000
w 0x06058 0x00000001         # done
w 0x00000 0x04000004         # done
w 0x03000 0x00000001         # done""".splitlines()


def counts(**more: int) -> dict[str, int]:
    values = {"faults": 0, "refused": 0, "outside": 0, "off": 0, "lost": 0, **more}
    return numbers(it.format(**values) for it in COUNTS)


def kinds(findings: Sequence[Finding]) -> list[str]:
    return [it.kind for it in findings]


def verdicts() -> None:
    found = list(spoken(LOCKUP))
    assert kinds(found) == ["lockup"] and found[0].text.endswith("in ixgbe_clean_tx_ring"), found
    assert kinds(list(spoken(["ixgbe eth0: Detected Tx Unit Hang", "WARNING: CPU: 1 PID: 2 at net/sched/x.c:5"]))) == [
        "hung unit", "kernel"]  # fmt: skip
    assert not list(spoken(["ixgbe 0000:01:00.0 eth0: NIC Link is Down", "control: faults 3"]))
    assert set(kinds(list(counted(counts(), counts(refused=5, outside=3, lost=1))))) == {
        "tail outside", "refused", "reset"}  # fmt: skip
    assert kinds(list(went_on([Finding("lockup", "a"), Finding("kernel", "b")]))) == ["slow", "kernel"]
    assert is_locked(["@search doing mtu", *LOCKUP]) and not is_locked([*LOCKUP, "@search doing mtu"])
    assert not list(counted(counts(outside=3, refused=3), counts(outside=3, refused=3)))
    assert kinds(list(counted(counts(outside=3, refused=3), counts(outside=4, refused=4)))) == ["tail outside"]
    for starved in ("ethtool: page allocation failure: order:4", "Out of memory: Killed process 9 (frames)"):
        (found_memory,) = spoken([f"[   35.2] {starved}"])
        assert found_memory.kind == "memory" and found_memory.text == f"{starved}; give the guest more with --memory"
    three = [Finding("fault", "b"), Finding("lockup", "a"), Finding("fault", "c")]
    assert kinds(worst_first(three)) == ["lockup", "fault"]


def checks() -> None:
    assert not list(checked(GOOD, False)) and not list(checked(GOOD, True))
    assert not list(checked(["control: 299 of 300, twice 0, wrong 0", *GOOD], False))
    printed = "[   73.798958] hrtimer: interrupt took 15450440 ns"  # on the same line, as the kernel may print it
    assert not list(checked([it + printed for it in GOOD], False))
    assert kinds(list(checked([it.replace("wrong 0", "wrong 1") + printed for it in GOOD], False))) == ["frames"] * 2
    for bad, is_function, kind in (
        (GOOD[1:], False, "no link"), (GOOD[:1] + GOOD[2:], False, "no answer"), (GOOD[:2] + GOOD[3:], False, "frames"),
        ([it.replace("wrong 0", "wrong 1") for it in GOOD], False, "frames"),
        ([it.replace("received 300", "received 299") for it in GOOD], False, "frames"),
        ([it.replace("10 10", "10 9") for it in GOOD], True, "frames"),
    ):  # fmt: skip
        assert kind in kinds(list(checked(bad, is_function))), (bad, kind)


def workloads() -> None:
    for plan in (Plan(), Plan("ixgbevf", 2, 2)):
        assert script(7, plan) == script(7, plan) != script(8, plan)
        assert script(7, plan).count("\nround ") == plan.rounds and "finish 7" in script(7, plan)
    assert "channels" not in script(7, Plan("ixgbevf"))


def own_workloads(folder: Path) -> None:
    """Checks that a reporter's script replaces the drawn operations in a seed's script, or runs concurrently without
    changing them, and that the search finds the script's output and status."""
    own = folder / "own.sh"
    own.write_text("exit 0\n")
    drawn = script(7, Plan(rounds=1)).splitlines()
    alone = script(7, plan_of(read_words(["--script", str(own), "--limit", "9", "--rounds", "1"]))).splitlines()
    beside = script(7, plan_of(read_words(["--script", str(own), "--beside", "--no-traffic", "--rounds", "1"])))
    assert alone == ["begin 7", "round 1", "own 7 1 9", "own_ends", "answers", "settle", "finish 7"], alone
    assert [it for it in beside.splitlines() if not it.startswith("own")] == ["begin 7 quiet", *drawn[1:]], beside
    assert "\nround 1\nown 7 1 60\n" in beside and "\nown_ends\nanswers\n" in beside, beside
    patient = script(7, plan_of(read_words(["--script", str(own), "--limit", "9", "--patience", "4"])))
    assert "\nown 7 1 36\n" in patient, patient
    for status, text in (
        (0, ""), (1, "script: round 2: a.sh exited with status 1"), (7, "script: round 2: a.sh exited with status 7"),
        (137, "script: round 2: a.sh didn't finish in 9 s"), (2, "script: round 2: a.sh exited with status 2"),
        (126, "can't run: round 2: a.sh exited with status 126: a file can't be executed"),
        (127, "can't run: round 2: a.sh exited with status 127: a command wasn't found"),
        (125, "not tried: round 2: a.sh exited with status 125"),
    ):  # fmt: skip
        lines = ["script: sent", "script: lost", *[f"@search script 2 {status}"] * 3]
        found = "".join(f"{it.kind}: {it.text}" for it in scripted(lines, 9, "a.sh"))
        assert found == (f"{text}; last line: lost" if text else ""), (status, found)
    unparsed = ["script: a.sh: line 3: syntax error: unexpected end of file", "@search script 1 2"]
    assert kinds(list(scripted(unparsed, 9, "a.sh"))) == ["can't run"]
    assert not list(spoken(["script: BUG: no bug", "script: WARNING: possible circular locking"]))
    assert kinds(list(spoken(["WARNING: possible circular locking dependency detected"]))) == ["kernel"]


def patience() -> None:
    assert Setting().append.endswith("watchdog_thresh=5"), Setting().append
    assert "watchdog_thresh=40 rcupdate.rcu_cpu_stall_timeout=168" in Setting(patience=8).append
    assert "watchdog_thresh=60 rcupdate.rcu_cpu_stall_timeout=300" in Setting(patience=99).append


def refused(words: Sequence[str]) -> str:
    """Returns the message with which the arguments are refused, and the status."""
    said = io.StringIO()
    try:
        with contextlib.redirect_stderr(said):
            read_words(words)
    except SystemExit as ended:
        return f"{said.getvalue()}{ended.code}"
    return ""


def arguments() -> None:
    """Checks that a message about a number names the range, and that --bisect changes the status."""
    most = machine_memory()
    assert f"999999999 isn't a whole number from 128 to {most}, this machine's" in refused(["--memory", "999999999"])
    assert "0 isn't a whole number from 1 to 100;" in refused(["--patience", "0"])
    assert "101 isn't a whole number from 1 to 100;" in refused(["--patience", "101"])
    assert f"this machine has {most} MB" in refused(["--memory", str(most // 2 + 1), "--jobs", "2"])
    assert not refused(["--memory", str(most // 2), "--jobs", "2"])
    assert refused(["--bad"]).endswith("\n3") and refused(["--bad", "--bisect"]).endswith("git bisect stops\n131")
    given = read_words(["--case", "ixgbe-down-lockup", "--seeds", "5"])
    assert (given.linux, given.seeds, given.rounds) == ("linux-6.1", [5], 2), given


def module(folder: Path, version: str, more: str = "") -> Path:
    file = folder / "kernel/net/ixgbe.ko"
    file.parent.mkdir(parents=True, exist_ok=True)
    file.write_bytes(f"\0vermagic={version} SMP mod_unload{more} \0".encode())
    return file


def bzimage(version: str, words: int = 4) -> bytes:
    """A bzImage with one sector of setup code, and this many 16-byte units after it."""
    head = bytearray(1024 + 64)
    head[0x1F1] = 1
    struct.pack_into("<I", head, 0x1F4, words)
    head[0x202:0x206] = b"HdrS"
    struct.pack_into("<H", head, 0x20E, 0x100)
    text = f"{version} (builder) #1".encode()
    head[0x300 : 0x300 + len(text)] = text
    return bytes(head)


def elf(note: int) -> bytes:
    """A 64-bit ELF kernel with one note, of this type."""
    head = bytearray(b"\x7fELF\x02\x01".ljust(64, b"\0"))
    struct.pack_into("<H", head, 18, 62)
    struct.pack_into("<Q", head, 32, 64)
    struct.pack_into("<HH", head, 54, 56, 1)
    entry = struct.pack("<IIQQQQQQ", 4, 0, 120, 0, 0, 24, 24, 4)
    return bytes(head) + entry + struct.pack("<III", 4, 8, note) + b"Xen\0" + bytes(8) + b"Linux version 6.2 (a)"


def unfit(check: Callable[..., object], *words: object) -> str:
    try:
        check(*words)
    except Unfit as fault:
        return str(fault)
    return ""


def damaged(folder: Path) -> None:
    """Checks that a kernel or a module that was cut off or altered at random is accepted or refused, but never ends the
    search."""
    chance, image = random.Random(1), folder / "damaged"
    for whole in (bzimage("6.1.7-mine"), elf(18), elf(18).replace(b"ELF\x02", b"ELF\x01")):
        for _ in range(200):
            data = bytearray(whole[: chance.randrange(len(whole) + 1)] if chance.random() < 0.5 else whole)
            for _ in range(chance.randrange(4) if data else 0):
                data[chance.randrange(min(len(data), 128))] = chance.choice((0, 1, 0x7F, 0xFF))
            image.write_bytes(data)
            unfit(kernel_version, image)
    for suffix, data in ((".xz", b"\xfd7zXZ\0"), (".gz", b"\x1f\x8b\x08\0" + bytes(20)), (".xz", b"")):
        (folder / f"ixgbe.ko{suffix}").write_bytes(data)
        assert "can't be read or decompressed" in unfit(check_module, folder / f"ixgbe.ko{suffix}", "6.1")


def images(folder: Path) -> None:
    """Checks which kernels and modules are refused before a guest boots."""
    image, at = folder / "bzImage", folder / "lib/6.1"
    for data, said in (
        (bytes(4096), "HdrS at 0x202"), (b"", "HdrS at 0x202"), (bzimage("6.1", 999), "is incomplete: it has 1088"),
        (b"\x1f\x8b" + bytes(900), "another machine"), (bytes(56) + b"ARM\x64" + bytes(900), "another machine"),
        (elf(1), "no PVH entry"),
    ):  # fmt: skip
        image.write_bytes(data)
        assert said in unfit(kernel_version, image), (said, unfit(kernel_version, image))
    for data, version in ((bzimage("6.1.7-mine"), "6.1.7-mine"), (elf(18), "6.2")):
        image.write_bytes(data)
        assert kernel_version(image) == version, kernel_version(image)
    damaged(folder)
    file = module(at, "6.1")
    assert not unfit(check_modules, at, "6.1") and not unfit(check_modules, at, None)
    assert unfit(check_modules, at, "6.2").endswith("are of 6.1, but the kernel is 6.2")
    assert f"it contains 6.1, so give {at}" in unfit(check_modules, at.parent, "6.1")
    assert "isn't a folder" in unfit(check_modules, image, "6.1")
    assert not unfit(check_modules, file.parent, "6.1") and "6.1" in unfit(check_modules, file.parent, "6.2")
    assert find_module(file.parent, "ixgbe") == file == find_module(at, "ixgbe")
    assert "is built for 6.1" in unfit(check_module, file, "6.2") and not unfit(check_module, file, "6.1")
    assert not unfit(check_module, module(folder / "other", "6.1", " modversions"), "6.2")
    assert "no vermagic" in unfit(check_module, image, "6.2")
    shell = folder / "busybox"
    shell.write_text('#!/bin/sh\nshift\nexec sh "$@"\n')
    shell.chmod(0o755)
    for text, said in (("exit 7\n", ""), ("while :; do\n", "mine.sh can't run in the guest")):
        (folder / "mine.sh").write_text(text)
        found = unfit(check_script, folder / "mine.sh", shell)
        assert said in found and bool(said) == bool(found), found


def seed(number: int, kind: str, text: str = "", lines: Sequence[str] = ()) -> Outcome:
    return Outcome("k", "ixgbe", number, [Finding(kind, text)] if kind else [], 1, 1.0, list(lines))


def statuses(folder: Path) -> None:
    """Checks a search's status for each result of its seeds, including for `git bisect run`."""
    loop = seed(1, "lockup", "soft lockup, in ixgbe_clean_tx_ring")
    hung = seed(2, "hung task", "ip blocked", ["RIP: 0010:ixgbe_clean_tx_ring+0x90"])
    quiet, lost = seed(3, ""), seed(4, "frames", "out: 299 of 300")
    untried, broken, ended = seed(5, "not tried"), seed(6, "boot", "Kernel panic"), seed(7, "server", "status 1")
    tail = seed(8, "tail off", "", hung.lines)
    unrun, starved = seed(9, "can't run"), Outcome("k", "ixgbe", 10, [*hung.findings, Finding("memory", "")], 1, 1.0)
    match = ["--match", "ixgbe_clean_tx_ring"]
    for words, outcomes, status in (
        ([], [quiet], 0), ([], [quiet, lost], 1), ([], [quiet, untried], 0), ([], [untried], 2), ([], [broken], 1),
        (match, [quiet, lost], 0), (match, [loop], 1), (match, [hung], 1), (match, [tail], 0),
        (["--bisect"], [quiet], 0), (["--bisect"], [quiet, lost], 1), (["--bisect"], [quiet, untried], 125),
        (["--bisect"], [broken], 125), (["--bisect"], [broken, loop], 1), (["--bisect"], [ended], 130),
        (["--bisect", *match], [quiet, lost], 0), (["--bisect", *match], [hung], 1),
        ([], [unrun], 2), ([], [quiet, unrun], 0), (["--bisect"], [unrun], 130), (["--bisect"], [quiet, unrun], 130),
        ([], [starved], 1), (["--bisect"], [starved], 125), (["--bisect"], [quiet, starved], 125),
        (["--bisect", "--match", "ip blocked"], [starved], 1), (["--bisect", "--match", "oops"], [starved], 125),
    ):  # fmt: skip
        given = read_words(words)
        search = Search(None, None, plan_of(given), given)  # type: ignore[arg-type]
        search.outcomes = list(outcomes)
        assert search.status() == status, (words, [it.verdict for it in outcomes], search.status())
        ends = any(search.ends_bisect(it) for it in outcomes)
        assert "--bisect" not in words or ends == (status != 0), (words, [it.verdict for it in outcomes], ends)
    assert line(untried).endswith(": not tried: ") and "| 1 | 0 | 1 |" in table([untried]), table([untried])
    junit([untried, loop, unrun], folder / "junit.xml")
    written = (folder / "junit.xml").read_text()
    assert 'tests="3" failures="1" skipped="2"' in written and 'skipped message="can\'t run: ' in written, written
    both = Outcome("k", "ixgbe", 11, [*unrun.findings, Finding("tail off", "")], 1, 1.0)
    assert (unrun.verdict, both.verdict, both.is_untried) == ("can't run", "tail off", False)


def fetches() -> None:
    """Checks that only the packages that the arguments need are fetched."""
    assert needs(read_words([])) == ["qemu", "tools", "kernel-6.1"]
    assert needs(read_words(["linux-sid", "--function"])) == ["qemu", "tools", "kernel-sid"]
    assert needs(read_words(["--kernel", "/bin/sh", "--modules", "/"])) == ["qemu", "tools"]
    assert needs_of(["--fetch", "qemu", "tools"]) == ["qemu", "tools"]
    assert needs_of(["--fetch"]) == needs_of([])


def archives(folder: Path) -> None:
    made = Initrd(Path("/nowhere"), Path("/bin/true"))
    made.files["lib/modules/6.0/kernel/a/b.ko.xz"] = (0o100644, b"module")
    made.write(folder / "plain")
    packed = (folder / "plain").read_bytes()
    for name, data in (("plain", packed), ("early", gzip.decompress(packed)[:0] + bytes(8) + packed)):
        (folder / name).write_bytes(data)
        to = unpack_modules(folder / name, folder / f"{name}.to")
        assert (to / "kernel/a/b.ko.xz").read_bytes() == b"module"
    for data in (b"", b"nothing", packed[:50], gzip.compress(b"070701")):
        (folder / "bad").write_bytes(data)
        try:
            unpack_modules(folder / "bad", folder / "bad.to")
        except Unreadable:
            continue
        raise AssertionError(data[:20])


def recordings() -> None:
    found = list(windows(RECORD))
    assert len(found) == 1 and [it.name for it in found[0].tails] == ["TDT[1]"], found
    text = "\n".join(rows_of(found[0]))
    assert "8 r LINKS" not in text and "TDT[1] 00000001  <- a frame" in text and "<- a reset" in text, text
    assert text.index("going down") < text.index("TDT[1]") < text.rindex("the card receives"), text


def reports(folder: Path) -> None:
    bad = Outcome("linux-6.1", "ixgbe", 3, [Finding("lockup", "a"), Finding("fault", "b")], 4, 1.5)
    good = Outcome("linux-6.1", "ixgbe", 4, [Finding("slow", "c")], 4, 1.0)
    assert line(bad).endswith("s: lockup: a; fault: b") and line(good).endswith("s: ok (slow: c)")
    for second, text in (
        (bad, "the same verdict when run alone"), (good, "it didn't recur when run alone: ok (slow: c)"),
        (Outcome("", "ixgbe", 3, [Finding("kernel", "d"), Finding("lockup", "a")], 4, 1.5),
         "it recurred when run alone: kernel: d; lockup: a"),
    ):  # fmt: skip
        assert line(dataclasses.replace(bad, again=second)).endswith(f"b; {text}"), text
    assert "| linux-6.1 | ixgbe | 2 | 8 | 1 | 1 | 1 | 1 |" in table([bad, good]), table([bad, good])
    junit([bad, good], folder / "junit.xml")
    assert 'tests="2" failures="1"' in (folder / "junit.xml").read_text()


def kept(folder: Path) -> None:
    """Checks that each seed's console is kept, and that an interrupted search records nothing."""
    words = argparse.Namespace(**{**vars(read_words([])), "out": folder / "kept"})
    words.out.mkdir()
    search = Search(None, None, plan_of(words), words)  # type: ignore[arg-type]
    with contextlib.redirect_stdout(io.StringIO()):
        search.judge(Task(3), seed(3, "", "", ["script: it ran"]))
    assert (words.out / "consoles/k-ixgbe-3.txt").read_text() == "script: it ran\n" and search.is_clean
    keep_console(seed(3, "", "", ["first"] + ["last"] * 2000), True, words.out / "consoles")
    assert "first" not in (words.out / "consoles/k-ixgbe-3.again.txt").read_text()
    with contextlib.redirect_stdout(io.StringIO()):
        search.judge(Task(5), seed(5, "can't run"))
    assert not (words.out / "failures").exists() and not search.is_clean
    search.outcomes.pop()
    search.is_interrupted = True
    search.judge(Task(4), seed(4, "boot"))
    assert [it.seed for it in search.outcomes] == [3] and not (words.out / "failures").exists()


# A search whose guest is a process that sleeps, and fails when it ends.
SLEEPING = """
import sys
from pathlib import Path
sys.path.insert(0, sys.argv[1])
import main
from guests import started
main.STOP_SECONDS = 300  # for a busy machine
def attempt(self, task, bench):
    guest = started(["sleep", "600"])
    print("boots", flush=True)
    guest.wait()
    return main.Outcome("k", "ixgbe", task.seed, [main.Finding("boot", "")], 0, 1.0), None
main.Search.attempt = attempt
main.kernel_of = lambda place, given: None
sys.exit(main.main([*sys.argv[2:5], "--seeds", "1-2", "--jobs", "1"]))
"""


def interruptions(folder: Path) -> None:
    """Checks that a signal ends a search with one line, without findings, and leaves no files."""
    place = folder / "interrupted"
    place.mkdir()
    words = [sys.executable, "-c", SLEEPING, str(HERE), str(place), str(place), str(place)]
    for number in (signal.SIGTERM, signal.SIGINT):
        search = subprocess.Popen(words, env={**os.environ, "TMPDIR": str(place)}, text=True,
                                  stdout=subprocess.PIPE, stderr=subprocess.PIPE)
        assert search.stdout and "1 guest at a time tries 2 seeds" in search.stdout.readline()
        assert search.stdout.readline() == "boots\n"
        search.send_signal(number)
        output, said = search.communicate(timeout=300)
        assert said == "drivers/qemu/search: interrupted; the guests were stopped\n" and not output, (said, output)
        assert search.returncode == 128 + number and not list(place.iterdir()), (search.returncode, place)


def patches() -> None:
    """Checks that each patch is a mail from which `git am` takes an author, a subject and a message."""
    for patch in (HERE.parent / "patches").iterdir():
        mail = email.message_from_string(patch.read_text())
        message = str(mail.get_payload()).split("\n---\n")[0]
        assert "@" in mail["From"] and mail["Subject"].startswith("[PATCH "), (patch, mail.items())
        assert len(message) > 100 and "+++" not in message and "Signed-off-by" not in message, (patch, message)


def own_guests() -> None:
    """Checks that arguments for the server and for QEMU are separated, and that errors name the faulty option."""
    words = ["--kernel", "vmlinuz", "--server=--wire=none", "--gdb", "--server=--bare", "--", "-m", "--kernel"]
    given = {"--kernel": "vmlinuz", "--gdb": ""}
    assert own_words(words) == (given, ["--wire=none", "--bare"], ["-m", "--kernel"])
    for wrong, said in ((["--disk"], "--disk needs a file"), (["--kernel", "--"], "--kernel needs a file"),
                        (["--kernel", "k", "--serve=x"], "unknown argument: --serve=x")):
        try:
            own_words(wrong)
        except Wrong as fault:
            assert str(fault) == said, fault
        else:
            raise AssertionError(wrong)


def own_files(folder: Path) -> None:
    """Checks that a kernel which QEMU can't load is refused, and no other."""
    elf, multiboot, note = b"\x7fELF", b"\x02\xb0\xad\x1b", b"\4\0\0\0\4\0\0\0\x12\0\0\0Xen\0"
    assert own_fault(folder / "none", True) == "no such file"
    for is_refused, content in (
        (False, b"bzImage"), (False, elf + b"\1" + multiboot), (True, elf + b"\2" + multiboot), (True, elf + b"\2"),
        (False, elf + b"\2" + note), (True, elf + b"\2" + multiboot + note),
    ):  # fmt: skip
        (folder / "kernel").write_bytes(content)
        assert ("64-bit" in own_fault(folder / "kernel", True)) == is_refused, content
        assert not own_fault(folder / "kernel", False)


def signals(folder: Path) -> None:
    """Checks that a process that gets a signal twice, as from `timeout`, still runs what it registered for its end."""
    program = folder / "ends.py"
    program.write_text(
        f"import sys; sys.path.insert(0, {str(Path(__file__).resolve().parents[1])!r})\n"
        "import atexit, os, signal\nfrom guests import end_on_signals\n"
        "atexit.register(lambda: (os.kill(os.getpid(), signal.SIGTERM), print('ended')))\n"
        "end_on_signals(); os.kill(os.getpid(), signal.SIGTERM)\n")
    got = subprocess.run([sys.executable, program], capture_output=True, text=True, check=False)
    assert (got.returncode, got.stdout, got.stderr) == (143, "ended\n", ""), got


def main() -> int:
    with tempfile.TemporaryDirectory() as folder:
        own_guests()
        own_files(Path(folder))
        signals(Path(folder))
        patches()
        verdicts()
        checks()
        workloads()
        own_workloads(Path(folder))
        patience()
        arguments()
        images(Path(folder))
        kept(Path(folder))
        interruptions(Path(folder))
        statuses(Path(folder))
        fetches()
        archives(Path(folder))
        recordings()
        reports(Path(folder))
    print("drivers/qemu/races: passed")
    return 0


if __name__ == "__main__":
    sys.exit(main())
