"""Findings from a seed's lines and the server's counts, the worst first."""

from __future__ import annotations

import re
from collections.abc import Iterable, Iterator, Mapping, Sequence
from dataclasses import dataclass


@dataclass(frozen=True)
class Finding:
    """A problem: its kind, and a description."""

    kind: str
    text: str


# Kinds of finding, the worst first, and their meaning. After one of the first kinds (FATAL) a guest isn't used again.
KINDS = {
    "server": "the server exited",
    "boot": "the guest didn't boot, or its driver had no interface",
    "lockup": "a processor looped in the kernel",
    "stall": "the kernel reported an RCU stall",
    "memory": "the guest ran out of memory",
    "kernel": "the kernel reported a BUG, an oops or a warning",
    "hung task": "a process hung in the kernel",
    "stuck": "the guest's script hung",
    "hung unit": "the driver or the kernel found a hung transmit queue",
    "no link": "the interface had no carrier at the end",
    "no answer": "no echo reply arrived at the end",
    "frames": "frames were lost or changed after the traffic stopped",
    "changed": "the card sent a frame that it hadn't been given",
    "can't run": "the reporter's script can't run in the guest: status 126, 127, or 2 after a syntax error",
    "script": "the reporter's script reported a problem, or exceeded its time limit",
    "driver": "the driver reported that the card didn't do what was expected",
    "reset": "registers were written while the card was being reset",
    "tail outside": "a tail was moved outside its ring",
    "tail off": "the tail of a disabled ring was moved",
    "fault": "the device met a fault",
    "refused": "the server refused an access for another reason",
    "not tried": "the reporter's script can't be tried in this guest: status 125",
    "slow": "a processor or a process was stuck for seconds, and recovered",
}
FATAL = frozenset(list(KINDS)[: list(KINDS).index("frames") + 1])
# Findings that aren't failures, by driver. A busy machine causes them too. A reset by the PF's driver causes them in
# virtual functions, which don't know of the reset before they are notified.
NOTES = {
    "ixgbe": frozenset(["slow", "not tried", "can't run"]),
    "ixgbevf": frozenset(["slow", "not tried", "can't run", "driver", "reset", "tail outside", "tail off"]),
}
# Findings that say nothing about the driver. A seed with one of these, and without a failure, is skipped.
SKIPS = ("can't run", "not tried")

SPOKEN: Sequence[tuple[str, str]] = (
    ("lockup", r"BUG: soft lockup|hard LOCKUP"),
    ("stall", r"rcu: INFO: .* (self-)?detected (expedited )?stall|rcu_\w+ kthread starved"),
    ("hung unit", r"Detected Tx Unit Hang|NETDEV WATCHDOG|transmit queue \d+ timed out"),
    ("hung task", r"INFO: task \S+ blocked for more than"),
    ("memory", r"page allocation failure|Out of memory|oom-kill:|invoked oom-killer"),
    ("kernel", r"\bBUG:(?! soft lockup)|Oops|general protection|Kernel panic|WARNING: (CPU|.* at )|UBSAN|KASAN"
               r"|WARNING: (possible|inconsistent|suspicious|bad unlock|nested lock)|INFO: possible|kmemleak: \d+ new"
               r"|refcount_t|list_(add|del) corruption|DMA-API"),
    ("driver", r"within the polling period|Could not enable|Hardware Error|Adapter removed|[Rr]eset polling failed"
               r"|not cleared|Failed to|PF still (resetting|in reset)"),
)  # fmt: skip
SCRIPT = "script: "  # prefix of each line that the reporter's script prints
FINE, UNTRIED, KILLED = 0, 125, 137  # statuses of the script; the last one means that the script was killed
UNRUN = {126: "a file can't be executed", 127: "a command wasn't found"}
UNPARSED, SYNTAX = 2, re.compile(r": (line \d+: )?syntax error")  # status and message of busybox's sh
MORE_MEMORY = "; give the guest more with --memory"
RIP = re.compile(r"RIP: \S*?:?([A-Za-z_]\w*)\+0x")
# A message of the kernel that follows the guest's text on the same line.
JOINED = re.compile(r"(?<=.)\[ *\d+\.\d{6}\] .*$", re.MULTILINE)
WARNED = re.compile(r"WARNING: CPU.* at (\S+)|WARNING: (\S+) at (\S+)")
COUNTED = {
    "reset": r"writes lost in resets (\d+)",
    "tail outside": r"tails outside (\d+)",
    "tail off": r"rings that are off (\d+)",
    "fault": r"faults (\d+)$",
    "refused": r"accesses refused (\d+)",
}


def without_time(line: str) -> str:
    return re.sub(r"^\[ *[\d.]+\] ", "", line)


def spoken(lines: Sequence[str]) -> Iterator[Finding]:
    """Yields findings in the kernel's messages, each kind once, with the function if the message names one. Ignores the
    script's output."""
    lines = [it for it in lines if not it.startswith(SCRIPT)]
    for kind, pattern in SPOKEN:
        at = next((i for i, line in enumerate(lines) if re.search(pattern, line)), None)
        if at is None:
            continue
        text = without_time(lines[at])
        where = next((found[1] for line in lines[at : at + 25] if (found := RIP.search(line))), None)
        text += MORE_MEMORY if kind == "memory" else ""
        yield Finding(kind, f"{text}, in {where}" if where and kind in ("lockup", "kernel", "stall") else text)


def numbers(counts: Iterable[str]) -> dict[str, int]:
    """Returns the server's counts that a seed may raise."""
    text = "\n".join(counts)
    found = {kind: re.search(pattern, text, re.MULTILINE) for kind, pattern in COUNTED.items()}
    return {kind: int(it[1]) if it else 0 for kind, it in found.items()}


def counted(before: Mapping[str, int], after: Mapping[str, int]) -> Iterator[Finding]:
    raised = {kind: after[kind] - before.get(kind, 0) for kind in after}
    raised["refused"] -= raised["tail outside"]
    for kind, many in raised.items():
        if many > 0:
            yield Finding(kind, f"{many} times: {KINDS[kind]}")


def scripted(lines: Sequence[str], limit: int, name: str) -> Iterator[Finding]:
    """Yields findings from the reporter's script, the file `name`, for each round."""
    found = {int(it[1]): int(it[2]) for line in lines if (it := re.fullmatch(r"@search script (\d+) (\d+)", line))}
    spoke = [it.removeprefix(SCRIPT) for it in lines if it.startswith(SCRIPT)]
    last = f"; last line: {spoke[-1]}" if spoke else ""
    is_unparsed = any(SYNTAX.search(it) for it in spoke)
    for number, status in found.items():
        said = f"{name} exited with status {status}"
        if status == UNTRIED:
            yield Finding("not tried", f"round {number}: {said}{last}")
        elif status in UNRUN or (status == UNPARSED and is_unparsed):
            yield Finding("can't run", f"round {number}: {said}: {UNRUN.get(status, 'a syntax error')}{last}")
        elif status != FINE:
            said = f"{name} didn't finish in {limit} s" if status == KILLED else said
            yield Finding("script", f"round {number}: {said}{last}")


def checked(lines: Sequence[str], is_function: bool) -> Iterator[Finding]:
    """Yields findings from the lines of the guest and the server about the final check."""
    text = JOINED.sub("", "\n".join(lines))
    if not re.search(r"^@search carrier 1$", text, re.MULTILINE):
        yield Finding("no link", KINDS["no link"])
    elif not re.search(r"^@search answered 1$", text, re.MULTILINE):
        yield Finding("no answer", KINDS["no answer"])
    came = list(re.finditer(r"^control: (\d+) of (\d+), twice (\d+), wrong (\d+)$", text, re.MULTILINE))
    out = came[-1] if came else None
    back = re.search(r"^frames: received (\d+) of (\d+) .* twice (\d+), wrong (\d+)$", text, re.MULTILINE)
    pings = re.search(r"^@search pings (\d+) (\d+)$", text, re.MULTILINE)
    for way, found in (("out", out), ("in", back)):
        if way == "in" and is_function:
            continue
        if not found or found[1] != found[2] or found[3] != "0" or found[4] != "0":
            yield Finding("frames", f"{way}: " + (found[0].split(": ")[-1] if found else "nothing was printed"))
    if is_function and (not pings or pings[1] != pings[2]):
        yield Finding("frames", f"echo replies: {pings[2]} of {pings[1]}" if pings else "no echo replies were printed")


def went_on(findings: Iterable[Finding]) -> Iterator[Finding]:
    """Yields the findings of a guest that completed its script. A lockup or stall that ended by itself becomes
    `slow`."""
    for it in findings:
        yield Finding("slow", it.text) if it.kind in ("lockup", "stall", "hung task") else it


def worst_first(findings: Iterable[Finding]) -> list[Finding]:
    """Returns one finding of each kind, in the order of KINDS."""
    by_kind: dict[str, Finding] = {}
    for it in findings:
        by_kind.setdefault(it.kind, it)
    return [by_kind[kind] for kind in KINDS if kind in by_kind]
