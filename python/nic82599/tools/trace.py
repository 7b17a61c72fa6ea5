"""A run of a script on the bench, step by step: the replies of `nicbench`, and the registers after each step.

Everything comes from the program: the instructions from `asm`, the replies from `run`, the registers from `debug`.
Showing every register after every step would take millions of lines. So only the registers that the step's instruction
and reply can change, according to docs/REGISTERS.md, are shown after it. At the end all registers are shown. If some of
them turn out to have changed unnoticed, a second run shows these at every step.
"""

from __future__ import annotations

import re
from collections.abc import Callable
from concurrent.futures import ThreadPoolExecutor
from dataclasses import dataclass, field

from . import regs
from .regs import REGISTERS, Register, first
from .script import Bench, Instruction, Op, Script, of_text
from .tables import POOL_SIZES

CHUNK = 9_000
RESET_BITS = 1 << 3 | 1 << 26


REFUSALS = ("no ", "not lent", "misaligned")
TROUBLE = ("failed", "fault", "dropped", "refused")


@dataclass
class Step:
    """A step: the instruction at `pc`, its reply, and what it changed. `changes` are (address, old, new) of registers.
    `memory` is (bus address, 16 bytes, or None if they are no longer read): what is known of lent memory after this
    step. `written` are the addresses that the step itself wrote. `lent` is (+ or -, first block, last block);
    `waiting` and `out` are (+ or -, frames); `ring` is the ring that the step concerns, if any. `acc` and `status` are
    set for a step that doesn't access the device; otherwise the reply has them."""

    number: int
    pc: int
    reply: str = ""
    acc: int = 0
    status: str = "running"
    changes: list[tuple[int, int, int]] = field(default_factory=list)
    memory: list[tuple[int, bytes | None]] = field(default_factory=list)
    written: set[int] = field(default_factory=set)
    lent: list[tuple[str, int, int]] = field(default_factory=list)
    waiting: list[tuple[str, list[int]]] = field(default_factory=list)
    out: list[tuple[str, list[int]]] = field(default_factory=list)
    ring: tuple[str, int] | None = None

    @property
    def kind(self) -> str:
        """The step's category: `failed` (an expect), `fault`, `dropped` (a frame), `refused` (a call that had nothing
        to act on), `stray` (an access without a register), `idle`, `message`, or ""."""
        if self.status == "failed":
            return "failed"
        if self.reply.startswith(REFUSALS):
            return "refused"
        first_word = self.reply.partition(" ")[0]
        return first_word if first_word in ("fault", "dropped", "stray", "idle", "message") else ""

    @property
    def is_trouble(self) -> bool:
        """Whether the step is a failed expect, a fault, a drop or a refusal. A stray access seldom matters."""
        return self.kind in TROUBLE

    @property
    def answer(self) -> str:
        """The reply, or `failed` if the script failed at this step."""
        return "failed" if self.status == "failed" else self.reply


def _nothing(_unit: int) -> bytes:
    return b""


@dataclass
class Trace:
    """A whole run. `start` has the registers before the first step: the registers that a step can change or that differ
    from their reset values. `lent` are the blocks lent at this point, and `memory_before` returns 16 bytes of them.
    `waiting` and `out` are how many frames are waiting and how many were sent; both are 0 in a fresh run. `warnings`
    are niclint's, with their lines, if the script is only a part of the checked one. `in_place` are blocks of the
    program's own memory; a recording has only what the device read or wrote there. `read` are the units of these blocks
    that the device had read before the run."""

    bench: Bench
    script: Script
    steps: list[Step]
    start: dict[int, int]
    last: str
    notes: list[str] = field(default_factory=list)
    lent: set[int] = field(default_factory=set)
    memory_before: Callable[[int], bytes] = _nothing
    waiting: int = 0
    out: int = 0
    warnings: list[tuple[int, str]] | None = None
    in_place: set[int] = field(default_factory=set)
    read: set[int] = field(default_factory=set)

    def instruction(self, step: Step) -> Instruction:
        return self.script.instructions[step.pc]

    def registers(self, count: int) -> dict[int, int]:
        """Returns the registers after `count` steps."""
        words = dict(self.start)
        for step in self.steps[:count]:
            for address, _, new in step.changes:
                words[address] = new
        return words


def word_of(words: dict[int, int], name: str, index: int = 0) -> int:
    """Returns a register's value, or its reset value if no step of the run can change it."""
    address = first(name, index)
    return words.get(address, REGISTERS[address].row.reset)


def number_after(reply: str, word: str) -> int | None:
    """Returns the number that follows a word in a reply such as `wrote queue 3 slot 0 end`."""
    found = re.search(rf"\b{word} (\d+)", reply)
    return int(found[1]) if found else None


def not_as_reset(start: dict[int, int]) -> set[int]:
    """Returns the registers that differ from their reset values."""
    return {address for address, word in start.items() if word != REGISTERS[address].row.reset}


class Plan:
    """Selects the registers to show after a step. `start` has the known registers before the first step."""

    def __init__(self, bench: Bench, script: Script, start: dict[int, int]) -> None:
        self.vfs = bench.vfs
        changed = not_as_reset(start)
        self.seen: set[int] = {first("STATUS"), first("LINKS"), first("EEC")} | changed
        self.counters = {"RQSMR": {0}, "TQSM": {0}}
        for address in changed:
            if (name := REGISTERS[address].row.name) in self.counters:
                self.counters[name] |= {start[address] >> shift & 15 for shift in (0, 8, 16, 24)}
        for one in script.instructions:
            register = regs.register_at(one.a) if one.op == Op.WRITE else None
            if register and register.row.name in self.counters:
                self.counters[register.row.name] |= {one.b >> shift & 15 for shift in (0, 8, 16, 24)}

    def access(self, register: Register | None, written: int | None) -> list[int]:
        """Returns the registers that an access can change. `written` is the value, or None for a read."""
        if register is None:
            return []
        kind, bank, i = register.row.kind, register.row.bank, register.index
        if kind in ("Cause", "Set", "Ones", "Clear"):
            pf = bank == "Interrupts"
            return [first("EICR"), first("EIMS")] if pf else [first("PVTEICR", i), first("PVTEIMS", i)]
        if kind == "Ctrl" and written is not None:
            return (
                sorted(self.seen | {register.address}) if written & RESET_BITS else [register.address, first("STATUS")]
            )
        if kind == "Vreset":
            return sorted(self.seen) if (written or 0) & 1 << 26 else []
        if kind in ("Vfmail", "Pfmail", "Ctrlext"):
            return self._mail(register, written)
        return [register.address] if written is not None or kind == "Rc" else []

    def _mail(self, register: Register, written: int | None) -> list[int]:
        """Returns the registers that an access to a mailbox or to CTRL_EXT can change."""
        kind, i = register.row.kind, register.index
        if kind == "Ctrlext":
            boxes = [first("PVFMAILBOX", v) for v in range(64)] if (written or 0) & 1 << 14 else []
            return [register.address] + boxes if written is not None else []
        both = [first("PVFMAILBOX", i), first("PFMAILBOX", i)]
        if kind == "Pfmail":
            return both + [first("PVTEICR", i)] if written is not None else []
        return both + [first("PFMBICR", i // 16), first("EICR")] if written is not None else both

    def causes(self, queue: int) -> list[int]:
        """Returns the cause registers in which a queue may set bits: the physical function's registers, and the
        registers of virtual functions with a pool that may contain the queue."""
        return [first("EICR")] + [first("PVTEICR", v) for v in self.functions(queue)]

    def functions(self, queue: int) -> list[int]:
        """Returns the virtual functions with a pool that may contain this queue."""
        return sorted({v for v in (queue // k for k in POOL_SIZES) if v < self.vfs})

    def moved(self, reply: str, queue: int, rx: bool) -> list[int]:
        """Returns the registers that a receive or transmit step can change, given its reply."""
        if reply.startswith("fault"):
            return [first("RXDCTL" if rx else "TXDCTL", queue), first("EICR")]
        if reply == "dropped no slot":
            return [first("QPRDC", n) for n in sorted(self.counters["RQSMR"])]
        asked = [first("RDH" if rx else "TDH", queue)] + self.causes(queue)
        if reply.endswith(" end") or reply.startswith("sent"):
            row, total, each = ("RQSMR", "QPRC", "VFGPRC") if rx else ("TQSM", "QPTC", "VFGPTC")
            asked += [first(total, n) for n in sorted(self.counters[row])]
            asked += [first(each, v) for v in self.functions(queue)] + ([] if rx else [first("GPTC")])
        return asked

    def after(self, one: Instruction, reply: str) -> list[int]:
        """Returns the registers to show after an instruction with this reply."""
        asked: list[int] = []
        if one.op in (Op.WRITE, Op.READ):
            asked = self.access(regs.register_at(one.a), one.b if one.op == Op.WRITE else None)
        elif one.op in (Op.VF_WRITE, Op.VF_READ):
            for k in POOL_SIZES:
                asked += self.access(
                    regs.function_register(k, one.x, one.a), one.b if one.op == Op.VF_WRITE else None
                )
        elif one.op == Op.ARRIVE:
            counted = {
                "done": ["GPRC"],
                "dropped short": ["RUC"],
                "dropped long": ["ROC"],
                "dropped full": ["MPC", "EICR"],
            }
            asked = [first(name) for name in counted.get(reply, [])]
        elif one.op in (Op.RX, Op.TX) and reply not in ("idle", "dropped queue off", "no queue"):
            queue = number_after(reply, "queue")
            asked = self.moved(reply, (queue or 0) if one.op == Op.RX else one.x, one.op == Op.RX)
        elif one.op == Op.INT and reply.startswith("message"):
            asked = [first("PVTEICR", one.x), first("PVTEIMS", one.x)] if one.sub else [first("EICR"), first("EIMS")]
        elif one.op == Op.QSTEP and reply == "done":
            asked = [first("TXDCTL" if one.sub else "RXDCTL", one.x)]
        elif one.op == Op.EESTEP:
            asked = [first("EERD")]
        elif one.op == Op.LINK:
            asked = [first("LINKS"), first("EICR")]
        asked = list(dict.fromkeys(asked))
        self.seen.update(asked)
        return asked


def trace(bench: Bench, path: str, text: str, limit: int = 4_096) -> Trace:
    """Runs a script given as text, for at most `limit` steps."""
    with ThreadPoolExecutor(1) as pool:
        run = pool.submit(bench.run, text, limit)
        return _trace(bench, of_text(bench, path, text), run.result(), limit)


def trace_of(bench: Bench, script: Script, text: str, limit: int = 4_096) -> Trace:
    """Runs a script that is already loaded."""
    return _trace(bench, script, bench.run(text, limit), limit)


def _trace(bench: Bench, script: Script, printed: list[str], limit: int) -> Trace:
    """Returns the trace of a script that printed these lines."""
    steps, last = made(bench, script, printed, limit)
    with ThreadPoolExecutor(4) as pool:
        always: set[int] = set()
        while True:
            start, every = _registers(pool, bench, script, steps, always)
            result = Trace(bench, script, steps, start, last)
            missed = _missed(result.registers(len(steps)), every)
            if not missed or missed <= always:
                break
            always |= missed
    if always:
        result.notes.append(
            "these registers changed unexpectedly, so they were read at every step: "
            f"{', '.join(regs.name_at(a) for a in sorted(always))}"
        )
    if last.startswith("limit"):
        result.notes.append(f"the script continues after the {len(steps)} steps shown; --limit shows more")
    return result


def made(bench: Bench, script: Script, printed: list[str], limit: int) -> tuple[list[Step], str]:
    """Returns the steps of a run that printed these lines, with their replies, and the run's last line."""
    *replies, last = printed
    steps, lines = _steps(bench, script, last, limit), iter(replies)
    for step in steps:
        if not script.instructions[step.pc].is_local:
            pc, _, step.reply = next(lines).partition(" ")
            assert int(pc) == step.pc, (step, pc)
    if last.startswith("failed") and steps:
        steps[-1].status = "failed"
    return steps, last


def _steps(bench: Bench, script: Script, last: str, limit: int) -> list[Step]:
    """Returns the steps of a run with their instructions. Without jumps these are consecutive."""
    if not script.has_jumps:
        word, number = last.split()[:2]
        count = {"ok": int(number), "failed": int(number) + 1}.get(word, limit)
        return [Step(k, k) for k in range(count)]
    text = script.text()
    count = int(bench.debug(text, [f"continue {limit}"])[-1].split()[1])
    steps = [Step(k, 0) for k in range(count)]
    for step, view in zip(steps[1:], bench.debug(text, ["step 1"] * count)):
        step.pc = int(view.split()[3])
    return steps


def _missed(tracked: dict[int, int], shown: dict[int, int]) -> set[int]:
    """Returns the registers with a shown value that differs from the tracked one."""
    return {a for a, word in shown.items() if word != tracked.get(a, REGISTERS[a].row.reset)}


def _registers(
    pool: ThreadPoolExecutor, bench: Bench, script: Script, steps: list[Step], always: set[int]
) -> tuple[dict[int, int], dict[int, int]]:
    """Shows the registers that each step can change, and notes the changes. Returns the registers at the start that any
    step can change, and all registers at the end."""
    plan = Plan(bench, script, {})
    asked = [sorted(set(plan.after(script.instructions[step.pc], step.reply)) | always) for step in steps]
    seen, parts, begin, lines = sorted(plan.seen | always), [], 0, 0
    for k, addresses in enumerate(asked):
        lines += 1 + len(addresses)
        if lines > CHUNK or k + 1 == len(asked):
            parts.append((begin, k + 1))
            begin, lines = k + 1, 0
    parts = parts or [(0, 0)]
    jobs = []
    for begin, end in parts:
        before, after = seen if begin == 0 else [], list(REGISTERS) if end == len(steps) else []
        jobs.append(pool.submit(_part, bench, script, steps[begin:end], asked[begin:end], before, after))
    start: dict[int, int] = {}
    every: dict[int, int] = {}
    for job in jobs:
        start.update(job.result()[0])
        every.update(job.result()[2])
    words = dict(start)
    for (begin, end), job in zip(parts, jobs):
        for step, shown in zip(steps[begin:end], job.result()[1]):
            step.changes = [(a, words[a], word) for a, word in shown if words[a] != word]
            words.update(shown)
    return start, every


Shown = list[tuple[int, int]]


def _part(
    bench: Bench, script: Script, steps: list[Step], asked: list[list[int]], before: list[int], after: list[int]
) -> tuple[Shown, list[Shown], Shown]:
    """Returns the registers after each of some consecutive steps, and the registers shown before and after all of them.
    Steps run together with the next one if nothing is shown after them."""

    def show(addresses: list[int]) -> list[str]:
        return [f"show 0x{address:x}" for address in addresses]

    commands, views, together = ([f"step {steps[0].number}"] if steps and steps[0].number else []) + show(before), [], 0
    skipped = len(commands) - len(before)
    for step, addresses in zip(steps, asked):
        together += 1
        if addresses or script.instructions[step.pc].is_local or step is steps[-1]:
            commands += [f"step {together}", *show(addresses)]
            views.append(step.number)
            together = 0
    lines = iter(bench.debug(script.text(), commands + show(after))[skipped:] if commands or after else [])

    def answers(addresses: list[int]) -> Shown:
        return [(address, int(next(lines).split()[1], 16)) for address in addresses]

    first_shown, shown, made = answers(before), [], set(views)
    for step, addresses in zip(steps, asked):
        if step.number in made:
            view = next(lines).split()
            step.acc, step.status = int(view[5], 16), view[6]
        shown.append(answers(addresses))
    return first_shown, shown, answers(after)
