"""Runs the `nicbench` program for the tools, and parses a script with its object."""

from __future__ import annotations

import contextlib
import os
import re
import subprocess
import sys
from collections.abc import Iterator
from concurrent.futures import ThreadPoolExecutor
from dataclasses import dataclass
from enum import IntEnum
from pathlib import Path
from threading import Lock

from .. import places

LIMIT = 8_388_608


class Fault(Exception):
    """An error that the user can fix; the message is one line that says how. `is_of_program` is set if the
    program can't be started or its output isn't usable."""

    def __init__(self, line: str, is_of_program: bool = False) -> None:
        super().__init__(line)
        self.is_of_program = is_of_program


class Refused(Exception):
    """The bench refused the input: the refusal's name, and the line, or 0 if the refusal names none."""

    def __init__(self, name: str, line: int) -> None:
        super().__init__(f"refused {name}" + (f" {line}" if line else ""))
        self.name, self.line = name, line


class Op(IntEnum):
    """The operations, by their numbers in an object."""

    WRITE = 1
    READ = 2
    VF_WRITE = 3
    VF_READ = 4
    LEND = 5
    UNLEND = 6
    POKE = 7
    PEEK = 8
    ARRIVE = 9
    RX = 10
    TX = 11
    INT = 12
    QSTEP = 13
    EESTEP = 14
    LINK = 15
    COLLECT = 16
    EXPECT = 17
    AND = 18
    JEQ = 19
    JNE = 20
    JMP = 21
    HALT = 22


_NUMBERS = {int(one) for one in Op}
JUMPS = (Op.JEQ, Op.JNE, Op.JMP)


@dataclass(frozen=True)
class Instruction:
    """An instruction, with the layout in docs/script.md."""

    op: Op
    sub: int
    x: int
    a: int
    b: int

    def line(self) -> str:
        """Returns the instruction as a line of a script. Data is named d0, d1 and so on; jumps go to L0, L1 and so
        on."""
        x, a, b = self.x, f"0x{self.a:x}", f"0x{self.b:x}"
        side = "tx" if self.sub else "rx"
        return {
            Op.WRITE: f"w {a} {b}",
            Op.READ: f"r {a}",
            Op.VF_WRITE: f"vw {x} {a} {b}",
            Op.VF_READ: f"vr {x} {a}",
            Op.LEND: f"lend {x}" + (f" to {self.a}" if self.a else ""),
            Op.UNLEND: f"unlend {x}",
            Op.POKE: f"poke {a} d{x}",
            Op.PEEK: f"peek {a} {self.sub}",
            Op.ARRIVE: f"arrive d{x}",
            Op.RX: "rx",
            Op.TX: f"tx {x}",
            Op.INT: f"int {x}" if self.sub else "int pf",
            Op.QSTEP: f"qstep {side} {x}",
            Op.EESTEP: "eestep",
            Op.LINK: "link up" if self.sub else "link down",
            Op.COLLECT: "collect",
            Op.EXPECT: f"expect {a} {b}",
            Op.AND: f"and {a}",
            Op.JEQ: f"jeq {a} L{x}",
            Op.JNE: f"jne {a} L{x}",
            Op.JMP: f"jmp L{x}",
            Op.HALT: "halt",
        }[self.op]

    @property
    def blocks(self) -> range:
        """The blocks that the instruction lends or takes back. A recording's instruction may lend several; `a` is then
        the last one."""
        return range(self.x, max(self.x, self.a) + 1)

    @property
    def is_local(self) -> bool:
        """Whether the instruction doesn't access the device; `run` then prints no line for it."""
        return self.op >= Op.EXPECT


# The first line of a recording, with the device's sizes.
HEAD = re.compile(r"#: nic vfs ([0-9]{1,9}) fifo ([0-9]{1,9}) blocks ([0-9]{1,9})")

# If the program is missing, the launcher compiles it. This must happen once, before concurrent calls.
_STARTED = Lock()


class Bench:
    """The `nicbench` program with its device's sizes, and the maximum number of instructions in a script."""

    is_made = False
    says_plain = False  # set when a clone's launcher reports that it starts the plain edition
    most = 4_096

    def __init__(self, vfs: int | None = None, fifo: int | None = None) -> None:
        self.vfs, self.fifo = vfs or 0, 64 if fifo is None else fifo
        self.options: list[str] = []
        for name, value in (("--vfs", vfs), ("--fifo", fifo)):
            self.options += [name, str(value)] if value is not None else []

    def call(self, words: list[str], text: bytes) -> tuple[int, bytes]:
        """Runs the program and returns its status and output. Raises Refused if it refuses the input, Fault if it
        can't be started or its output isn't usable."""
        with _STARTED:
            if not Bench.is_made:
                self._call(["--version"], b"")
                Bench.is_made = True
        return self._call(words, text)

    def _call(self, words: list[str], text: bytes) -> tuple[int, bytes]:
        if len(text) > LIMIT:
            raise Fault(
                f"the input is too long: the bench reads {LIMIT:,} bytes, not {len(text):,}; shorten the script"
            )
        program = "nicbench"
        try:
            program = places.program()
            # Without NICBENCH_QUIET the launcher names its edition; `_hear` parses that line and doesn't show it.
            environment = {name: value for name, value in os.environ.items() if name != "NICBENCH_QUIET"}
            ran = subprocess.Popen(
                [program, *words],
                stdin=subprocess.PIPE,
                stdout=subprocess.PIPE,
                stderr=subprocess.PIPE,
                env=environment,
            )
        except places.Missing as missing:
            raise Fault(str(missing), True) from None
        except OSError as error:
            raise Fault(f"{program} can't be started ({error.strerror}): set NICBENCH to another path", True) from None
        with ThreadPoolExecutor(1) as pool:
            said = pool.submit(_hear, ran.stderr)
            out, _ = _talk(ran, text)
        if ran.returncode == 2 and (found := re.fullmatch(rb"refused (\w+)(?: (\d+))?\n", out)):
            raise Refused(found[1].decode(), int(found[2] or 0))
        if ran.returncode not in ((0, 1) if words[0] == "run" else (0,)) or not out:
            reason = (out.decode(errors="replace") + said.result()).strip().splitlines()
            last = reason[-1] if reason else "it printed nothing"
            raise Fault(f"{program} {' '.join(words)} exited with status {ran.returncode}: {last}", True)
        return ran.returncode, out

    @staticmethod
    def edition() -> str:
        """Returns the program's edition, "plain" or "proved"; "" for an installed program, which doesn't name it."""
        if Bench.says_plain:
            return "plain"
        root = places.clone()
        return "proved" if root and Path(places.program()) == root / "nicbench" else ""

    def debug(self, script: str, commands: list[str]) -> list[str]:
        """Returns the lines that the debugger prints for these commands, without the first line of a session."""
        text = script + ("" if script.endswith("\n") else "\n") + "%\n" + "\n".join(commands) + "\n"
        return self.call(["debug", *self.options], text.encode())[1].decode().splitlines()

    def run(self, script: str, limit: int) -> list[str]:
        """Returns the lines that a run prints."""
        return self.call(["run", *self.options, "--limit", str(limit)], script.encode())[1].decode().splitlines()


def _talk(ran: subprocess.Popen[bytes], text: bytes) -> tuple[bytes, bytes]:
    """Writes the input while a thread reads the output, so neither side blocks the other."""
    assert ran.stdin and ran.stdout
    with ThreadPoolExecutor(1) as pool:
        out = pool.submit(ran.stdout.read)
        with contextlib.suppress(BrokenPipeError):
            ran.stdin.write(text)
            ran.stdin.close()
        result = out.result()
    ran.wait()
    return result, b""


def _hear(stream: object) -> str:
    """Reads the launcher's standard error. Reports immediately that the launcher compiles, because this takes a
    while."""
    said = []
    for line in stream:  # type: ignore[attr-defined]
        text = line.decode(errors="replace")
        if "compil" in text:
            print(text, end="", file=sys.stderr, flush=True)
        if "so this is the plain edition" in text:
            Bench.says_plain = True
        else:
            said.append(text)
    return "".join(said)


@dataclass
class Script:
    """A script with its object. `lines` are its lines, and `line_of` is the line number of each instruction, counted
    from 1. It may be a part of a recording: `before` lines of the file come before it."""

    path: str
    lines: list[str]
    instructions: list[Instruction]
    data: list[bytes]
    line_of: list[int]
    labels: dict[str, int]
    data_names: list[str]
    before: int = 0

    def only(self, *ops: Op) -> Iterator[tuple[int, Instruction]]:
        """Returns the instructions with these operations and their numbers. A recording finds them without parsing the
        others."""
        if (only := getattr(self.instructions, "only", None)) is not None:
            found: Iterator[tuple[int, Instruction]] = only(frozenset(ops))
            return found
        return ((pc, one) for pc, one in enumerate(self.instructions) if one.op in ops)

    @property
    def has_jumps(self) -> bool:
        return any(one.op in JUMPS for one in self.instructions)

    def text(self) -> str:
        """Returns the script with numbers instead of names, which the bench reads faster."""
        targets = {one.x for one in self.instructions if one.op in JUMPS}
        lines = [f"data d{n} {data.hex()}" for n, data in enumerate(self.data)]
        for pc, one in enumerate(self.instructions):
            lines += [f"L{pc}:"] if pc in targets else []
            lines.append(one.line())
        lines += [f"L{len(self.instructions)}:"] if len(self.instructions) in targets else []
        return "\n".join(lines) + "\n"

    def shown(self, pc: int) -> str:
        """Returns an instruction's text in the script, without its comment."""
        return instruction_of(self.lines[self.line_of[pc] - 1])


def instruction_of(line: str) -> str:
    """Returns the part of a line before its comment."""
    return " ".join(line.split("#")[0].split())


def comment_of(line: str) -> str:
    """Returns the comment of a line."""
    return line.partition("#")[2].strip()


def script_part(text: str) -> str:
    """Returns a script, or the part of a session before its `%` line."""
    lines = text.splitlines(keepends=True)
    for n, line in enumerate(lines):
        if line.split("#")[0].split() == ["%"]:
            return "".join(lines[:n])
    return text


def read_bytes(path: str) -> bytes:
    """Returns the contents of a file, or of standard input if the name is `-`."""
    try:
        return sys.stdin.buffer.read() if path == "-" else Path(path).read_bytes()
    except OSError as error:
        raise Fault(f"{path} can't be read ({error.strerror}): give a script file or a recording") from None


def read_text(path: str) -> str:
    """Returns the script in a file, or from standard input if the name is `-`."""
    return text_of(path, read_bytes(path))


def text_of(path: str, raw: bytes) -> str:
    """Decodes a script."""
    if len(raw) > LIMIT:
        raise Fault(f"{path} is too long: the bench reads {LIMIT:,} bytes, not {len(raw):,}; shorten the script")
    try:
        return script_part(raw.decode())
    except UnicodeDecodeError as error:
        raise Fault(f"{path} isn't UTF-8 at byte {error.start}: a script is text, not an object") from None


def instructions_of(script: bytes) -> tuple[list[Instruction], list[bytes]]:
    """Returns the instructions and the data strings of an object."""
    count, strings = int.from_bytes(script[6:8], "little"), int.from_bytes(script[8:10], "little")
    instructions, at = [], 16
    for _ in range(count):
        op, sub, x, a, b = (
            int.from_bytes(script[at + n : at + m], "little") for n, m in ((0, 1), (1, 2), (2, 4), (4, 8), (8, 12))
        )
        if op not in _NUMBERS:
            raise Fault(f"the bench has an operation {op} that these tools don't know: use both from one clone", True)
        instructions.append(Instruction(Op(op), sub, x, a, b))
        at += 12
    data = []
    for _ in range(strings):
        length = int.from_bytes(script[at : at + 2], "little")
        data.append(script[at + 2 : at + 2 + length])
        at += 2 + length
    return instructions, data


def load(bench: Bench, path: str) -> Script:
    """Loads a script from a file. Raises Refused if the bench refuses it."""
    return of_text(bench, path, read_text(path))


def of_text(bench: Bench, path: str, text: str) -> Script:
    """Loads a script from its source. `nicbench asm` assembles the instructions; this function finds their lines."""
    instructions, data = instructions_of(bench.call(["asm"], text.encode())[1])
    line_of: list[int] = []
    labels: dict[str, int] = {}
    lines, names = text.split("\n"), []
    lines = [line.removesuffix("\r") for line in (lines if lines[-1] else lines[:-1])]
    for number, line in enumerate(lines, 1):
        words = line.split("#")[0].split()
        if not words:
            continue
        if words[0] == "data":
            names.append(words[1])
        elif len(words) == 1 and words[0].endswith(":"):
            labels[words[0][:-1]] = len(line_of)
        else:
            line_of.append(number)
    if len(line_of) != len(instructions) or len(names) != len(data):
        raise Fault(
            f"{path} has {len(instructions)} instructions, but on {len(line_of)} lines: please report this"
        )
    return Script(path, lines, instructions, data, line_of, labels, names)
