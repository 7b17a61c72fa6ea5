"""Writes a run of a script as a test: a C program that uses the library, or a Python test. The test makes the same
calls as the run, and passes if the controller returns the same results.
"""

from __future__ import annotations

import re

from .printable import shortened
from .regs import register_at
from .script import Bench, Instruction, Op, Script

# The number of packet memory blocks that a script has.
BLOCKS = 256
# The maximum number of characters of a script's line in a comment.
MOST_SAID = 90
REFUSALS = {"not lent": "NotLent", "no block": "NoBlock", "no queue": "NoQueue", "no group": "NoGroup"}
# The library accepts any address; only nicbench refuses misaligned ones.
MISALIGNED = "misaligned"
NUMBER = re.compile("0x[0-9a-f]+")


def said(text: str) -> str:
    """Escapes a script's line for a comment in either language."""
    plain = "".join([one if " " <= one <= "~" else "?" for one in text.replace("\t", " ").strip()])
    return shortened(plain, MOST_SAID).replace("*/", "* /").replace("/*", "/ *").replace("??", "? ?").rstrip("\\")


def identifier(name: str) -> str:
    """Turns a file's name into a function's name.

    >>> identifier("2 queues.nic")
    'queues'
    """
    stem = re.sub("[^A-Za-z0-9]+", "_", name.rpartition("/")[2].partition(".")[0])
    return re.sub("^[0-9_]+", "", stem)[:40].strip("_").lower() or "run"


def filled(text: str, places: dict[str, str]) -> str:
    """Replaces placeholders such as `{name}` in a string."""
    for name, word in places.items():
        text = text.replace("{" + name + "}", word)
    return text


def number_of(reply: str, word: str) -> int:
    """Returns the number that follows a word in a reply."""
    words = reply.split(" ")
    return int(words[words.index(word) + 1])


def steps_of(script: Script, printed: list[str]) -> list[tuple[int, str]]:
    """Returns the executed instructions in order, with their replies, from a run's output."""
    found = [line.partition(" ") for line in printed if line[:1].isdigit()]
    return [(int(pc), reply) for pc, _, reply in found]


def used_data(script: Script, steps: list[tuple[int, str]]) -> list[int]:
    """Returns the numbers of the data that the run uses."""
    ones = [script.instructions[pc] for pc, reply in steps if reply != MISALIGNED]
    return sorted({one.x for one in ones if one.op in (Op.POKE, Op.ARRIVE)})


# --- in C ---

C_HEAD = """\
/* A run of {name} on the bench, as a test.
   Each call must return the same result as in that run.{made}

       cc -std=c99 {file} $(pkg-config --cflags --libs nic82599) && ./a.out    */
#include <stdint.h>
#include <stdio.h>
#include <string.h>

#include "nic82599.h"

#define IS(line, have, want) is(line, #have, (uint64_t)(have), (uint64_t)(want))

static int wrong;

static void is(int line, const char *what, uint64_t have, uint64_t want)
{
    if (have == want)
        return;
    fprintf(stderr, "{file}: line %d of the script: %s is 0x%llx, not 0x%llx\\n", line, what,
            (unsigned long long)have, (unsigned long long)want);
    wrong++;
}
"""
C_FOOT = """\
    nic_close(&n);
    return wrong != 0;
}
"""
A_ROW = 16


def c_bytes(name: str, data: bytes) -> list[str]:
    """Returns a C array of these bytes."""
    rows = [data[at : at + A_ROW] for at in range(0, len(data), A_ROW)]
    return [
        f"static const uint8_t {name}[{len(data)}] = {{",
        *["    " + " ".join([f"0x{byte:02x}," for byte in row]) for row in rows],
        "};",
    ]


def c_address(address: int) -> str:
    """Returns an address as the name of its register, or as a number if it isn't the register's first address."""
    register = register_at(address)
    if register is None or register.address != address:
        return f"0x{address:05x}"
    row = register.row
    return f"NIC_{row.name}" if row.count == 1 else f"NIC_{row.name}({register.index})"


class Lines:
    """The lines of a test, the names that they use, and the bytes that they expect."""

    def __init__(self, script: Script) -> None:
        self.script = script
        self.used: set[str] = set()
        self.arrays: list[str] = []
        self.lines: list[str] = []
        self.wanted = 0


class InC(Lines):
    """The lines of a test in C."""

    def check(self, number: int, have: str, want: str) -> None:
        self.lines.append(f"    IS({number}, {have}, {want});")

    def step(self, number: int, one: Instruction, reply: str) -> None:
        """Adds a call and a check of its result."""
        self.lines.append(f"    /* {said(self.script.lines[number - 1])} */")
        if reply == MISALIGNED:
            self.lines.append("    /* (nicbench refuses this address; the library accepts any address) */")
            return
        call = self.call(one)
        words = reply.split(" ")
        first = words[0]
        refusal = reply in REFUSALS
        status = reply.upper().replace(" ", "_") if refusal else first.upper()
        status = {"WORD": "DONE", "TAKEN": "DONE", "BYTES": "DONE"}.get(status, status)
        self.check(number, call, f"NIC_{status}")
        if refusal or first in ("done", "idle", "taken"):
            return
        if first in ("word", "stray"):
            if one.op in (Op.READ, Op.VF_READ):
                self.check(number, "word", words[1])
        elif first == "bytes":
            self.same(number, bytes.fromhex(words[1]))
        else:
            self.event(number, reply, words)

    def event(self, number: int, reply: str, words: list[str]) -> None:
        """Adds checks of a reported event."""
        first = words[0]
        if first == "dropped":
            self.check(number, "event.why", "NIC_WHY_" + reply.partition(" ")[2].upper().replace(" ", "_"))
        elif first == "message":
            group = 0 if words[1] == "pf" else 1 + int(words[2])
            self.check(number, "event.group", f"{group}")
            self.check(number, "event.vector", f"{number_of(reply, 'vector')}")
        else:
            self.check(number, "event.queue", words[2])
        if first in ("wrote", "advanced"):
            self.check(number, "event.slot", words[4])
        if first == "wrote":
            self.check(number, "event.end", f"{int(words[5] == 'end')}")
        elif first == "sent":
            self.check(number, "event.len", words[4])
        elif first == "fault":
            self.fault(number, words[3:])
        elif first == "frame":
            frame = bytes.fromhex(words[3])
            self.check(number, "event.len", f"{len(frame)}")
            if frame:
                self.same(number, frame)

    def fault(self, number: int, words: list[str]) -> None:
        at = words[-1] if NUMBER.fullmatch(words[-1]) else ""
        why = words[:-1] if at else words
        self.check(number, "event.why", "NIC_FAULT_" + "_".join(why).upper())
        if at:
            self.check(number, "event.bus", at)

    def same(self, number: int, data: bytes) -> None:
        """Adds a check of the bytes that were read."""
        name = f"want_{self.wanted}"
        self.wanted += 1
        self.arrays += c_bytes(name, data)
        self.check(number, f"memcmp(bytes, {name}, {len(data)})", "0")

    def call(self, one: Instruction) -> str:
        """Returns the call for an instruction."""
        if one.op in (Op.READ, Op.VF_READ):
            self.used.add("uint32_t word = 0;")
        if one.op in (Op.PEEK, Op.COLLECT):
            self.used.add("static uint8_t bytes[16384];")
        if one.op in (Op.ARRIVE, Op.RX, Op.TX, Op.INT, Op.QSTEP, Op.EESTEP, Op.COLLECT):
            self.used.add("nic_outcome event;")
        side = "true" if one.sub else "false"
        return {
            Op.WRITE: f"nic_write32(&n, {c_address(one.a)}, 0x{one.b:08x})",
            Op.READ: f"nic_read32(&n, {c_address(one.a)}, &word)",
            Op.VF_WRITE: f"nic_vf_write32(&n, {one.x}, 0x{one.a:05x}, 0x{one.b:08x})",
            Op.VF_READ: f"nic_vf_read32(&n, {one.x}, 0x{one.a:05x}, &word)",
            Op.LEND: f"nic_lend(&n, {one.x})",
            Op.UNLEND: f"nic_take(&n, {one.x})",
            Op.POKE: f"nic_dma_write(&n, 0x{one.a:05x}, data_{one.x}, 16)",
            Op.PEEK: f"nic_dma_read(&n, 0x{one.a:05x}, bytes, 16)",
            Op.ARRIVE: f"nic_arrive(&n, data_{one.x}, sizeof data_{one.x}, &event)",
            Op.RX: "nic_rx_step(&n, &event)",
            Op.TX: f"nic_tx_step(&n, {one.x}, &event)",
            Op.INT: f"nic_int_step(&n, {one.x + 1 if one.sub else 0}, &event)",
            Op.QSTEP: f"nic_queue_step(&n, {side}, {one.x}, &event)",
            Op.EESTEP: "nic_eeprom_step(&n, &event)",
            Op.LINK: f"nic_link(&n, {side})",
            Op.COLLECT: "nic_collect(&n, bytes, sizeof bytes, &event)",
        }[one.op]


def in_c(script: Script, printed: list[str], vfs: int, fifo: int, made: str = "") -> str:
    """Returns the test in C."""
    test = InC(script)
    steps = steps_of(script, printed)
    for pc, reply in steps:
        test.step(script.line_of[pc], script.instructions[pc], reply)
    name = identifier(script.path)
    arrays: list[str] = []
    for number in used_data(script, steps):
        arrays += c_bytes(f"data_{number}", script.data[number])
    shown = said(script.path.rpartition("/")[2])
    head = filled(C_HEAD, {"file": f"{name}.c", "made": made, "name": shown})
    start = ["int main(void)", "{", "    nic n;", *[f"    {one}" for one in sorted(test.used)]]
    opened = f"    if (nic_open(&n, {vfs}, {fifo}, {BLOCKS}) != NIC_DONE)\n        return 2;"
    return "\n".join([head, *arrays, *test.arrays, "", *start, opened, *test.lines, C_FOOT])


# --- in Python ---

PYTHON_HEAD = '''\
"""A run of {name} on the bench, as a test.

Each call must return the same result as in that run.{made}

    python3 -m pytest {file}    or    python3 {file}
"""

from nic82599 import {names}
{more}
'''
PYTHON_REFUSED = """
def refused(kind, call, *words):
    try:
        call(*words)
    except kind:
        return
    raise AssertionError(f"{call.__name__} isn't refused by {kind.__name__}")

"""
PYTHON_FOOT = """

if __name__ == "__main__":
    {test}()
"""
HEX_ROW = 96


def python_bytes(name: str, data: bytes) -> list[str]:
    """Returns a Python constant of these bytes."""
    text = data.hex()
    if len(text) <= HEX_ROW:
        return [f'{name} = bytes.fromhex("{text}")']
    rows = [text[at : at + HEX_ROW] for at in range(0, len(text), HEX_ROW)]
    return [f"{name} = bytes.fromhex(", *[f'    "{row}"' for row in rows], ")"]


class InPython(Lines):
    """The lines of a test in Python."""

    def step(self, number: int, one: Instruction, reply: str) -> None:
        """Adds a call and a check of its result."""
        self.lines.append(f"        # {number}: {said(self.script.lines[number - 1])}")
        if reply == MISALIGNED:
            self.lines.append("        # (nicbench refuses this address; the library accepts any address)")
        elif reply in REFUSALS:
            self.used |= {REFUSALS[reply], "refused"}
            call, words = self.call(one)
            self.lines.append(f"        refused({', '.join([REFUSALS[reply], call, *words])})")
        else:
            self.lines.append(f"        {self.answered(one, reply)}")

    def answered(self, one: Instruction, reply: str) -> str:
        """Returns a line that makes the call and checks its result."""
        call, words = self.call(one)
        made = f"{call}({', '.join(words)})"
        first, _, rest = reply.partition(" ")
        if one.op in (Op.READ, Op.VF_READ):
            return f"assert {made} == ({rest}, {first == 'stray'})"
        if one.op in (Op.WRITE, Op.VF_WRITE, Op.QSTEP, Op.EESTEP, Op.LINK):
            return f"assert {made} is {first == 'done'}"
        if one.op in (Op.LEND, Op.UNLEND, Op.POKE):
            return made
        if one.op == Op.PEEK:
            return f"assert {made} == {self.wants(bytes.fromhex(rest))}"
        if one.op == Op.ARRIVE:
            return f"assert {made} is None" if reply == "done" else self.printed(made, reply)
        if first == "frame":
            words = reply.split(" ")
            self.used.add("Frame")
            return f"assert {made} == Frame({words[2]}, {self.wants(bytes.fromhex(words[3]))})"
        return self.printed(made, reply)

    def printed(self, made: str, reply: str) -> str:
        self.used.add("printed")
        return f'assert printed({made}) == "{reply}"'

    def address(self, one: Instruction) -> str:
        """Returns an access's address as the name of its register, or as a number if it isn't the register's first
        address."""
        register = register_at(one.a) if one.op in (Op.WRITE, Op.READ) else None
        if register is None or register.address != one.a:
            return f"0x{one.a:05x}"
        self.used.add("address_of")
        return f'address_of("{register.name}")'

    def wants(self, data: bytes) -> str:
        name = f"WANT_{self.wanted}"
        self.wanted += 1
        self.arrays += python_bytes(name, data)
        return name

    def call(self, one: Instruction) -> tuple[str, list[str]]:
        """Returns the call for an instruction and its arguments."""
        side = '"tx"' if one.sub else '"rx"'
        at, word = self.address(one), f"0x{one.b:08x}"
        calls: dict[int, tuple[str, list[str]]] = {
            Op.WRITE: ("nic.write32", [at, word]),
            Op.READ: ("nic.read32", [at]),
            Op.VF_WRITE: (f"nic.vf({one.x}).write32", [f"0x{one.a:05x}", word]),
            Op.VF_READ: (f"nic.vf({one.x}).read32", [f"0x{one.a:05x}"]),
            Op.LEND: ("nic.lend", [f"{one.x}"]),
            Op.UNLEND: ("nic.take", [f"{one.x}"]),
            Op.POKE: ("nic.memory.write", [f"0x{one.a:05x}", f"DATA_{one.x}[:16]"]),
            Op.PEEK: ("nic.memory.read", [f"0x{one.a:05x}", "16"]),
            Op.ARRIVE: ("nic.arrive", [f"DATA_{one.x}"]),
            Op.RX: ("nic.rx_step", []),
            Op.TX: ("nic.tx_step", [f"{one.x}"]),
            Op.INT: ("nic.int_step", [f"{one.x}"] if one.sub else []),
            Op.QSTEP: ("nic.queue_step", [side, f"{one.x}"]),
            Op.EESTEP: ("nic.eeprom_step", []),
            Op.LINK: ("nic.link", [f"{one.sub == 1}"]),
            Op.COLLECT: ("nic.collect", []),
        }
        return calls[one.op]


def in_python(script: Script, printed: list[str], vfs: int, fifo: int, made: str = "") -> str:
    """Returns the test in Python."""
    test = InPython(script)
    steps = steps_of(script, printed)
    for pc, reply in steps:
        test.step(script.line_of[pc], script.instructions[pc], reply)
    name = identifier(script.path)
    arrays: list[str] = []
    for number in used_data(script, steps):
        arrays += python_bytes(f"DATA_{number}", script.data[number])
    names = ", ".join(sorted([*[one for one in test.used if one not in ("refused", "printed")], "Nic"]))
    shown = said(script.path.rpartition("/")[2]).replace('"', "'").replace("\\", "?")
    more = "from nic82599.printed import printed\n" if "printed" in test.used else ""
    head = filled(
        PYTHON_HEAD, {"file": f"test_{name}.py", "made": made, "names": names, "more": more, "name": shown}
    )
    refused = PYTHON_REFUSED if "refused" in test.used else "\n"
    opened = f"    with Nic(vfs={vfs}, fifo={fifo}, blocks={BLOCKS}) as nic:"
    body = test.lines or ["        pass"]
    foot = filled(PYTHON_FOOT, {"test": f"test_{name}"})
    return head + "\n".join([*arrays, *test.arrays, refused, f"def test_{name}():", opened, *body]) + foot


def written(language: str, script: Script, printed: list[str], bench: Bench) -> str:
    """Returns the test in a language, `c` or `python`, for a run that printed these lines."""
    made = "Written by nicview of the 82599 bench."
    if language == "c":
        return in_c(script, printed, bench.vfs, bench.fifo, f"\n   {made}")
    return in_python(script, printed, bench.vfs, bench.fifo, f"\n{made}")
