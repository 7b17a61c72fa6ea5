"""Makes random calls to the Python module, and compares each reply with what `nicbench run` prints for the event."""

from __future__ import annotations

import os
import random
import subprocess
import sys
from collections.abc import Callable
from pathlib import Path

import nic82599
from nic82599 import Advanced, Done, Event, Fault, Message, Nic, Sent, address_of
from nic82599.printed import printed
from nic82599.registers import OFFSETS, REGISTERS

ROOT = Path(__file__).resolve().parent.parent.parent
QUEUES, BLOCKS, USED, FIFO, MOST_LINES, MOST_DATA = 3, 256, 6, 6, 3_000, 900
WORDS = (0, 1, 2, 3, 8, 128, 0x200, 0x2000, 0x0200_0000, 0x0200_0002, 0x1200_0001, 0x85)
COMMANDS = (0x2B30_0000,) * 12 + (0x2330_0000, 0x2230_0000, 0x2A30_0000, 0x2B20_0000, 0x0B30_0000, 0x6B30_0000)


def answered(call: Callable[[], Event | bool | None]) -> str:
    """Returns the reply to a step, even if the step is refused."""
    try:
        event = call()
    except nic82599.NoQueue:
        return "no queue"
    except nic82599.NoGroup:
        return "no group"
    return printed(event or None)


class Run:
    """A controller, a script with the calls made on it, and their replies."""

    def __init__(self, seed: int, vfs: int) -> None:
        self.chance, self.vfs = random.Random(seed), vfs
        self.nic = Nic(vfs, FIFO, BLOCKS)
        self.script: list[str] = []
        self.answers: list[str] = []
        self.calls = self.strings = 0

    def put(self, line: str, answer: str) -> None:
        self.script.append(line)
        self.answers.append(f"{len(self.answers)} {answer}")

    def data(self, data: bytes) -> str:
        """Adds a `data` line for these bytes, and returns its name."""
        self.script.append(f"data d{self.strings} {data.hex()}")
        self.strings += 1
        return f"d{self.strings - 1}"

    def write(self, name: str | int, word: int) -> None:
        at = address_of(name) if isinstance(name, str) else name
        self.put(f"w {name} {word}", "done" if self.nic.write32(at, word) else "stray 0x00000000")

    def read(self, name: str | int) -> None:
        at = address_of(name) if isinstance(name, str) else name
        peeked = self.nic.peek32(at)
        word, stray = self.nic.read32(at)
        assert peeked == (None if stray else word), name
        self.put(f"r {name}", f"{'stray' if stray else 'word'} 0x{word:08x}")

    def access(self) -> None:
        name = self.chance.choice([it for it in REGISTERS if it != "CTRL"])
        count = sum(run[3] for run in REGISTERS[name])
        at = f"{name}[{self.chance.randrange(min(count, 6))}]" if count > 1 else name
        target = at if self.chance.random() < 0.8 else self.chance.randrange(8, 1 << 17)
        if self.chance.random() < 0.5:
            self.write(target, self.chance.choice([*WORDS, self.chance.getrandbits(32)]))
        else:
            self.read(target)

    def access_of_a_function(self) -> None:
        number = self.chance.randrange(63) if self.chance.random() < 0.2 else self.chance.randrange(3)
        offset, stride, _ = self.chance.choice(list(OFFSETS.values()))
        offset += stride * self.chance.randrange(2)
        function = self.nic.vf(number)
        if offset and self.chance.random() < 0.6:
            word = self.chance.choice(WORDS)
            done = function.write32(offset, word)
            self.put(f"vw {number} {offset} {word}", "done" if done else "stray 0x00000000")
        else:
            word, stray = function.read32(offset)
            self.put(f"vr {number} {offset}", f"{'stray' if stray else 'word'} 0x{word:08x}")

    def lend(self, block: int) -> None:
        try:
            self.nic.lend(block)
            self.put(f"lend {block}", "done")
        except nic82599.NoBlock:
            self.put(f"lend {block}", "no block")

    def take(self, block: int) -> None:
        try:
            self.nic.take(block)
            self.put(f"unlend {block}", f"taken {block}")
        except nic82599.NotLent:
            self.put(f"unlend {block}", "not lent")

    def peek(self, bus: int) -> None:
        try:
            self.put(f"peek {bus} 0", f"bytes {self.nic.memory[bus : bus + 16].hex()}")
        except nic82599.NotLent:
            self.put(f"peek {bus} 0", "not lent")

    def poke(self, bus: int, data: bytes) -> None:
        name = self.data(data)
        try:
            self.nic.memory[bus : bus + 16] = data
            self.put(f"poke {bus} {name}", "done")
        except nic82599.NotLent:
            self.put(f"poke {bus} {name}", "not lent")

    def memory(self) -> None:
        block, bus = self.chance.randrange(USED), 16 * self.chance.randrange(USED * 128)
        choice = self.chance.randrange(24)
        if choice < 3:
            self.lend(block if choice else self.chance.randrange(65_536))
        elif choice < 4:
            self.take(block)
        elif choice < 18:
            self.peek(bus)
        else:
            self.poke(bus, self.chance.randbytes(16))

    def arrive(self) -> None:
        length = self.chance.choice((59, 60, 60, 61, 200, 1514, 1515))
        head = bytes.fromhex("02000000000002000000000208004500002800000000400600004209")
        frame = bytearray(head + bytes([self.chance.randrange(256)]) * (length - len(head)))
        frame[0], frame[5] = self.chance.choice((2, 2, 2, 0xFF)), self.chance.randrange(1, 3)
        name = self.data(bytes(frame))
        dropped = self.nic.arrive(frame)
        self.put(f"arrive {name}", printed(dropped) if dropped else "done")

    def collect(self) -> None:
        frame = self.nic.collect()
        self.put("collect", f"frame queue {frame.queue} {frame.data.hex()}" if frame else "idle")

    def step(self) -> None:
        nic, queue = self.nic, self.chance.choice((0, 1, 2, 127, 128, 65_535))
        function = self.chance.choice((None, None, 0, 1, 62))
        side = self.chance.choice(("rx", "tx"))
        line, call = self.chance.choice(
            (
                ("rx", nic.rx_step),
                (f"tx {queue}", lambda: nic.tx_step(queue)),
                (f"int {'pf' if function is None else function}", lambda: nic.int_step(function)),
                (f"qstep {side} {queue}", lambda: nic.queue_step(side, queue)),
                ("eestep", nic.eeprom_step),
            )
        )
        self.put(line, answered(call))

    def settle(self) -> None:
        """Adds to the script the steps that `settle` ran. Idle steps within a round aren't included."""
        for event in self.nic.settle(QUEUES):
            match event:
                case Done("eestep", _):
                    self.put("eestep", "done")
                case Done(step, queue):
                    self.put(f"{step} {queue}", "done")
                case Advanced(queue) | Sent(queue):
                    self.put(f"tx {queue}", printed(event))
                case Fault("tx", queue):
                    self.put(f"tx {queue}", printed(event))
                case Message(function):
                    self.put(f"int {'pf' if function is None else function}", printed(event))
                case _:
                    self.put("rx", printed(event))

    def set_up(self) -> None:
        chance = self.chance
        self.write("RXCTRL", 1)
        self.write("DMATXCTL", 1)
        self.write("FCTRL", chance.choice((0x200, 0x300, 0x700, 0x400)))
        self.write("MRQC", chance.choice((0, 1, 0x10001, 8, 0x1000A)))
        self.write("RETA[0]", chance.randrange(QUEUES))
        self.write("GCR_EXT", chance.randrange(4) if self.vfs else 0)
        self.write("VT_CTL", chance.randrange(2) if self.vfs else 0)
        self.write("VFRE[0]", 3)
        self.write("VFTE[0]", 3)
        self.write("RAL[0]", 2)
        self.write("RAH[0]", 0x8000_0100)
        self.write("MPSAR[0]", 1)
        self.write("IVAR[0]", 0x8080_8080 | chance.getrandbits(32) & 0x0707_0707)
        self.write("IVAR[1]", 0x8080_8080 | chance.getrandbits(32) & 0x3F07_0707)
        self.write("EIMS", 0xFF)
        self.write("EIAC", 0xFF)

    def set_up_queue(self, side: str, queue: int) -> None:
        block = 2 * queue + (side == "T")
        self.lend(block)
        self.write(f"{side}DBAL[{queue}]", block * 2048)
        self.write(f"{side}DLEN[{queue}]", 128)
        self.write(f"{side}DH[{queue}]", 0)
        self.write(f"{side}DT[{queue}]", 0)
        if side == "R":
            types = (0x0200_0001, 0x1200_0001, 0x0200_0001, 0x1200_0001, 0x0200_0001, 2, 0x0200_0000)
            self.write(f"SRRCTL[{queue}]", self.chance.choice(types))
        self.write(f"{side}XDCTL[{queue}]", 0x0200_0000)
        name = {"R": "rx", "T": "tx"}[side]
        self.put(f"qstep {name} {queue}", answered(lambda: self.nic.queue_step(name, queue)))

    def repair(self) -> None:
        """Sets up again each side that a fault disabled, and posts descriptors on all sides."""
        for queue in range(QUEUES):
            for side in "RT":
                if not self.nic.peek(f"{side}XDCTL[{queue}]") & 0x0200_0000:
                    self.set_up_queue(side, queue)
                self.refill(side, queue)

    def refill(self, side: str, queue: int) -> None:
        """Writes descriptors into slots, starting at the tail, then moves the tail past them."""
        block, tail = 2 * queue + (side == "T"), self.nic.peek(f"{side}DT[{queue}]") % 8
        for _ in range(self.chance.randrange(4)):
            length = self.chance.randrange(20, 200)
            first = block * 2048 + 1024 + self.chance.randrange(64)
            if self.chance.random() < 0.04:
                first = self.chance.getrandbits(self.chance.choice((16, 64)))
            second = self.chance.choice(COMMANDS) | length | length << 46 if side == "T" else 0
            self.poke(block * 2048 + 16 * tail, first.to_bytes(8, "little") + second.to_bytes(8, "little"))
            tail = (tail + 1) % 8
        self.write(f"{side}DT[{queue}]", tail if self.chance.random() < 0.96 else 60_000)

    def post(self) -> None:
        self.refill(self.chance.choice("RT"), self.chance.randrange(QUEUES))

    def link(self) -> None:
        if self.chance.random() < 0.2:
            up = self.chance.random() < 0.7
            self.put(f"link {'up' if up else 'down'}", "done" if self.nic.link(up) else "idle")

    def one(self) -> None:
        """Makes a random call, or several related ones."""
        calls = (self.access, self.access_of_a_function, self.memory, self.arrive, self.collect, self.step, self.settle)
        more = (self.repair, self.post, self.post, self.arrive, self.arrive, self.step, self.step, self.link)
        self.chance.choice(calls + more)()
        self.calls += 1
        if self.chance.random() < 0.02:
            self.set_up()


def batch(seed: int, vfs: int, folder: Path) -> tuple[int, int]:
    """Returns how many calls were made and how many replies were compared. Exits at the first difference."""
    run = Run(seed, vfs)
    run.set_up()
    while len(run.answers) < MOST_LINES and run.strings < MOST_DATA:
        run.one()
    run.nic.close()
    script = folder / "script.nic"
    script.write_text("\n".join(run.script) + "\n")
    program = os.environ.get("NICBENCH") or str(ROOT / "nicbench")
    with script.open() as file:
        made = subprocess.run(
            [program, "run", "--vfs", str(vfs), "--fifo", str(FIFO)], stdin=file, capture_output=True, text=True
        )
    got, want = made.stdout.splitlines(), [*run.answers, f"ok {len(run.answers)}"]
    for left, right in zip(got + ["(the end)"], want + ["(the end)"]):
        if left != right:
            sys.exit(f"seed {seed}, {vfs} virtual functions: nicbench prints {left}, but the module returned {right}")
    return run.calls, len(run.answers)
