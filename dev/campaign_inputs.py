"""The inputs of dev/campaign: arguments and bytes for each command, some valid, some nearly valid and some noise."""

from __future__ import annotations

import random
import re
from collections.abc import Callable
from pathlib import Path

KEY = "6d5a56da255b0ec24167253d43a38fb0d0ca2bcbae7b30b477cb2da38030f20c6a42b73bbeac01fa"
ETHERNET = "020000000001020000000002"
FRAMES = (
    ETHERNET + "08004500002800000000" + "40060000420995bba18e64500aea06e60000000000000000"
    "5010000000000000000000000000",
    ETHERNET + "86dd6000000000140640" + "3ffe250102001fff00000000000000073ffe2501020000030000000000000001"
    "0aea06e600000000000000005010000000000000",
    "ffffffffffff" + ETHERNET[12:] + "88b5" + "00" * 46,
    "01005e0000fb" + ETHERNET[12:] + "0800" + "45" * 100,
)
# Boundary values.
EDGES = (0, 1, 2, 3, 4, 7, 8, 15, 16, 31, 32, 60, 62, 63, 64, 127, 128, 255, 256, 2047, 2048, 4095, 4096, 65535, 65536)
WORDS = (0, 1, 2, 3, 0x20, 0x80, 0x85, 0x100, 0x200, 0x400, 0x402, 0x40000000, 0x02000000, 0x02000002, 0x12000002,
         0x04000000, 0x80000100, 0x00010001, 0x0001000A, 0x0001000B, 0x7FFFFFFF, 0x80000000, 0xFFFFFFFF)  # fmt: skip
# Brings up a queue, so that most steps of a script have something to do.
RECEIVE = """lend 0
lend 1
w RXCTRL 1
w FCTRL 0x700
w RDBAL[{q}] 0
w RDLEN[{q}] 128
w SRRCTL[{q}] {srrctl}
w RXDCTL[{q}] 0x02000000
qstep rx {q}
poke 0 descriptor
w RDT[{q}] 1"""
SEND = """lend 0
lend 1
w DMATXCTL 0x81000001
w TDBAL[{q}] 0
w TDLEN[{q}] 128
w TXDCTL[{q}] 0x02000000
qstep tx {q}
poke 0 outgoing
w TDT[{q}] 1
tx {q}
collect"""
VIRTUAL = """w GCR_EXT {mode}
w VT_CTL 1
w VFRE[0] 0xffffffff
w VFTE[0] 0xffffffff
w MRQC {mrqc}
w RAL[0] 0x00000002
w RAH[0] 0x80000100
w MPSAR[0] 1"""


# arguments, and the bytes that the program reads
Input = tuple[list[str], bytes]


class Inputs:
    """Generates inputs from one random source. `made` returns the program's output for arguments and bytes."""

    def __init__(self, dice: random.Random, root: Path, made: Callable[[list[str], bytes], bytes]) -> None:
        self.dice, self.made = dice, made
        table = (root / "docs/REGISTERS.md").read_text()
        rows = re.findall(r"^\| ([A-Z][A-Z0-9_]*) \| (.*?) \| (\d+) \| \w+ \|", table, re.M)
        self.rows = [(name, int(count)) for name, _, count in rows]
        self.addresses = [int(it, 16) for _, addresses, _ in rows for it in re.findall(r"0x[0-9A-F]{5}", addresses)]
        self.examples = [it.read_bytes() for it in sorted(Path(root / "examples").glob("*.nic"))]

    def of(self, command: str) -> Input:
        """Returns arguments and bytes for a command."""
        words, data = getattr(self, command)()
        if self.dice.random() < 0.3 and command != "words":
            data = self.spoiled(data)
        return words, data

    # scripts

    def number(self) -> str:
        """Returns a number in a random notation."""
        it = self.dice
        value = it.choice((it.choice(EDGES), it.choice(WORDS), it.getrandbits(32), it.getrandbits(it.randint(1, 34))))
        return it.choice((str(value), hex(value), f"0x{value:08X}"))

    def queue(self) -> int:
        return self.dice.choice((0, 0, 1, 3, 63, 64, 127, self.dice.randrange(128)))

    def target(self) -> str:
        it = self.dice
        if it.random() < 0.2:
            near = it.choice(self.addresses)
            return hex(it.choice((near, near + 4 * it.randrange(256), it.getrandbits(18))))
        name, count = it.choice(self.rows)
        return name if count == 1 and it.random() < 0.9 else f"{name}[{it.choice((0, it.randrange(count), count - 1))}]"

    def label(self) -> str:
        return self.dice.choice(("again", "done", "L1", "_x"))

    def line(self) -> str:
        """Returns a line of a script, usually a valid one."""
        it = self.dice
        function = it.choice((0, 1, 31, 62, it.randrange(63)))
        offset = hex(4 * it.randrange(0x900) if it.random() < 0.9 else it.getrandbits(32))
        return it.choice((
            f"w {self.target()} {self.number()}", f"w {self.target()} {self.number()}", f"r {self.target()}",
            f"vw {function} {offset} {self.number()}", f"vr {function} {offset}",
            f"lend {it.choice((0, 1, 2, it.randrange(260)))}", f"unlend {it.choice((0, 1, it.randrange(260)))}",
            f"poke {hex(16 * it.randrange(300))} {it.choice(('descriptor', 'outgoing'))}",
            f"peek {hex(it.choice((16 * it.randrange(300), it.getrandbits(32))))} {it.randrange(4)}",
            f"arrive f{it.randrange(5)}", f"arrive f{it.randrange(5)}", "rx", "rx", f"tx {self.queue()}",
            f"int {it.choice(('pf', '0', str(function)))}", f"qstep {it.choice(('rx', 'tx'))} {self.queue()}",
            "eestep", f"link {it.choice(('up', 'down', 'up'))}", "collect",
            f"expect {self.number()} {self.number()}", f"expect {self.number()}", f"and {self.number()}",
            f"jeq {self.number()} {self.label()}", f"jne {self.number()} {self.label()}", f"jmp {self.label()}",
            "halt" if it.random() < 0.1 else "rx", f"# {it.getrandbits(20)}", "",
        ))  # fmt: skip

    def data_lines(self) -> list[str]:
        it = self.dice
        address = it.choice((0x800, 0x1000, 0x7E0, 0, it.getrandbits(64))).to_bytes(8, "little").hex()
        second = it.choice(("3c00302b00000f00", "3c00300b00000f00", "eb05302b00000f00", it.randbytes(8).hex()))
        frame = it.choice((it.randbytes(it.choice((1, 59, 60, 1514, 1515, 2048, 5000))).hex(), it.choice(FRAMES)))
        lines = [f"data f{number} {text}" for number, text in enumerate((*FRAMES, frame))]
        return [*lines, f"data descriptor {address}{'00' * 8}", f"data outgoing {address}{second}"]

    def script(self, longest: int = 120) -> str:
        it = self.dice
        if it.random() < 0.03:
            return it.choice(self.examples).decode()
        lines, body = self.data_lines(), []
        for _ in range(it.randrange(4)):
            form = it.choice((RECEIVE, RECEIVE, SEND, VIRTUAL))
            body += form.format(
                q=self.queue(), srrctl=it.choice(("0x02000002", "0x12000001", "0x02000000", "2")),
                mode=it.randrange(4), mrqc=it.choice(("0", "1", "8", "0x0001000A", "0x0001000B", "0x00010001")),
            ).split("\n")  # fmt: skip
        body += [self.line() for _ in range(it.randrange(1 + it.choice((4, 30, longest))))]
        for _ in range(it.randrange(3)):
            # A mistake in the setup.
            at = it.randrange(len(body) + 1)
            body[at : at + 1] = [self.line()]
        for name in ("again", "done", "L1", "_x"):
            if it.random() < 0.95:
                body.insert(it.randrange(len(body) + 1), f"{name}:")
        return it.choice(("\n", "\n", "\r\n")).join([*lines, *body, ""])

    def device(self) -> list[str]:
        it = self.dice
        words = []
        if it.random() < 0.6:
            words += ["--vfs", str(it.choice((0, 1, 2, 4, 32, 40, 63, 64, 255)))]
        if it.random() < 0.4:
            words += ["--fifo", str(it.choice((0, 1, 2, 64, 4096, 4097, 65535)))]
        return words

    def run(self) -> Input:
        it = self.dice
        limit = ["--limit", str(it.choice((0, 1, 100, 3000, 100000)))] if it.random() < 0.8 else []
        longest = 4100 if it.random() < 0.02 else it.choice((60, 200))
        return ["run", *self.device(), *limit], self.script(longest).encode()

    def asm(self) -> Input:
        return ["asm"], self.script().encode()

    def dis(self) -> Input:
        it = self.dice
        data = bytearray(self.made(["asm"], self.script(40).encode()))
        for _ in range(it.randrange(4)):
            if data:
                at = it.randrange(min(len(data), it.choice((16, 64, len(data)))))
                more, less = (data[at] + 1) % 256, (data[at] - 1) % 256
                data[at] = it.choice((0, 255, data[at] ^ 1, more, less, it.getrandbits(8)))
        return ["dis"], bytes(data[: it.randrange(len(data) + 1)] if it.random() < 0.1 else data)

    def debug(self) -> Input:
        it = self.dice
        commands = []
        for _ in range(it.randrange(20)):
            count = it.choice((0, 1, 5, 255, 256, 257, it.randrange(3000)))
            commands.append(it.choice((
                f"step {count}", f"back {it.choice((0, 1, 2, count))}", f"continue {count}",
                f"break {it.randrange(40)}", f"clear {it.randrange(40)}", f"show {self.target()}",
                f"showvf {it.randrange(64)} {hex(4 * it.randrange(0x900))}",
            )))  # fmt: skip
        parting = "%" if it.random() < 0.97 else it.choice(("% #", "%%", ""))
        return ["debug", *self.device()], "\n".join([self.script(60), parting, *commands, ""]).encode()

    # the EEPROM and hashes

    def eeprom_text(self) -> str:
        it = self.dice
        size = it.choice((64, 128, 128, 256, 1024, 16384, 100, 32768))
        lines = [f"size {size}"]
        for _ in range(it.randrange(it.choice((3, 20, 400)))):
            edge = it.choice((0x03, 0x0D, 0x0E, 0x3F, 0x40, size - 1, size))
            index = it.choice((it.randrange(0x0D), it.randrange(size), it.randrange(size), edge))
            value = it.choice((0, 0x40, 0x50, size - 1, 0xFFFF, it.getrandbits(16), it.getrandbits(16)))
            word, csr = f"word {index} {hex(value)}", f"csr {hex(4 * it.getrandbits(16))} {self.number()}"
            lines.append(it.choice((word, csr)))
        return "\n".join([*lines, ""])

    def eeprom(self) -> Input:
        return ["eeprom"], self.eeprom_text().encode()

    def load(self) -> Input:
        it = self.dice
        text = f"size 128\ncsr 0x05080 {it.getrandbits(11)}\nword 0 {it.getrandbits(16)}\n"
        data = bytearray(self.made(["eeprom"], text.encode()))
        if it.random() < 0.4:
            made = self.made(["eeprom"], self.eeprom_text().encode())
            data = bytearray(made if not made.startswith(b"refused") else data)
        if it.random() < 0.5:
            for _ in range(it.randrange(4)):
                at = it.choice((2 * it.randrange(0x10), 0x7E, 0x80, it.randrange(len(data))))
                if at < len(data):
                    data[at] = it.choice((0, 255, data[at] ^ 1, it.getrandbits(8)))
            self.mend(data)
        return ["eeprom", "--load"], bytes(data[: it.randrange(len(data) + 1)] if it.random() < 0.1 else data)

    def mend(self, data: bytearray) -> None:
        """In most cases, repairs the checksum of words 0x00 to 0x3F, so that later checks are reached too."""
        if self.dice.random() < 0.7 and len(data) >= 128:
            words = [int.from_bytes(data[2 * it : 2 * it + 2], "little") for it in range(0x3F)]
            section = words[0x0D]
            if section not in (0, 0xFFFF) and 2 * section + 2 <= len(data):
                length = int.from_bytes(data[2 * section : 2 * section + 2], "little")
                if length not in (0, 0xFFFF):
                    end = 2 * (section + 1 + length)
                    inside = range(2 * section + 2, min(end, len(data)), 2)
                    words += [int.from_bytes(data[it : it + 2], "little") for it in inside]
            data[0x7E:0x80] = ((0xBABA - sum(words)) % 65536).to_bytes(2, "little")

    def hash(self) -> Input:
        it = self.dice
        key = it.choice((KEY, KEY, it.randbytes(40).hex(), it.randbytes(it.choice((39, 41))).hex()))
        lengths = [it.choice((1, 8, 12, 32, 36, it.randrange(1, 40))) for _ in range(it.randrange(30))]
        lines = [it.randbytes(length).hex() for length in lengths]
        return ["hash"], "\n".join([key, *lines, ""]).encode()

    # arguments and noise

    def words(self) -> Input:
        it = self.dice
        # (with valid arguments `threads` prints nothing, so it appears here with invalid ones)
        known = "run debug asm dis eeprom hash --load --vfs --fifo --limit --vfs=4 -h --help -V --version help".split()
        known += ["--", "-", "", "threads", "--workers", "0", "9", "--frames", "61"]
        return [it.choice(known) if it.random() < 0.8 else self.noise() for _ in range(it.randrange(5))], b""

    def noise(self) -> str:
        it = self.dice
        return "".join(chr(it.choice((it.randrange(32, 127), it.randrange(1, 0x2FF)))) for _ in range(it.randrange(12)))

    def spoiled(self, data: bytes) -> bytes:
        """Returns the bytes with a few of them changed."""
        it, data = self.dice, bytearray(data)
        for _ in range(it.choice((1, 1, 2, 5))):
            at = it.randrange(len(data) + 1)
            way = it.randrange(6)
            if way == 0:
                pieces = (b" ", b"\t", b"\n", b"\r", b"#", b"0x", b":", b"[", b"]", b"\0", b"\xff", b"\xc3\xa9")
                data[at:at] = it.choice(pieces)
            elif way == 1 and at < len(data):
                del data[at : at + it.choice((1, 1, 2, 40))]
            elif way == 2 and at < len(data):
                data[at] = it.getrandbits(8)
            elif way == 3 and at < len(data):
                data[at] = it.choice(b"0123456789abcdefxXgG #[]:_\n")
            elif way == 4:
                piece = data[at : at + it.choice((5, 60, 400))]
                data[at:at] = piece
            elif way == 5 and it.random() < 0.2:
                data[at:at] = it.randbytes(it.choice((1, 10, 300)))
        return bytes(data)
