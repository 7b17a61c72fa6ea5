"""Checks on randomly corrupted captures that the readers in C (c/vfio-user/capture.c) and in Python return the same
frames, and agree on whether they reached the file's end."""

from __future__ import annotations

import random
import struct
import subprocess
from collections import Counter
from collections.abc import Iterator
from pathlib import Path

from explore.check import Wrong
from nic82599.pcap import ENHANCED, ETHERNET, INTERFACE, SECTION, SIMPLE, NoCapture, frames_of

MASK = (1 << 64) - 1
# Lengths, types and numbers that corrupted words contain more often than random words would.
ODD = (0, 1, 3, 4, 11, 12, 16, 20, 28, 0x7FFFFFFF, 0xFFFFFFFF, 0x0A0D0D0A, 0x1A2B3C4D, 0x4D3C2B1A, 1 << 24)


def _block(order: str, kind: int, body: bytes) -> bytes:
    body += bytes(-len(body) % 4)
    size = struct.pack(order + "I", 12 + len(body))
    return struct.pack(order + "I", kind) + size + body + size


def _pcapng(chance: random.Random) -> Iterator[bytes]:
    """Returns the blocks of one or two sections."""
    for _ in range(chance.choice((1, 1, 2))):
        order = chance.choice("<>")
        yield _block(order, SECTION, struct.pack(order + "IHHq", 0x1A2B3C4D, 1, 0, -1))
        for _ in range(chance.choice((0, 1, 1, 2))):
            link, longest = chance.choice((ETHERNET, ETHERNET, 101)), chance.choice((0, 0, 61, 65535))
            yield _block(order, INTERFACE, struct.pack(order + "HHI", link, 0, longest))
        for _ in range(chance.randrange(6)):
            frame = chance.randbytes(chance.choice((0, 1, 59, 60, 61, 62, 63, 64, 300)))
            head = struct.pack(order + "IIIII", chance.choice((0, 0, 0, 1)), 0, 0, len(frame), len(frame))
            more = chance.choice((b"", struct.pack(order + "HHI", 2, 4, 1) + bytes(4)))
            yield chance.choice((
                _block(order, ENHANCED, head + frame + bytes(-len(frame) % 4) + more),
                _block(order, SIMPLE, struct.pack(order + "I", len(frame)) + frame),
                _block(order, chance.choice((5, 10, 0xBAD)), chance.randbytes(4 * chance.randrange(9))),
            ))  # fmt: skip


def _pcap(chance: random.Random) -> Iterator[bytes]:
    order, magic = chance.choice("<>"), chance.choice((0xA1B2C3D4, 0xA1B23C4D))
    yield struct.pack(order + "IHHiIII", magic, 2, 4, 0, 0, 0xFFFF, chance.choice((ETHERNET, ETHERNET, 101)))
    for number in range(chance.randrange(8)):
        frame = chance.randbytes(chance.choice((0, 1, 60, 61, 300)))
        yield struct.pack(order + "IIII", 0, number, len(frame), len(frame)) + frame


def spoilt(chance: random.Random) -> bytes:
    """Returns a capture, unchanged, or with some bytes and words changed, its end cut off, or bytes added."""
    made = bytearray(b"".join(chance.choice((_pcapng, _pcapng, _pcap))(chance)))
    for _ in range(chance.choice((0, 1, 1, 2, 5)) if made else 0):
        at = chance.randrange(len(made))
        way = chance.randrange(4)
        if way == 0:
            made[at] ^= 1 << chance.randrange(8)
        elif way == 1:
            made[at // 4 * 4 : at // 4 * 4 + 4] = struct.pack(chance.choice("<>") + "I", chance.choice(ODD))
        elif way == 2:
            del made[at : at + chance.choice((1, 4, len(made)))]
        else:
            made[at:at] = chance.randbytes(chance.choice((1, 4, 12)))
        if not made:
            break
    return bytes(made)


def of_python(data: bytes) -> str:
    """Returns the result of the reader in Python, in the format of c/tests/capture_reader.c."""
    value, count, end = 0xCBF29CE484222325, 0, "end"
    try:
        for frame in frames_of(data):
            count += 1
            for byte in frame:
                value = (value ^ byte) * 0x100000001B3 & MASK
            value = (value ^ len(frame)) * 0x100000001B3 & MASK
    except NoCapture:
        end = "broken"
    return f"{count} {value:016x} {end}"


def check_readers(program: Path, folder: Path, seed: int, count: int) -> str:
    """Compares both readers on this many files."""
    chance, expected = random.Random(seed), []
    for number in range(count):
        data = spoilt(chance)
        (folder / str(number)).write_bytes(data)
        expected.append(of_python(data))
    made = subprocess.run([program, folder, str(count)], capture_output=True, text=True, check=False)
    if made.returncode:
        raise Wrong(f"{program} {folder} {count}: status {made.returncode}: {made.stderr}")
    others = [number for number, (got, want) in enumerate(zip(made.stdout.splitlines(), expected)) if got != want]
    if others or made.stdout.count("\n") != count:
        number = others[0] if others else 0
        data = (folder / str(number)).read_bytes().hex()
        got = made.stdout.splitlines()[number : number + 1]
        count_of = f"{len(others)} of {count} captures are read differently in C"
        raise Wrong(f"{count_of}: {got} and not {expected[number]!r}: {data}")
    ends = Counter(it.split()[-1] for it in expected)
    return f"{count} corrupted captures read alike in C and Python ({ends['end']} whole, {ends['broken']} refused)"
