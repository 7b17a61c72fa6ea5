"""Extracts the modules from an author's own initial file system: its cpio archives ("newc"), compressed or not."""

from __future__ import annotations

import bz2
import gzip
import lzma
import re
import shutil
import subprocess
from collections.abc import Callable, Iterator
from pathlib import Path

HEAD = 110
MODULE = re.compile(r"(?:\./)?(?:usr/)?lib/modules/[^/]+/(.*\.ko(?:\.xz|\.gz)?)$")


class Unreadable(Exception):
    """The file isn't a readable initial file system."""


def by_command(name: str) -> Callable[[bytes], bytes]:
    def decompress(data: bytes) -> bytes:
        if not shutil.which(name):
            raise Unreadable(f"it is compressed by {name}, which isn't installed")
        return subprocess.run([name, "-dc"], input=data, stdout=subprocess.PIPE, check=True).stdout

    return decompress


FORMS: tuple[tuple[bytes, Callable[[bytes], bytes]], ...] = (
    (b"\x1f\x8b", gzip.decompress), (b"\xfd7zXZ", lzma.decompress), (b"]\0\0", lzma.decompress),
    (b"BZh", bz2.decompress), (b"\x28\xb5\x2f\xfd", by_command("zstd")), (b"\x02\x21\x4c\x18", by_command("lz4")),
)  # fmt: skip


def files(data: bytes) -> Iterator[tuple[str, bytes]]:
    """Names and contents of the files in consecutive archives."""
    at = 0
    while at < len(data):
        if data[at] == 0:
            at += 1
            continue
        if data[at : at + 5] != b"07070":
            yield from files(decompressed(data[at:]))
            return
        size, name_length = int(data[at + 54 : at + 62], 16), int(data[at + 94 : at + 102], 16)
        name = data[at + HEAD : at + HEAD + name_length - 1].decode("latin-1")
        begin = at + (HEAD + name_length + 3) // 4 * 4
        yield name, data[begin : begin + size]
        at = begin + (size + 3) // 4 * 4


def decompressed(data: bytes) -> bytes:
    for magic, decompress in FORMS:
        if data.startswith(magic):
            return decompress(data)
    raise Unreadable(f"it begins with {data[:6].hex()}, which isn't a known archive format")


def unpack_modules(initrd: Path, to: Path) -> Path:
    """Unpacks an initial file system's modules into a folder laid out as a kernel's."""
    try:
        return unpack_files(initrd, to)
    except Unreadable as fault:
        raise Unreadable(f"{initrd}: {fault}") from None


def unpack_files(initrd: Path, to: Path) -> Path:
    found = 0
    try:
        for name, content in files(initrd.read_bytes()):
            module = MODULE.match(name)
            if module and ".." not in name:
                file = to / module[1]
                file.parent.mkdir(parents=True, exist_ok=True)
                file.write_bytes(content)
                found += 1
    except (ValueError, OSError, lzma.LZMAError, EOFError, subprocess.CalledProcessError) as fault:
        raise Unreadable(f"it can't be read: {fault}") from None
    if not found:
        raise Unreadable("it has no modules")
    return to
