"""Checks a user's own kernel, modules and script before a guest boots: a file of the wrong kind says nothing about the
driver, so it must not look like a guest that doesn't boot."""

from __future__ import annotations

import lzma
import re
import struct
import subprocess
import sys
import zlib
from pathlib import Path

HERE = Path(__file__).resolve().parent
sys.path.insert(0, str(HERE.parent))
from initrd import ENDINGS, UNPACK, find_module  # noqa: E402

PVH_ENTRY = 18  # the type of the note with the entry point that QEMU uses in an ELF kernel
NOTES, X86 = 4, (3, 62)  # a program header's type; machines of ELF files


class Unfit(Exception):
    """A file can't be used, whatever the driver does."""


def kernel_version(image: Path) -> str | None:
    """Returns the version of an x86 kernel that QEMU can boot, or None if the image doesn't name it."""
    try:
        return version_in(image, image.read_bytes())
    except struct.error as fault:
        raise Unfit(f"{image} is incomplete: its headers refer to places after its end") from fault


def version_in(image: Path, data: bytes) -> str | None:
    if data[:4] == b"\x7fELF":
        return elf_version(image, data)
    if data[0x202:0x206] == b"HdrS":
        return bzimage_version(image, data)
    if data[56:60] == b"ARM\x64" or data[:2] == b"\x1f\x8b":
        raise Unfit(f"{image} isn't an x86 kernel: it is a kernel of another machine, or compressed. "
                    "Give arch/x86/boot/bzImage, or vmlinux")
    raise Unfit(f"{image} isn't an x86 kernel: it has neither a bzImage's header (HdrS at 0x202) nor an ELF header")


def bzimage_version(image: Path, data: bytes) -> str | None:
    """Returns the version in a bzImage's header, which also states the file's length."""
    setup, (words,) = data[0x1F1] or 4, struct.unpack_from("<I", data, 0x1F4)
    least = (setup + 1) * 512 + words * 16 - 15
    if len(data) < least:
        raise Unfit(f"{image} is incomplete: it has {len(data)} bytes, and its header requires {least}")
    (at,) = struct.unpack_from("<H", data, 0x20E)
    text = data[at + 0x200 : at + 0x300].split(b"\0")[0].decode("latin-1").split() if at else []
    return text[0] if text else None


def elf_version(image: Path, data: bytes) -> str | None:
    """Returns the version in an ELF kernel, which must have a PVH entry."""
    (machine,) = struct.unpack_from("<H", data, 18)
    if machine not in X86:
        raise Unfit(f"{image} isn't an x86 kernel: its ELF machine is {machine}")
    if not has_pvh(data):
        raise Unfit(f"{image} has no PVH entry, so QEMU can't boot it: set CONFIG_PVH, or give arch/x86/boot/bzImage")
    found = re.search(rb"Linux version (\S+) ", data)
    return found[1].decode("latin-1") if found else None


def has_pvh(data: bytes) -> bool:
    """Returns whether an ELF file has the note with the PVH entry."""
    wide = data[4] == 2
    (first,) = struct.unpack_from("<Q" if wide else "<I", data, 32 if wide else 28)
    size, count = struct.unpack_from("<HH", data, 54 if wide else 42)
    for at in (first + size * k for k in range(count)):
        kind = struct.unpack_from("<I", data, at)[0]
        offset, length = (struct.unpack_from("<Q", data, at + it)[0] for it in (8, 32)) if wide else (
            struct.unpack_from("<I", data, at + it)[0] for it in (4, 16))  # fmt: skip
        note = struct.pack("<I", PVH_ENTRY) + b"Xen\0"
        if kind == NOTES and note in data[offset : offset + length]:
            return True
    return False


def magic(module: Path) -> list[str]:
    """Returns the words of a module's vermagic; the first is the kernel's version."""
    try:
        data = UNPACK.get(module.suffix, bytes)(module.read_bytes())
    except (EOFError, OSError, lzma.LZMAError, zlib.error) as fault:
        raise Unfit(f"{module} can't be read or decompressed: {fault}") from fault
    found = re.search(rb"\0vermagic=([^\0]*)\0", data)
    return found[1].decode("latin-1").split() if found else []


def check_modules(folder: Path, version: str | None) -> None:
    """Requires a kernel's folder lib/modules/VERSION, of this version."""
    if not folder.is_dir():
        raise Unfit(f"{folder} isn't a folder: --modules takes lib/modules/VERSION")
    first = next((it for end in ENDINGS for it in folder.glob(f"**/*.{end}")), None)
    if not ((folder / "kernel").is_dir() or (folder / "modules.dep").exists() or any(folder.glob("*.ko*"))):
        below = sorted(it.name for it in folder.iterdir() if (it / "kernel").is_dir() or (it / "modules.dep").exists())
        hint = f"; it contains {', '.join(below)}, so give {folder / below[0]}" if below else ""
        raise Unfit(f"{folder} isn't a kernel's folder lib/modules/VERSION: it has neither kernel/, nor modules.dep, "
                    f"nor modules{hint}")
    if first is None and any(folder.glob("**/*.ko.zst")):
        raise Unfit(f"the modules in {folder} are compressed by zstd: decompress them first (zstd -d --rm)")
    own = find_module(folder, "ixgbe") or first
    built = magic(own)[:1] if own else []
    if version and built and built[0] != version:
        raise Unfit(f"the modules in {folder} are of {built[0]}, but the kernel is {version}")


def check_module(module: Path, version: str | None) -> None:
    """Rejects a module of another kernel. If the kernel compares symbols' versions (modversions), it ignores its own
    version."""
    words = magic(module)
    if not words:
        raise Unfit(f"{module} isn't a kernel's module: it has no vermagic")
    if version and words[0] != version and "modversions" not in words:
        raise Unfit(f"{module} is built for {words[0]}, but the kernel is {version}")


def check_script(script: Path, busybox: Path) -> None:
    """Rejects a script that the guest's shell can't parse."""
    ran = subprocess.run([busybox, "sh", "-n", script], capture_output=True, text=True, check=False)
    if ran.returncode:
        raise Unfit(f"{script} can't run in the guest, where busybox's sh runs it: {ran.stderr.strip()}")
