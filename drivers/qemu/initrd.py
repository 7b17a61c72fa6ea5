"""An initial file system for a guest: busybox, some of its kernel's modules, programs with their libraries."""

from __future__ import annotations

import gzip
import lzma
import re
import subprocess
from collections.abc import Callable
from pathlib import Path

LIBRARIES = "lib/x86_64-linux-gnu"
FOLDERS = ("bin", "dev", "proc", "sys", "tmp", "lib", "lib64", LIBRARIES, "modules", "var", "var/www")
ENDINGS = ("ko", "ko.xz", "ko.gz")
UNPACK: dict[str, Callable[[bytes], bytes]] = {".xz": lzma.decompress, ".gz": gzip.decompress}
APPLETS = """
[ ash awk basename cat chmod cut date dd dirname dmesg echo expr false grep gzip head hostname httpd ifconfig insmod
ip kill ln ls lsmod md5sum mkdir mkfifo mount ping poweroff printf ps pwd rm rmmod sed seq sh sleep sort sync tail tee
test time touch tr true uname uniq usleep wc wget xargs
""".split()
INIT = """#!/bin/sh
export PATH=/bin
mount -t proc p /proc
mount -t sysfs s /sys
mount -t devtmpfs d /dev 2>/dev/null
ip link set lo up
echo "guest: $(uname -r), init at $(cut -d' ' -f1 /proc/uptime) s"
sh /script
echo "guest: end at $(cut -d' ' -f1 /proc/uptime) s"
sleep 5
poweroff -f
"""


def find_module(modules: Path, name: str) -> Path | None:
    """Finds a module's file in the folder of a kernel's modules, or in a folder of modules without kernel/."""
    pattern = re.sub("[-_]", "[-_]", name)
    below = "kernel/**" if (modules / "kernel").is_dir() else "**"
    return next((it for end in ENDINGS for it in modules.glob(f"{below}/{pattern}.{end}")), None)


class Initrd:
    """Files by name; `modules` is the folder of a kernel's modules."""

    def __init__(self, modules: Path, busybox: Path) -> None:
        self.modules, self.files = modules, dict[str, tuple[int, bytes]]()
        for folder in FOLDERS:
            self.files[folder] = (0o040755, b"")
        self.add_file("bin/busybox", busybox.read_bytes(), 0o755)
        for applet in APPLETS:
            self.files[f"bin/{applet}"] = (0o120777, b"busybox")
        self.add_file("init", INIT.encode(), 0o755)

    def add_file(self, name: str, data: bytes, mode: int) -> None:
        self.files[name] = (0o100000 | mode, data)

    def find_module(self, name: str) -> Path | None:
        """Finds a module's file, by its name with - or _. Returns None if it is built in."""
        return find_module(self.modules, name)

    def add_module(self, name: str) -> None:
        """Adds a module with its dependencies, and the list NAME.list in load order."""
        order: list[str] = []
        self.gather(name, order)
        self.add_file(f"modules/{name}.list", ("\n".join(order) + "\n").encode(), 0o644)

    def gather(self, name: str, order: list[str]) -> None:
        file = self.find_module(name)
        if not file:
            return
        data = UNPACK.get(file.suffix, bytes)(file.read_bytes())
        for line in re.findall(rb"\0depends=([^\0]*)\0", data):
            for needed in re.findall("[^,]+", line.decode()):
                self.gather(needed, order)
        plain = file.name.split(".ko")[0] + ".ko"
        if plain not in order:
            order.append(plain)
            self.add_file(f"modules/{plain}", data, 0o644)

    def add_program(self, program: Path, root: Path) -> None:
        """Adds a program, with the libraries that it needs, from packages unpacked in a folder."""
        self.add_file(f"bin/{program.name}", program.read_bytes(), 0o755)
        self.add_needed(program, root)
        self.files["lib64/ld-linux-x86-64.so.2"] = (0o120777, f"/{LIBRARIES}/ld-linux-x86-64.so.2".encode())

    def add_library(self, name: str, root: Path) -> None:
        """Adds a library, with those that it needs."""
        found = [it for it in (root / "usr" / LIBRARIES / name, root / LIBRARIES / name) if it.exists()]
        if not found:
            raise FileNotFoundError(f"no {name} in {root}")
        if f"{LIBRARIES}/{name}" not in self.files:
            self.add_file(f"{LIBRARIES}/{name}", found[0].read_bytes(), 0o755)
            self.add_needed(found[0], root)

    def add_needed(self, file: Path, root: Path) -> None:
        output = subprocess.run(["readelf", "-d", file], capture_output=True, text=True, check=True).stdout
        for name in re.findall(r"\(NEEDED\).*\[(.*)\]", output):
            self.add_library(name, root)

    def write(self, to: Path) -> None:
        """Writes the archive (cpio, "newc"), compressed."""
        data = bytearray()
        files: list[tuple[str, tuple[int, bytes]]] = [*sorted(self.files.items()), ("TRAILER!!!", (0, b""))]
        for number, (name, (mode, content)) in enumerate(files):
            fields = (number + 1, mode, 0, 0, 1, 0, len(content), 0, 0, 0, 0, len(name) + 1, 0)
            data += b"070701" + b"".join(b"%08X" % it for it in fields) + name.encode() + b"\0"
            data += bytes(-len(data) % 4)
            data += content
            data += bytes(-len(data) % 4)
        to.write_bytes(gzip.compress(bytes(data), 1))
