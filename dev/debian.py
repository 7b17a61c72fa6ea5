"""Builds the Debian packages of a release: the main package, and the one with its debugging symbols. dev/release passes
this module a tree that has the libraries in the folder of the machine's architecture."""

from __future__ import annotations

import gzip
import hashlib
import os
import re
import shutil
import subprocess
from collections.abc import Callable
from dataclasses import dataclass
from email.utils import formatdate
from pathlib import Path

from generated import ROOT

ARCHITECTURES = {"x86_64": "amd64", "aarch64": "arm64"}
DOC = "usr/share/doc/nic82599"
# Debian stores the licence's text elsewhere; the package's `copyright` file refers to it.
LEFT_OUT = (f"{DOC}/LICENSE",)
TO_LICENCE = re.compile(r"\]\(((?:\.\./)*)LICENSE\)")

Run = Callable[..., str]


@dataclass(frozen=True)
class Machine:
    """A machine for which a release is made, with the kernel's name for it."""

    name: str = os.uname().machine

    @property
    def is_here(self) -> bool:
        return self.name == os.uname().machine

    @property
    def architecture(self) -> str:
        """Debian's name for the machine."""
        return ARCHITECTURES.get(self.name, self.name)

    @property
    def libdir(self) -> str:
        return f"lib/{self.name}-linux-gnu"

    def tool(self, name: str) -> str:
        """Returns the name of a tool that compiles for the machine: on a different machine, Debian's cross tool."""
        return name if self.is_here else f"{self.name}-linux-gnu-{name}"


@dataclass(frozen=True)
class Package:
    """The inputs of a package: the machine, the version, the commit's time, the soname's number, the oldest supported C
    library, and other packages with libraries that the binaries need."""

    machine: Machine
    version: str
    epoch: int
    soname: str
    libc: str
    libraries: tuple[str, ...] = ()


def put(path: Path, data: str | bytes, mode: int = 0o644) -> None:
    path.parent.mkdir(parents=True, exist_ok=True)
    path.write_bytes(data.encode() if isinstance(data, str) else data)
    path.chmod(mode)


def text_of(name: str) -> str:
    return (ROOT / "packaging" / name).read_text()


def packed(text: str) -> bytes:
    """Compresses a string as gzip -9n does."""
    return gzip.compress(text.encode(), 9, mtime=0)


def changelog(version: str, epoch: int) -> str:
    """Returns a changelog that names the version for Debian's tools; the changes themselves are in CHANGELOG.md."""
    date = formatdate(epoch).replace("-0000", "+0000")
    maintainer = re.search(r"Maintainer: (.*)", text_of("control.in"))
    assert maintainer
    return (
        f"nic82599 ({version}) unstable; urgency=medium\n\n"
        "  * CHANGELOG.md lists the changes.\n\n"
        f" -- {maintainer[1]}  {date}\n"
    )


def build_id(file: Path) -> str:
    """Returns the build ID by which a debugger finds a binary's symbols."""
    output = subprocess.run(["readelf", "--notes", file], capture_output=True, text=True, check=True).stdout
    found = re.search(r"Build ID: ([0-9a-f]+)", output)
    if not found:
        raise ValueError(f"{file.name} has no build ID, by which a debugger finds its symbols")
    return found[1]


def control(name: str, tree: Path, package: Package, **more: str) -> None:
    """Writes a tree's control file and the checksums of its files."""
    files = sorted(it for it in tree.rglob("*") if it.is_file() and not it.is_symlink())
    words = {"VERSION": package.version, "ARCHITECTURE": package.machine.architecture, "LIBC": package.libc, **more}
    words["MORE"] = "".join(f", {it}" for it in package.libraries)
    words["SIZE"] = str(sum(it.stat().st_size for it in files) // 1024)
    text = text_of(name)
    for word, value in words.items():
        text = text.replace(f"@{word}@", value)
    put(tree / "DEBIAN/control", text)
    sums = "".join(f"{hashlib.md5(it.read_bytes()).hexdigest()}  {it.relative_to(tree)}\n" for it in files)
    put(tree / "DEBIAN/md5sums", sums)


def build(tree: Path, out: Path, package: Package, run: Run) -> None:
    """Builds a package from a tree."""
    for path in [tree, *tree.rglob("*")]:
        if path.is_dir() and not path.is_symlink():
            path.chmod(0o755)
        os.utime(path, (package.epoch, package.epoch), follow_symlinks=False)
    name = re.search(r"Package: (\S+)", (tree / "DEBIAN/control").read_text())
    assert name
    file = out / f"{name[1]}_{package.version}_{package.machine.architecture}.deb"
    run("dpkg-deb", "--root-owner-group", "-Zgzip", "-z9", "--build", tree, file)


def with_own_licence(tree: Path) -> None:
    """Replaces the licence's text with Debian's copy of it, and redirects the pages' links to that file."""
    for name in LEFT_OUT:
        (tree / name).unlink()
    put(tree / DOC / "copyright", text_of("copyright"))
    for page in (tree / DOC).rglob("*.md"):
        text = page.read_text()
        if TO_LICENCE.search(text):
            put(page, TO_LICENCE.sub(r"](\1copyright)", text))


def write(prefix: Path, symbols: dict[Path, Path], package: Package, out: Path, run: Run) -> None:
    """Builds both packages from a tree below /usr. `symbols` maps each binary to the file with its symbols."""
    tree, beside = prefix.parent / "debian", prefix.parent / "debian-dbgsym"
    shutil.copytree(prefix, tree / "usr", symlinks=True, ignore=shutil.ignore_patterns(".debug"))
    with_own_licence(tree)
    put(tree / DOC / "changelog.gz", packed(changelog(package.version, package.epoch)))
    put(tree / "usr/share/lintian/overrides/nic82599", text_of("lintian-overrides"))
    control("control.in", tree, package)
    plain = package.version.partition("+")[0]
    put(tree / "DEBIAN/shlibs", f"libnic82599 {package.soname} nic82599 (>= {plain})\n")
    put(tree / "DEBIAN/triggers", "activate-noawait ldconfig\n")
    put(tree / "DEBIAN/prerm", text_of("prerm"), 0o755)
    build(tree, out, package, run)
    numbers = []
    for binary, file in symbols.items():
        number = build_id(binary)
        put(beside / f"usr/lib/debug/.build-id/{number[:2]}/{number[2:]}.debug", file.read_bytes())
        numbers.append(number)
    put(beside / "usr/share/lintian/overrides/nic82599-dbgsym", text_of("lintian-overrides-dbgsym"))
    (beside / "usr/share/doc").mkdir()
    (beside / "usr/share/doc/nic82599-dbgsym").symlink_to("nic82599")
    control("control-dbgsym.in", beside, package, BUILD_IDS=" ".join(sorted(numbers)))
    build(beside, out, package, run)
