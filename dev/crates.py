"""Packs the Rust crates: the files of each, and its `.crate` file.

`nic82599-model` is pure Rust. In the repository, a build script writes its controller, and the crate compiles the API
and the tests of the neighbouring crate. A packed `nic82599-model` contains the controller, the API and the tests, but
no script. A packed `nic82599` contains the sources of the C library in its `sources` folder; its build script builds
the library from these sources if it finds no library.
"""

from __future__ import annotations

import functools
import gzip
import io
import os
import re
import subprocess
import tarfile
import tempfile
from pathlib import Path

from generated import ROOT, git

MODEL, OVER_C = "rust/nic82599-model", "rust/nic82599"
# How files of the model crate refer to files of the other crate.
OTHER = "../nic82599/"
# Files that are compiled together with the files that they refer to.
ALONG = ("src/desc", "tests/common", "tests/digests.txt")
# The build script's output as its root includes it; a packed crate has no build script.
INCLUDED = 'include!(concat!(env!("OUT_DIR"), "/modules.rs"));\n'
# What `make -C c` reads, and a pattern for the files among these that the archives of a packed crate don't need.
SOURCES = ("LICENSE", "VERSION", "c", "crates.txt", "dev/need", "dev/plain", "plain")
UNREAD = re.compile(r"c/(tests|fuzz|bus|vfio-user|test$)|c/\w+/(tests|corpus|examples)/|plain/eraser/cases/|.*\.md$")

Files = dict[str, bytes]


class Unpacked(Exception):
    """The reason why a crate can't be packed."""


def files_here() -> list[str]:
    """Returns the repository's files, including uncommitted ones; for an archive of the sources, the files in its
    list."""
    if not (ROOT / ".git").exists():
        return (ROOT / "COMMIT").read_text().splitlines()[1:]
    listed = git("ls-files", "--cached", "--others", "--exclude-standard").splitlines()
    return [it for it in listed if (ROOT / it).exists()]


def below(files: list[str], *places: str) -> list[str]:
    """Returns the files that are at these paths, or in these folders."""
    return [it for it in files if any(it == place or it.startswith(f"{place}/") for place in places)]


@functools.cache
def controller() -> Files:
    """Returns the controller's modules as the build script writes them. They are generated once for a commit."""
    with tempfile.TemporaryDirectory() as name:
        eraser, out = Path(name) / "eraser", Path(name) / "out"
        rustc = os.environ.get("RUSTC", "rustc")
        compiled = [rustc, "--edition", "2021", "-A", "warnings", "-o", eraser, ROOT / "plain/eraser/main.rs"]
        for words in (compiled, [eraser, "--controller", ROOT, out]):
            made = subprocess.run(words, capture_output=True, text=True, check=False)
            if made.returncode:
                raise Unpacked(f"{words[0]} exited with status {made.returncode}: {made.stderr.strip()}")
        return {str(it.relative_to(out)): it.read_bytes() for it in sorted(out.rglob("*")) if it.is_file()}


def shared_with(text: str) -> list[str]:
    """Returns the files of the other crate that a file of the model crate refers to."""
    return re.findall(rf'path = "[./]*{re.escape(OTHER)}([\w./-]+)"', text)


def alone(text: str) -> str:
    """Returns the text of a model crate's file for a crate that also contains the other crate's files."""
    text = re.sub(rf'^ *#\[path = "[./]*{re.escape(OTHER)}[^\n]*\n', "", text, flags=re.M)
    return text.replace(f'path = "{OTHER}', 'path = "').replace('build = "build.rs"\n', "")


def model(files: list[str]) -> Files:
    """Returns the pure Rust crate, from the repository's files."""
    own = {name: (ROOT / name).read_text() for name in below(files, MODEL) if not name.endswith("/build.rs")}
    packed = {str(Path(name).relative_to(MODEL)): alone(text).encode() for name, text in own.items()}
    named = {it for text in own.values() for it in shared_with(text)}
    for name in below(files, *(f"{OVER_C}/{it}" for it in {*named, *ALONG})):
        packed[str(Path(name).relative_to(OVER_C))] = (ROOT / name).read_bytes()
    written = dict(controller())
    modules, root = written.pop("modules.rs").decode(), packed["src/lib.rs"].decode()
    if root.count(INCLUDED) != 1:
        raise Unpacked(f"{MODEL}/src/lib.rs must contain {INCLUDED.strip()} exactly once")
    packed["src/lib.rs"] = root.replace(INCLUDED, modules).encode()
    packed |= {f"src/{name}": data for name, data in written.items()}
    return packed | {"LICENSE": (ROOT / "LICENSE").read_bytes()}


def over_c(files: list[str]) -> Files:
    """Returns the crate that wraps the C library, with the library's sources."""
    packed = {str(Path(name).relative_to(OVER_C)): (ROOT / name).read_bytes() for name in below(files, OVER_C)}
    crates = sorted({"/".join(it.split("/")[:2]) for it in below(files, "crates")})
    read = [it for it in below(files, *SOURCES, *(f"{it}/src" for it in crates)) if not UNREAD.match(it)]
    packed |= {f"sources/{name}": (ROOT / name).read_bytes() for name in read}
    return packed | {"LICENSE": (ROOT / "LICENSE").read_bytes()}


def version_of(packed: Files) -> str:
    found = re.search(r'^version = "(.*)"', packed["Cargo.toml"].decode(), re.M)
    return found[1] if found else ""


def is_program(packed: Files, name: str) -> bool:
    """Returns whether a file is executable."""
    return packed[name].startswith(b"#!")


def write(packed: Files, name: str, epoch: int, out: Path) -> Path:
    """Writes a crate's `.crate` file; the same files and time result in the same bytes."""
    named = f"{name}-{version_of(packed)}"
    path = out / f"{named}.crate"
    with (
        open(path, "wb") as file,
        gzip.GzipFile("", "wb", 9, file, mtime=0) as zipped,
        tarfile.open(fileobj=zipped, mode="w", format=tarfile.GNU_FORMAT) as archive,
    ):
        for file_name, data in sorted(packed.items()):
            info = tarfile.TarInfo(f"{named}/{file_name}")
            info.size, info.mtime = len(data), epoch
            info.mode = 0o755 if is_program(packed, file_name) else 0o644
            archive.addfile(info, io.BytesIO(data))
    return path


def write_all(files: list[str], epoch: int, out: Path) -> None:
    """Writes both `.crate` files to a folder."""
    write(model(files), "nic82599-model", epoch, out)
    write(over_c(files), "nic82599", epoch, out)
