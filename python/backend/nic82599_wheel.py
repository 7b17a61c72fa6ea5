"""Builds the wheel of this package: the build backend for pip (PEP 517 and 660), also called by dev/release.

It needs only the standard library, so pip needs no network. The wheel contains the modules, the shared libraries and
the `nicbench` program: the proved ones if they exist, otherwise those of the plain edition, which rustc compiles. Its
bytes depend only on its contents and SOURCE_DATE_EPOCH.
"""

import base64
import functools
import hashlib
import os
import re
import subprocess
import sys

if sys.version_info < (3, 11):  # noqa: UP036
    sys.exit("nic82599_wheel: needs Python 3.11 or newer; this is {}.{}".format(*sys.version_info))

import tempfile
import time
import tomllib
import zipfile
from pathlib import Path
from typing import NoReturn

HERE = Path(__file__).resolve().parents[1]
ROOT = HERE.parent
SUFFIXES = (".py", ".html", ".js", ".css", ".txt", ".typed")
SONAME = "libnic82599.so.0"
# The library of nic82599.explore.
ENGINE = "libnic82599_python.so"
EARLIEST = 315_532_800
# pip's --config-settings; unused.
Settings = dict[str, str | list[str]]


class UnsupportedOperation(Exception):
    """Raised when this backend can't build something; pip reports it."""


def project() -> dict:
    """Returns the project table of pyproject.toml."""
    return tomllib.loads((HERE / "pyproject.toml").read_text())["project"]


def modules() -> dict[str, bytes]:
    """Returns the package's files by their names in a wheel."""
    files = sorted((HERE / "nic82599").rglob("*"))
    return {str(it.relative_to(HERE)): it.read_bytes() for it in files if it.suffix in SUFFIXES and it.is_file()}


@functools.cache
def browser_page() -> bytes | None:
    """Returns the bench as a single browser page; None if rustc or its wasm32 library is missing."""
    with tempfile.TemporaryDirectory() as folder:
        words = [ROOT / "web/make", "-o", Path(folder) / "bench.html"]
        made = subprocess.run(words, stdout=sys.stderr, check=False)
        if made.returncode not in (0, 2):
            sys.exit("nic82599_wheel: the browser page can't be built, see above: `web/make` must succeed first")
        return None if made.returncode else (Path(folder) / "bench.html").read_bytes()


def page_files() -> dict[str, bytes]:
    """Returns the browser page as a file of the wheel; empty if it can't be built."""
    found = browser_page()
    return {} if found is None else {"nic82599/bench.html": found}


def metadata(version: str) -> str:
    """Returns the METADATA file."""
    data = project()
    lines = ["Metadata-Version: 2.4", f"Name: {data['name']}", f"Version: {version}", f"Summary: {data['description']}"]
    lines += [f"License-Expression: {data['license']}", "License-File: LICENSE"]
    lines += [f"Keywords: {','.join(data['keywords'])}"] + [f"Classifier: {it}" for it in data["classifiers"]]
    lines += [f"Requires-Python: {data['requires-python']}", "Description-Content-Type: text/markdown"]
    return "\n".join(lines) + "\n\n" + (HERE / data["readme"]).read_text()


def entry_points() -> str:
    """Returns the file that lists the commands and the pytest plugin."""
    data = project()
    groups = {"console_scripts": data["scripts"], **data["entry-points"]}
    return "\n".join(
        f"[{group}]\n" + "".join(f"{name} = {what}\n" for name, what in points.items())
        for group, points in groups.items()
    )


def record(files: dict[str, bytes], own: str) -> str:
    """Returns the RECORD file: the hash and length of each file."""
    lines = ""
    for name, data in files.items():
        sum_of = base64.urlsafe_b64encode(hashlib.sha256(data).digest()).rstrip(b"=").decode()
        lines += f"{name},sha256={sum_of},{len(data)}\n"
    return f"{lines}{own},,\n"


def zipped(path: Path, files: dict[str, bytes], programs: set[str]) -> None:
    """Writes a reproducible zip: its bytes depend only on the files and SOURCE_DATE_EPOCH."""
    moment = time.gmtime(max(EARLIEST, int(os.environ.get("SOURCE_DATE_EPOCH", EARLIEST))))[:6]
    with zipfile.ZipFile(path, "w", zipfile.ZIP_DEFLATED, compresslevel=9) as archive:
        for name, data in files.items():
            info = zipfile.ZipInfo(name, moment)
            info.compress_type, info.create_system = zipfile.ZIP_DEFLATED, 3
            info.external_attr = (0o100755 if name in programs else 0o100644) << 16
            archive.writestr(info, data)


def write_wheel(
    folder: Path,
    version: str,
    files: dict[str, bytes],
    binaries: dict[str, bytes],
    provenance: str | None = None,
    platform: str = f"linux_{os.uname().machine}",
) -> str:
    """Writes a wheel with these files into a folder, and returns its name. A wheel with binaries is for one
    platform, by default this machine's."""
    tag = f"py3-none-{platform if binaries else 'any'}"
    info = f"nic82599-{version}.dist-info"
    tags = f"Wheel-Version: 1.0\nGenerator: nic82599_wheel\nRoot-Is-Purelib: {str(not binaries).lower()}\nTag: {tag}\n"
    texts = {"METADATA": metadata(version), "WHEEL": tags, "entry_points.txt": entry_points()}
    texts["licenses/LICENSE"] = (ROOT / "LICENSE").read_text()
    if provenance is not None:
        texts["PROVENANCE"] = provenance
    every = files | binaries | {f"{info}/{name}": text.encode() for name, text in texts.items()}
    every = dict(sorted(every.items(), key=lambda it: (".dist-info/" in it[0], it[0])))
    every[f"{info}/RECORD"] = record(every, f"{info}/RECORD").encode()
    name = f"nic82599-{version}-{tag}.whl"
    zipped(folder / name, every, set(binaries))
    return name


def version() -> str:
    """Returns the version in the clone's VERSION file."""
    found = re.fullmatch(r"\d+\.\d+\.\d+\n?", (ROOT / "VERSION").read_text())
    if not found:
        sys.exit("nic82599_wheel: VERSION doesn't contain three numbers on a line")
    return found[0].strip()


def make_library() -> None:
    """Builds the shared library if it isn't up to date; pip shows the output if that fails."""
    if subprocess.run(["make", "-C", ROOT / "c"], stdout=sys.stderr, check=False).returncode:
        sys.exit("nic82599_wheel: the library can't be built, see above: `make -C c` must succeed first")


def edition_script(program: str, edition: str) -> bytes:
    """Returns the script that starts an unproved program. `program` is its path relative to the script."""
    text = (ROOT / "packaging/edition.in").read_text()
    return text.replace("@PROGRAM@", program).replace("@EDITION@", edition).encode()


def program_files(program: bytes, edition: str) -> dict[str, bytes]:
    """Returns the program's files in a wheel. An unproved program is started by a script that adds its edition to the
    version."""
    if edition == "proved":
        return {"nic82599/nicbench": program}
    script = edition_script(f"{edition}/nicbench", edition)
    return {"nic82599/nicbench": script, f"nic82599/{edition}/nicbench": program}


def built_program() -> tuple[Path, str] | None:
    """Returns the program that ./nicbench would start and its edition, proved or plain; None if it can't be built."""
    words = [ROOT / "dev/plain", "--or-proved", "program"]
    made = subprocess.run(words, stdout=subprocess.PIPE, stderr=sys.stderr, text=True, check=False)
    if made.returncode:
        return None
    program = Path(made.stdout.strip())
    return program, "proved" if program == ROOT / "crates/nicbench/out/nicbench" else "plain"


# --- called by pip ---


def build_wheel(
    wheel_directory: str, config_settings: Settings | None = None, metadata_directory: str | None = None
) -> str:
    make_library()
    out = ROOT / "c/out"
    binaries = {f"nic82599/{SONAME}": (out / "libnic82599.so").read_bytes()}
    binaries[f"nic82599/{ENGINE}"] = (out / ENGINE).read_bytes()
    built = built_program()
    if built:
        program, edition = built
        binaries |= program_files(program.read_bytes(), edition)
    return write_wheel(Path(wheel_directory), version(), modules() | page_files(), binaries)


def build_editable(
    wheel_directory: str, config_settings: Settings | None = None, metadata_directory: str | None = None
) -> str:
    return write_wheel(Path(wheel_directory), version(), {"nic82599.pth": f"{HERE}\n".encode()}, {})


def build_sdist(sdist_directory: str, config_settings: Settings | None = None) -> NoReturn:
    raise UnsupportedOperation("there is no sdist: the package is built from a clone and contains its C library")
