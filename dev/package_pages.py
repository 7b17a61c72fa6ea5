#!/usr/bin/env python3
"""Adapts the repository's pages to an installed package, so that their links and commands work there.

    dev/package_pages.py --check             generates all pages, and names each dead link and each command that names a
                                             file which isn't shipped
    dev/package_pages.py --links FOLDER      names each dead link of the pages below a folder
    dev/package_pages.py --commands PAGE ..  prints these installed pages' commands that build and start C programs

A link to a file that isn't shipped is replaced by its text; a link to a header of the library points to the installed
header. Commands use what is installed: `nicbench`, the tools, and pkg-config's output instead of a clone's folders.
Commands that need a clone are marked. The script needs only Python; `--links` and `--commands` use no other file of the
repository.

Status 0: no fault; 1: a fault; 3: wrong arguments.
"""

from __future__ import annotations

import os
import re
import subprocess
import sys
import tempfile
from collections.abc import Iterable, Iterator
from pathlib import Path, PurePosixPath

sys.dont_write_bytecode = True
ROOT = Path(__file__).resolve().parent.parent

# The repository's folders and files that a package contains in share/doc/nic82599, with the same paths.
SHIPPED = [
    "docs", "c/README.md", "c/examples", "c/drive/examples", "c/explore/examples", "c/explore/fuzz", "c/explore/many",
    "c/explore/corpus", "c/drive/corpus", "python/README.md", "python/examples", "rust/nic82599/README.md",
    "rust/nic82599/examples", "drivers/README.md", "README.md", "CHANGELOG.md", "LICENSE", "VERSION",
]  # fmt: skip
# Where a package has its pages, and its headers.
PAGES, HEADERS = PurePosixPath("/usr/share/doc/nic82599"), "/usr/include"
# The crate, relative to the pages.
CRATE = "../../nic82599/rust/nic82599"
IN_CLONE = "    # in a clone"
NOTE = (
    "*This page is in a package's folder `share/doc/nic82599`: run its commands there. Commands marked `in a "
    "clone` need the repository.*\n"
)
LINK = re.compile(r"(!?)\[([^\[\]]*)\]\(([^()\s]+)\)")
FENCE = re.compile(r"^(```|~~~).*?^\1$", re.M | re.S)
CODE = re.compile(r"^    .*$|`[^`\n]*`", re.M)
# Commands and paths for which an installed package has no counterpart.
OF_CLONE = re.compile(
    r"(?:^|(?<=[ (]))(?:\./nicbench --|dev/|drivers/|\.ci/|c/test|c/vfio-user/|c/explore/table|c/drive/table|"
    r"benchmarks/|rt |make -C|"
    r"\S*/pip install \./python|\S*rust/nic82599-model|\S*@c/out|\S*edition/Cargo)"
)
COMMAND = re.compile(
    r"(?:[A-Z0-9_]+=\S+ )*(?:cc|clang|make|cargo|python3|rt|gdb|afl-\S+|\./nicbench|tools/\S+|c/\S+|dev/\S+|"
    r"drivers/\S+|\.ci/\S+|benchmarks/\S+)(?: |$)"
)
ARCHIVE = re.compile(r" c/out/libnic82599(?:_drive|_explore)?\.a")


def is_shipped(name: str, files: Iterable[str]) -> bool:
    """Returns whether a file or a folder of the repository is in a package."""
    return any(it == name or it.startswith(f"{name}/") for it in files)


def shipped(files: Iterable[str]) -> list[str]:
    """Returns the repository's files that are in a package."""
    return [it for it in files if any(it == place or it.startswith(f"{place}/") for place in SHIPPED)]


# --- links ---


def without_dead_links(page: str, text: str, files: frozenset[str]) -> str:
    """Returns a page whose links point only to what a package contains."""
    folder = PurePosixPath(page).parent

    def link(found: re.Match[str]) -> str:
        mark, words, target = found.groups()
        path, _, anchor = target.partition("#")
        if re.match(r"[a-z]+:", target) or not path:
            return found[0]
        to = os.path.normpath(folder / path)
        if to.startswith("c/include/"):
            up = os.path.relpath(HEADERS, PAGES / folder)
            return f"{mark}[{words}]({up}/{PurePosixPath(to).name})"
        if is_shipped(to, files):
            return found[0]
        return words

    return LINK.sub(link, text)


# --- commands ---


def package_of(line: str) -> str:
    """Returns the pkg-config package that a command needs."""
    for part in ("drive", "explore"):
        if f"libnic82599_{part}.a" in line:
            return f"nic82599_{part}"
    return "nic82599"


def command(line: str) -> str:
    """Returns a page's command on one line, adapted to an installed package; the indentation is kept."""
    if OF_CLONE.search(line):
        return line if "# in a clone" in line else f"{line}{IN_CLONE}"
    if ARCHIVE.search(line):
        words = f" $(pkg-config --cflags --libs {package_of(line)})"
        line = ARCHIVE.sub("", line.replace(" -Ic/include", ""))
        line = line.replace(" -o ", f"{words} -o ", 1) if " -o " in line else line + words
    line = line.replace("PKG_CONFIG_PATH=c/out ", "").replace("PYTHONPATH=python ", "")
    line = re.sub(r" -Ic/include", "", line)
    line = re.sub(r"(^|[ |(])(?:\./(?=nicbench)|tools/(?=nic|pcap2nic)|c/drive/(?=nicdrive))", r"\1", line)
    line = re.sub(r"\brust/nic82599/target/", "/tmp/target/", line)
    if line.startswith("cargo ") and "rust/nic82599/Cargo.toml" in line:
        return f"CARGO_TARGET_DIR=/tmp/target {line.replace('rust/nic82599/Cargo', f'{CRATE}/Cargo')}"
    return line


def with_commands(text: str) -> str:
    """Returns a page whose blocks have the commands for an installed package. A command continued by a backslash
    becomes one line."""
    lines, is_fenced = [], False
    for line in re.sub(r"(?m)^(    \S.*?) *\\\n +", r"\1 ", text).splitlines():
        is_fenced ^= line.startswith(("```", "~~~"))
        head = "    " if line.startswith("    ") else ""
        is_code = is_fenced or head
        lines.append(head + command(line[len(head) :]) if is_code and COMMAND.match(line[len(head) :]) else line)
    return "\n".join(lines) + "\n"


def page(name: str, text: str, files: frozenset[str]) -> str:
    """Returns a page as a package contains it."""
    made = without_dead_links(name, text, files)
    changed = with_commands(made)
    if changed == made:
        return made
    title, _, rest = changed.partition("\n")
    return f"{title}\n\n{NOTE}{rest}"


def texts(files: Iterable[str]) -> Iterator[tuple[str, bytes]]:
    """Yields the contents of share/doc/nic82599 from the repository's files, by name."""
    names = shipped(files)
    kept = frozenset([*names, *(f"examples/{it.name}" for it in (ROOT / "examples").iterdir())])
    for name in sorted(kept):
        data = (ROOT / name).read_bytes()
        yield name, page(name, data.decode(), kept).encode() if name.endswith(".md") else data


# --- checks ---


def blanked(text: str) -> str:
    """Returns a page without code."""
    for pattern in (FENCE, CODE):
        text = pattern.sub(lambda found: re.sub(r"[^\n]", "x", found[0]), text)
    return text


def dead_links(folder: Path) -> list[str]:
    """Returns the dead links of the pages below a folder."""
    faults = []
    for file in sorted(folder.rglob("*.md")):
        text = blanked(file.read_text())
        for found in LINK.finditer(text):
            path = found[3].partition("#")[0]
            if path and not re.match(r"[a-z]+:", found[3]) and not (file.parent / path).exists():
                line = text.count("\n", 0, found.start()) + 1
                faults.append(f"{file.relative_to(folder)}:{line}: no file {path}")
    return faults


def commands_of(text: str) -> Iterator[str]:
    """Yields the commands of an installed page that build C programs, and the commands that start them."""
    for line in text.splitlines():
        words = line[4:]
        is_command = line.startswith("    ") and re.match(r"(?:NIC82599_RECORD=\S+ )?(?:cc |/tmp/[\w-]+( |$))", words)
        if is_command and IN_CLONE not in words and not re.match(r"/tmp/\S+\.\w+:", words):
            yield words


def foreign_files(name: str, text: str, kept: frozenset[str]) -> Iterator[str]:
    """Yields the repository's files that a page's commands name but a package doesn't contain."""
    for number, line in enumerate(text.splitlines(), 1):
        if not COMMAND.match(line[4:]) or not line.startswith("    ") or IN_CLONE in line:
            continue
        for path in re.findall(r"(?<![\w/.])(?:c|python|rust|examples|drivers|tools|plain)/[\w/.-]+", line):
            if (ROOT / path).exists() and not is_shipped(path, kept):
                yield f"{name}:{number}: {path} isn't shipped, and the line isn't marked \"in a clone\""


def check() -> list[str]:
    """Returns the faults of the pages as the archive and the Debian package of this tree contain them."""
    import debian

    listed = subprocess.run(["git", "-C", ROOT, "ls-files"], capture_output=True, text=True, check=True)
    faults: list[str] = []
    with tempfile.TemporaryDirectory() as tree:
        folder = Path(tree) / debian.DOC
        (Path(tree) / "usr/include").mkdir(parents=True)
        for header in (ROOT / "c/include").iterdir():
            (Path(tree) / "usr/include" / header.name).touch()
        made = dict(texts(listed.stdout.split("\n")))
        for name, data in made.items():
            (folder / name).parent.mkdir(parents=True, exist_ok=True)
            (folder / name).write_bytes(data)
            if name.endswith(".md"):
                faults += foreign_files(name, data.decode(), frozenset(made))
        faults += dead_links(folder)
        debian.with_own_licence(Path(tree))
        return faults + [it for it in dead_links(folder) if it not in faults]


def main() -> int:
    words = sys.argv[1:]
    if words == ["--check"]:
        faults = check()
    elif len(words) == 2 and words[0] == "--links":
        faults = dead_links(Path(words[1]))
    elif len(words) > 1 and words[0] == "--commands":
        faults = []
        for file in words[1:]:
            print("\n".join(commands_of(Path(file).read_text())))
    else:
        print(__doc__, file=sys.stderr)
        return 3
    for fault in faults:
        print(f"dev/package_pages.py: {fault}", file=sys.stderr)
    return 1 if faults else 0


if __name__ == "__main__":
    sys.exit(main())
