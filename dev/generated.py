"""Code that the scripts of this folder share: the root, the crates of crates.txt, parts of pages between two lines,
generated files with their --check, and the report of a check."""

from __future__ import annotations

import argparse
import re
import subprocess
import sys
from collections.abc import Callable, Iterable
from pathlib import Path

ROOT = Path(__file__).resolve().parent.parent


def text_of(path: str) -> str:
    """Returns the contents of a file in the repository."""
    return (ROOT / path).read_text(encoding="utf-8")


def git(*words: str, given: str | None = None) -> str:
    """Runs a git command, optionally with input, and returns its output."""
    how = ["git", "-C", str(ROOT), *words]
    return subprocess.run(how, input=given, stdout=subprocess.PIPE, text=True, check=True).stdout


def crate_rows() -> list[tuple[list[str], list[str]]]:
    """Returns the lines of crates.txt: for each, the words before the colon, beginning with the crate's name, and the
    libraries after it."""
    lines = [line.partition("#")[0] for line in text_of("crates.txt").splitlines()]
    parted = [line.partition(":") for line in lines if line.strip()]
    return [(head.split(), tail.replace(",", " ").split()) for head, _, tail in parted]


def crates_below() -> dict[str, list[str]]:
    """Returns each crate of the repository with the crates that it names."""
    uses = {head[0]: names for head, names in crate_rows()}
    return {name: [it for it in names if it in uses] for name, names in uses.items()}


def with_below(names: Iterable[str], uses: dict[str, list[str]]) -> list[str]:
    """Returns these crates and the crates that they depend on, each after its dependencies."""
    found: list[str] = []

    def walk(name: str) -> None:
        for it in uses[name]:
            walk_once(it)
        found.append(name)

    def walk_once(name: str) -> None:
        if name not in found:
            walk(name)

    for it in names:
        walk_once(it)
    return found


def table(heads: list[str], rows: Iterable[list[str]]) -> str:
    """Returns a Markdown table."""
    lines = ["| " + " | ".join(cells) + " |\n" for cells in [heads, *rows]]
    return lines[0] + "|---" * len(heads) + "|\n" + "".join(lines[1:])


def replaced(text: str, begin: str, new: str, end: str) -> str:
    """Returns a page with new content between the line `begin`, which occurs once, and the next line `end`."""
    before, *rest = text.split(begin)
    if len(rest) != 1 or end not in rest[0]:
        sys.exit(f"dev/{Path(sys.argv[0]).name}: the page must contain '{begin.strip()}' once, followed by its end")
    return before + begin + new + end + rest[0].partition(end)[2]


def report(faults: list[str]) -> int:
    """Prints the faults that a check found, one per line. Returns the status: 0 if there is none, otherwise 1."""
    print("\n".join(faults), end="\n" if faults else "")
    return 1 if faults else 0


def with_each_macro_once(text: str) -> str:
    """Returns a C source, after checking that no macro is defined twice."""
    names = re.findall(r"#define (\w+)", text)
    assert len(names) == len(set(names)), sorted(name for name in names if names.count(name) > 1)
    return text


def renewed(texts: dict[Path, str], only_check: bool, left: Iterable[Path] = ()) -> bool:
    """Rewrites the files whose text differs and removes leftover files, or only lists both kinds. Returns whether there
    were any."""
    stale = [path for path, text in texts.items() if not path.exists() or path.read_text(encoding="utf-8") != text]
    gone = list(left)
    for path in stale + gone:
        print("stale:" if only_check else "written:" if path in texts else "removed:", path.relative_to(ROOT))
        if only_check:
            continue
        if path in texts:
            path.parent.mkdir(parents=True, exist_ok=True)
            path.write_text(texts[path], encoding="utf-8")
        else:
            path.unlink()
            path.parent.rmdir()
    return bool(stale or gone)


def keep(
    page: str | None,
    texts: Callable[[], dict[Path, str]],
    left: Callable[[dict[Path, str]], list[Path]] = lambda _: [],
) -> None:
    """Runs a whole script: rewrites its files, or with --check, exits with status 1 if one is stale or left over."""
    parser = argparse.ArgumentParser(description=page, formatter_class=argparse.RawDescriptionHelpFormatter)
    parser.add_argument("--check", action="store_true")
    only_check, made = parser.parse_args().check, texts()
    if renewed(made, only_check, left(made)) and only_check:
        sys.exit(1)
