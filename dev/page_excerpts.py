#!/usr/bin/env python3
"""Writes the program excerpts on the pages, from the sources that the gate runs.

    dev/page_excerpts.py            rewrites the pages
    dev/page_excerpts.py --check    names the stale pages, and exits with status 1 if there are any

The pages are README.md, c/README.md, drivers/common/README.md and those of docs/. An excerpt is the indented block
after a '<!-- FILE: ITEM ITEM .. -->' line, where FILE is a file in the repository and ITEM one of these:

    NAME       a function or a constant, without the comment above it
    *          the whole file
    TEXT+N     N lines, starting with the first line that contains TEXT
"""

from __future__ import annotations

import re
import sys
from pathlib import Path

sys.dont_write_bytecode = True
from generated import ROOT, keep, text_of  # noqa: E402

PAGES = [ROOT / name for name in ("README.md", "c/README.md", "drivers/common/README.md")]
PAGES += sorted((ROOT / "docs").glob("*.md"))
PIECE = re.compile(r"<!-- ([\w./]+): (\S.*) -->\n\n((?:    .*\n|\n+(?=    ))*)")


def first(lines: list[str], what: str, is_it: re.Pattern[str]) -> int:
    """Returns the number of the only line that matches a pattern."""
    found = [at for at, line in enumerate(lines) if is_it.search(line)]
    if len(found) != 1:
        sys.exit(f"dev/page_excerpts.py: {len(found)} lines define {what}, instead of one")
    return found[0]


def item_of(text: str, item: str) -> list[str]:
    """Returns the lines of one item in a file."""
    lines = text.rstrip("\n").split("\n")
    if item == "*":
        return lines
    if counted := re.fullmatch(r"(.+)\+(\d+)", item):
        begin = next((at for at, line in enumerate(lines) if counted[1] in line), None)
        if begin is None:
            sys.exit(f"dev/page_excerpts.py: no line contains {counted[1]}")
        return lines[begin : begin + int(counted[2])]
    begin = first(lines, item, re.compile(rf"^(?:pub(?:\(crate\))? )?(?:fn|const) {item}\b"))
    end = next(at for at, line in enumerate(lines) if at >= begin and re.match(r"\S*[};]$|\S.*;$", line))
    return lines[begin : end + 1]


def shown(piece: re.Match[str]) -> str:
    """Returns an excerpt as the page must show it. Excerpts selected by lines lose their common indentation."""
    file, items, _ = piece.groups()
    text = text_of(file)
    parts = []
    for item in items.split():
        lines = item_of(text, item)
        spare = min(len(line) - len(line.lstrip()) for line in lines if line) if "+" in item else 0
        parts.append("".join(f"    {line[spare:]}".rstrip() + "\n" for line in lines))
    between = "" if "+" in items else "\n"
    return f"<!-- {file}: {items} -->\n\n{between.join(parts)}"


def texts() -> dict[Path, str]:
    """Returns the pages with their excerpts up to date."""
    return {page: PIECE.sub(shown, page.read_text()) for page in PAGES}


if __name__ == "__main__":
    keep(__doc__, texts)
