"""What the pages say about the report card's rows: the table, and the number of rows wherever a page states it."""

from __future__ import annotations

import re
from collections.abc import Sequence
from pathlib import Path

from drive.card.rows import Row

ROOT = Path(__file__).resolve().parents[2]
CARD, PORT, README = ROOT / "docs/report-card.md", ROOT / "docs/port.md", ROOT / "README.md"
END = "<!-- to here -->\n"
# Patterns of the places that state the number of rows.
COUNTS = {
    CARD: (r"the driver in (\d+) built-in scenarios", r"so (\d+) rows take"),
    README: (r"through (\d+) ready-made scenarios",),
}
# The last line of a card, in which all three numbers count rows.
RESULT = re.compile(r"(\d+) passed, (\d+) failed, \d+ not applicable")


class Unplaced(Exception):
    """A page lacks the place where the generated part belongs."""


def table(*rows: Sequence[str]) -> str:
    """Returns a Markdown table. The first row is the header."""
    lines = ["| " + " | ".join(row) + " |" for row in rows]
    return "\n".join([lines[0], "|" + "---|" * len(rows[0]), *lines[1:]]) + "\n"


def with_part(text: str, name: str, part: str) -> str:
    """Returns the page with the part between its marker lines replaced."""
    before, found, rest = text.partition(f"<!-- c/drive/table writes the {name} -->\n")
    if not found:
        raise Unplaced(f"{CARD.name} has no place for the {name}")
    return f"{before}{found}\n{part}\n{rest[rest.index(END) :]}"


def scenarios(rows: Sequence[Row]) -> str:
    """Returns the table of scenarios."""
    lines, last = [], ""
    for row in rows:
        rule = "the same" if row.rule == last else row.rule
        lines.append([f"`{row.name}`", row.title, f"{rule} ({row.source})", row.reaches])
        last = row.rule
    return table(["Row", "What is tried", "Rule", "What must happen"], *lines)


def with_counts(page: Path, text: str, count: int) -> str:
    """Returns the page with the number of rows updated in each place."""
    for place in COUNTS.get(page, ()):
        if len(re.findall(place, text)) != 1:
            raise Unplaced(f"{page.name}: '{place}' doesn't occur exactly once")
        text = re.sub(place, lambda it: it[0].replace(it[1], str(count)), text)
    for passed, failed in RESULT.findall(text):
        known = f"{passed} passed, {failed} failed"
        text = re.sub(rf"{known}, \d+ not", f"{known}, {count - int(passed) - int(failed)} not", text)
    return text


def texts_of(rows: Sequence[Row]) -> dict[Path, str]:
    """Returns the updated pages, given the rows that a driver's program lists."""
    texts = {page: with_counts(page, page.read_text(encoding="utf-8"), len(rows)) for page in (CARD, PORT, README)}
    texts[CARD] = with_part(texts[CARD], "scenarios", scenarios(rows))
    return texts
