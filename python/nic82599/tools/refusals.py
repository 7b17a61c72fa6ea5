"""Finds all refusals of a script. The bench reports only the first one, so this module repairs that line and runs the
bench again.

The repair causes no further refusals: if the line defines a name, its replacement defines it too.
"""

from __future__ import annotations

import re
from collections.abc import Iterator

from .forms import NAME, explained
from .script import Bench, Refused

# The maximum numbers of refusals reported, of script characters processed for them, and of instructions in a script.
MOST, LOOKED, INSTRUCTIONS = 100, 1 << 26, 4_096
ZEROS = "00" * 16


def most_of(text: str) -> int:
    """Returns how many refusals to report for a script. Each needs a run of the bench, so there are fewer for a script
    above half a megabyte."""
    return max(1, min(MOST, LOOKED // max(1, len(text))))


def refusals(bench: Bench, text: str, first: Refused) -> Iterator[tuple[Refused, str]]:
    """Yields each refusal with the refused script, in the order in which the bench finds them; line numbers match the
    original. A refusal without a line is the last."""
    refused, lines, count, most = first, text.split("\n"), 0, most_of(text)
    while True:
        shown = "\n".join(lines)
        yield refused, shown
        count += 1
        number = refused.line or explained(shown, refused).line
        if not number or count == most:
            return
        if _is_too_many(lines, number, refused):
            lines = _after(lines, number)
        else:
            lines[number - 1] = _mended(lines, number)
        try:
            bench.call(["asm"], "\n".join(lines).encode())
        except Refused as another:
            refused = another
        else:
            return


def _words(line: str) -> list[str]:
    return line.split("#")[0].split()


def _is_instruction(line: str) -> bool:
    words = _words(line)
    return bool(words) and words[0] != "data" and not (len(words) == 1 and words[0].endswith(":"))


def _is_too_many(lines: list[str], number: int, refused: Refused) -> bool:
    """Returns whether a script is refused because this line is instruction 4,097 or later."""
    return refused.name == "TooLong" and sum(map(_is_instruction, lines[:number])) > INSTRUCTIONS


def _after(lines: list[str], number: int) -> list[str]:
    """Removes the instructions up to this line, so that the instructions after it are checked."""
    return ["" if _is_instruction(line) else line for line in lines[: number - 1]] + ["", *lines[number:]]


def _mended(lines: list[str], number: int) -> str:
    """Returns the replacement of a refused line: a line that defines the same name if no other line does; otherwise an
    empty line."""
    words = _words(lines[number - 1])
    others = (_words(line) for k, line in enumerate(lines) if k != number - 1)
    if words[:1] == ["data"] and len(words) > 1 and NAME.fullmatch(words[1]) and len(words[1]) <= 32:
        is_other = any(line[:2] == words[:2] for line in others)
        return "" if is_other else f"data {words[1]} {ZEROS}"
    label = words[0].partition(":")[0] if words and ":" in words[0] else ""
    if re.fullmatch(NAME, label) and len(label) <= 32 and not any(line[:1] == [label + ":"] for line in others):
        return label + ":"
    return ""
