"""Explains why the bench refuses a line of a script: the wrong word, what was expected, and similar names.

The bench decides whether a script is refused, for which fault, and at which line; this module only explains the
decision. docs/script.md describes the forms.
"""

from __future__ import annotations

import re
from collections.abc import Callable
from dataclasses import dataclass

from .printable import shortened
from .regs import MOST_COMPARED, ROWS, near
from .script import Refused

FORMS = {
    "w": "TARGET VALUE",
    "r": "TARGET",
    "vw": "FUNCTION OFFSET VALUE",
    "vr": "FUNCTION OFFSET",
    "lend": "BLOCK",
    "unlend": "BLOCK",
    "poke": "ADDRESS DATA",
    "peek": "ADDRESS WORD",
    "arrive": "DATA",
    "rx": "",
    "tx": "QUEUE",
    "int": "pf|FUNCTION",
    "qstep": "rx|tx QUEUE",
    "eestep": "",
    "link": "up|down",
    "collect": "",
    "expect": "VALUE [MASK]",
    "and": "VALUE",
    "jeq": "VALUE LABEL",
    "jne": "VALUE LABEL",
    "jmp": "LABEL",
    "halt": "",
    "data": "NAME HEX",
}
# The maximum of each kind of number.
MOST = {
    "TARGET": 2**32 - 1,
    "VALUE": 2**32 - 1,
    "MASK": 2**32 - 1,
    "OFFSET": 2**32 - 1,
    "ADDRESS": 2**32 - 1,
    "FUNCTION": 62,
    "BLOCK": 65_535,
    "QUEUE": 65_535,
    "WORD": 3,
}
MOST_DIGITS, TOO_LARGE = 20, 1 << 128
# The maximum length of an explanation, in characters.
MOST_DESCRIPTION = 300
NUMBER = re.compile(r"0x[0-9a-fA-F]+|[0-9]+")
NAME = re.compile(r"[A-Za-z_][A-Za-z0-9_]*")
TARGET = re.compile(r"([A-Za-z_][A-Za-z0-9_]*)(?:\[([^\]]*)\])?")


@dataclass(frozen=True)
class Place:
    """An error in a line: the message and the range of characters. The line number is 0 if the error isn't in a
    line."""

    line: int
    column: int
    length: int
    text: str
    near: list[str]


def number_of(word: str) -> int | None:
    """Parses a number in a script's notation. Returns TOO_LARGE if it has too many digits, None if it isn't a
    number."""
    if not NUMBER.fullmatch(word):
        return None
    digits = word.removeprefix("0x").lstrip("0") or "0"
    return int(digits, 16 if word.startswith("0x") else 10) if len(digits) <= MOST_DIGITS else TOO_LARGE


def words_of(line: str) -> list[tuple[int, str]]:
    """Returns the words of a line with their columns."""
    return [(found.start(), found.group()) for found in re.finditer(r"[^ \t\r]+", line.split("#")[0])]


class Looker:
    """Examines the refused line."""

    def __init__(self, text: str, refused: Refused) -> None:
        self.lines, self.refused = text.split("\n"), refused
        at = refused.line - 1
        self.line = self.lines[at] if 0 <= at < len(self.lines) else ""
        self.words = words_of(self.line)

    def place(self) -> Place:
        """Returns the wrong word, and why it is wrong."""
        name = self.refused.name
        if name == "TooLong":
            return self._too_long()
        if name == "Input":
            return Place(0, 0, 0, "the input isn't UTF-8 text", [])
        finders: dict[str, Callable[[], Place | None]] = {
            "Syntax": self._syntax,
            "UnknownName": self._unknown_name,
            "UnknownLabel": self._unknown_label,
        }
        finders |= {"TwoLabels": self._twice, "Range": self._range}
        found = finders[name]() if self.words and name in finders else None
        return found or self._at(0, f"the bench refuses this line: {name}")

    def _at(self, word: int, text: str, close: list[str] | None = None) -> Place:
        column, shown = self.words[word] if word < len(self.words) else (len(self.line.split("#")[0].rstrip()), " ")
        return Place(self.refused.line, column, len(shown), shortened(text, MOST_DESCRIPTION), close or [])

    def _kinds(self) -> list[str]:
        """Returns the kinds of the words after the operation."""
        return [kind.strip("[]") for kind in FORMS.get(self.words[0][1], "").split()]

    def _syntax(self) -> Place:
        first, rest = self.words[0][1], self.words[1:]
        if first not in FORMS:
            if first.endswith(":"):
                what = (
                    "a label must be alone on its line"
                    if NAME.fullmatch(first[:-1])
                    else "a label is a name (letters, digits and _) and a colon"
                )
                return self._at(1 if rest and NAME.fullmatch(first[:-1]) else 0, what)
            return self._at(0, f"no operation {first}", near_words(first))
        form, kinds = f"{first} {FORMS[first]}".strip(), self._kinds()
        fewest = len([kind for kind in FORMS[first].split() if not kind.startswith("[")])
        needs = f"{first} needs {FORMS[first]}" if FORMS[first] else f"{first} takes no arguments"
        if len(rest) < fewest:
            return self._at(len(rest) + 1, f"{needs}; {kinds[len(rest)]} is missing")
        if len(rest) > len(kinds):
            return self._at(len(kinds) + 1, f"{needs}; this word is extra")
        for n, (kind, (_, word)) in enumerate(zip(kinds, rest), 1):
            if (wrong := self._wrong(kind, word)) is not None:
                return self._at(n, f"{wrong}; the form is {form}")
        return self._at(0, needs)

    def _wrong(self, kind: str, word: str) -> str | None:
        """Returns what is wrong with the format of a word of this kind, or None."""
        choices = kind.split("|")
        if len(choices) > 1:
            is_number = choices[-1] in MOST and number_of(word) is not None
            return None if word in choices or is_number else f"expected {' or '.join(choices)}, not {word}"
        if kind == "TARGET":
            found = TARGET.fullmatch(word)
            if number_of(word) is not None or found and (found[2] is None or number_of(found[2]) is not None):
                return None
            return f"expected a register such as RDT[3] or an address, not {word}"
        if kind in ("DATA", "LABEL", "NAME"):
            return None if NAME.fullmatch(word) else f"expected a name, not {word}"
        if kind == "HEX":
            if not re.fullmatch(r"[0-9a-fA-F]*", word):
                odd = next(letter for letter in word if letter not in "0123456789abcdefABCDEF")
                return f"expected hex digits without 0x, not {odd}"
            return f"expected two digits per byte, but the number of digits is {len(word)}" if len(word) % 2 else None
        return None if number_of(word) is not None else f"expected a number, decimal or 0x and hex digits, not {word}"

    def _unknown_name(self) -> Place:
        found = TARGET.fullmatch(self.words[1][1]) if len(self.words) > 1 else None
        if found is None:
            return self._at(0, "no such register")
        close = near(found[1], list(ROWS))
        data, labels = self._names()
        named = " (it is the name of a data string)"
        more = named if found[1] in data else " (it is a label)" if found[1] in labels else ""
        return self._at(1, f"no register {found[1]}{more}", close)

    def _names(self) -> tuple[dict[str, int], dict[str, int]]:
        """Returns the names of data and of labels, with the lines that define them."""
        data: dict[str, int] = {}
        labels: dict[str, int] = {}
        for number, line in enumerate(self.lines, 1):
            words = [word for _, word in words_of(line)] if "data" in line or ":" in line else []
            if len(words) == 3 and words[0] == "data":
                data.setdefault(words[1], number)
            elif len(words) == 1 and words[0].endswith(":"):
                labels.setdefault(words[0][:-1], number)
        return data, labels

    def _unknown_label(self) -> Place:
        data, labels = self._names()
        for n, kind in enumerate(self._kinds(), 1):
            if kind in ("DATA", "LABEL"):
                names, what = (data, "data") if kind == "DATA" else (labels, "label")
                word = self.words[n][1]
                other = (
                    " (a label has this name)"
                    if word in labels
                    else " (a data string has this name)"
                    if word in data
                    else ""
                )
                return self._at(n, f"no {what} {word}{other}", near(word, list(names)) or list(names)[:6])
        return self._at(0, "no such label")

    def _twice(self) -> Place:
        data, labels = self._names()
        is_data = self.words[0][1] == "data"
        name = self.words[1][1] if is_data else self.words[0][1].rstrip(":")
        before = (data if is_data else labels).get(name, 0)
        return self._at(1 if is_data else 0, f"{name} is already defined at line {before}")

    def _range(self) -> Place | None:
        if self.words[0][1] == "poke":
            for number, line in enumerate(self.lines, 1):
                words = [word for _, word in words_of(line)]
                if words[:2] == ["data", self.words[2][1]] and len(words) == 3 and len(words[2]) != 32:
                    return self._at(
                        2, f"poke writes 16 bytes, but {words[1]} at line {number} is {len(words[2]) // 2} bytes long"
                    )
        if self.words[0][1] == "data":
            return self._at(2, "data must be 1 to 16384 bytes long")
        for n, (kind, (_, word)) in enumerate(zip(self._kinds(), self.words[1:]), 1):
            kind = kind.split("|")[-1]
            found = TARGET.fullmatch(word)
            if kind == "TARGET" and found and found[1] in ROWS and found[2] is not None:
                count = ROWS[found[1]].count
                if (number_of(found[2]) or 0) >= count:
                    return self._at(
                        n, f"{found[1]} has {count} register{'s' if count > 1 else ''}, from [0] to [{count - 1}]"
                    )
            value = number_of(word)
            if value is not None and value > MOST.get(kind, value):
                return self._at(n, f"{kind} is at most {MOST[kind]}, not {shortened(word)}")
        return None

    def _too_long(self) -> Place:
        data, _ = self._names()
        count = 0
        for number, line in enumerate(self.lines, 1):
            words = [word for _, word in words_of(line)]
            is_label = len(words) == 1 and words[0].endswith(":")
            name = words[0][:-1] if is_label else words[1] if words[:1] == ["data"] and len(words) > 1 else ""
            if len(name) > 32:
                why = f"the name {name[:12]}.. is {len(name)} characters long; the limit is 32"
                return Place(number, 0, len(line), why, [])
            if words[:1] == ["data"] and len(words) == 3 and len(words[2]) > 2 * 16_384:
                return Place(number, 0, 4, f"data {name} is {len(words[2]) // 2} bytes long; the limit is 16384", [])
            count += bool(words) and not is_label and words[0] != "data"
            if count > 4_096:
                return Place(
                    number, 0, len(line), "more than 4096 instructions: shorten the script, or use a loop", []
                )
        return Place(0, 0, 0, f"the script has {len(data)} data strings; the limit is 1024", [])


def near_words(word: str) -> list[str]:
    """Returns operations similar to a word."""
    from difflib import get_close_matches

    word = word[:MOST_COMPARED]
    others = {
        "write": "w",
        "read": "r",
        "jump": "jmp",
        "recv": "rx",
        "send": "tx",
        "receive": "rx",
        "transmit": "tx",
        "irq": "int",
    }
    return ([others[word.lower()]] if word.lower() in others else []) + get_close_matches(
        word.lower(), list(FORMS), 4, 0.5
    )


def explained(text: str, refused: Refused) -> Place:
    """Returns what is wrong with a script that the bench refuses."""
    return Looker(text, refused).place()
