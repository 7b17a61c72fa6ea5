"""Escapes text for a terminal: characters that would act on the terminal or change the reading order."""

from __future__ import annotations

import re
from typing import IO

# Control characters except tab and newline, and Unicode's line separators and direction controls.
_ACTS = re.compile("[\x00-\x08\x0b-\x1f\x7f-\x9f\u061c\u200e\u200f\u2028-\u202e\u2066-\u2069\ud800-\udfff]")
# The maximum number of a word's characters to show.
MOST_SHOWN = 60


def _written(found: re.Match[str]) -> str:
    number = ord(found[0])
    return f"\\x{number:02x}" if number < 0x100 else f"\\u{number:04x}"


def printable(text: str) -> str:
    """Escapes the characters that would act on a terminal.

    >>> printable("a tab\\t, a colour \\x1b[31m, and \\u202eback")
    'a tab\\t, a colour \\\\x1b[31m, and \\\\u202eback'
    """
    return _ACTS.sub(_written, text)


def shortened(text: str, most: int = MOST_SHOWN) -> str:
    """Shortens a string for a one-line message.

    >>> shortened("9" * 5000, 10)
    '9999999999.. (5,000 characters)'
    """
    return text if len(text) <= most else f"{text[:most]}.. ({len(text):,} characters)"


class Printable:
    """An output stream that escapes text, because the text may come from a file."""

    def __init__(self, stream: IO[str]) -> None:
        self._stream = stream

    def write(self, text: str) -> int:
        self._stream.write(printable(text))
        return len(text)

    def __getattr__(self, name: str) -> object:
        return getattr(self._stream, name)
