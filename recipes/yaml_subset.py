"""Reads the YAML subset that recipes/ uses: mappings and lists by indentation, plain and quoted scalars, `[a, b]`, and
blocks after `|` and `>-`. Anything else is refused with its line. PyYAML returns the same values, but isn't on every
machine (recipes/check.py compares the two)."""

from __future__ import annotations

import re
from dataclasses import dataclass
from typing import Any

KEY = re.compile(r"([A-Za-z_][\w-]*):(?: +(.*))?$")


class Refused(Exception):
    """The input isn't in this YAML subset."""


@dataclass
class Reader:
    """The lines, and the index of the next one."""

    lines: list[str]
    at: int = 0

    def skip(self) -> None:
        while self.at < len(self.lines) and re.match(r" *(#|$)", self.lines[self.at]):
            self.at += 1

    def indent(self) -> int:
        """Returns the indentation of the next line that isn't blank or a comment; -1 at the end."""
        self.skip()
        if self.at == len(self.lines):
            return -1
        line = self.lines[self.at]
        return len(line) - len(line.lstrip(" "))

    def refuse(self, why: str) -> Refused:
        return Refused(f"line {self.at + 1}: {why}")

    def value(self, least: int) -> Any:
        """Returns the mapping or list that is indented by at least `least`, or None."""
        indent = self.indent()
        if indent < least:
            return None
        return self.items(indent) if self.lines[self.at].lstrip().startswith("- ") else self.mapping(indent)

    def items(self, indent: int) -> list[Any]:
        made = []
        while self.indent() == indent and self.lines[self.at].startswith("- ", indent):
            rest = self.lines[self.at][indent + 2 :]
            if KEY.match(rest) and not rest.startswith('"'):
                self.lines[self.at] = " " * (indent + 2) + rest
                made.append(self.mapping(indent + 2))
            else:
                self.at += 1
                made.append(self.scalar(rest, indent))
        return made

    def mapping(self, indent: int) -> dict[str, Any]:
        made: dict[str, Any] = {}
        while self.indent() == indent:
            found = KEY.match(self.lines[self.at][indent:])
            if not found or found[1] in made:
                raise self.refuse("expected a key and a colon, each key only once")
            self.at += 1
            made[found[1]] = self.scalar(found[2], indent) if found[2] else self.nested(indent)
        if self.indent() > indent:
            raise self.refuse("this is indented too far")
        return made

    def nested(self, indent: int) -> Any:
        """Returns the value below a key. A list may have the same indentation as its key."""
        next_one = self.indent()
        if next_one == indent and self.lines[self.at].startswith("- ", indent):
            return self.items(indent)
        return self.value(indent + 1)

    def scalar(self, text: str, indent: int) -> Any:
        text = text.strip()
        if text in ("|", ">-"):
            return self.block(indent, text)
        if found := re.fullmatch(r"\[(.*)\]", text):
            return [plain(it.strip()) for it in found[1].split(",")]
        return plain(text)

    def block(self, indent: int, kind: str) -> str:
        lines = []
        for line in self.lines[self.at :]:
            if line and not line.startswith(" " * (indent + 1)):
                break
            lines.append(line)
            self.at += 1
        while lines and not lines[-1]:
            lines.pop()
        depth = len(lines[0]) - len(lines[0].lstrip(" ")) if lines else 0
        lines = [line[depth:] for line in lines]
        return " ".join(lines) if kind == ">-" else "\n".join(lines) + "\n"


def plain(text: str) -> Any:
    """Returns a scalar's value. Raises Refused if it could be a comment or another construct."""
    if re.fullmatch(r'"[^"\\]*"', text):
        return text[1:-1]
    if text in ("true", "false"):
        return text == "true"
    if re.fullmatch(r"[0-9]+", text):
        return int(text)
    if re.search(r"^[&*!|>%@`{}\[\],'\"?]|: | #|:$", text):
        raise Refused(f"{text!r}: quotes are needed, or this isn't supported")
    return text


def read(text: str) -> Any:
    """Returns the value of a whole input. May raise Refused."""
    reader = Reader(text.splitlines())
    made = reader.value(0)
    if reader.indent() != -1:
        raise reader.refuse("this isn't supported")
    return made
