"""The rows of reasons.txt, evaluated on register values: why nothing happens. The head of that file describes the
format.

`dev/generate reasons` translates them to functions of the C library.
"""

from __future__ import annotations

import ast
import operator
import re
from collections.abc import Callable, Iterator
from dataclasses import dataclass
from functools import cache
from pathlib import Path

from .fields import FIELDS, Field
from .regs import ROWS, bits
from .trace import word_of

Words = dict[int, int]

SOURCE = Path(__file__).with_name("reasons.txt")
TITLE = re.compile(r"(?P<name>[\w<|>]+)(?:\((?P<words>[\w, ]*)\))?(?: = (?P<value>.*))?")
EITHER = re.compile(r"<([^<>|]*)\|([^<>|]*)>")
PLACE = re.compile(r"\{([^{}]*)\}")


class Bad(Exception):
    """The table is malformed."""


@dataclass(frozen=True)
class Reason:
    """A condition for the reply, and whether it held before the step."""

    held: bool
    text: str


@dataclass
class Row:
    """A reason, or a number if `value` isn't empty. `only` is the section that contains it."""

    name: str
    words: list[str]
    only: str
    statement: str = ""
    condition: str = ""
    why: str = ""
    otherwise: str = ""
    value: str = ""

    @property
    def texts(self) -> set[str]:
        """The names of the string parameters."""
        parts = (self.statement, self.why, self.otherwise)
        return {place[:-2] for part in parts for place in PLACE.findall(part) if place.endswith(":s")}


# --- the table ---


def blocks(text: str) -> Iterator[tuple[str, list[str]]]:
    """Yields each row's lines with their section."""
    section = ""
    for block in re.split(r"\n\s*\n", text):
        lines = [line for line in block.splitlines() if line.strip() and not line.startswith("#")]
        if lines and re.fullmatch(r"\[\w+\]", lines[0]):
            section = lines.pop(0)[1:-1]
        if lines:
            yield section, lines


def one_of(line: str, which: int) -> str:
    """Returns a line with the first or second alternative of each pair."""
    return EITHER.sub(lambda found: found[1 + which], line)


def read(section: str, lines: list[str]) -> Row:
    """Parses a row."""
    title = TITLE.fullmatch(lines[0])
    if not title:
        raise Bad(f"no title: {lines[0]}")
    row = Row(title["name"], [it.strip() for it in (title["words"] or "").split(",") if it.strip()], section)
    row.value = title["value"] or ""
    for line in map(str.strip, lines[1:]):
        if line.startswith("if "):
            row.condition, _, row.why = (it.strip() for it in line[3:].partition(":"))
        elif line.startswith("else: "):
            row.otherwise = line.removeprefix("else: ")
        elif not row.statement and not row.value:
            row.statement = line
        else:
            raise Bad(f"{row.name}: unknown line: {line}")
    return row


@cache
def rows() -> dict[str, Row]:
    """Returns all rows of the table by name."""
    found: dict[str, Row] = {}
    for section, lines in blocks(SOURCE.read_text(encoding="utf-8")):
        is_pair = EITHER.search(lines[0]) is not None
        for which in (0, 1)[: 1 + is_pair]:
            row = read(section, [one_of(line, which) if is_pair else line for line in lines])
            if found.setdefault(row.name, row) is not row:
                raise Bad(f"duplicate row: {row.name}")
    return found


# --- expressions ---


@dataclass(frozen=True)
class Named:
    """A register, one of its fields, or one of its bits, as an expression names it."""

    register: str
    index: ast.expr | None
    field: str = ""
    bit: ast.expr | None = None

    @property
    def is_indexed(self) -> bool:
        return ROWS[self.register].count > 1


def named(node: ast.expr) -> Named | None:
    """Returns the register, field or bit if the expression is exactly one of these."""
    if isinstance(node, ast.Name) and node.id in ROWS:
        return Named(node.id, None)
    if isinstance(node, ast.Subscript) and isinstance(node.value, ast.Name):
        return Named(node.value.id, node.slice)
    if isinstance(node, ast.Attribute) and (of := named(node.value)):
        return Named(of.register, of.index, node.attr)
    if isinstance(node, ast.Call) and isinstance(node.func, ast.Name) and node.func.id == "bit":
        of = named(node.args[0])
        return Named(of.register, of.index, "", node.args[1]) if of else None
    return None


def field_of(it: Named) -> Field:
    """Returns the named field."""
    for one in FIELDS[it.register]:
        if one.name == it.field:
            return one
    raise Bad(f"{it.register} has no field {it.field}")


@cache
def parsed(text: str) -> ast.expr:
    """Parses an expression of the table. Raises Bad."""
    try:
        return ast.parse(text, mode="eval").body
    except SyntaxError as fault:
        raise Bad(f"{text}: {fault.msg}") from None


OPERATORS: dict[type, Callable[[int, int], int]] = {
    ast.BitAnd: operator.and_, ast.BitOr: operator.or_, ast.RShift: operator.rshift, ast.LShift: operator.lshift,
    ast.Add: operator.add, ast.Sub: operator.sub, ast.Mult: operator.mul, ast.Mod: operator.mod,
    ast.FloorDiv: operator.floordiv, ast.Eq: operator.eq, ast.NotEq: operator.ne, ast.Lt: operator.lt,
    ast.LtE: operator.le, ast.Gt: operator.gt, ast.GtE: operator.ge,
}  # fmt: skip


@dataclass(frozen=True)
class Asked:
    """Evaluates a row's expressions and strings with register values and arguments for the row's parameters."""

    words: Words
    given: dict[str, int | str]

    def number(self, node: ast.expr) -> int:
        """Returns the value of an expression."""
        if it := named(node):
            return self.register(it)
        match node:
            case ast.Constant(value=int() as value):
                return value
            case ast.Name():
                return int(self.given[node.id])
            case ast.UnaryOp(op=ast.Not()):
                return not self.number(node.operand)
            case ast.UnaryOp(op=ast.Invert()):
                return ~self.number(node.operand)
            case ast.BoolOp(op=ast.And()):
                return all(map(self.number, node.values))
            case ast.BoolOp():
                return any(map(self.number, node.values))
            case ast.BinOp():
                return OPERATORS[type(node.op)](self.number(node.left), self.number(node.right))
            case ast.Compare(ops=[how], comparators=[right]):
                return OPERATORS[type(how)](self.number(node.left), self.number(right))
            case ast.IfExp():
                return self.number(node.body if self.number(node.test) else node.orelse)
            case ast.Call(func=ast.Name(id=name)):
                return number(name, self.words, *map(self.number, node.args))
        raise Bad(f"unknown expression: {ast.unparse(node)}")

    def register(self, it: Named) -> int:
        """Returns the value of a register, field or bit."""
        word = word_of(self.words, it.register, self.number(it.index) if it.index else 0)
        if it.bit:
            return word >> self.number(it.bit) & 1
        return field_of(it).of(word) if it.field else word

    def shown(self, it: Named) -> str:
        """Returns the name of a register, field or bit, with its index."""
        index = f"[{self.number(it.index)}]" if it.index and it.is_indexed else ""
        more = f".{it.field}" if it.field else f" bit {self.number(it.bit)}" if it.bit else ""
        return f"{it.register}{index}{more}"

    def place(self, place: str) -> str:
        """Returns the string that replaces a placeholder."""
        text, _, form = place.partition(":")
        if form == "s":
            return str(self.given[text])
        node = parsed(text)
        value, it = self.number(node), named(node)
        shown = in_form(value, form, it)
        return f"{self.shown(it)} {shown}" if it else shown

    def text(self, text: str) -> str:
        """Returns a string with its placeholders replaced."""
        return PLACE.sub(lambda found: self.place(found[1]), text)


def in_form(value: int, form: str, it: Named | None) -> str:
    """Formats a number as the placeholder specifies; `it` is set if the number is a register's value."""
    if form == "x":
        return f"0x{value:08x}" if it else f"0x{value:x}"
    if form.startswith("0"):
        return f"0x{value:{form}}"
    if form.startswith("bits"):
        names = ", ".join(bits(it.register if it else form.split()[1], value))
        return f"0x{value:08x} ({names})" if it else names
    if form.startswith("or "):
        return str(value or form[3:])
    if form:
        one, many = form.split("|")
        return f"{value} {one if value == 1 else many}"
    return str(value)


# --- evaluation ---


def asked(row: Row, words: Words, given: tuple[int | str, ...]) -> Asked:
    """Binds a row to its arguments. Raises TypeError if their number is wrong."""
    if len(row.words) != len(given):
        raise TypeError(f"{row.name} takes {len(row.words)} parameters, not {len(given)}")
    return Asked(words, dict(zip(row.words, given)))


def number(name: str, words: Words, *given: int) -> int:
    """Returns the value of a row that defines a number."""
    row = rows()[name]
    return asked(row, words, given).number(parsed(row.value))


def reason(name: str, words: Words, *given: int | str) -> Reason:
    """Evaluates a row's reason: whether it holds, and its text."""
    row = rows()[name]
    it = asked(row, words, given)
    held = bool(it.number(parsed(row.condition))) if row.condition else True
    statement, more = row.statement, row.why if held else row.otherwise
    return Reason(held, it.text(f"{statement}: {more}" if more else statement))
