#!/usr/bin/env python3
"""Writes the reasons why nothing happens, for the C library's nic_why (c/why/reasons.inc).

    dev/reason_tables.py            rewrites the file
    dev/reason_tables.py --check    says whether it is stale, and exits with status 1 if it is

The reasons are in python/nic82599/tools/reasons.txt, which describes how to write them. reason_table.py next to it
parses them, for this script and for the tools over runs.
"""

from __future__ import annotations

import ast
import re
import sys
from collections.abc import Iterator
from pathlib import Path

sys.dont_write_bytecode = True
sys.path.append(str(Path(__file__).resolve().parents[1] / "python"))
from generated import ROOT, keep  # noqa: E402
from nic82599.tools.reason_table import PLACE, Bad, Named, Row, field_of, named, parsed, rows  # noqa: E402
from nic82599.tools.regs import bits  # noqa: E402

# The maximum width of a line of text or arguments, not counting what precedes it.
WIDE = 92
HEAD = """\
/* Why nothing happens, made from python/nic82599/tools/reasons.txt by dev/generate reasons. Each function adds a line
   if its reason applies, and returns whether it does; or it returns a number. */
#define WORD(address) nicl_why_word(it, address)
#define FIELD(address, bits) nicl_why_field(it, address, bits)
#define BIT(address, bit) (WORD(address) >> (bit) & 1)
#define U(number) ((unsigned long long)(number))
#define SAY(...) nicl_why_say(it, __VA_ARGS__)

"""
OPERATORS = {
    ast.BitAnd: "&", ast.BitOr: "|", ast.RShift: ">>", ast.LShift: "<<", ast.Add: "+", ast.Sub: "-", ast.Mult: "*",
    ast.FloorDiv: "/", ast.Mod: "%", ast.Eq: "==", ast.NotEq: "!=", ast.Lt: "<", ast.LtE: "<=", ast.Gt: ">",
    ast.GtE: ">=", ast.And: " && ", ast.Or: " || ",
}  # fmt: skip


# --- expressions ---


def written(node: ast.expr) -> str:
    """Returns an expression in C, in parentheses if it has parts."""
    if it := named(node):
        return register(it)
    match node:
        case ast.Constant(value=int()):
            return str(node.value) if node.value < 4096 else f"0x{node.value:X}"
        case ast.Name():
            return node.id
        case ast.UnaryOp(op=ast.Not()):
            return f"(!{written(node.operand)})"
        case ast.UnaryOp(op=ast.Invert()):
            return f"~{written(node.operand)}"
        case ast.BoolOp():
            return f"({OPERATORS[type(node.op)].join(map(written, node.values))})"
        case ast.BinOp():
            return f"({written(node.left)} {OPERATORS[type(node.op)]} {written(node.right)})"
        case ast.Compare(ops=[operator], comparators=[right]):
            return f"({written(node.left)} {OPERATORS[type(operator)]} {written(right)})"
        case ast.IfExp():
            return f"({written(node.test)} ? {written(node.body)} : {written(node.orelse)})"
        case ast.Call(func=ast.Name()):
            return f"nicl_why_{node.func.id}({', '.join(['it', *map(bare, node.args)])})"
    raise Bad(f"unsupported expression: {ast.unparse(node)}")


def bare(node: ast.expr) -> str:
    """Returns an expression without outer parentheses."""
    text, depth = written(node), 0
    for at, letter in enumerate(text):
        depth += (letter == "(") - (letter == ")")
        if depth == 0:
            return text[1:-1] if text.startswith("(") and at == len(text) - 1 else text
    return text


def register(it: Named) -> str:
    """Returns the expression for the named register, or for the named part of it."""
    index = f"({bare(it.index) if it.index else '0'})" if it.is_indexed else ""
    address = f"NIC_{it.register}{index}"
    if it.bit:
        return f"BIT({address}, {bare(it.bit)})"
    if not it.field:
        return f"WORD({address})"
    return f"FIELD({address}, NIC_{it.register}_{field_of(it).name.upper()})"


# --- texts ---


def shown(it: Named) -> tuple[str, list[str]]:
    """Returns a register's name as a format string, and its numbers."""
    given = [bare(it.index)] if it.index and it.is_indexed else []
    index = "[%llu]" if given else ""
    given += [bare(it.bit)] if it.bit else []
    return f"{it.register}{index}" + (f".{it.field}" if it.field else " bit %llu" if it.bit else ""), given


def place_of(place: str) -> tuple[str, list[str]]:
    """Returns a placeholder as a format string, and its arguments."""
    text, _, form = place.partition(":")
    if form == "s":
        return "%s", [text]
    node = parsed(text)
    value, it = bare(node), named(node)
    name, given = shown(it) if it else ("", [])
    arguments, blank = [f"U({one})" for one in given], " " if it else ""
    if form == "x":
        return f"{name}{blank}0x%{'08' if it else ''}llx", [*arguments, f"U({value})"]
    if form.startswith("bits"):
        names = f"nicl_why_bits(it, nicl_bits_{it.register if it else form.split()[1]}, {value})"
        return (f"{name} 0x%08llx (%s)", [*arguments, f"U({value})", names]) if it else ("%s", [names])
    if form:
        one, many = form.split("|")
        return "%llu %s", [f"U({value})", f'{value} == 1 ? "{one}" : "{many}"']
    return f"{name}{blank}%llu", [*arguments, f"U({value})"]


def lines_of(pieces: list[str]) -> list[str]:
    """Joins the parts of a message into lines of limited width."""
    lines = [""]
    for piece in pieces:
        if len(lines[-1]) + len(piece) > WIDE and lines[-1]:
            lines.append("")
        lines[-1] += piece
    return lines


def filled(given: list[str]) -> list[str]:
    """Joins arguments into lines of limited width."""
    pieces = [f"{one}, " for one in given]
    return [line.rstrip(", ") for line in lines_of(pieces)] if pieces else []


def pieces_of(text: str) -> Iterator[tuple[str, bool]]:
    """Yields a message's words with the blanks after them, and its placeholders."""
    at = 0
    for found in PLACE.finditer(text):
        yield from ((word, False) for word in re.findall(r"\S+ ?| ", text[at : found.start()]))
        yield found[1], True
        at = found.end()
    yield from ((word, False) for word in re.findall(r"\S+ ?| ", text[at:]))


def format_of(text: str) -> tuple[str, list[str]]:
    """Returns a message as a format string, on one or several lines, and its arguments."""
    pieces: list[str] = []
    given: list[str] = []
    for piece, is_place in pieces_of(text):
        piece_format, more = place_of(piece) if is_place else (piece.replace("%", "%%"), [])
        pieces.append(piece_format)
        given += more
    return "\n               ".join(f'"{line}"' for line in lines_of(pieces)), given


# --- functions ---


def head(row: Row) -> str:
    """Returns the head of the function for a row, on two lines if it is long."""
    words = "".join(f", {'const char *' if word in row.texts else 'uint64_t '}{word}" for word in row.words)
    text = f"static {'uint64_t' if row.value else 'bool'} nicl_why_{row.name}(struct nicl_why *it{words})"
    if len(text) < 118:
        return text
    at = text.rindex(", ", 0, 110)
    return f"{text[: at + 1]}\n{' ' * (text.index('(') + 1)}{text[at + 2 :]}"


def refuted(node: ast.expr) -> str:
    """Returns the negation of an expression."""
    if isinstance(node, ast.UnaryOp) and isinstance(node.op, ast.Not):
        return bare(node.operand)
    return f"!{written(node)}"


def function(row: Row) -> str:
    """Returns the function of a row."""
    if row.value:
        return f"{head(row)}\n{{\n    (void)it;\n    return {bare(parsed(row.value))};\n}}\n"
    form, given = format_of(row.statement + (f": {row.why}" if row.why else ""))
    test = f"    if ({refuted(parsed(row.condition))})\n        return false;\n" if row.condition else ""
    said = "".join(f",\n               {line}" for line in filled(given))
    return f"{head(row)}\n{{\n{test}    return SAY({form}{said});\n}}\n"


def names_of_bits(row: str) -> str:
    """Returns the names of the bits in a row of causes; some bits have none."""
    names = {bit: bits(row, 1 << bit)[0] for bit in range(32)}
    pieces = [f'[{bit}] = "{name}", ' for bit, name in names.items() if name != f"bit {bit}"]
    lines = "".join(f"    {line.rstrip()}\n" for line in lines_of(pieces))
    return f"static const char *const nicl_bits_{row}[32] = {{\n{lines}}};\n\n"


def texts() -> dict[Path, str]:
    functions = [function(row) for row in rows().values() if row.only != "tools"]
    text = HEAD + names_of_bits("EICR") + names_of_bits("PVTEICR") + "\n".join(functions)
    return {ROOT / "c/why/reasons.inc": text}


if __name__ == "__main__":
    try:
        keep(__doc__, texts)
    except Bad as fault:
        sys.exit(f"dev/reason_tables.py: reasons.txt: {fault}")
