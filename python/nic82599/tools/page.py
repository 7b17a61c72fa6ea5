"""Builds the page of a run: the data that nicview.html shows, and the page with this data in it."""

from __future__ import annotations

import json
import re
from pathlib import Path
from typing import Any

from . import regs
from .frames import descriptor, headers, summary
from .memory import Frame, Seen
from .reasons import Reason
from .regs import REGISTERS, first, queues_of_pool
from .run import Run
from .trace import Step, not_as_reset, word_of

HERE = Path(__file__).resolve().parent
ROUTES = {"IVAR", "IVAR_MISC", "PVTIVAR", "GCR_EXT"}


class Table:
    """Distinct values, each with a number."""

    def __init__(self) -> None:
        self.numbers: dict[str, int] = {}
        self.values: list[Any] = []

    def number(self, value: Any) -> int:
        key = json.dumps(value)
        if key not in self.numbers:
            self.numbers[key] = len(self.values)
            self.values.append(value)
        return self.numbers[key]


def routes(run: Run, words: dict[int, int], sides: list[tuple[str, int]]) -> list[str]:
    """Returns the cause that each side in use raises."""
    found = []
    k = queues_of_pool(word_of(words, "GCR_EXT"))
    for side, queue in sides:
        v = queue // k if k else 128
        if v < run.vfs:
            index, byte = v * k // 2 + queue % k // 2, 2 * (queue % k % 2) + (side == "tx")
            row, group, most = "PVTIVAR", f"vf {v}", 2
        else:
            index, byte, row, group, most = queue // 2, 2 * (queue % 2) + (side == "tx"), "IVAR", "pf", 15
        entry = word_of(words, row, index) >> 8 * byte & 0xFF
        if entry:
            state = (
                "" if entry & 0x80 and entry & 63 <= most else ", not valid" if not entry & 0x80 else ", no such cause"
            )
            found.append(
                f"{side} {queue} raises cause {entry & 63} of {group} ({row}[{index}] INT_Alloc[{byte}]{state})"
            )
    return found


def vectors(words: dict[int, int]) -> list[int | None]:
    """Returns the physical function's vectors for causes 16 to 29 and for cause 30; None for those to which IVAR_MISC
    assigns no vector."""
    misc = word_of(words, "IVAR_MISC")
    others, timer = misc >> 8 & 63, misc & 63
    return [others if misc & 0x8000 and others < 16 else None, timer if misc & 0x80 and timer < 16 else None]


def sides_of(seen: Seen) -> list[dict[str, Any]]:
    """Returns the sides in use, with the addresses of their registers."""
    shown = []
    for side, queue in seen.sides:
        letter = side[0].upper()
        names = {"low": "DBAL", "high": "DBAH", "length": "DLEN", "head": "DH", "tail": "DT", "control": "XDCTL"}
        addresses = {key: first(letter + name, queue) for key, name in names.items()}
        back = {"back": first("TDWBAL", queue), "back_high": first("TDWBAH", queue)} if side == "tx" else {}
        shown.append({"side": side, "queue": queue, **addresses, **back})
    return shown


def groups_of(run: Run) -> list[dict[str, Any]]:
    """Returns the interrupt groups in use, with the addresses of their registers and the names of their bits."""
    groups: list[dict[str, Any]] = [
        {"name": "pf", **{key: first(name) for key, name in _GROUP.items()}, "bits": _bit_names("EICR")}
    ]
    for v in range(run.vfs):
        addresses = {key: first("PVT" + name, v) for key, name in _GROUP.items()}
        groups.append({"name": f"vf {v}", **addresses, "bits": _bit_names("PVTEICR")})
    used = {address for step in run.steps for address, _, _ in step.changes} | not_as_reset(run.start)
    return [group for group in groups if used & {group[key] for key in _GROUP}]


_GROUP = {"cause": "EICR", "mask": "EIMS", "clear": "EIAC", "auto": "EIAM"}


def _bit_names(row: str) -> list[str]:
    return [regs.bits(row, 1 << bit)[0] for bit in range(32)]


def _frames(frames: list[Frame], packets: Table) -> list[list[Any]]:
    """Returns each frame as its step, queue, slots, packet number, and RSS type and hash."""
    shown = []
    for frame in frames:
        packet = None
        if frame.data is not None:
            layers = [[header.name, header.fields] for header in headers(frame.data)]
            packet = packets.number([summary(frame.data), layers, frame.data[:256].hex(), len(frame.data)])
        shown.append([frame.step, frame.queue, frame.slots, packet, frame.rss])
    return shown


def _descriptors(run: Run) -> dict[str, list[Any]]:
    """Returns the decoded descriptors, by side and contents."""
    kinds = {side for side, _ in run.seen.sides}
    found: dict[str, list[Any]] = {}
    for step in run.steps:
        for _, content in step.memory:
            if content is None:
                continue
            for key, side in ((side + content.hex(), side) for side in kinds):
                if key not in found:
                    one = descriptor(side, content)
                    found[key] = [one.form, int(one.done), one.fields]
    return found


class Data:
    """Builds the data of a page, step by step."""

    def __init__(self, run: Run) -> None:
        self.run = run
        self.texts, self.packets = Table(), Table()
        self.fields: dict[str, list[tuple[str, str]]] = {}
        self.words = dict(run.start)

    def _tell(self, address: int, word: int) -> None:
        """Notes the fields of a register's value, once per value."""
        row = REGISTERS[address].row
        self.fields.setdefault(f"{row.name}:{word}", regs.named_fields(row, word))

    def _step(self, step: Step, reasons: list[Reason]) -> list[Any]:
        """Returns a step as its pc, reply number, acc, changes, and a dict of what only some steps have: `k` kind, `m`
        memory (a third item of 1 means that the step wrote it), `l` lent blocks, `w` waiting frames, `o` sent frames,
        `g` the index of its ring, `y` reasons, `r` routes of causes, `s` how the run ended."""
        run = self.run
        for address, _, new in step.changes:
            self._tell(address, new)
            self.words[address] = new
        more: dict[str, Any] = {}
        memory = [[unit, None if content is None else content.hex()] for unit, content in step.memory]
        more["k"], more["l"], more["w"], more["o"] = step.kind, step.lent, step.waiting, step.out
        more["m"] = [one + [1] * (one[0] in step.written) for one in memory]
        more["y"] = [[int(reason.held), self.texts.number(reason.text)] for reason in reasons]
        if step.ring is not None:
            more["g"] = run.seen.sides.index(step.ring)
        if ROUTES & {REGISTERS[address].row.name for address, _, _ in step.changes}:
            more["r"] = self._routes()
        if step.status != "running":
            more["s"] = step.status
        more = {key: value for key, value in more.items() if value not in ("", [])}
        return [step.pc, self.texts.number(step.reply), step.acc, [[a, new] for a, _, new in step.changes], more]

    def _routes(self) -> list[Any]:
        """Returns the cause that each side raises, and the vectors, according to the current registers."""
        found = routes(self.run, self.words, self.run.seen.sides)
        return [[self.texts.number(text) for text in found], vectors(self.words)]

    def whole(self) -> dict[str, Any]:
        """Returns all data of the page."""
        run = self.run
        first_routes = self._routes()
        for address, word in run.start.items():
            self._tell(address, word)
        steps = [self._step(step, reasons) for step, reasons in zip(run.steps, run.reasons)]
        return {
            "name": run.name,
            "options": run.options,
            "lines": run.lines,
            "line_of": run.line_of,
            "before": run.before,
            "shown": [run.shown(pc) for pc in range(len(run.line_of))],
            "steps": steps,
            "opening": run.opening,
            "start": list(run.start.items()),
            "routes": first_routes,
            "registers": {address: [regs.name_at(address), REGISTERS[address].row.name] for address in run.start},
            "meanings": {REGISTERS[address].row.name: REGISTERS[address].row.meaning for address in run.start},
            "fields": self.fields,
            "texts": self.texts.values,
            "sides": sides_of(run.seen),
            "groups": groups_of(run),
            "arrived": _frames(run.seen.arrived, self.packets),
            "sent": _frames(run.seen.sent, self.packets),
            "packets": self.packets.values,
            "descriptors": _descriptors(run),
            "fifo": run.fifo,
            "last": run.last,
            "finding": vars(run.finding) if run.finding else None,
            "comments": [run.comment(pc) for pc in range(len(run.line_of))],
            "offsets": {pc: name for pc in range(len(run.line_of)) if (name := run.offset(pc))},
            "vfs": run.vfs,
            "failed": " ".join(map(str, run.failed_ring or ())),
            "notes": run.notes,
            "warnings": run.warnings,
        }


SCRIPTS = ("nicview_rings.js", "nicview.js")


def code_of(scripts: tuple[str, ...] = SCRIPTS) -> str:
    """Returns the page's code."""
    return "".join((HERE / name).read_text() for name in scripts)


def page(data: dict[str, Any], foot: str = "", code: str = "") -> str:
    """Returns the page with this data and a line at its foot; `code` replaces the usual code."""
    text = json.dumps(data, separators=(",", ":")).replace("<", "\\u003c")
    title = str(data["name"]).replace("&", "&amp;").replace("<", "&lt;")
    template = (HERE / "nicview.html").read_text()
    code = code or code_of()
    parts: dict[str, str] = {"{{TITLE}}": title, "{{FOOT}}": foot, "{{CODE}}": code, "{{DATA}}": text}
    return re.sub("|".join(map(re.escape, parts)), lambda mark: parts[mark[0]], template)
