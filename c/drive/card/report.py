"""The card as JSON, text and JUnit, and the comparison of two cards."""

from __future__ import annotations

import json
import xml.etree.ElementTree as ElementTree
from collections import Counter
from dataclasses import dataclass, fields
from pathlib import Path
from typing import Any

from nic82599.tools.advice import absent_at
from nic82599.tools.printable import shortened
from nic82599.tools.regs import function_register, register_at
from nic82599.tools.tables import TABLE

from .rows import FAILED, NOT_APPLICABLE, NOT_REACHED, PASSED, Budget, Refused, Row

UNSEEN = (
    "the search can't see accesses to the driver's own memory, so it judges no data races and misses bugs in their "
    "order"
)
ANY = 1000  # value of `every` if all schedules were run, with any number of preemptions
NOWHERE = "no register is at this address"
# Changes that make a card worse, for a row that passed before.
WORSE = ("fails now", "no longer reached", "no longer applicable")

# The device's possible replies to its own steps, arriving frames and link changes.
REPLIES = [
    *("rx wrote", "tx advanced", "tx sent", "int message", "qstep_rx done", "qstep_tx done", "eestep done"),
    *("arrive done", "link done", "link idle"),
    *(f"arrive dropped {why}" for why in ("link down", "off", "short", "long", "filter", "no pool", "pool off")),
    "arrive dropped full",
    *(f"rx dropped {why}" for why in ("queue off", "no slot")),
    *(f"rx fault {why}" for why in ("outside", "not lent", "type", "no buffer size")),
    *(f"tx fault {why}" for why in ("outside", "not lent", "offload", "legacy", "too long", "unknown type")),
]


@dataclass
class Card:
    """A driver's rows, and how long the search took."""

    driver: str
    rows: list[Row]
    budget: Budget
    seconds: float
    processor: float = 0  # CPU seconds of its processes
    blind: str = ""  # why accesses to the driver's own memory weren't observed

    def count(self, state: str) -> int:
        return sum(row.state == state for row in self.rows)

    def families(self) -> list[str]:
        return list(dict.fromkeys(row.family for row in self.rows))

    def of(self, family: str) -> list[Row]:
        return [row for row in self.rows if row.family == family]

    def registers(self) -> dict[str, list[int]]:
        """Returns how often the driver read and wrote each row of the register table, over all rows of the card."""
        counts: dict[str, list[int]] = {row.name: [0, 0] for row in TABLE}
        for row in self.rows:
            for access, count in row.registers.items():
                kind, address = access.split()
                place = int(address, 16)
                found = function_register(2, 0, place) if kind.startswith("vf_") else register_at(place)
                if found:
                    counts[found.row.name][kind.endswith("write")] += count
        return counts

    def strays(self) -> dict[str, dict[str, int]]:
        """Returns the registers that the driver accessed although the bench doesn't model them, each with the number of
        rows, grouped by what a driver should do about them."""
        rows = Counter(name for row in self.rows for name in set(map(stray, row.registers)) if name)
        groups: dict[str, dict[str, int]] = {}
        for (what, name), count in sorted(rows.items(), key=lambda it: (it[0][0] == NOWHERE, it[0])):
            groups.setdefault(what, {})[name] = count
        return groups

    def replies(self) -> dict[str, int]:
        counts = dict.fromkeys(REPLIES, 0)
        for row in self.rows:
            for reply, count in row.replies.items():
                counts[reply] = counts.get(reply, 0) + count
        return counts

    def write(self, path: Path) -> None:
        data = {
            "driver": self.driver,
            "seconds": round(self.seconds, 1),
            "processor": round(self.processor, 1),
            "blind": self.blind,
            "budget": vars(self.budget),
            "rows": [row.data() for row in self.rows],
        }
        path.write_text(json.dumps(data, indent=1) + "\n")


def stray(access: str) -> tuple[str, str] | None:
    """Returns the advice about a register that the bench doesn't model, and its name; None if the bench models it. The
    access is a key of Row.registers."""
    kind, address = access.split()
    place = int(address, 16)
    if kind.startswith("vf_"):
        return None if function_register(2, 0, place) else (NOWHERE, f"a virtual function's offset 0x{place:04x}")
    if register_at(place):
        return None
    found = absent_at(place)
    return (found.what, found.family) if found else (NOWHERE, f"0x{place:05x}")


def read(path: Path) -> Card:
    """Reads a card from its folder or its card.json."""
    path = path / "card.json" if path.is_dir() else path
    try:
        data: dict[str, Any] = json.loads(path.read_text())
        rows = [checked(Row(**row)) for row in data["rows"]]
        spent = float(data["seconds"]), float(data.get("processor", 0))
        return Card(str(data["driver"]), rows, Budget(**data["budget"]), *spent, str(data.get("blind", "")))
    except RecursionError:
        raise Refused(f"{path}: not a card: nested too deeply") from None
    except (OSError, ValueError, KeyError, TypeError, AttributeError) as fault:
        raise Refused(f"{path}: not a card: {shortened(str(fault), 160)}") from fault


def checked(row: Row) -> Row:
    """Returns the row if its fields have the right types, otherwise raises TypeError."""
    for part in fields(Row):
        kind = str(part.type).partition("[")[0]
        if type(getattr(row, part.name)).__name__ not in ((kind, "int") if kind == "float" else (kind,)):
            raise TypeError(f"{part.name} of a row isn't a {kind}")
    return row


def extent(row: Row) -> str:
    """Describes how many of a row's schedules were run."""
    text = f"{row.schedules:,} schedule{'' if row.schedules == 1 else 's'}"
    if row.every >= ANY:
        return f"{text}: all possible ones"
    if row.every >= 0:
        return f"{text}, including all with at most {row.every} preemption{'' if row.every == 1 else 's'}"
    return text


def line(row: Row) -> str:
    if row.state == NOT_APPLICABLE:
        return f"  -     {row.name:26} not applicable: {row.lack}"
    if row.state == FAILED:
        return f"  FAIL  {row.name:26} {row.cause}"
    if row.state == NOT_REACHED:
        return f"  ??    {row.name:26} {row.cause}"
    return f"  ok    {row.name:26} {extent(row)}"


def counts(card: Card) -> str:
    """Counts the rows by outcome, including unreached rows if there are any."""
    vacuous = f"{card.count(NOT_REACHED)} not reached, " if card.count(NOT_REACHED) else ""
    return (
        f"{card.count(PASSED)} passed, {card.count(FAILED)} failed, {vacuous}"
        f"{card.count(NOT_APPLICABLE)} not applicable"
    )


def blindness(why: str) -> str:
    """Returns the first line of a card for which accesses to the driver's own memory aren't observed."""
    return f"{UNSEEN}: {why}"


def summary(card: Card) -> str:
    return f"{card.driver}: {counts(card)}, {card.seconds:.0f} s elapsed, {card.processor:.0f} s CPU"


def unmodelled(card: Card) -> list[str]:
    """Returns a line for each advice about registers that the driver accessed but the bench doesn't model."""
    lines = []
    for what, names in card.strays().items():
        rows = ", ".join(f"{name} ({count} row{'' if count == 1 else 's'})" for name, count in names.items())
        lines.append(f"not modelled: {rows}: {what}")
    return lines


def text(card: Card) -> str:
    lines = [*([blindness(card.blind)] if card.blind else []), summary(card), ""]
    for family in card.families():
        lines += [family, *map(line, card.of(family)), ""]
    for row in card.rows:
        if row.state != FAILED:
            continue
        lines += [f"{row.name}: {row.title}", f"  rule: {row.rule} ({row.source})", f"  cause: {row.cause}"]
        lines += [f"  again: {row.again}"] if row.again else []
        lines += ["  " + one for one in row.schedule.strip().splitlines()] + [""]
    registers, replies = card.registers(), card.replies()
    touched = [name for name, (reads, writes) in registers.items() if reads or writes]
    seen = [name for name, count in replies.items() if count]
    lines += [
        f"registers in the table that the driver accessed: {len(touched)} of {len(registers)}",
        f"distinct device replies: {len(seen)} of {len(replies)}",
        "replies that never occurred: " + ", ".join(name for name, count in replies.items() if not count),
        *unmodelled(card),
    ]
    return "\n".join(lines) + "\n"


def write_junit(card: Card, path: Path) -> None:
    suite = ElementTree.Element("testsuite", name=card.driver, tests=str(len(card.rows)))
    suite.set("failures", str(card.count(FAILED)))
    suite.set("errors", str(card.count(NOT_REACHED)))
    suite.set("skipped", str(card.count(NOT_APPLICABLE)))
    suite.set("time", f"{card.seconds:.3f}")
    for row in card.rows:
        case = ElementTree.SubElement(
            suite, "testcase", classname=row.family, name=row.name, time=f"{row.seconds:.3f}"
        )
        if row.state == NOT_APPLICABLE:
            ElementTree.SubElement(case, "skipped", message=row.lack)
        elif row.state == FAILED:
            kind, _, message = row.cause.partition(": ")
            ElementTree.SubElement(case, "failure", type=kind, message=message or row.cause).text = row.schedule
        elif row.state == NOT_REACHED:
            kind, _, message = row.cause.partition(": ")
            ElementTree.SubElement(case, "error", type=kind, message=message)
        else:
            ElementTree.SubElement(case, "system-out").text = extent(row)
    ElementTree.indent(suite)
    ElementTree.ElementTree(suite).write(path, encoding="UTF-8", xml_declaration=True)


def compare(old: Card, new: Card) -> tuple[str, bool]:
    """Returns how each row changed, and whether a row that passed no longer does."""
    before = {row.name: row for row in old.rows}
    after = {row.name: row for row in new.rows}
    kinds: dict[str, list[str]] = {
        "fails now": [],
        "no longer reached": [],
        "passes now": [],
        "fails as before": [],
        "fails differently": [],
        "not reached now": [],
        "no longer applicable": [],
        "applicable now": [],
        "new": [],
        "gone": [name for name in before if name not in after],
    }
    for name, row in after.items():
        former = before.get(name)
        if former is None:
            kinds["new"].append(f"{name}: {row.state}")
        elif row.state == former.state == FAILED:
            kind = "fails as before" if row.cause == former.cause else "fails differently"
            kinds[kind].append(f"{name}: {row.cause}")
        elif row.state == NOT_REACHED and former.state == PASSED:
            kinds["no longer reached"].append(f"{name}: {row.cause}")
        elif row.state == former.state:
            continue
        elif row.state == FAILED:
            kinds["fails now"].append(f"{name}: {row.cause}")
        elif row.state == NOT_REACHED:
            kinds["not reached now"].append(f"{name}: {row.cause}")
        elif row.state == NOT_APPLICABLE:
            kinds["no longer applicable"].append(f"{name}: {row.lack}")
        elif former.state == NOT_APPLICABLE:
            kinds["applicable now"].append(f"{name}: {row.state}")
        else:
            was = "it failed with " if former.state == FAILED else "it was "
            kinds["passes now"].append(f"{name}: {was}{former.cause}")
    lines = [f"before: {summary(old)}", f"now:    {summary(new)}"]
    for kind, rows in kinds.items():
        lines += [f"{kind}:"] + [f"  {row}" for row in rows] if rows else []
    return "\n".join(lines) + "\n", any(kinds[kind] for kind in WORSE)
