"""Registers by name, by address and by a virtual function's offset, and the fields of their values."""

from __future__ import annotations

from dataclasses import dataclass
from itertools import islice

from .fields import FIELDS, OPEN
from .tables import FUNCTION, POOL_SIZES, TABLE, Row

ENABLE = 1 << 25
# The maximum number of a word's characters that are compared with names, and the maximum number of names.
MOST_COMPARED, MOST_NAMES = 64, 2_000


@dataclass(frozen=True)
class Register:
    """A register: a row of the table and an index. `address` is its first address."""

    row: Row
    index: int
    address: int

    @property
    def name(self) -> str:
        return self.row.name if self.row.count == 1 else f"{self.row.name}[{self.index}]"

ROWS: dict[str, Row] = {row.name: row for row in TABLE}
_FIRST: dict[tuple[str, int], int] = {}
_AT: dict[int, tuple[str, int, bool]] = {}
for _row in TABLE:
    for _run in _row.runs:
        for _k in range(_run.count):
            _FIRST.setdefault((_row.name, _run.first_index + _k), _run.first + _run.stride * _k)
            _AT[_run.first + _run.stride * _k] = (_row.name, _run.first_index + _k, _run.low)

REGISTERS: dict[int, Register] = {
    address: Register(ROWS[name], index, address) for (name, index), address in _FIRST.items()
}


def first(name: str, index: int = 0) -> int:
    """Returns the first address of a register. Raises KeyError if there is none."""
    return _FIRST[name, index]


def register_at(address: int) -> Register | None:
    """Returns the register at any of its addresses, or None."""
    found = _AT.get(address)
    return REGISTERS[_FIRST[found[0], found[1]]] if found else None


def name_at(address: int) -> str:
    """Returns a register's name from its first address."""
    return REGISTERS[address].name


def reserved(row: Row, word: int) -> int:
    """Returns the bits of a written value that are 1 but belong to no field of the datasheet."""
    fields = FIELDS.get(row.name, [])
    if row.name in OPEN or not fields:
        return 0
    known = 0
    for field in fields:
        known |= field.mask
    return word & ~known & 0xFFFF_FFFF


def named_fields(row: Row, word: int, everything: bool = False) -> list[tuple[str, str]]:
    """Returns the fields of a value. Fields that are 0 are included only with `everything`."""
    fields = FIELDS.get(row.name, [])
    shown = [(field.name, field.shown(word)) for field in fields if everything or field.of(word)]
    rest = reserved(row, word)
    return shown + ([("reserved", f"0x{rest:08x}")] if rest else [])


def fields_text(row: Row, word: int, everything: bool = False) -> str:
    """Returns the fields of a value in one line."""
    return ", ".join(f"{name} {value}" for name, value in named_fields(row, word, everything))


def bits(row: str, word: int) -> list[str]:
    """Returns the names of the bits set in a cause register's value, lowest first."""
    names = []
    for bit in range(32):
        if word >> bit & 1:
            fields = [field for field in FIELDS[row] if field.low <= bit <= field.high]
            name = fields[0].name if fields else f"bit {bit}"
            names.append(f"{name}[{bit}]" if fields and fields[0].form == "bits" else name)
    return names


def queues_of_pool(gcr_ext: int) -> int:
    """Returns the number of queues per pool for a value of GCR_EXT; 0 if there are no pools."""
    return {1: 8, 2: 4, 3: 2}.get(gcr_ext & 3, 0)


# The names that VF drivers use for their registers, by offset.
OFFSETS: dict[int, str] = {
    place.offset + place.stride * x: f"{place.name}[{x}]" if place.stride else place.name
    for place in FUNCTION
    for x in range(place.count(max(POOL_SIZES)))
}

# For pools of k queues: offset -> row, and how its index depends on v: index = scale * v + rest.
_FUNCTION_MAP = {
    k: {
        place.offset + place.stride * x: (place.row, place.scale(k), x)
        for place in FUNCTION
        for x in range(place.count(k))
    }
    for k in POOL_SIZES
}


def function_register(k: int, v: int, offset: int) -> Register | None:
    """Returns the register at an offset of virtual function v, for pools of k queues."""
    found = _FUNCTION_MAP.get(k, {}).get(offset)
    if found is None:
        return None
    name, scale, rest = found
    return REGISTERS.get(_FIRST.get((name, scale * v + rest), -1))


def function_offsets(k: int, v: int) -> list[tuple[int, Register]]:
    """Returns the offsets of virtual function v with their registers."""
    named = [(offset, function_register(k, v, offset)) for offset in sorted(_FUNCTION_MAP.get(k, {}))]
    return [(offset, register) for offset, register in named if register is not None]


def near(word: str, names: list[str], count: int = 4) -> list[str]:
    """Returns names similar to a word: they differ in few letters, or one contains the other."""
    from difflib import get_close_matches

    upper = word[:MOST_COMPARED].upper()
    names = list(islice((name for name in names if len(name) <= MOST_COMPARED), MOST_NAMES))
    close = get_close_matches(upper, names, count, 0.6)
    more = [name for name in names if len(upper) > 2 and (upper in name or name in upper and len(name) > 2)]
    return list(dict.fromkeys(close + more))[:count]
