"""The registers of the controller by name, from the lists in tools/tables.py and tools/fields.py.

REGISTERS maps a name to the runs of its addresses: first index, first address, stride, count. OFFSETS maps the name of
a virtual function's register to its offset, the stride between queues (0 if the register isn't per queue) and the
maximum count. FIELDS maps a name to its fields (highest bit, lowest bit), unless its only field is the whole register.
"""

from .tools import fields
from .tools.tables import FUNCTION, POOL_SIZES, TABLE

REGISTERS: dict[str, tuple[tuple[int, int, int, int], ...]] = {
    row.name: tuple((run.first_index, run.first, run.stride, run.count) for run in row.first_runs) for row in TABLE
}

OFFSETS: dict[str, tuple[int, int, int]] = {
    place.name: (place.offset, place.stride, place.count(max(POOL_SIZES))) for place in FUNCTION
}

FIELDS: dict[str, dict[str, tuple[int, int]]] = {
    row.name: {field.name: (field.high, field.low) for field in parts}
    for row in TABLE
    if (parts := fields.parts_of(row.name))
}
