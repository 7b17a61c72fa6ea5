#!/usr/bin/env python3
"""Writes the register table to every file that contains the table, from the list in python/nic82599/tools/tables.py.

    dev/register_table.py            rewrites the files
    dev/register_table.py --check    names the stale files, and exits with status 1 if there are any

Each register is one line of TABLE. Run the script after you change that list. It writes the table of docs/REGISTERS.md,
and whole files of crates/reg_table and crates/register_file; the first line of each says that it is generated.
"""

from __future__ import annotations

import sys
import textwrap
from collections.abc import Iterable
from pathlib import Path
from typing import Any

sys.dont_write_bytecode = True
sys.path.append(str(Path(__file__).resolve().parents[1] / "python"))
from generated import ROOT, keep, replaced, text_of  # noqa: E402
from nic82599.tools.tables import TABLE, Row, Run  # noqa: E402

# A run with its row.
Member = tuple[Row, Run]
# A stride, and a range of remainders modulo that stride; the end is excluded.
Rest = tuple[int, int, int] | None

# The names of the banks on the page about registers.
BANKS = {
    "Device": "device",
    "Counters": "counters",
    "Receive": "receive side",
    "Transmit": "transmit side",
    "Interrupts": "interrupts",
    "VfInterrupts": "interrupts of a function",
    "Pool": "pool",
    "VfCounters": "counters of a function",
    "Vectors": "vectors of queues",
    "Messages": "mailbox memory",
}

# The rows that register_file stores outside its cells, with the expression for their words in `a`, the registers. These
# are interrupt groups, sides of queues, the hash key and its table, and rows that a pool reset or a full reset sets in
# a special way. The expression is None for a row that stores no word.
FIELDS: dict[str, str | None] = {
    "STATUS": None,
    "PVFCTRL": None,
    "PFMBIMR": "a.mailboxes.pfmbimr",
    "EICR": "a.groups.pf.causes",
    "EICS": None,
    "EIAC": "a.groups.pf.auto_clear",
    "EIMS": "a.groups.pf.enabled",
    "EIMC": None,
    "EIAM": "a.groups.pf.auto_mask",
    "PVTEICR": "map (λ g. g.causes) a.groups.vf",
    "PVTEICS": None,
    "PVTEIMS": "map (λ g. g.enabled) a.groups.vf",
    "PVTEIMC": None,
    "PVTEIAC": "map (λ g. g.auto_clear) a.groups.vf",
    "PFMAILBOX": None,
    "PVFMAILBOX": "a.mailboxes.pvfmailbox",
    "PVTEIAM": "map (λ g. g.auto_mask) a.groups.vf",
    "RDBAL": "map (λ q. q.base_low) a.receive",
    "RDBAH": "map (λ q. q.base_high) a.receive",
    "RDLEN": "map (λ q. q.length) a.receive",
    "RDH": "map (λ q. q.head) a.receive",
    "SRRCTL": "map (λ q. q.control) a.receive",
    "RDT": "map (λ q. q.tail) a.receive",
    "RXDCTL": "map (λ q. q.enable) a.receive",
    "VFGPRC": "a.counters.vfgprc",
    "RDRXCTL": "a.settings.rdrxctl",
    "HLREG0": "a.settings.hlreg0",
    "MAXFRS": "a.settings.maxfrs",
    "LINKS": None,
    "DMATXCTL": "a.settings.dmatxctl",
    "RETA": "a.tables.reta",
    "RSSRK": "a.key",
    "TDBAL": "map (λ q. q.base_low) a.transmit",
    "TDBAH": "map (λ q. q.base_high) a.transmit",
    "TDLEN": "map (λ q. q.length) a.transmit",
    "TDH": "map (λ q. q.head) a.transmit",
    "TDT": "map (λ q. q.tail) a.transmit",
    "TXDCTL": "map (λ q. q.enable) a.transmit",
    "TDWBAL": "map (λ q. q.writeback_low) a.transmit",
    "TDWBAH": "map (λ q. q.writeback_high) a.transmit",
    "VFGPTC": "a.counters.vfgptc",
    "PSRTYPE": "a.tables.psrtype",
    "EEC": None,
}


def cells() -> list[Row]:
    """Returns the rows that are stored in cells, which a reset clears."""
    rows = [row for row in TABLE if row.name not in FIELDS]
    assert all(row.reset == 0 for row in rows)
    return rows


def check_table() -> None:
    """Refuses a duplicate name, an address that two registers share, and a row with a missing index."""
    names: set[str] = set()
    taken: dict[int, str] = {}
    for row in TABLE:
        assert row.name not in names, row.name
        names.add(row.name)
        for run in row.runs:
            for k in range(run.count):
                address = run.first + run.stride * k
                assert address % 4 == 0 and address not in taken, (hex(address), row.name, taken.get(address))
                taken[address] = row.name
        assert {run.first_index + k for run in row.runs for k in range(run.count)} == set(range(row.count)), row.name


def word(n: int) -> str:
    return f"0x{n >> 16:04X}_{n & 0xFFFF:04X}"


def runs() -> list[Member]:
    return [(row, run) for row in TABLE for run in row.runs]


def variants() -> str:
    return ", ".join(row.variant for row in TABLE)


def kinds() -> str:
    return ", ".join(sorted({row.kind for row in TABLE}))


def doc_of(row: Row) -> str:
    """Returns the comment for a row's variant and field: the row's meaning, and its number of registers."""
    meaning = row.meaning if row.meaning[1].isupper() else row.meaning[0].lower() + row.meaning[1:]
    return f"{row.name}: {meaning}, " + ("one register." if row.count == 1 else f"index 0 to {row.count - 1}.")


ROWS_HEAD = """// generated by dev/generate registers
ghost use Rattle.std.specs.Prelude.{◌≡◌, map};
ghost use Rattle.reg_table.specs.Entry.{row_in};
ghost use Rattle.reg_table.specs.Rows.{row_of, rows};

use crate::bank::Bank;
use crate::kind::Kind;
use crate::row::Entry;
use std::fmt;
"""
ENTRY_MACRO = """macro_rules! entry {
    ($name:literal, $count:literal, $kind:ident, $bank:ident, $mask:literal, $reset:literal) => {
        Entry {
            name: $name,
            count: $count,
            kind: Kind::$kind,
            bank: Bank::$bank,
            mask: $mask,
            reset: $reset,
        }
    };
}
"""


def rust_rows() -> str:
    return "\n".join((ROWS_HEAD, rust_row_ids(), ENTRY_MACRO, rust_entries(), rust_row_names()))


def rust_row_ids() -> str:
    """Returns the type of rows, and the list of rows in the table's order."""
    enum = "".join(f"    /// {doc_of(row)}\n    {row.variant},\n" for row in TABLE)
    order = "".join(f"    RowId::{row.variant},\n" for row in TABLE)
    return f"""/// A row of the register table: all registers of one name, as the datasheet names them.
#[derive(Clone, Copy, PartialEq, Eq, PartialOrd, Ord)]
pub enum RowId {{
{enum}}}

/// The rows, in the table's order.
pub(crate) static ROWS: [RowId; {len(TABLE)}] = [
{order}];
"""


def rust_entries() -> str:
    """Returns the entries of the rows, and the function that looks up an entry."""
    entries = "".join(
        f"    entry!({quoted(row.name):15} {row.count:4}, {row.kind}, {row.bank}, "
        f"{word(row.mask)}, {word(row.reset)}),\n"
        for row in TABLE
    )
    return f"""\
/// The entry of each row, in the table's order: name, number of indices, kind, bank, mask, word after a reset.
#[rattlefmt::skip]
static ENTRIES: [Entry; {len(TABLE)}] = [
{entries}];

/// Returns the entries of all rows, in the table's order.
#[inline(always)]
#[tactic(auto, unfolding(crate::specs::Rows::rows))]
fn entries() -> &'static [Entry]
    ensures {{ map row_in result.now ≡ map row_of rows }}
{{
    &ENTRIES
}}

/// Returns a row's entry in the table.
#[inline(always)]
pub(crate) fn entry_of(row: RowId) -> Entry
    ensures {{ row_in result ≡ row_of row }}
{{
    entries()[usize::from(row.number())]
}}
"""


def rust_row_names() -> str:
    """Returns the rows' names in code, for printing."""
    names = "".join(f"    {quoted(row.variant)}\n" for row in TABLE)
    return f"""/// The rows' names in code, in the table's order.
static VARIANTS: [&str; {len(TABLE)}] = [
{names}];

impl fmt::Debug for RowId {{
    fn fmt<W: fmt::Write>(&self, f: &mut fmt::Formatter<W>) -> fmt::Result {{
        f.write_str(VARIANTS[usize::from(self.number())])
    }}
}}
"""


def quoted(name: str) -> str:
    return f'"{name}",'


GENERATED = "-- generated by dev/generate registers"


def spec_rows() -> str:
    lines = "".join(
        f'row_of {row.variant} = row (codes "{row.name}") {row.count} {row.kind} bank.{row.bank} '
        f"0x{row.mask:08X} 0x{row.reset:08X}\n"
        for row in TABLE
    )
    numbers = "".join(f"number_of {row.variant} = {n}\n" for n, row in enumerate(TABLE))
    order = "".join(f"    {row.variant} ∷\n" for row in TABLE)
    return f"""{GENERATED}
use Rattle.std.specs.Prelude.{{ℕ, List, [], ◌∷◌, codes}}
use Rattle.reg_table.specs.declared.rows.RowId.{{RowId}}
use Rattle.reg_table.specs.declared.rows.RowId.TheVariants.{{{variants()}}}
use Rattle.reg_table.specs.declared.kind.Kind.TheVariants.{{{kinds()}}}
use Rattle.reg_table.specs.declared.bank.Bank.TheVariants as bank
use Rattle.reg_table.specs.Row.{{Row, row}}

-- The table's entry of a row: name, number of indices, kind, bank, bits that a write can change, word after a reset.
abbrev pub row_of : RowId → Row
{lines}
-- The row's position in the table, counted from 0.
abbrev pub number_of : RowId → ℕ
{numbers}
-- The rows, in the table's order.
unfoldable pub rows : List RowId
rows =
{order}    []
"""


def spec_runs() -> str:
    lines = "".join(
        f"    run {row.variant} 0x{run.first:05X} {run.stride} {run.first_index} {run.count} {str(run.low).lower()} ∷\n"
        for row, run in runs()
    )
    return f"""{GENERATED}
use Rattle.std.specs.Prelude.{{List, [], ◌∷◌, true, false}}
use Rattle.reg_table.specs.declared.rows.RowId.TheVariants.{{{variants()}}}
use Rattle.reg_table.specs.Run.{{Run, run}}

-- The addresses of the rows: row, first address, stride, first index, count, whether only bits 15:0 show. The runs of a
-- row are adjacent, and the runs that hold its first addresses come first.
unfoldable pub runs : List Run
runs =
{lines}    []
"""


def proof_rows() -> str:
    n, first = len(TABLE), TABLE[0].variant
    return f"""{GENERATED}
use Rattle.std.proofs.Common.{{◌≡◌, ◌<◌, length, get_or, refl, lit<}}
use Rattle.std.specs.Prelude.{{Some, find}}
use Rattle.reg_table.specs.declared.rows.RowId.{{RowId}}
use Rattle.reg_table.specs.declared.rows.RowId.TheVariants.{{{first}}}
use Rattle.reg_table.specs.Rows.{{row_of, rows, number_of}}
use Rattle.reg_table.specs.Named.{{is_named}}

-- The number of rows.
pub rows_length : length rows ≡ {n}
unfolding rows
rows_length = refl

pub number_below : (r : RowId) → number_of r < {n}
number_below {first} = lit< tt
number_below other = lit< tt

-- Each row is at the index that is its number.
pub row_numbered : (r d : RowId) → get_or rows (number_of r) d ≡ r
unfolding rows
row_numbered {first} d = refl
row_numbered other d = refl

-- Looking up a row's name finds that row.
pub row_found : (r : RowId) → find (is_named (row_of r).name) rows ≡ Some r
unfolding rows
row_found {first} = refl
row_found other = refl
"""


# The dispatch on addresses: by page, then by range within a page. Its functions stay small so that each is proved in
# seconds.
PAGE = 0x1000
MOST_ARMS = 12
# The functions of access.rt that return the access at an offset from a run's first address, by the run's stride.
ANSWERS = {4: "words", 8: "pairs", 64: "queues"}


class Part:
    """A range of addresses that one branch handles: the words of one run, or interleaved runs of equal stride, which
    are distinguished by the address's remainder. Each run is paired with its row."""

    def __init__(self, low: int, high: int, members: list[Member]) -> None:
        self.low, self.high, self.members = low, high, members
        self.stride = members[0][1].stride
        self.is_words = self.stride == 4

    def meets(self, other: Part) -> bool:
        return not self.is_words and self.stride == other.stride and self.low < other.high and other.low < self.high

    def joined(self, others: list[Part]) -> Part:
        parts = others + [self]
        members = [member for part in parts for member in part.members]
        return Part(min(part.low for part in parts), max(part.high for part in parts), members)

    def within(self, low: int, high: int) -> Part:
        return Part(max(low, self.low), min(high, self.high), self.members)


def last(run: Run) -> int:
    return run.first + run.stride * (run.count - 1)


def parts() -> list[Part]:
    """Returns the parts of the table, in the order of their addresses."""
    found: list[Part] = []
    for row, run in runs():
        assert run.stride in ANSWERS and (run.stride == 4 or not run.low), row.name
        # The address of a word is a multiple of 4, so a run of words begins and ends at its own addresses.
        part = Part(run.first - run.first % run.stride, last(run) - last(run) % run.stride + run.stride, [(row, run)])
        met = [other for other in found if part.meets(other)]
        found = [other for other in found if other not in met] + [part.joined(met)]
    found.sort(key=lambda part: part.low)
    for before, after in zip(found, found[1:]):
        assert before.high <= after.low, (hex(after.low), after.members[0][0].name)
    return found


def between(low: int, high: int, ranges: list[tuple[int, int]]) -> list[tuple[int, int]]:
    """Returns the gaps from low up to high between the ranges, which are sorted."""
    starts, ends = [low] + [end for _, end in ranges], [start for start, _ in ranges] + [high]
    return [(start, end) for start, end in zip(starts, ends) if start < end]


class Function:
    """A generated function of the dispatch: its address range, its arms, and the table's facts about each arm's run and
    about each gap between the arms."""

    def __init__(
        self, name: str, low: int | None, high: int | None, remainder: Rest = None, matched: str = "address"
    ) -> None:
        self.name, self.low, self.high, self.remainder, self.matched = name, low, high, remainder, matched
        self.arms: list[tuple[int, int, str]] = []
        self.hits: dict[tuple[int, int], str] = {}
        self.gaps: list[str] = []
        # Whether the arms cover every address.
        self.whole = False

    def facts(self) -> list[str]:
        return [*self.hits.values(), *self.gaps]

    def ranges(self) -> list[tuple[int, int]]:
        return [(low, high) for low, high, _ in self.arms]


class Dispatch:
    """All functions of the dispatch."""

    def __init__(self) -> None:
        self.functions: list[Function] = []
        self.lay_out_pages(parts())

    def function(self, *words: Any, **more: Any) -> Function:
        self.functions.append(Function(*words, **more))
        return self.functions[-1]

    def lay_out_pages(self, table: list[Part]) -> None:
        """Lays out functions for runs of equal stride that fill whole pages, and for adjacent pages with few parts."""
        top = self.function("aligned", None, None, matched=f"address / 0x{PAGE:X}")
        steps = [part for part in table if not part.is_words]
        filling = {part.low: part.high for part in steps if part.low % PAGE == 0 == part.high % PAGE}
        low = 0
        while low < table[-1].high:
            high = filling.get(low, low + PAGE)
            inside = [part.within(low, high) for part in table if part.low < high and low < part.high]
            while low not in filling and inside and high not in filling and high < table[-1].high:
                more = [part.within(low, high + PAGE) for part in table if part.low < high + PAGE and low < part.high]
                if len(more) > MOST_ARMS:
                    break
                inside, high = more, high + PAGE
            if inside:
                end = -(-inside[-1].high // PAGE) * PAGE
                name = f"page_{low // PAGE:02x}"
                top.arms.append((low // PAGE, end // PAGE, f"{name}(address)"))
                self.lay_out(name, low, end, inside)
            low = high
        for start, end in between(0, 1 << 32, [(low * PAGE, high * PAGE) for low, high in top.ranges()]):
            self.gap(top, start, end)

    def lay_out(self, name: str, low: int, high: int, inside: list[Part]) -> None:
        """Lays out the function for the addresses from low up to high, which contain these parts."""
        if (inside[0].low, inside[0].high) == (low, high) and not inside[0].is_words:
            self.lay_out_steps(name, inside[0])
        elif len(inside) > MOST_ARMS:
            self.lay_out_groups(name, low, high, inside)
        else:
            function = self.function(name, low, high)
            for part in inside:
                if part.is_words:
                    self.hit(function, (part.low, part.high), part.low, part.high, part.members[0])
                else:
                    function.arms.append((part.low, part.high, f"steps_{part.low:05x}(address)"))
                    self.lay_out_steps(f"steps_{part.low:05x}", part)
            for start, end in between(low, high, function.ranges()):
                self.gap(function, start, end)

    def lay_out_groups(self, name: str, low: int, high: int, inside: list[Part]) -> None:
        """Lays out a function that selects a group of parts, and a function for each group."""
        function = self.function(name, low, high)
        function.whole = True
        groups = -(-len(inside) // MOST_ARMS)
        size = -(-len(inside) // groups)
        chunks = [inside[i : i + size] for i in range(0, len(inside), size)]
        starts = [low] + [chunk[0].low for chunk in chunks[1:]] + [high]
        for chunk, start, end in zip(chunks, starts, starts[1:]):
            function.arms.append((start, end, f"from_{start:05x}(address)"))
            self.lay_out(f"from_{start:05x}", start, end, chunk)

    def lay_out_steps(self, name: str, part: Part) -> None:
        """Lays out the function that distinguishes runs of equal stride by the address's remainder."""
        stride = part.stride
        function = self.function(name, part.low, part.high, matched=f"address % {stride}")
        for x in sorted({run.first % stride for _, run in part.members}):
            rest = (stride, x, x + 4)
            blocks = []
            for member in part.members:
                run = member[1]
                low, high = max(part.low, run.first - x), min(part.high, last(run) - x + stride)
                if run.first % stride == x and low < high:
                    blocks.append((low, high, member))
            blocks.sort(key=lambda block: block[0])
            if [block[:2] for block in blocks] == [(part.low, part.high)]:
                self.hit(function, (x, x + 4), part.low, part.high, blocks[0][2])
            elif blocks:
                function.arms.append((x, x + 4, f"{name}_{x:02x}(address)"))
                some = self.function(f"{name}_{x:02x}", part.low, part.high, rest)
                for low, high, member in blocks:
                    self.hit(some, (low, high), low, high, member)
                for start, end in between(part.low, part.high, some.ranges()):
                    self.gap(some, start, end, rest)
        for start, end in between(0, stride, function.ranges()):
            self.gap(function, part.low, part.high, (stride, start, end))

    def hit(self, function: Function, arm: tuple[int, int], low: int, high: int, member: Member) -> None:
        """Adds the arm for a run's addresses from low up to high, and the fact about them."""
        row, run = member
        kind = "Words" if run.stride == 4 else "Steps"
        function.hits[arm] = f"{kind} {printed(row, run)} 0x{low:05X} 0x{high:05X}"
        offset = f"address - 0x{run.first:05X}" if run.first else "address"
        call = f"{'low_' if run.low else ''}{ANSWERS[run.stride]}(RowId::{row.variant}, {run.first_index}, {offset})"
        function.arms.append((*arm, call))

    def gap(self, function: Function, low: int, high: int, rest: Rest = None) -> None:
        """Adds the fact that no address from low up to high, with the given remainder if there is one, belongs to a
        register."""
        kind = f"NoSteps {rest[0]} 0x{rest[1]:02X} 0x{rest[2]:02X}" if rest else "NoWords"
        function.gaps.append(f"{kind} 0x{low:05X} 0x{high:05X}")


def printed(row: Row, run: Run) -> str:
    return f"(run {row.variant} 0x{run.first:05X} {run.stride} {run.first_index} {run.count} {str(run.low).lower()})"


def rust_function(function: Function) -> str:
    about, requires = "that is a multiple of 4", ""
    if function.low is not None:
        about = f"from 0x{function.low:05X} to 0x{function.high - 1:05X}"
        requires += f"    requires from {{ 0x{function.low:05X} ≤ address }}\n" if function.low else ""
        requires += f"    requires below {{ address < 0x{function.high:05X} }}\n"
    if function.remainder:
        stride, start, end = function.remainder
        about += f" with remainder {start} modulo {stride}"
        requires += f"    requires rest_from {{ 0x{start:02X} ≤ address % {stride} }}\n"
        requires += f"    requires rest_below {{ address % {stride} < 0x{end:02X} }}\n"
    shown = "pub(crate) " if function.low is None else ""
    tactic = f"#[tactic(auto, using(crate::proofs::Arms::{function.name}))]\n" if function.facts() else ""
    return f"""/// Returns the access at an address {about}.
{tactic}{shown}fn {function.name}(address: u32) -> Option<Access>
{requires}    requires whole {{ address % 4 ≡ 0 }}
    ensures {{ result ≡ access_at address }}
{{
    match {function.matched} {{
{rust_arms(function)}    }}
}}
"""


def rust_arms(function: Function) -> str:
    width = 5 if function.matched == "address" else 2
    ranges = [(f"0x{low:0{width}X}", f"=0x{high - 1:0{width}X}") for low, high in function.ranges()]
    if function.whole:
        ranges[0], ranges[-1] = ("", ranges[0][1]), (ranges[-1][0], "")
    arms = "".join(f"        {start}..{end} => {arm[2]},\n" for (start, end), arm in zip(ranges, function.arms))
    return arms if function.whole else arms + "        _ => None,\n"


def rust_dispatch(dispatch: Dispatch) -> str:
    calls = {ANSWERS[run.stride] if not run.low else "low_words" for _, run in runs()}
    body = "\n".join(rust_function(function) for function in dispatch.functions)
    return f"""// generated by dev/generate registers
ghost use Rattle.std.specs.Prelude.{{◌≡◌, ◌<◌, ◌≤◌, ◌%◌}};
ghost use Rattle.reg_table.specs.Access.{{access_at}};

use crate::access::{{Access, {", ".join(sorted(calls))}}};
use crate::rows::RowId;

{body}"""


def proof_arms(telling: list[Function]) -> str:
    """Returns the table's facts about each arm of a dispatch function, and about the ranges between the arms."""
    facts = [fact for function in telling for fact in function.facts()]
    kinds = sorted({fact.split()[0] for fact in facts})
    rows = ", ".join(row.variant for row in TABLE if any(f"(run {row.variant} " in fact for fact in facts))
    body = "\n".join(proof_arm(function) for function in telling)
    return f"""{GENERATED}
-- What the table says about each arm of a dispatch function, and about the ranges between the arms.
use Rattle.std.proofs.Common.{{true, false, List, [], ◌∷◌, refl}}
use Rattle.reg_table.specs.declared.rows.RowId.TheVariants.{{{rows}}}
use Rattle.reg_table.specs.Run.{{run}}
use Rattle.reg_table.specs.Runs.{{runs}}
use Rattle.reg_table.proofs.Facts.{{Fact, {', '.join(kinds)}, AllSay, all_said}}

{body}"""


def proof_arm(function: Function) -> str:
    name = function.name
    lines = "".join(f"    {fact} ∷\n" for fact in function.facts())
    return f"""abbrev facts_{name} : List Fact
facts_{name} =
{lines}    []

pub {name} : AllSay facts_{name}
unfolding runs
{name} = all_said facts_{name} refl
"""


def first_runs(row: Row) -> tuple[int, int, int, int]:
    """Returns a row's first addresses: first address, stride, count, and the second run's address, or 0."""
    first, *more = row.first_runs
    return first.first, first.stride, first.count, more[0].first if more else 0


FIRST_ADDRESSES_HEAD = """// generated by dev/generate registers
ghost use Rattle.std.specs.Prelude.{◌≡◌, IsTrue};
ghost use Rattle.reg_table.specs.FirstAddresses.{first_of, is_near};

use crate::rows::RowId;

/// The first addresses of a row's indices, in one or two runs. Index `k` is at `first + stride * k` if `k` is below
/// `count`, otherwise at `further + stride * (k - count)`.
#[derive(Clone, Copy)]
pub(crate) struct FirstAddresses {
    pub(crate) first: u32,
    pub(crate) stride: u32,
    pub(crate) count: u32,
    pub(crate) further: u32,
}

macro_rules! run {
    ($first:literal, $stride:literal, $count:literal, $further:literal) => {
        FirstAddresses {
            first: $first,
            stride: $stride,
            count: $count,
            further: $further,
        }
    };
}
"""


def rust_first_addresses() -> str:
    entries = ""
    for row in TABLE:
        first, stride, count, further = first_runs(row)
        run = f"run!(0x{first:05X}, {stride:2}, {count:4}, 0x{further:05X}),"
        entries += f"    {run} // {row.variant}\n"
    return f"""{FIRST_ADDRESSES_HEAD}
/// The first addresses of each row, in the table's order: first address, stride, count, further address.
#[rattlefmt::skip]
static FIRST_ADDRESSES: [FirstAddresses; {len(TABLE)}] = [
{entries}];

/// Returns the first addresses of a row's indices.
pub(crate) fn first_of(row: RowId) -> FirstAddresses
    ensures value {{ result ≡ first_of row }}
    ensures near {{ IsTrue (is_near result) }}
{{
    FIRST_ADDRESSES[usize::from(row.number())]
}}
"""


def spec_first_addresses() -> str:
    lines = ""
    for row in TABLE:
        first, stride, count, further = first_runs(row)
        lines += f"first_of {row.variant} = firsts 0x{first:05X} {stride} {count} 0x{further:05X}\n"
    return f"""{GENERATED}
use Rattle.std.specs.Prelude.{{ℕ, Bool, ◌&&◌, nat_lt, nat_le}}
use Rattle.reg_table.specs.declared.rows.RowId.{{RowId}}
use Rattle.reg_table.specs.declared.rows.RowId.TheVariants.{{{variants()}}}
use Rattle.reg_table.specs.declared.first_addresses.FirstAddresses.{{FirstAddresses}}

-- Index `k` is at `first + stride * k` if `k` is below `count`, otherwise at `further + stride * (k - count)`.
abbrev pub firsts : ℕ → ℕ → ℕ → ℕ → FirstAddresses
firsts first stride count further = record {{ first = first; stride = stride; count = count; further = further }}

-- Whether `first` and `further` are below 0x20000 and `stride` is at most 64 bytes.
abbrev pub is_near : FirstAddresses → Bool
is_near f = nat_lt f.first 0x20000 && nat_le f.stride 64 && nat_lt f.further 0x20000

-- The first addresses of a row: first address, stride, count, further address.
abbrev pub first_of : RowId → FirstAddresses
{lines}"""


def docs_rows() -> str:
    lines = ["| Register | Addresses | Count | Kind | Bank | Mask | Reset | Meaning |", "|---" * 8 + "|"]
    for row in TABLE:
        lines.append(
            f"| {row.name} | {'; '.join(addresses(run) for run in row.runs)} | {row.count} | {row.kind.lower()} "
            f"| {BANKS[row.bank]} | 0x{row.mask:08X} | 0x{row.reset:08X} | {row.meaning} |"
        )
    return "\n".join(lines) + "\n"


def addresses(run: Run) -> str:
    if run.count == 1:
        return f"0x{run.first:05X}" + (" (low)" if run.low else "")
    index = "i" if run.first_index == 0 else f"(i-{run.first_index})"
    last = run.first_index + run.count - 1
    return f"0x{run.first:05X} + 0x{run.stride:02X}*{index}, i {run.first_index} to {last}"


def register_page() -> str:
    """Returns docs/REGISTERS.md with its table replaced."""
    start, end = "<!-- generated by dev/generate registers -->\n", "<!-- end of the generated table -->\n"
    return replaced(text_of("docs/REGISTERS.md"), start, docs_rows(), end)


CELLS_HEAD = """// generated by dev/generate registers
ghost use Rattle.std.specs.Prelude.{◌≡◌, ◌<◌, slice_index};
ghost use Rattle.reg_table.specs.Rows.{row_of};
ghost use Rattle.register_file.specs.Cells.{cells_of, with_cell};

use reg_table::RowId;
"""


def rust_cells() -> str:
    return "\n".join((CELLS_HEAD, rust_cells_type(), rust_cell_word(), rust_set_cell()))


def rust_cells_type() -> str:
    """Returns the type of the cells, and its value after a reset."""
    fields, zeros = "", ""
    for row in cells():
        kind, zero = ("u32", "0") if row.count == 1 else (f"[u32; {row.count}]", f"[0; {row.count}]")
        fields += f"    /// {doc_of(row)}\n    pub(crate) {row.name.lower()}: {kind},\n"
        zeros += f"        {row.name.lower()}: {zero},\n"
    return f"""\
/// The registers that a reset sets to 0, 32 bits each. A single register is a field; a row of several is an array.
#[derive(Clone, Copy)]
pub(crate) struct Cells {{
{fields}}}

impl Cells {{
    /// All registers after a reset: 0.
    pub(crate) const AT_RESET: Cells = Cells {{
{zeros}    }};
}}
"""


def cell_of(row: Row) -> str:
    """Returns the expression for a row's word among the cells, at `index`."""
    return f"cells.{row.name.lower()}" + ("" if row.count == 1 else "[usize::from(index)]")


def rust_cell_word() -> str:
    """Returns the function that reads a cell."""
    reads = "".join(f"        RowId::{row.variant} => {cell_of(row)},\n" for row in cells())
    return f"""/// Returns a row's word among the cells, at an index below the row's count.
#[inline(always)]
pub(crate) fn cell_word(cells: &Cells, row: RowId, index: u16) -> u32
    requires {{ index < (row_of row).count }}
    ensures {{ result ≡ slice_index (cells_of cells.now row) index }}
{{
    match row {{
{reads}        _ => 0,
    }}
}}
"""


def rust_set_cell() -> str:
    """Returns the function that writes a cell."""
    writes = "".join(f"        RowId::{row.variant} => {cell_of(row)} = word,\n" for row in cells())
    return f"""/// Stores a row's word among the cells, at an index below the row's count.
#[inline(always)]
pub(crate) fn set_cell(cells: &mut Cells, row: RowId, index: u16, word: u32)
    requires {{ index < (row_of row).count }}
    ensures {{ cells.new ≡ with_cell cells.old row index word }}
{{
    match row {{
{writes}        _ => {{}}
    }}
}}
"""


def spec_cells() -> str:
    words, sets = "", ""
    for row in cells():
        name, single = row.name.lower(), row.count == 1
        words += f"cells_of cells {row.variant} = {f'cells.{name} ∷ []' if single else f'cells.{name}'}\n"
        new = "word" if single else f"slice_set cells.{name} index word"
        sets += f"with_cell cells {row.variant} index word = record cells {{ {name} = {new} }}\n"
    return f"""{GENERATED}
use Rattle.std.specs.Prelude.{{ℕ, List, [], ◌∷◌, slice_set}}
{use_of_cells()}use Rattle.register_file.specs.declared.cells.Cells.{{Cells}}

-- The words of a row among the cells; none for a row that isn't a cell.
abbrev pub cells_of : Cells → RowId → List ℕ
{words}cells_of cells other = []

-- The cells with a new word of a row, at an index below the row's count.
abbrev pub with_cell : Cells → RowId → ℕ → ℕ → Cells
{sets}with_cell cells other index word = cells
"""


def use_of_cells() -> str:
    """Returns the imports of the cells' rows."""
    variants = ", ".join(row.variant for row in cells())
    return f"""\
use Rattle.reg_table.specs.declared.rows.RowId.{{RowId}}
use Rattle.reg_table.specs.declared.rows.RowId.TheVariants.{{{variants}}}
"""


def proof_cells() -> str:
    """Returns the test that distinguishes the cells' rows from all others."""
    are = "".join(f"is_cell {row.variant} = true\n" for row in cells())
    return f"""{GENERATED}
use Rattle.std.specs.Prelude.{{Bool, true, false}}
{use_of_cells()}
-- Whether the words of a row are among the cells.
abbrev pub is_cell : RowId → Bool
{are}is_cell other = false
"""


# The functions of words.rt that match on all rows. Each has a proof for the rows that are in no other field.
WORDS = "register_file/RegisterFile"
AMONG_HEAD = f"""{GENERATED}
-- Lemmas about the rows whose words are among the cells, and about the rows that have no word.
use Rattle.std.proofs.Common.{{◌≡◌, ◌≢◌, ℕ, suc, zero, ◌<◌, true, replicate, refl, ◌⊎◌, inl, inr, arith}}
use Rattle.reg_table.specs.Rows.{{row_of}}
use Rattle.reg_table.specs.declared.rows.RowId.{{RowId}}
"""
AMONG_USES = """\
use Rattle.register_file.specs.Cells.{cells_of, with_cell}
use Rattle.register_file.specs.Layout.{rows_of, registers_of}
use Rattle.register_file.specs.Registers.{with_word}
use Rattle.register_file.specs.Words.{row_words}
use Rattle.register_file.specs.declared.register_file.RegisterFile.TheInside.{Inside}
use Rattle.register_file.proofs.CellRows.{is_cell}
"""


def filled(pieces: Iterable[str]) -> str:
    """Fills indented lines with the terms of a proof, without breaking a term."""
    whole = " ".join(piece.replace(" ", "\0") for piece in pieces)
    lines = textwrap.wrap(whole, 115, initial_indent="    ", subsequent_indent="    ", break_on_hyphens=False)
    return "\n".join(lines).replace("\0", " ")


def fields() -> list[Row]:
    """Returns the rows that are stored in fields other than the cells, in the table's order."""
    return [row for row in TABLE if row.name in FIELDS]


def proof_among() -> str:
    """Returns the lemmas about the rows that are stored in cells, with a line for each row that isn't."""
    named = [row.variant for row in TABLE if row.name in FIELDS or row.count > 1]
    uses = f"use Rattle.reg_table.specs.declared.rows.RowId.TheVariants.{{{', '.join(named)}}}\n"
    lemmas = (proof_cell_of(), proof_cell_row(), proof_zero_row(), proof_word_stored())
    return AMONG_HEAD + uses + AMONG_USES + "\n" + "\n".join(lemmas)


def proof_cell_of() -> str:
    """Returns the lemma that a row is a cell if it is in no other field."""
    isnt = filled(f"→ row ≢ {row.variant}" for row in fields())
    lines = ""
    for at, row in enumerate(fields()):
        given = " ".join("n" if k == at else "_" for k in range(len(fields())))
        line = f"cell_of {row.variant} {given} = absurd (n refl)\n"
        lines += line if len(line.rstrip()) <= 120 else line.replace(" = ", " =\n    ")
    return f"""\
-- A row that is in no other field is among the cells.
pub cell_of : (row : RowId)
{isnt}
    → is_cell row ≡ true
{lines}cell_of other {' '.join('_' * len(fields()))} = refl
"""


def proof_cell_row() -> str:
    """Returns the lemma about the words that the cells hold for a row."""
    lines = "".join(f"cell_row a {row.variant} h = absurd cc\n" for row in fields())
    return f"""\
-- A cell's words are the words of its field.
pub cell_row : (a : Inside) (row : RowId) → is_cell row ≡ true → row_words (rows_of a) row ≡ cells_of a.cells row
{lines}cell_row a other h = refl
"""


def proof_zero_row() -> str:
    """Returns the lemma about the rows that store no word, in the order of words.rt."""
    none = [row.variant for row in fields() if FIELDS[row.name] is None]
    some = filled([*(f"((row ≡ {it}) ⊎" for it in none[:-1]), f"((row ≡ {none[-1]}" + ")" * (len(none) + 1)])
    lines = ""
    for k in range(len(none)):
        inner = "inl e" if k < len(none) - 1 else "inr e"
        for _ in range(min(k, len(none) - 2)):
            inner = f"inr ({inner})"
        lines += f"zero_row a row ({inner}) = rw e refl\n"
    return f"""\
-- The words of a row that holds none are 0.
pub zero_row : (a : Inside) (row : RowId)
    → {some.strip()}
    → row_words (rows_of a) row ≡ replicate (row_of row).count 0
{lines}"""


def proof_word_stored() -> str:
    """Returns the lemma about storing a word in a cell, for rows with and without an index."""
    lines = "".join(f"word_stored a {row.variant} index word h b = absurd cc\n" for row in fields())
    several = "".join(f"word_stored a {row.variant} (suc index) word h b = refl\n" for row in cells() if row.count > 1)
    return f"""\
-- Storing a word in a cell stores it in the registers.
pub word_stored : (a : Inside) (row : RowId) (index word : ℕ) → is_cell row ≡ true → index < (row_of row).count
    → registers_of (record a {{ cells = with_cell a.cells row index word }}) ≡ with_word (registers_of a) row index word
{lines}word_stored a other zero word h b = refl
{several}word_stored a other (suc index) word h b = absurd (omega (arith, b))
"""


def answer_no_field() -> str:
    """Returns the part of a proof that concludes that a row is a cell because it is in no other field."""
    isnt = filled(f"d.not-{row.variant}" for row in fields())
    return f"""\
    let d = c.in_default in
    let cell = cell_of c.args.row
{isnt} in
"""


def answers_of_cell() -> str:
    """Returns the proofs for the function that reads a word."""
    return f"""{GENERATED}
use Rattle.std.proofs.Common.{{sym, ap, ◌∙◌, get_or}}
use Rattle.std.proofs.lemmas.List.{{get_or-replicate}}
use Rattle.reg_table.specs.Rows.{{row_of}}
use Rattle.register_file.proofs.AmongCells.{{cell_of, cell_row, zero_row}}
use Rattle.register_file.proofs.Storing.{{free_word}}
use Rattle.register_file.proofs.register_file.RegisterFile.cell.Goals as goal

pub returns-in-Status-clause-word : goal.returns-in-Status-clause-word
returns-in-Status-clause-word c =
    rw (← c.self.view_is)
    (sym (ap (λ ws. get_or ws c.args.index 0) (zero_row c.self.inside c.args.row c.in-Status.is)
    ∙ get_or-replicate (row_of c.args.row).count c.args.index 0 0 c.requires))

pub returns-in_default-clause-word : goal.returns-in_default-clause-word
returns-in_default-clause-word c =
{answer_no_field()}    rw (← c.self.view_is)
    (c.cell_word.ensures ∙ sym (ap (λ ws. get_or ws c.args.index 0) (cell_row c.self.inside c.args.row cell)))

pub returns-in_default-clause-holds : goal.returns-in_default-clause-holds
returns-in_default-clause-holds c =
    let d = c.in_default in
    free_word c.args.row c.args.index _ d.not-Eiac d.not-Eiam d.not-Pvteiac d.not-Pvteiam
"""


def answer_of_side(row: Row) -> str:
    """Returns the proof for a queue's register: its word is stored in one side of the queue."""
    side, goal = (FIELDS[row.name] or "").rpartition("a.")[2], f"returns-in-{row.variant}"
    by = f"rw (← c.self-in-{row.variant}.view_is, c.in-{row.variant}.is)"
    return f"pub {goal} : goal.{goal}\n{goal} c = {by} (simp (c.from-at.ensures, {side}_columns))\n\n"


def answers_of_set_word() -> str:
    """Returns the proofs for the function that stores a word."""
    sides = [row for row in fields() if (FIELDS[row.name] or "").endswith((" a.receive", " a.transmit"))]
    return f"""{GENERATED}
use Rattle.std.proofs.Common.{{◌∙◌, ap}}
use Rattle.register_file.specs.Layout.{{registers_of}}
use Rattle.register_file.proofs.AmongCells.{{cell_of, word_stored}}
use Rattle.register_file.proofs.Columns.{{receive_columns, transmit_columns}}
use Rattle.register_file.proofs.register_file.RegisterFile.set_word.Goals as goal

{''.join(map(answer_of_side, sides))}pub returns-in_default : goal.returns-in_default
returns-in_default c =
{answer_no_field()}    rw (← c.self-in_default.view_is)
    (ap (λ cells. registers_of (record c.self-in_default.inside {{ cells = cells }})) c.set_cell.ensures
    ∙ word_stored c.self-in_default.inside c.args.row c.args.index c.args.word cell c.requires.index)
"""


def layout_of(row: Row) -> str:
    """Returns the list of a row's words."""
    words = FIELDS.get(row.name, f"a.cells.{row.name.lower()}")
    if words is None:
        return "(0 ∷ [])" if row.count == 1 else f"replicate {row.count} 0"
    return f"({words} ∷ [])" if row.count == 1 else words


def spec_layout() -> str:
    rows = "".join(f"    {layout_of(row)} ∷\n" for row in TABLE)
    return f"""{GENERATED}
-- The layout of the registers: which field holds which row.
use Rattle.std.specs.Prelude.{{[], ◌∷◌, map, replicate}}
use Rattle.register_file.specs.Words.{{Words}}
use Rattle.register_file.specs.Registers.{{Registers}}
use Rattle.register_file.specs.declared.register_file.RegisterFile.TheInside.{{Inside}}

-- The words of each row, in the table's order. Rows that only act or are calculated hold the word 0.
abbrev pub rows_of : Inside → Words
rows_of a =
{rows}    []

-- The registers that the fields hold.
abbrev pub registers_of : Inside → Registers
registers_of a =
    record {{
      words = rows_of a;
      wanted_rx = map (λ q. q.wanted) a.receive;
      wanted_tx = map (λ q. q.wanted) a.transmit;
      reported_pf = a.groups.pf.reported;
      reported_vf = map (λ g. g.reported) a.groups.vf;
    }}
"""


def outputs() -> dict[Path, str]:
    """Returns the generated files with their contents."""
    check_table()
    registers = ROOT / "crates/register_file"
    crate, dispatch = ROOT / "crates/reg_table", Dispatch()
    return {
        crate / "src/rows.rt": rust_rows(),
        crate / "specs/Rows.antt": spec_rows(),
        crate / "specs/Runs.antt": spec_runs(),
        crate / "src/dispatch.rt": rust_dispatch(dispatch),
        crate / "src/first_addresses.rt": rust_first_addresses(),
        crate / "specs/FirstAddresses.antt": spec_first_addresses(),
        crate / "proofs/Numbers.antt": proof_rows(),
        crate / "proofs/Arms.antt": proof_arms([function for function in dispatch.functions if function.facts()]),
        registers / "src/cells.rt": rust_cells(),
        registers / "specs/Cells.antt": spec_cells(),
        registers / "specs/Layout.antt": spec_layout(),
        registers / "proofs/CellRows.antt": proof_cells(),
        registers / "proofs/AmongCells.antt": proof_among(),
        registers / "proofs" / WORDS / "cell/Answers.antt": answers_of_cell(),
        registers / "proofs" / WORDS / "set_word/Answers.antt": answers_of_set_word(),
        ROOT / "docs/REGISTERS.md": register_page(),
    }


if __name__ == "__main__":
    keep(__doc__, outputs)
