#!/usr/bin/env python3
"""Writes the numbers that calls of the C library return for the Python and Rust modules:
python/nic82599/statuses.py, and src/status.rs of rust/nic82599.

    dev/status_tables.py            rewrites the files
    dev/status_tables.py --check    names the stale files, and exits with status 1 if there are any

The numbers come from c/include/nic82599.h, which is written by hand and documents them. The library's crate also
defines them, in its proved sources; if the header differs, the script exits with status 1 in both forms. The header
lacks two of the crate's numbers, because no call returns them. Only the header has the numbers that the C code around
the crate's calls returns; the crate doesn't use these.
"""

from __future__ import annotations

import re
import sys

sys.dont_write_bytecode = True
from generated import ROOT, keep, text_of  # noqa: E402

HEADER, CRATE = "c/include/nic82599.h", "crates/nic82599_c/src"
# The four lists of the header.
LISTS = {
    "nic_status": "What a call returns.",
    "nic_why": "Why a frame is dropped.",
    "nic_fault": "Why a slot can't be processed.",
    "nic_step": "The steps of the device, as nic_settle reports them.",
}
# The header's functions that return their names, by the lists' names in Python.
WORDS = {
    "WHYS": ("nic_why", "nic_why_name"),
    "FAULTS": ("nic_fault", "nic_fault_name"),
    "STEPS": ("nic_step", "nic_step_name"),
}
# Numbers that no call returns, and numbers that code around the crate's calls returns: C code, or the plain edition's
# kit.
UNANSWERED = {"TWICE", "MISALIGNED"}
AROUND = {"BAD_MEMORY", "BROKEN", "CLOSED"}
# Names that differ between the crate and the header.
OTHERWISE = {"DESC_TYPE": "TYPE"}
HEAD_PYTHON = '''\
"""The numbers that C library calls return (statuses and faults), and the words for drop reasons, faults and steps, by
number. Generated from the header nic82599.h by `dev/generate statuses`.
"""

'''
HEAD_RUST = """\
//! The numbers that C library calls return, generated from the header nic82599.h by dev/generate statuses.
// Some numbers are unused.
#![allow(dead_code)]
"""

Numbers = dict[str, int]


def numbers_of(name: str) -> Numbers:
    """Returns one list of the header: the numbers by name, without the prefix NIC_."""
    found = re.search(rf"^enum {name} \{{\n(.*?)^\}};", text_of(HEADER), re.M | re.S)
    assert found, f"{HEADER} has no enum {name}"
    return {it: int(number) for it, number in re.findall(r"^    NIC_(\w+) = (\d+)", found[1], re.M)}


def words_of(function: str) -> list[str]:
    """Returns the names that a function in the header returns, in the order of their numbers."""
    found = re.search(rf"{function}\(uint8_t \w+\)\n.*?names\[\] = \{{(.*?)\}};", text_of(HEADER), re.S)
    assert found, f"{HEADER} has no {function} with a list of names"
    return re.findall(r'"([^"]*)"', found[1])


def capitals(name: str) -> str:
    """Returns the header's name for a crate's name: NOT_LENT for NotLent."""
    constant = re.sub(r"(?<=[a-z])(?=[A-Z])", "_", name).upper()
    return OTHERWISE.get(constant, constant)


def constants(file: str) -> Numbers:
    """Returns the byte constants in one of the crate's sources."""
    found = re.findall(r"^pub const (\w+): u8 = (\d+);", text_of(f"{CRATE}/{file}"), re.M)
    return {name: int(number) for name, number in found}


def of_crate() -> tuple[Numbers, Numbers, Numbers]:
    """Returns the crate's statuses, drop reasons and faults."""
    statuses = {name: it for name, it in constants("status.rt").items() if name not in UNANSWERED}
    images, base = text_of(f"{CRATE}/images.rt"), constants("images.rt")
    of_image = re.findall(r"(?:Load|Asm)Fault::(\w+)(?:\(_\))? => (IMAGE|TEXT) \+ (\d+),", images)
    statuses |= {f"{kind}_{capitals(name)}": base[kind] + int(number) for name, kind, number in of_image}
    statuses |= {"IMAGE": base["IMAGE"], "TEXT": base["TEXT"], "TEXT_NOT_UTF8": base["TEXT"] + base["NOT_UTF8"]}
    text = text_of(f"{CRATE}/outcome.rt")
    whys = {f"WHY_{capitals(name)}": int(number) for name, number in re.findall(r"\bWhy::(\w+) => (\d+),", text)}
    faults = re.findall(r"RingFault::(\w+)(?:\(_\))? => ([1-9]\d*),", text)
    return statuses, whys, {f"FAULT_{capitals(name)}": int(number) for name, number in faults}


def lists() -> dict[str, Numbers]:
    """Returns the header's four lists, after comparing the first three with the crate's lists."""
    found = {name: numbers_of(name) for name in LISTS}
    for (name, mine), other in zip(list(found.items())[:3], of_crate(), strict=True):
        odd = {it for it, _ in mine.items() ^ other.items() if it not in AROUND}
        if odd:
            sys.exit(f"dev/status_tables.py: enum {name} and {CRATE} differ in {', '.join(sorted(odd))}")
        taken = {mine[it] for it in AROUND & mine.keys()} & set(other.values())
        assert not taken, f"{CRATE} also uses {taken}"
    named = set(re.findall(r"case NIC_(\w+): return", text_of(HEADER)))
    assert named == found["nic_status"].keys() - {"IMAGE", "TEXT"}, "nic_status_name and the enum differ"
    for name, function in WORDS.values():
        words = words_of(function)
        assert sorted(found[name].values()) == [k for k, word in enumerate(words) if word], f"{function} differs"
        for it, number in found[name].items() if name != "nic_step" else ():
            wanted = it.partition("_")[2].lower().replace("_", " ")
            assert words[number] == wanted, f"{function} has {words[number]} for {it}"
    return found


def python_statuses() -> str:
    """python/nic82599/statuses.py."""
    found, text = lists(), HEAD_PYTHON
    for name in ("nic_status", "nic_fault"):
        text += f"# {LISTS[name]}\n" + "".join(f"{it} = {number}\n" for it, number in found[name].items()) + "\n"
    for name, (_, function) in WORDS.items():
        words = "".join(f'    "{word}",\n' for word in words_of(function))
        text += f"{name} = (\n{words})\n"
    return text


def rust_statuses() -> str:
    """Returns src/status.rs of the crate."""
    text = HEAD_RUST
    for name, numbers in lists().items():
        items = "".join(f"pub(crate) const {it}: u8 = {number};\n" for it, number in numbers.items())
        text += f"\n// {LISTS[name]}\n{items}"
    return text


if __name__ == "__main__":
    keep(
        __doc__,
        lambda: {
            ROOT / "python/nic82599/statuses.py": python_statuses(),
            ROOT / "rust/nic82599/src/status.rs": rust_statuses(),
        },
    )
