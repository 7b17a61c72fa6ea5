#!/usr/bin/env python3
"""Writes the generated tables of docs/DESCRIPTORS.md, each between its two markers.

    dev/descriptor_tables.py            rewrites the page
    dev/descriptor_tables.py --check    names the page if it is stale, and exits with status 1

The bits of descriptors are constants in crates/dma_ring/src; the hash types and the bits of MRQC are in
crates/rss_hash/specs. The text around the tables isn't generated: edit it in the page.
"""

from __future__ import annotations

import re
import sys

sys.dont_write_bytecode = True
from generated import ROOT, keep, replaced, table, text_of  # noqa: E402

PAGE = "docs/DESCRIPTORS.md"
END = "<!-- end of the generated table -->\n"
# lowest bit, width, name, meaning
Field = tuple[int, int, str, str]


def bits_in(path: str) -> dict[str, int]:
    """Returns the bit numbers that a source defines, by name."""
    return {name: int(bit) for name, bit in re.findall(r"^const (\w+): u32 = (\d+);", text_of(path), re.M)}


def arms(name: str, path: str) -> dict[str, str]:
    """Returns the right-hand sides of a definition by cases, keyed by the cases' names."""
    return dict(re.findall(rf"^{name} (?:mrqc )?(\w+)(?: input| flow)? = (.+)$", text_of(path), re.M))


def span(low: int, width: int) -> str:
    """Returns a field's bit range, highest bit first."""
    return str(low) if width == 1 else f"{low + width - 1}:{low}"


def receive_fields() -> tuple[list[Field], list[Field]]:
    """Returns the fields that the device writes back to a receive descriptor, for each half."""
    bit = bits_in("crates/dma_ring/src/receive.rt")
    first = [
        (0, 4, "RSS type", "the type by which the frame was hashed, as in the table of types below"),
        (bit["IPV4"], 1, "packet type: IPv4", "the frame is IPv4"),
        (bit["IPV6"], 1, "packet type: IPv6", "the frame is IPv6"),
        (bit["TCP"], 1, "packet type: TCP", "the frame has TCP ports"),
        (bit["UDP"], 1, "packet type: UDP", "the frame has UDP ports"),
        (bit["HASH"], 32, "RSS hash", "the hash; 0 unless RXCSUM bit 13 was 1 when the frame arrived"),
    ]
    second = [
        (bit["DD"], 1, "DD", "1: the device is done with this descriptor"),
        (bit["EOP"], 1, "EOP", "1: the frame ends in this buffer"),
        (bit["PKT_LEN"], 16, "PKT_LEN", "the number of bytes of the frame in this buffer"),
    ]
    return first, second


def receive_table() -> str:
    """Returns the table of a written-back receive descriptor."""
    halves = zip(("first", "second"), receive_fields())
    rows = [[half, span(low, width), name, text] for half, fields in halves for low, width, name, text in fields]
    return table(["Half", "Bits", "Field", "Meaning"], rows)


def transmit_fields() -> list[Field]:
    """Returns the fields that a driver writes to the second half of a transmit descriptor, and DD."""
    bit, own = bits_in("crates/dma_ring/src/transmit.rt"), bits_in("crates/dma_ring/src/driver.rt")
    assert own["SENT"] == bit["DD"]
    return [
        (0, 16, "DTALEN", "the length of the buffer in bytes"),
        (bit["DTYP"], 4, "DTYP", "3: data; 2: context; any other is the fault `unknown type`"),
        (bit["EOP"], 1, "EOP", "1: the frame ends with this buffer"),
        (bit["RS"], 1, "RS", "1: the device reports when it is done (data only)"),
        (bit["DEXT"], 1, "DEXT", "1: an advanced descriptor; 0 is the fault `legacy`"),
        (bit["VLE"], 1, "VLE", "VLAN insertion: 1 is the fault `offload`"),
        (bit["TSE"], 1, "TSE", "segmentation: 1 is the fault `offload`"),
        (bit["DD"], 1, "DD", "set by the device if it reports in the descriptor"),
        (bit["POPTS"], 6, "POPTS", "checksums to insert: nonzero is the fault `offload`"),
        (own["PAYLEN"], 18, "PAYLEN", "the length of the frame: no effect"),
    ]


def transmit_table() -> str:
    """Returns the table of a transmit descriptor's second half."""
    rows = [[span(low, width), name, text] for low, width, name, text in transmit_fields()]
    return table(["Bits", "Field", "Meaning"], rows)


# The frames of each hash type, by the type's name in the definition of the input.
FRAMES = {
    "NoHash": "none of these",
    "TcpIpv4": "TCP over IPv4",
    "Ipv4": "IPv4",
    "TcpIpv6": "TCP over IPv6",
    "Ipv6": "IPv6",
    "UdpIpv4": "UDP over IPv4",
    "UdpIpv6": "UDP over IPv6",
}
PARTS = {
    "[]": "nothing: the hash is 0",
    "input": "source and destination address, source and destination port",
    "take 8 input": "source and destination address",
    "take 32 input": "source and destination address",
}


CHOICE = "crates/rss_hash/specs/Choice.antt"


def rss_types() -> dict[str, int]:
    """Returns the codes of the hash types, keyed by the definition's names."""
    return {name: int(code) for name, code in arms("code_of", CHOICE).items()}


def type_table() -> str:
    """Returns the table of hash types: code, frames, bit of MRQC, input."""
    codes, parts, enabled = arms("code_of", CHOICE), arms("hashed_part", CHOICE), arms("is_enabled", CHOICE)
    assert codes.keys() == parts.keys() == enabled.keys() == FRAMES.keys()
    rows = []
    for name, code in codes.items():
        bit = re.fullmatch(r"enables mrqc (\d+)", enabled[name])
        rows.append([code, FRAMES[name], bit.group(1) if bit else "", PARTS[parts[name]]])
    return table(["RSS type", "Frame", "MRQC bit", "Hashed, in network order"], rows)


TABLES = {
    "receive descriptors": receive_table,
    "transmit descriptors": transmit_table,
    "types of hashes": type_table,
}


def page() -> str:
    """Returns the page with its generated tables replaced."""
    text = text_of(PAGE)
    for name, make in TABLES.items():
        text = replaced(text, f"<!-- {name}: generated by dev/generate descriptors -->\n", make(), END)
    return text


if __name__ == "__main__":
    keep(__doc__, lambda: {ROOT / PAGE: page()})
