"""Decodes the headers of a frame and the fields of a descriptor into words."""

from __future__ import annotations

import ipaddress
from dataclasses import dataclass

Fields = list[tuple[str, str]]

_TYPES = {0x0800: "IPv4", 0x86DD: "IPv6", 0x0806: "ARP", 0x8100: "VLAN tag", 0x88B5: "local experiment"}
_PROTOCOLS = {1: "ICMP", 6: "TCP", 17: "UDP", 58: "ICMPv6"}
_FLAGS = "FIN SYN RST PSH ACK URG ECE CWR".split()
RSS_TYPES = {0: "none", 1: "TCP/IPv4", 2: "IPv4", 3: "TCP/IPv6", 5: "IPv6", 7: "UDP/IPv4", 8: "UDP/IPv6"}


@dataclass
class Header:
    """A header of a frame: its name and fields."""

    name: str
    fields: Fields


def address(octets: bytes) -> str:
    """Formats an Ethernet address."""
    return ":".join(f"{octet:02x}" for octet in octets)


def _number(octets: bytes) -> int:
    return int.from_bytes(octets, "big")


def headers(frame: bytes) -> list[Header]:
    """Decodes a frame's headers: Ethernet, a VLAN tag, IP, and TCP or UDP. A header that is cut off or malformed is the
    last."""
    if len(frame) < 14:
        return [Header("Ethernet", [("cut off", f"{len(frame)} bytes")])]
    kind = _number(frame[12:14])
    name = _TYPES.get(kind, "length" if kind < 1_536 else "")
    typed = f"0x{kind:04x}" + (f" ({name})" if name else "")
    found = [Header("Ethernet", [("to", address(frame[:6])), ("from", address(frame[6:12])), ("type", typed)])]
    at = 14
    if kind == 0x8100 and len(frame) >= 18:
        tag, kind = _number(frame[14:16]), _number(frame[16:18])
        found.append(
            Header("VLAN tag", [("id", str(tag & 0xFFF)), ("priority", str(tag >> 13)), ("type", f"0x{kind:04x}")])
        )
        at = 18
    if kind == 0x0800:
        found += _ipv4(frame[at:])
    elif kind == 0x86DD:
        found += _ipv6(frame[at:])
    return found


def _ipv4(packet: bytes) -> list[Header]:
    length = (packet[0] & 15) * 4 if packet else 0
    if len(packet) < 20 or packet[0] >> 4 != 4 or length < 20 or len(packet) < length:
        return [Header("IPv4", [("malformed", f"{len(packet)} bytes")])]
    protocol, fragment = packet[9], _number(packet[6:8])
    fields = [
        ("from", str(ipaddress.IPv4Address(packet[12:16]))),
        ("to", str(ipaddress.IPv4Address(packet[16:20]))),
        ("protocol", _protocol(protocol)),
        ("length", str(_number(packet[2:4]))),
        ("TTL", str(packet[8])),
    ]
    if fragment & 0x3FFF:
        more = ", more follow" if fragment & 0x2000 else ""
        return [Header("IPv4", fields + [("fragment", f"offset {(fragment & 0x1FFF) * 8}{more}")])]
    return [Header("IPv4", fields)] + _transport(protocol, packet[length:])


def _ipv6(packet: bytes) -> list[Header]:
    if len(packet) < 40 or packet[0] >> 4 != 6:
        return [Header("IPv6", [("malformed", f"{len(packet)} bytes")])]
    fields = [
        ("from", str(ipaddress.IPv6Address(packet[8:24]))),
        ("to", str(ipaddress.IPv6Address(packet[24:40]))),
        ("next header", _protocol(packet[6])),
        ("payload", str(_number(packet[4:6]))),
        ("hop limit", str(packet[7])),
    ]
    return [Header("IPv6", fields)] + _transport(packet[6], packet[40:])


def _protocol(number: int) -> str:
    return f"{number} ({_PROTOCOLS[number]})" if number in _PROTOCOLS else str(number)


def _transport(protocol: int, segment: bytes) -> list[Header]:
    """Returns a TCP or UDP header, or only its ports if the header is cut off after them."""
    if protocol not in (6, 17) or len(segment) < 4:
        return []
    fields = [("from port", str(_number(segment[:2]))), ("to port", str(_number(segment[2:4])))]
    if protocol == 17:
        return [Header("UDP", fields + ([("length", str(_number(segment[4:6])))] if len(segment) >= 8 else []))]
    if len(segment) >= 20:
        flags = " ".join(name for bit, name in enumerate(_FLAGS) if segment[13] >> bit & 1) or "none"
        fields += [("sequence", str(_number(segment[4:8]))), ("flags", flags), ("window", str(_number(segment[14:16])))]
    return [Header("TCP", fields)]


def summary(frame: bytes) -> str:
    """Returns a frame in one line: length, addresses, protocols."""
    found = headers(frame)
    parts = [f"{len(frame)} bytes"]
    named = {header.name: dict(header.fields) for header in found}
    if "to" in named["Ethernet"]:
        parts.append(f"{named['Ethernet']['from']} to {named['Ethernet']['to']}")
    for name in ("IPv4", "IPv6"):
        if "from" in named.get(name, {}):
            parts.append(f"{name} {named[name]['from']} to {named[name]['to']}")
    for name in ("TCP", "UDP"):
        if name in named:
            parts.append(f"{name} {named[name]['from port']} to {named[name]['to port']}")
    if len(found) == 1 and "type" in named["Ethernet"]:
        parts.append(f"type {named['Ethernet']['type']}")
    return ", ".join(parts)


@dataclass
class Descriptor:
    """The 16 bytes of a slot, decoded: their format, whether the descriptor is done, and the fields."""

    form: str
    done: bool
    fields: Fields


def descriptor(side: str, content: bytes | None, is_lent: bool = True) -> Descriptor:
    """Decodes the descriptor in a ring's slot. A receive slot has the write-back format if DD is 1. If `content` is
    None, the slot isn't lent, or is lent but wasn't read."""
    if content is None:
        return Descriptor("not read" if is_lent else "not lent", False, [])
    low, high = int.from_bytes(content[:8], "little"), int.from_bytes(content[8:], "little")
    return _transmit(low, high) if side == "tx" else _receive(low, high)


def _receive(low: int, high: int) -> Descriptor:
    if not high & 1:
        form = "empty" if low == high == 0 else "read format"
        header = [("header buffer (ignored)", f"0x{high:x}")] if high else []
        return Descriptor(form, False, [("buffer", f"0x{low & ~1:x}"), *header])
    names = {4: "IPv4", 6: "IPv6", 8: "TCP", 9: "UDP"}
    packet = " ".join(name for bit, name in names.items() if low >> bit & 1) or "none"
    kind = low & 15
    fields = [
        ("DD", str(high & 1)),
        ("EOP", str(high >> 1 & 1)),
        ("PKT_LEN", str(high >> 32 & 0xFFFF)),
        ("packet type", packet),
        ("RSS type", f"{kind} ({RSS_TYPES[kind]})" if kind in RSS_TYPES else str(kind)),
        ("RSS hash", f"0x{low >> 32:08x}"),
    ]
    return Descriptor("written back", True, fields)


def _transmit(low: int, high: int) -> Descriptor:
    kind, done = high >> 20 & 15, bool(high >> 32 & 1)
    if low == high == 0:
        return Descriptor("empty", False, [])
    if not high >> 29 & 1:
        return Descriptor("legacy", done, [("buffer", f"0x{low:x}"), ("DEXT", "0"), ("DD", str(int(done)))])
    if kind == 2:
        return Descriptor("context", done, [("DTYP", "2 (context)"), ("DEXT", "1"), ("words", f"0x{low:x} 0x{high:x}")])
    flags = {24: "EOP", 25: "IFCS", 27: "RS", 29: "DEXT", 30: "VLE", 31: "TSE"}
    fields = [
        ("buffer", f"0x{low:x}"),
        ("DTALEN", str(high & 0xFFFF)),
        ("DTYP", f"{kind} (data)" if kind == 3 else str(kind)),
        ("DCMD", " ".join(name for bit, name in flags.items() if high >> bit & 1) or "none"),
        ("DD", str(int(done))),
        ("POPTS", str(high >> 40 & 63)),
        ("PAYLEN", str(high >> 46)),
    ]
    return Descriptor("data" if kind == 3 else "unknown type", done, fields)
