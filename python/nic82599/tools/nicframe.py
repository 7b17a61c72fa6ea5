"""Builds frames with correct lengths and checksums: as lines of a register script, as hex, or as a capture.

    tools/nicframe tcp|udp SOURCE:PORT DESTINATION:PORT [options]
    tools/nicframe ip SOURCE DESTINATION [--protocol N] [options]
    tools/nicframe arp SENDER TARGET [--reply] [options]
    tools/nicframe ether --type N [options]

Addresses are IPv4 or IPv6. An IPv6 address with a port is written in brackets: [2001:db8::1]:80. With --length the
packet is filled up to a frame of that many bytes. Otherwise the payload is --payload or empty, and the frame is
zero-padded to 60 bytes.

Each frame is a `data` line, named NAME, or NAME1, NAME2 and so on with --count; the source port of TCP and UDP then
increases by 1 with each frame. With --rss a comment before the line says how receive side scaling hashes the frame, and
which queue in --table receives it. This assumes that MRQC bits 3:0 are 1, that RSSRK contains the --key key, and that
RETA contains the table, repeated to 128 entries.

    tools/nicframe tcp 10.0.0.1:1000 10.0.0.2:80 --rss --table 0,1,2,3
    tools/nicframe udp [2001:db8::1]:53 [2001:db8::2]:53 --tag 7:2 --hex
    tools/nicframe arp 10.0.0.1 10.0.0.2 --pcap who-has.pcap

Status 1: the capture can't be written; 3: the arguments are invalid.
"""

from __future__ import annotations

import argparse
import sys
from collections.abc import Callable
from typing import Any

from .. import frames
from ..frames import LEAST, MOST, Rss, mac
from ..pcap import write_pcap
from .printable import shortened
from .tool import Parser, called, ended, number

MOST_FRAMES = 1024
_ARP = 0x0806


def read_by(read: Callable[[str], Any]) -> Callable[[str], Any]:
    """Wraps a parser so that argparse reports the parser's own message."""

    def value(word: str) -> object:
        try:
            return read(word)
        except ValueError as fault:
            raise argparse.ArgumentTypeError(f"{shortened(word)}: {fault}") from fault

    return value


def ends_of(word: str) -> tuple[str, int]:
    """Parses an address and its port. Raises ValueError."""
    address, colon, port = word.rpartition(":")
    if not colon or not port.isdecimal() or (":" in address) != address.startswith("["):
        raise ValueError(f"{shortened(word)} isn't ADDRESS:PORT, nor [ADDRESS]:PORT for IPv6")
    return address.strip("[]"), int(port)


def ethertype(word: str) -> int:
    """Parses an EtherType such as 0x88b5. Raises ValueError."""
    kind = int(word, 0)
    if not 0 <= kind <= 0xFFFF:
        raise ValueError("a type is 0 to 0xffff")
    return kind


def tag_of(word: str) -> int:
    """Parses a tag: VLAN, or VLAN:PRIORITY."""
    vlan, _, priority = word.partition(":")
    read_vlan, read_priority = number(0, 4095), number(0, 7)
    return read_vlan(vlan) | read_priority(priority or "0") << 13


def table_of(word: str) -> tuple[int, ...]:
    """Parses the entries of a table."""
    return tuple(number(0, 15)(one) for one in word.split(","))


def made(given: argparse.Namespace, place: int) -> bytes:
    """Returns the frame with this index, counted from 0. Raises ValueError for invalid arguments."""
    how = {"tags": given.tag, "to": given.to or frames.TO}
    if given.kind == "ether":
        payload = given.payload if given.payload is not None else bytes(max(0, (given.length or 0) - 14))
        return frames.ethernet(given.type, payload, source=given.source, length=given.length or LEAST, **how)
    first, second = given.ends
    if given.kind == "arp":
        payload = frames.arp(first, second, reply=given.reply, to=given.to, source=given.source)
        to = given.to or (frames.TO if given.reply else b"\xff" * 6)
        return frames.ethernet(_ARP, payload, to=to, source=given.source, tags=given.tag, length=given.length or LEAST)
    more = {"length": given.length, "payload": given.payload, "source_mac": given.source, "protocol": given.protocol}
    if given.kind == "ip":
        return frames.made("ip", first, second, **more, **how)
    (source, port), (destination, to_port) = ends_of(first), ends_of(second)
    return frames.made(given.kind, source, destination, port + place, to_port, **more, **how)


def words_of(rss: Rss, frame: bytes) -> str:
    """Describes what receive side scaling does with a frame."""
    kind = rss.type_of(frame)
    if not kind:
        return "not hashed: queue 0"
    words = kind.name.replace("_IPV", " over IPv") if "_" in kind.name else kind.name.replace("IPV", "IPv")
    found = rss.hash_of(frame)
    return f"{words}, hash 0x{found:08x}: entry {found & 127}, queue {rss.queue_of(frame)}"


def arguments() -> argparse.Namespace:
    how = {"description": called(__doc__ or ""), "formatter_class": argparse.RawDescriptionHelpFormatter}
    parser = Parser(**how)
    add, mac_word, hexadecimal = parser.add_argument, read_by(mac), read_by(bytes.fromhex)
    add("kind", choices=("tcp", "udp", "ip", "arp", "ether"), metavar="KIND", help="tcp, udp, ip, arp or ether")
    add("ends", nargs="*", metavar="ADDRESS", help="two addresses, with ports for tcp and udp")
    add("--to", type=mac_word, metavar="MAC", help="the destination (02:00:00:00:00:01; ARP requests: broadcast)")
    add(
        "--from", dest="source", type=mac_word, default=frames.SOURCE, metavar="MAC",
        help="the source (02:00:00:00:00:02)",
    )  # fmt: skip
    add("--tag", type=tag_of, action="append", default=[], metavar="VLAN[:PRIORITY]", help="VLAN tag; may be repeated")
    add("--type", type=read_by(ethertype), default=0x88B5, metavar="N", help="the EtherType for ether (0x88b5)")
    add("--protocol", type=number(0, 255), default=253, metavar="N", help="the protocol number for ip (253)")
    add("--reply", action="store_true", help="build an ARP reply: SENDER is at the address of --from")
    add("--length", type=number(LEAST, MOST), metavar="N", help=f"the frame's length in bytes, {LEAST} to {MOST:,}")
    add("--payload", type=hexadecimal, metavar="HEX", help="the payload")
    add("--count", type=number(1, MOST_FRAMES), metavar="N", help="number of frames (1)")
    add("--name", default="frame", metavar="NAME", help="the frame's name, with a number if there are several (frame)")
    add("--rss", action="store_true", help="also print each frame's hash, table entry and queue")
    add(
        "--key", type=hexadecimal, default=frames.KEY, metavar="HEX",
        help="RSS key, 80 hex digits (the verification suite's)",
    )  # fmt: skip
    add("--table", type=table_of, default=(0,), metavar="N,N,..", help="the queues in RETA's entries, repeated (0)")
    form = parser.add_mutually_exclusive_group()
    form.add_argument("--hex", action="store_true", help="print only the frames' bytes, in hex")
    form.add_argument("--pcap", metavar="FILE", help="write the frames to FILE, as a capture")
    given = parser.parse_args()
    if len(given.ends) != (0 if given.kind == "ether" else 2):
        parser.error(f"{given.kind} takes {'no address' if given.kind == 'ether' else 'two addresses'}")
    try:
        given.rss_now = Rss(given.key, given.table)
        given.frames = [made(given, place) for place in range(given.count or 1)]
    except ValueError as fault:
        parser.error(str(fault))
    return given


def main() -> int:
    given = arguments()
    for place, frame in enumerate(given.frames, 1):
        if given.rss:
            print(f"# {words_of(given.rss_now, frame)}")
        if not given.pcap:
            name = given.name + (str(place) if given.count else "")
            print(frame.hex() if given.hex else f"data {name} {frame.hex()}")
    if given.pcap:
        try:
            write_pcap(given.pcap, given.frames)
        except OSError as fault:
            print(f"nicframe: {given.pcap}: {fault.strerror}", file=sys.stderr)
            return 1
    return 0


def command() -> int:
    """The `nicframe` command."""
    return ended(main, "nicframe", 1)
