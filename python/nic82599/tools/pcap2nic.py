"""Converts a capture to lines of a register script: a `data` line for each frame, then an `arrive` line for each.

    tools/pcap2nic FILE [--first N] [--count N] [--name NAME] [--step]

FILE is a capture of Ethernet frames as tcpdump, tshark or Wireshark write it: pcapng, or pcap of either byte order with
microseconds or nanoseconds; `-` is standard input. It converts --count frames, starting with frame --first (default 1).
A script can name at most 1,024 frames. The frames are named NAME1, NAME2 and so on (default `frame`). With --step each
`arrive` is followed by `rx`, one receive step.

A script can't contain a frame that was captured in part, is empty, or is longer than 16,384 bytes. Status 1: there is
such a frame, the link type isn't Ethernet, or the file isn't a capture.

    tools/pcap2nic http.pcap --count 20 --step > arrivals.nic
    cat setup.nic arrivals.nic | ./nicbench run
"""

from __future__ import annotations

import argparse
import sys
from collections.abc import Iterable, Iterator

from ..pcap import NoCapture, frames_of
from .tool import add_version, called, ended

LONGEST, MOST = 16384, 1024


def chosen(frames: Iterable[bytes], first: int, count: int | None) -> Iterator[tuple[int, bytes]]:
    """Yields the selected frames with their numbers."""
    for number, frame in enumerate(frames, 1):
        if count is not None and number >= first + count:
            return
        if number >= first:
            if not 0 < len(frame) <= LONGEST:
                raise NoCapture(f"frame {number} is {len(frame)} bytes long, but a script accepts 1 to {LONGEST}")
            yield number, frame


def arguments() -> argparse.Namespace:
    described, form = called(__doc__ or ""), argparse.RawDescriptionHelpFormatter
    parser = argparse.ArgumentParser(prog=called("tools/pcap2nic"), description=described, formatter_class=form)
    parser.add_argument("file", metavar="FILE")
    first = "the number of the first frame to convert (1)"
    parser.add_argument("--first", type=int, default=1, metavar="N", help=first)
    parser.add_argument("--count", type=int, metavar="N", help="the maximum number of frames")
    parser.add_argument("--name", default="frame", metavar="NAME", help="prefix of the frames' names (frame)")
    parser.add_argument("--step", action="store_true", help="add a receive step after each frame")
    add_version(parser, "pcap2nic")
    return parser.parse_args()


def main() -> int:
    given = arguments()
    try:
        source = sys.stdin.buffer if given.file == "-" else open(given.file, "rb")  # noqa: SIM115
        with source as it:
            frames = list(chosen(frames_of(it.read()), given.first, given.count))
        if len(frames) > MOST:
            raise NoCapture(f"{len(frames)} frames, but a script can name at most {MOST}: use --first and --count")
    except (NoCapture, OSError) as fault:
        print(f"pcap2nic: {given.file}: {fault}", file=sys.stderr)
        return 1
    for number, frame in frames:
        print(f"data {given.name}{number} {frame.hex()}")
    for number, _ in frames:
        print(f"arrive {given.name}{number}" + ("\nrx" if given.step else ""))
    return 0


def command() -> int:
    """The `pcap2nic` command."""
    return ended(main, "pcap2nic", 1)
