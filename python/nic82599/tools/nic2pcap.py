"""Writes frames as a capture that tshark, tcpdump and Wireshark read.

    ./nicbench run < script.nic | tools/nic2pcap OUT.pcap [--queue Q]
    tools/nic2pcap OUT.pcapng RUN [--queue Q] [--limit N]

The first form reads the output of `nicbench run`. It writes the frames that the script collected (the
`frame queue Q HEX` lines) as a pcap. A frame's time is the number of its instruction, in microseconds. Other lines are
ignored.

RUN is a script, or a recording made by the C library (NIC82599_RECORD). Its received and sent frames are written as a
pcapng, including those that were dropped or not collected. A frame's time is its step, in microseconds; its comment
contains the direction, queue, slot, step and line. Without --limit, all steps of a recording or 4,096 steps of a script
are used.

With --queue only the frames of that queue are written. Standard error says how many frames there were. Status 1: a
frame line is malformed, or the file can't be written; 2: the arguments are invalid, or RUN is refused or can't be
read; 4: ./nicbench can't be started or has failed.
"""

from __future__ import annotations

import argparse
import re
import sys
from collections.abc import Iterable, Iterator

from ..pcap import HEADER, Packet, pcapng_of, record_of
from .memory import Frame, look_at_frames
from .printable import shortened
from .recording import trace_of
from .tool import MOST_STEPS, add_version, called, ended, number, sizes
from .trace import Trace

# At most 15 digits of time, in microseconds, and 5 of a queue number.
FRAME = re.compile(r"([0-9]{1,15}) frame queue ([0-9]{1,5}) ([0-9a-f]*)")


class NoFrame(Exception):
    """A line starts like a frame line but is malformed."""


def frames_in(lines: Iterable[str]) -> Iterator[tuple[int, int, bytes]]:
    """Yields each frame's instruction number, queue and bytes."""
    for at, line in enumerate(lines, 1):
        line = line.rstrip("\r\n")
        if re.match(r"\d+ frame ", line):
            found = FRAME.fullmatch(line)
            if not found or len(found[3]) % 2:
                raise NoFrame(f"standard input:{at}: not a frame line: {shortened(line)}")
            yield int(found[1]), int(found[2]), bytes.fromhex(found[3])


def packets_of(run: Trace, queue: int | None) -> tuple[list[Packet], int]:
    """Returns a run's frames in the order of their steps, for one queue or all, and how many have unknown bytes."""
    seen = look_at_frames(run)
    gone = {one: step for step in run.steps for sign, frames in step.waiting if sign == "-" for one in frames}
    found: list[tuple[Frame, bool, str]] = [(frame, False, "out") for frame in seen.sent]
    found += [(frame, True, f"in, {run.steps[frame.step].reply}") for frame in seen.dropped]
    for place, frame in enumerate(seen.arrived):
        step = gone.get(place)
        lost = "" if step is None or step.reply.startswith("wrote") else f", lost at step {step.number}: {step.reply}"
        found.append((frame, True, "in" + lost if step else "in, waiting"))
    packets = []
    for frame, is_inbound, way in sorted(found, key=lambda one: one[0].step):
        if frame.data is None or queue not in (None, frame.queue):
            continue
        where = frame.slots or ([f"queue {frame.queue}"] if frame.queue is not None else [])
        line = run.script.before + run.script.line_of[run.steps[frame.step].pc]
        comment = ", ".join([way, *where, f"step {frame.step}", f"line {line}"])
        packets.append(Packet(frame.step, frame.data, is_inbound, comment))
    return packets, sum(frame.data is None for frame in seen.sent)


def of_run(given: argparse.Namespace) -> int:
    """Writes a run as a pcapng."""
    with trace_of(given.run, given.vfs, given.fifo, given.limit) as run:
        packets, unknown = packets_of(run, given.queue)
        notes = list(run.notes)
    try:
        with open(given.out, "wb") as file:
            file.writelines(pcapng_of(packets, "82599"))
    except OSError as fault:
        print(f"nic2pcap: {fault}", file=sys.stderr)
        return 1
    for note in notes:
        print(f"nic2pcap: note: {note}", file=sys.stderr)
    if unknown:
        print(f"nic2pcap: {unknown} transmitted frames have unknown bytes and are omitted", file=sys.stderr)
    came = sum(packet.is_inbound for packet in packets)
    print(f"nic2pcap: {came} frames in, {len(packets) - came} out", file=sys.stderr)
    return 0


def of_printed(given: argparse.Namespace) -> int:
    """Writes the output of a run as a pcap."""
    try:
        lines = (it.decode("ascii", "replace") for it in sys.stdin.buffer)
        found = [it for it in frames_in(lines) if given.queue in (None, it[1])]
        with open(given.out, "wb") as file:
            file.write(HEADER + b"".join(record_of(number, frame) for number, _, frame in found))
    except (NoFrame, OSError) as fault:
        print(f"nic2pcap: {fault}", file=sys.stderr)
        return 1
    print(f"nic2pcap: {len(found)} frames", file=sys.stderr)
    return 0


def main() -> int:
    described, form = called(__doc__ or ""), argparse.RawDescriptionHelpFormatter
    parser = argparse.ArgumentParser(prog=called("tools/nic2pcap"), description=described, formatter_class=form)
    parser.add_argument("out", metavar="OUT")
    parser.add_argument("run", metavar="RUN", nargs="?")
    parser.add_argument("--queue", type=int, metavar="Q", help="only the frames of this queue")
    parser.add_argument("--limit", type=number(1, MOST_STEPS), metavar="N", help="the maximum number of steps of RUN")
    sizes(parser)
    add_version(parser, "nic2pcap")
    given = parser.parse_args()
    if given.run is None and (given.limit, given.vfs, given.fifo) != (None, None, None):
        parser.error("--limit, --vfs and --fifo need a RUN: a script or a recording")
    return of_printed(given) if given.run is None else of_run(given)


def command() -> int:
    """The `nic2pcap` command."""
    return ended(main, "nic2pcap", 1)
