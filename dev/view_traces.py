"""dev/check_views's checks of captures and traces of runs: nic2pcap and nicview --perfetto."""

from __future__ import annotations

import json
import shutil
import struct
import subprocess
from collections.abc import Callable, Iterator
from pathlib import Path
from typing import Any

import nic82599
from nic82599 import places
from nic82599.pcap import read_pcap
from nic82599.tools import perfetto
from nic82599.tools.run import Run, of_script
from nic82599.tools.script import Bench

ROOT = Path(__file__).resolve().parents[1]
Expect = Callable[[bool, str], None]
IP = bytes.fromhex("0200000000010200000000020800450000280000000040060000420995bba18e64500aea06e6") + bytes(22)
FRAMES = [bytes([2]) + bytes([k]) * size for k, size in enumerate((59, 60, 61, 62))]


def record(file: Path) -> None:
    """Records a program that receives three frames, one of them after a drop, and sends two, of which it collects
    one."""
    nic82599.record(file)
    with nic82599.Nic() as nic:
        nic.lend(0, 1)
        nic.arrive(FRAMES[0])
        nic["RXCTRL"], nic["FCTRL"], nic["DMATXCTL"] = 1, 1 << 9, 1
        for ring, base, control in (("RD", 0, "RXDCTL[1]"), ("TD", 0x80, "TXDCTL[2]")):
            queue = 1 if ring == "RD" else 2
            nic[f"{ring}BAL[{queue}]"], nic[f"{ring}LEN[{queue}]"], nic[control] = base, 128, 1 << 25
            nic.queue_step("rx" if ring == "RD" else "tx", queue)
        nic["MRQC"], nic["SRRCTL[1]"] = 0x30001, 0x02000002
        for k in range(32):
            nic[f"RETA[{k}]"] = 0x01010101
        nic.memory.write(0, struct.pack("<QQ", 0x800, 0))
        nic["RDT[1]"] = 1
        nic.arrive(IP)
        nic.rx_step()
        nic.arrive(FRAMES[2])
        sent = struct.pack("<QQ", 0x800, 60 | 0x2B300000 | 60 << 46)
        nic.memory.write(0x80, sent * 2)
        nic["TDT[2]"] = 2
        for _ in range(2):
            nic.tx_step(2)
        nic.collect()
    nic82599.record(None)


def blocks(data: bytes) -> Iterator[tuple[int, bytes]]:
    """Yields the blocks of a pcapng file with this byte order, as type and body. Each block contains its length at both
    ends."""
    at = 0
    while at < len(data):
        kind, size = struct.unpack_from("<II", data, at)
        assert size % 4 == 0 and struct.unpack_from("<I", data, at + size - 4)[0] == size, "the lengths of a block"
        yield kind, data[at + 8 : at + size - 4]
        at += size


def comments(data: bytes) -> list[tuple[int, int, str]]:
    """Returns the time, the direction and the comment of each frame of a pcapng file."""
    found = []
    for kind, body in blocks(data):
        if kind == 6:
            _, high, low, kept, length = struct.unpack_from("<IIIII", body)
            assert kept == length
            at, options = 20 + (kept + 3) // 4 * 4, {}
            while (option := struct.unpack_from("<HH", body, at))[0]:
                options[option[0]] = body[at + 4 : at + 4 + option[1]]
                at += 4 + (option[1] + 3) // 4 * 4
            assert at + 4 == len(body), "the end of the options"
            found.append((high << 32 | low, int.from_bytes(options[2], "little"), options[1].decode()))
    return found


def run_tool(words: list[object]) -> tuple[int, str]:
    """Returns a tool's status and errors."""
    ran = subprocess.run([*map(str, words)], capture_output=True, text=True, check=False, stdin=subprocess.DEVNULL)
    return ran.returncode, ran.stderr


def check_capture(folder: Path, expect: Expect) -> None:
    """Checks that the pcapng file of a recording contains its frames in the order of their steps, each with its queue
    and step."""
    file, made = folder / "traffic.recording", folder / "traffic.pcapng"
    record(file)
    status, said = run_tool([ROOT / "tools/nic2pcap", made, file])
    expect(status == 0 and said.endswith("nic2pcap: 3 frames in, 2 out\n"), f"nic2pcap: status {status}, {said}")
    sent = IP[:60]
    expect(read_pcap(made) == [FRAMES[0], IP, FRAMES[2], sent, sent], "nic2pcap: the frames differ")
    got, lines = comments(made.read_bytes()), file.read_text().splitlines()
    ways = ["in, dropped off", "in, queue 1 slot 0", "in, waiting, queue 0", "out, queue 2", "out, queue 2"]
    for (time, way, comment), want in zip(got, ways, strict=True):
        line = next(k for k, _ in enumerate(lines, 1) if f"line {k}" == comment.split(", ")[-1])
        is_it = lines[line - 1].startswith("arrive" if way == 1 else "tx 2")
        expect(is_it, f"nic2pcap: {comment} names the line {lines[line - 1]}")
        expect(comment == f"{want}, step {time}, line {line}", f"nic2pcap: {comment}; expected {want}")
        expect(way == (1 if want.startswith("in") else 2), f"nic2pcap: wrong direction: {comment}")
    check_tshark(made, got, expect)
    for words, says in (([made, file, "--queue", 2], "0 frames in, 2 out"), ([made, file, "--limit", 3], "0 in")):
        status, said = run_tool([ROOT / "tools/nic2pcap", *words])
        is_said = says in said or "events precede the first step shown" in said
        expect(status == 0 and is_said, f"nic2pcap {words}: {said}")
    status, said = run_tool([ROOT / "tools/nic2pcap", made, ROOT / "examples/fault.nic"])
    expect(status == 2 and "refused UnknownName 2" in said, f"nic2pcap of a refused script: status {status}, {said}")
    status, said = run_tool([ROOT / "tools/nic2pcap", made, ROOT / "dev/views/found.nic"])
    expect(status == 0 and said == "nic2pcap: 2 frames in, 0 out\n", f"nic2pcap of a script: status {status}, {said}")


def check_tshark(made: Path, got: list[tuple[int, int, str]], expect: Expect) -> None:
    """Checks that tshark reads the same frames, if it is installed."""
    program = shutil.which("tshark")
    if program is None:
        print("tshark isn't installed, so it checked no capture")
        return
    words = [program, "-r", made, "-T", "fields", "-E", "separator=|"]
    for field in ("frame.time_epoch", "frame.packet_flags_direction", "frame.comment", "frame.interface_name"):
        words += ["-e", field]
    read = subprocess.run([*map(str, words)], capture_output=True, text=True, check=False).stdout.splitlines()
    want = [f"{time / 1e6:.9f}|0x{way:08x}|{comment}|82599" for time, way, comment in got]
    expect(read == want, f"tshark reads {read}; expected {want}")


def of_track(events: list[dict[str, Any]], track: int) -> list[dict[str, Any]]:
    return [one for one in events if one["ph"] == "X" and one["tid"] == track]


def check_events(run: Run, expect: Expect) -> dict[str, list[dict[str, Any]]]:
    """Checks that a trace is complete: named tracks with slices that don't overlap, spans that end, and each step in
    its place. Returns its slices by track."""
    events = json.loads(perfetto.trace(run))["traceEvents"]
    names = {one["tid"]: one["args"]["name"] for one in events if one["name"] == "thread_name"}
    expect(len(set(names.values())) == len(names), f"{run.name}: two tracks have the same name: {names}")
    tracks = {name: of_track(events, track) for track, name in names.items()}
    count = sum(one["ph"] == "X" for one in events)
    expect(sum(map(len, tracks.values())) == count, f"{run.name}: a slice is on no track")
    for name, slices in tracks.items():
        ends = [(one["ts"], one["ts"] + one["dur"]) for one in slices]
        expect(all(a[1] <= b[0] for a, b in zip(ends, ends[1:])), f"{run.name}: slices of {name} overlap")
    steps = tracks["all steps"]
    expect([one["ts"] for one in steps] == list(range(len(run.steps))), f"{run.name}: the steps differ")
    shown = [run.shown(step.pc) for step in run.steps]
    expect([one["name"] for one in steps] == shown, f"{run.name}: the names differ")
    others = ("all steps", "messages", perfetto.NAMES[perfetto.TROUBLE])
    of_actors = sorted(one["ts"] for name, slices in tracks.items() if name not in others for one in slices)
    expect(of_actors == list(range(len(run.steps))), f"{run.name}: a step has no actor, or several")
    begun = {(one["cat"], one["id"]): one["ts"] for one in events if one["ph"] == "b"}
    ended = {(one["cat"], one["id"]): one["ts"] for one in events if one["ph"] == "e"}
    expect(begun.keys() == ended.keys() and all(begun[it] < ended[it] for it in begun), f"{run.name}: spans don't end")
    expect(len(begun) == len(run.seen.arrived) + len(run.seen.sent), f"{run.name}: {len(begun)} spans, a wrong number")
    messages = [step.reply.removeprefix("message ") for step in run.steps if step.kind == "message"]
    expect([one["name"] for one in tracks["messages"]] == messages, f"{run.name}: the messages differ")
    return tracks


def check_traces(folder: Path, expect: Expect) -> None:
    """Checks traces, and if the library is built, captures."""
    found = check_events(of_script(Bench(), str(ROOT / "dev/views/found.nic")), expect)
    tasks = {"task poll", "task function", "device", "link", "bring-up"}
    expect(tasks <= found.keys(), f"the trace of an explorer's script has the tracks {list(found)}")
    expect([one["ts"] for one in found["task poll"]][:3] == [9, 10, 11], f"the track of a task: {found['task poll']}")
    eight = check_events(of_script(Bench(), str(ROOT / "dev/views/eight.nic")), expect)
    faults = eight[perfetto.NAMES[perfetto.TROUBLE]]
    fault = next(one for one in faults if one["name"].endswith("fault queue 5 outside"))
    expect("RDT[5] 16 of 16 slots (RDLEN[5] / 16)" in str(fault["args"]["why"]), f"a fault in a trace: {fault}")
    made = folder / "trace.json"
    subprocess.run([ROOT / "tools/nicview", ROOT / "examples/first.nic", "--perfetto", "-o", made], check=False,
                   stderr=subprocess.DEVNULL)  # fmt: skip
    expect(len(json.loads(made.read_text())["traceEvents"]) > 8, "nicview --perfetto: the trace has too few events")
    try:
        places.library()
    except places.Missing as missing:
        print(f"no capture was checked: {missing}")
        return
    check_capture(folder, expect)
