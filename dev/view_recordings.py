"""dev/check_views's checks of recordings in the views. They need the library of `make -C c`."""

from __future__ import annotations

import random
import subprocess
import tracemalloc
from collections.abc import Callable, Iterator
from contextlib import contextmanager
from pathlib import Path

import nic82599
from nic82599 import places
from nic82599.tools import as_script, perfetto
from nic82599.tools.advice import Advice
from nic82599.tools.draw import State, ring_lines
from nic82599.tools.library import Place, played
from nic82599.tools.lines import Source
from nic82599.tools.page import Data
from nic82599.tools.recording import Player, cut, in_place, of_recording, read
from nic82599.tools.regs import REGISTERS
from nic82599.tools.run import Run, of_script
from nic82599.tools.script import Bench, Fault, Op, Refused, load
from nic82599.tools.trace import Step
from view_inputs import ENDS

ROOT = Path(__file__).resolve().parents[1]
MOST_OF_A_LINE = 60
Expect = Callable[[bool, str], None]
HEAD = "#: nic vfs 0 fifo 64 blocks 256\n"
# Lines to insert into a tampered recording; one of them is the first line of a recording.
STRANGE = [
    "lend 99999999999", "lend -1", "#: lend 0 to 4000000000 # done", "#: lend 2 to 5 # done", "lend 3 to 9", "unlend 2",
    "#: restore 1", "#: restore 0", "#: drop 1", "#: snapshot 7", "#: image 00", "#: text zz", "#: ", "jmp x", "x:",
    "halt", "and 5", "int 300", "int 62", "tx 70000", "tx 200", "qstep rx 128", "vr 63 0", "vr 300 0", "r 0x100000000",
    "r -1", "data d0", "data d0 0", "poke 0x100000000 d0", "poke 8 d1", "peek 0x10 9", "peek -1 0", "link sideways",
    "arrive d1", "collect", "w 0 0x04000000", "w 0x0", "#: nic vfs 1 fifo 1 blocks 1", "", "   ", "\t# only this",
    "#: in place", "#: in place 0 to 65535", "#: in place 5 to x", "r 0x00008 # word 0x00080000  # STATUS # more",
]  # fmt: skip
HOSTILE = ["#: snapshot 1", "#: lend 0 to 7 # done", "data d1 00  #: no bytes", "arrive d1 # dropped off", ""]
# Files that can't be drawn, and the message for each, with status 2.
REFUSED = {
    "#: nic vfs 0": "incomplete first line",
    HEAD + "w RXCTRL\n": ":2: this line of a recording",
    HEAD + "poke 0x00000 d0 # done\n": ":2: this line of a recording",
    HEAD + "#: restore 3\n": ":2: this line of a recording can't be replayed",
    HEAD + "#: restore 0\nrx # idle\n": "it restores a snapshot that isn't in this recording",
    HEAD + "lend 1 # done\xfc\n": "isn't ASCII at byte 45",
}


def of_library(script: Path, vfs: int | None, folder: Path) -> Path:
    """Returns a script that can run on the library. Lines with misaligned addresses are omitted, because the library
    accepts every address."""
    read = load(Bench(vfs), str(script))
    ones = zip(read.line_of, read.instructions, strict=True)
    left_out = {line for line, one in ones if one.op in (Op.PEEK, Op.POKE) and one.a % 16}
    if not left_out:
        return script
    made = folder / script.name
    made.write_text("".join(f"{line}\n" for number, line in enumerate(read.lines, 1) if number not in left_out))
    return made


@contextmanager
def recorded(file: Path, vfs: int = 0, blocks: int = 256) -> Iterator[nic82599.Nic]:
    """Opens a controller whose events are recorded in a file."""
    nic82599.record(file)
    with nic82599.Nic(vfs, blocks=blocks) as nic:
        yield nic
    nic82599.record(None)


def record(script: Path, vfs: int | None, recording: Path) -> None:
    """Runs a script without jumps on the library, and records its events."""
    read = load(Bench(vfs), str(script))
    with recorded(recording, vfs or 0) as nic:
        for one in read.instructions:
            if not one.is_local:
                played(nic, one, read.data)


def facts(step: Step) -> list[object]:
    """Returns a step's contents in a view, without its number."""
    return [step.reply, step.changes, step.memory, step.written, step.lent, step.waiting, step.out, step.ring]


def events(run: Run) -> list[Step]:
    """Returns the steps of a run that access the device."""
    return [step for step in run.steps if step.reply]


def in_rows(run: Run, count: Callable[[Step], int]) -> list[Step]:
    """Returns the events of a run with consecutive lends of blocks merged, as in a recording; `count` returns how many
    blocks a step lends."""
    steps, made = iter(events(run)), []
    while (step := next(steps, None)) is not None:
        for _ in range(count(step) - 1):
            more = next(steps)
            step = Step(more.number, more.pc, more.reply, memory=step.memory + more.memory, lent=step.lent + more.lent)
        if len(step.lent) > 1:
            step.lent = [("+", step.lent[0][1], step.lent[-1][2])]
        made.append(step)
    return made


def compare(script: Path, vfs: int | None, recording: Path, expect: Expect) -> None:
    """Checks that a whole recording shows the same steps as the script."""
    want, got = of_script(Bench(vfs), str(script)), of_recording(str(recording))
    name = script.name
    expect(not got.notes, f"{name}, recorded: {got.notes}")
    sizes = iter([end - begin + 1 for step in events(got) for _, begin, end in step.lent[:1] or [("", 0, 0)]])
    pairs = list(zip(in_rows(want, lambda _: next(sizes)), events(got), strict=True))
    for left, right in pairs:
        same = facts(left) == facts(right)
        expect(same, f"{name}, recorded: step {right.number}: {facts(right)}; expected {facts(left)}")
        is_same = want.reasons[left.number] == got.reasons[right.number]
        expect(is_same, f"{name}, recorded: step {right.number} has different reasons")
    for mine, others in ((want.seen.arrived, got.seen.arrived), (want.seen.sent, got.seen.sent)):
        same = [(one.data, one.queue, one.rss) for one in mine] == [(one.data, one.queue, one.rss) for one in others]
        expect(same, f"{name}, recorded: the frames differ")


def last(run: Run) -> tuple[dict[int, int], dict[int, bytes | None]]:
    """Returns the registers and the memory after the last step, as far as they are known."""
    words, memory = dict(run.start), {}
    for step in run.steps:
        words.update({address: new for address, _, new in step.changes})
        memory.update(step.memory)
    return words, memory


def kept(run: Run, step: Step, sides: list[tuple[str, int]]) -> list[object]:
    """Returns what a page of a recording's last events must show for a step: the same as the whole recording, with the
    ring if it is in use. The ring is omitted if it belongs to the first waiting frame, which may have arrived
    earlier."""
    is_of_front = run.shown(step.pc) == "rx" and not step.reply.startswith(("wrote", "fault"))
    ring = None if is_of_front or step.ring not in sides else step.ring
    return [step.reply, step.changes, sorted(step.written), ring]


def compare_end(name: str, recording: Path, whole: Run, limit: int, expect: Expect) -> None:
    """Checks that the last events of a recording look the same as in the whole recording."""
    part = of_recording(str(recording), limit)
    where = f"{name}, the last {limit} events"
    expect(len(part.steps) == limit + 1, f"{where}: {len(part.steps)} steps")
    for left, right in zip(whole.steps[-limit:], part.steps[1:], strict=True):
        want, got = (kept(run, step, part.seen.sides) for run, step in ((whole, left), (part, right)))
        expect(got == want, f"{where}: step {right.number}: {got}; expected {want}")
    compare_waiting(where, whole, part, expect)
    (words, memory), (part_words, part_memory) = last(whole), last(part)
    for address, word in part_words.items():
        expect(words.get(address, REGISTERS[address].row.reset) == word, f"{where}: 0x{address:x} reads 0x{word:x}")
    for unit, content in part_memory.items():
        expect(memory.get(unit, content) == content, f"{where}: the bytes at 0x{unit:x} differ")
    sent = [frame.data for frame in part.seen.sent]
    ends = [frame.data for frame in whole.seen.sent[len(whole.seen.sent) - len(sent) :]]
    expect(sent == ends, f"{where}: the sent frames differ")


def compare_waiting(where: str, whole: Run, part: Run, expect: Expect) -> None:
    """Checks that the frames that arrive among a recording's last events wait as in the whole recording."""
    came, count = len(whole.seen.arrived) - len(part.seen.arrived), len(part.steps) - 1
    want, got = whole.seen.arrived[came:], part.seen.arrived
    waiting = [[(frame.queue, frame.rss, frame.slots) for frame in frames] for frames in (want, got)]
    expect(waiting[0] == waiting[1], f"{where}: frames {waiting[1]}; expected {waiting[0]}")
    for left, right in zip(whole.steps[-count:], part.steps[1:], strict=True):
        here = [(sign, [one - came for one in frames if one >= came]) for sign, frames in left.waiting]
        here = [(sign, frames) for sign, frames in here if frames]
        expect(here == right.waiting, f"{where}: step {right.number}: {right.waiting}; expected {here}")
        none = ["no frame is waiting" in str(run.reasons[step.number]) for run, step in ((whole, left), (part, right))]
        expect(none[0] == none[1], f"{where}: step {right.number}: {part.reasons[right.number]}")
        expect(right.ring in (None, left.ring), f"{where}: step {right.number}: {right.ring}; expected {left.ring}")


def check_ends(folder: Path, expect: Expect) -> None:
    """Checks pages that show the last events of a recording, if these depend on earlier events."""
    for name, (vfs, text) in ENDS.items():
        script, recording = folder / name, folder / f"{name}.recording"
        script.write_text(text)
        record(script, vfs, recording)
        whole = of_recording(str(recording))
        for limit in range(1, 13 if name == "waits.nic" else 5):
            compare_end(name, recording, whole, limit, expect)


def check_refused(folder: Path, expect: Expect) -> None:
    """Checks that a file that can't be drawn is reported in one line, with status 2."""
    for text, part in REFUSED.items():
        file = folder / "bad.recording"
        file.write_text(text, encoding="latin-1")
        ran = subprocess.run([ROOT / "tools/nicview", file, "--text"], capture_output=True, text=True, check=False)
        is_right = ran.returncode == 2 and part in ran.stderr and ran.stderr.count("\n") == 1
        expect(is_right, f"a recording {text!r}: status {ran.returncode}, {ran.stderr[-300:]}")
    file.write_text(HEAD + "lend 0 # done\npeek 0x00001 0 # misaligned\ndata d0 00\npoke 0x00008 d0 # misaligned\n")
    run = of_recording(str(file))
    is_right = not run.notes and [step.reply for step in run.steps] == ["done", "misaligned", "misaligned"]
    expect(is_right, f"a recording with addresses that aren't multiples of 16: {run.notes}, {events(run)}")
    file.write_text(HEAD + "lend 1   # done\nlend 2")
    words = [ROOT / "tools/nicview", file, "--text"]
    ran = subprocess.run(words, capture_output=True, text=True, check=False)
    expect(ran.returncode == 0 and "ok 1" in ran.stdout, f"a recording whose last line is cut: {ran.stderr}")
    ran = subprocess.run([*words, "--vfs", "1"], capture_output=True, text=True, check=False)
    expect(ran.returncode == 2 and "omit --vfs and --fifo" in ran.stderr, f"--vfs of a recording: {ran.stderr}")


def check_restored(folder: Path, expect: Expect) -> None:
    """Checks that after a snapshot is restored, the steps start again from its state."""
    file = folder / "restored.recording"
    with recorded(file) as nic:
        nic["RXCTRL"] = 1
        with nic.snapshot() as kept:
            nic["RXCTRL"] = 0
            nic.restore(kept)
            nic.arrive(bytes([2]) + bytes(59))
    run = of_recording(str(file))
    expect([step.reply for step in run.steps[1:]] == ["dropped filter"], f"a restored snapshot: {run.steps}")
    expect(last(run)[0].get(0x3000) == 1, "a restored snapshot: RXCTRL differs from the snapshot")


def run_tool(words: list[object], text: str = "") -> tuple[int, str, str]:
    """Returns a tool's status, output and errors."""
    called = [str(ROOT / "tools" / str(words[0])), *map(str, words[1:])]
    ran = subprocess.run(called, input=text, capture_output=True, text=True, check=False)
    return ran.returncode, ran.stdout, ran.stderr


def check_tool(words: list[object], text: str, status: int, parts: list[str], expect: Expect) -> None:
    """Checks that a tool exits with this status, and prints these parts."""
    ended, out, errors = run_tool(words, text)
    for part in parts:
        is_right = ended == status and part in out + errors
        expect(is_right, f"{words}: status {ended}, no {part!r} in {(out + errors)[-400:]}")


def check_long(folder: Path, expect: Expect) -> None:
    """Checks that all tools accept a recording that is longer than a script may be, and show its last events."""
    file = folder / "long.recording"
    with recorded(file) as nic:
        nic["RXCTRL"], nic["FCTRL"] = 1, 1 << 9
        for _ in range(6_000):
            nic.read32(0x04074)
        nic.write32(0x10140, 1)
        nic.arrive(bytes([2]) + bytes(59))
        nic.rx_step()
    lines = len(file.read_text().splitlines())
    check_tool(["niclint", file], "", 1, [f"{file}:{lines - 3}: warning: 0x10140 is SWSM"], expect)
    dropped = f"{file}:{lines}: step 3: rx -> dropped queue off: RXDCTL[0].ENABLE 0: the queue is off"
    parts = [dropped, "6,002 events precede the first step shown", "ok 4"]
    check_tool(["niclint", file, "--trace", "--limit", 3], "", 1, parts, expect)
    check_tool(["niclint", file, "--vfs", "1"], "", 2, ["omit --vfs and --fifo"], expect)
    lint = run_tool(["niclint", "-", "--trace"], file.read_text())[1]
    is_said = "6,004" not in lint and "1,909 events precede the first step shown" in lint
    expect(is_said, f"niclint of standard input: {lint[-300:]}")
    for limit, count in ((None, "6005"), (5, "6")):
        words = ["nicdebug", file, *(["--limit", limit] if limit else [])]
        shown = [f"at {count} pc {count} acc 0x00000000 ended: ok {count}", "GPRC  0x04074 0x00000001"]
        shown += ["RXDCTL[0].ENABLE 0", f"{lines - 2}  data d0 02"]
        check_tool(words, "c\nshow GPRC\nwhy\nb 3\nlist\nrings\nq\n", 0, shown, expect)
    check_tool(["nicview", file, "--text", "--limit", 2], "", 0, [f"line {lines - 1}: arrive d0"], expect)
    check_tool(["nicview", "-", "--text", "--limit", 2], file.read_text(), 0, [f"line {lines - 1}: arrive d0"], expect)
    check_tool(["nicview", ROOT / "examples/first.nic", "--limit", 100_001], "", 3, ["100000 steps"], expect)


def busy_recording(file: Path, rounds: int) -> None:
    """Writes a recording in which all lines have different bytes: five events per round, two of them with data."""
    with recorded(file) as nic:
        nic.lend(0)
        for number in range(rounds):
            nic.memory.write(0, number.to_bytes(16, "little"))
            nic.memory.read(0, 16)
            nic.arrive(number.to_bytes(60, "little"))
            nic.write32(0x00888, number % 256)
            nic.read32(0x04074)


def peak_of(file: Path) -> tuple[int, int]:
    """Returns the peak number of bytes in Python objects while a recording is read, viewed, and rebuilt up to its last
    event. Also returns the number of lines."""
    tracemalloc.start()
    made = read(str(file), Source(str(file)))
    Advice(made.script()).all()
    cut(made, 1)
    player = Player(made)
    with player.nic:
        player.play()
    peak = tracemalloc.get_traced_memory()[1]
    tracemalloc.stop()
    return peak, len(made.lines)


def check_memory(folder: Path, expect: Expect) -> None:
    """Checks that each line of a longer recording takes a few bytes instead of its text: ten million lines fit in 1
    GB."""
    file = folder / "busy.recording"
    peaks = []
    for rounds in (1_000, 4_000):
        busy_recording(file, rounds)
        peaks.append(peak_of(file))
    (few, lines), (many, more) = peaks
    a_line = (many - few) / (more - lines)
    expect(a_line < MOST_OF_A_LINE, f"a recording takes {a_line:.0f} bytes per line: {peaks}")


def check_lent(folder: Path, expect: Expect) -> None:
    """Checks that consecutive lends of blocks are one line and one step, and that a script has a line for each block
    that it can name."""
    file, made = folder / "lent.recording", folder / "lent.nic"
    with recorded(file, blocks=600) as nic:
        for block in range(8):
            nic.lend(block)
        nic.lend()
        nic.memory.write(0x8000, b"x" * 16)
        nic.take(3)
        nic.memory.read(600 * 2_048 - 16, 16)
    text = file.read_text()
    expect("#: lend 0 to 599             # done\n" in text, f"600 blocks are lent as {text[:400]}")
    run = of_recording(str(file))
    expect([step.lent for step in run.steps[:3]] == [[("+", 0, 599)], [], [("-", 3, 3)]], "600 blocks: wrong lends")
    expect(run.shown(0) == "lend 0 to 599", f"600 blocks are shown as {run.shown(0)}")
    part = of_recording(str(file), 1)
    expect(part.steps[0].lent == [("+", 0, 2), ("+", 4, 599)], f"600 blocks, at the end: {part.steps[0].lent}")
    ended = "the script ends at line 7 of the recording: nicbench prints `not lent`"
    check_tool(["nicview", file, "--script", "-o", made], "", 1, [ended], expect)
    text = made.read_text()
    is_marked = "# omitted: lend 256 to 599" in text and "# CUT: line 7" in text
    expect(is_marked, "600 blocks: the script doesn't mark what it omits")
    answers = Bench().run(text, 4_096)
    expect([line.split(" ", 1)[1] for line in answers[-4:]] == ["done", "done", "taken 3", "258"], f"{answers[-4:]}")
    check_tool(["niclint", made], "", 0, ["258 instructions, no warnings"], expect)
    for line in ("#: lend 5 to 4", "#: lend 0 to 65536", "#: lend 0 to 4000000000", "#: lend 1 to", "#: lend x"):
        file.write_text(HEAD + line + " # done\n")
        check_tool(["nicview", file, "--text"], "", 2, [":2: this line of a recording"], expect)


def check_no_bytes(folder: Path, expect: Expect) -> None:
    """Checks that a script represents an empty frame as one byte, and that the tools show it as empty."""
    file = folder / "empty.recording"
    with recorded(file) as nic:
        nic.link(True)
        nic["RXCTRL"] = 1
        nic.arrive(b"")
        nic.arrive(bytes([2]) + bytes(59))
    text = file.read_text()
    answers = [line.split(" ", 1)[1] for line in Bench().run(text, 100)]
    expect(answers[-3:] == ["dropped short", "dropped filter", "4"], f"a frame without bytes has the replies {answers}")
    run = of_recording(str(file))
    is_right = not run.notes and "the frame is 0 bytes long; the minimum is 60" in str(run.reasons)
    expect(is_right, f"a frame without bytes: {run.notes}, {run.reasons}")
    check_tool(["nicview", file, "--script"], "", 0, ["data d0 00  #: no bytes\n"], expect)
    check_tool(["nicdebug", file], "s 3\nwhy\n", 0, ["the frame is 0 bytes long"], expect)


def check_notes(folder: Path, expect: Expect) -> None:
    """Checks that a program's notes appear next to its events: in the page, in a part of the page, and in the trace."""
    file = folder / "notes.rec"
    with recorded(file) as nic:
        nic.lend(1)
        nic.note("guest: the ring of rx 0 is at 0x12340000, 8 slots")
        nic.write32(0x01000, 0x800)
        nic.note("first")
        nic.note("second \u00fc")
        nic.write32(0x01008, 0x100)
    for limit in (4_096, 1):
        run = of_recording(str(file), limit)
        said = [run.comment(step.pc) for step in run.steps]
        ring = "guest: the ring of rx 0 is at 0x12340000, 8 slots"
        wanted = ["", ring] if limit > 1 else [f"after the 2 earlier events; {ring}"]
        wanted.append("first; second ??")
        expect(said == wanted, f"the notes of the last {limit} events are {said}")
        expect(Data(run).whole()["comments"] == said, "the page has different notes")
        expect('"note":"first; second ??"' in perfetto.trace(run), "the trace doesn't contain the note")


def check_names(folder: Path, expect: Expect) -> None:
    """Checks that a recording, the views and a script contain the addresses used, with the names of their registers."""
    file = folder / "names.rec"
    with recorded(file, 1) as nic:
        nic.write32(0x010D8, 1)
        nic.write32(0x02100, 0x402)
        nic.read32(0x0000C)
        nic.vf(0).read32(0x0108)
        nic.write32(0x11050, 3)
        nic.vf(0).write32(0x1058, 1)
    lines = [" ".join(line.split()) for line in file.read_text().splitlines()[2:]]
    wanted = [
        "w 0x010d8 0x00000001 # done # RDT[3]", "w 0x02100 0x00000402 # done # SRRCTL[0]",
        "r 0x0000c # stray 0x00000000", "vr 0 0x0108 # stray 0xffffffff # VTEIMS",
        "w 0x11050 0x00000003 # done # GCR_EXT", "vw 0 0x1058 0x00000001 # done # VFRDT[1]",
    ]  # fmt: skip
    expect(lines == wanted, f"a recording's names: {lines}")
    run = of_recording(str(file))
    shown = [(run.shown(step.pc), run.comment(step.pc)) for step in run.steps]
    wanted = [
        ("w RDT[3] 0x00000001", ""), ("w 0x02100 0x00000402", "SRRCTL[0]"), ("r 0x0000c", ""),
        ("vr 0 0x0108", "VTEIMS"), ("w GCR_EXT 0x00000003", ""), ("vw 0 0x1058 0x00000001", "VFRDT[1]"),
    ]  # fmt: skip
    expect(shown == wanted and not run.notes, f"the names that a page shows: {shown}, {run.notes}")
    script = as_script.script(read(str(file), file.read_bytes()))[0]
    lines = [" ".join(line.split()) for line in script.splitlines()[2:]]
    expect(lines[0] == "w RDT[3] 0x00000001 # done" and lines[1].endswith("# SRRCTL[0]"), f"a script's names: {lines}")


def check_history(folder: Path, expect: Expect) -> None:
    """Checks that the script made from a recording with snapshots contains the events that lead to its end, and ends
    before an installed image."""
    file = folder / "history.recording"
    with recorded(file) as nic:
        nic["RXCTRL"] = 1
        with nic.snapshot() as first_one:
            nic["FCTRL"] = 1 << 9
            with nic.snapshot() as second:
                nic["RXCTRL"] = 0
                nic.restore(first_one)
                nic["FCTRL"] = 1 << 8
                nic.restore(second)
                nic.arrive(bytes([2]) + bytes(59))
    status, out, _ = run_tool(["nicview", file, "--script"])
    kept = [line.split("#")[0].split()[0:3:2] for line in out.splitlines() if line.startswith(("w", "arrive"))]
    is_it = status == 0 and kept == [["w", "0x00000001"], ["w", "0x00000200"], ["arrive"]]
    expect(is_it, f"a script of snapshots: status {status}, {out}")
    file.write_text(file.read_text() + "#: text 73697a652036340a\nr 0x10010 # word 0x00000300\n")
    check_tool(["nicview", file, "--script"], "", 1, ["can't install an EEPROM image"], expect)
    check_tool(["nicview", ROOT / "examples/first.nic", "--script"], "", 2, ["isn't a recording"], expect)


def in_place_recording(folder: Path) -> Path | None:
    """Records a ring in memory lent in place: the driver received three frames, and its last event returned slots 7, 0
    and 1 to the device. Returns None if there is no library."""
    file, memory = folder / "in_place.recording", bytearray(16 * 2_048)

    def give(*slots: int) -> None:
        for slot in slots:
            memory[16 * slot : 16 * slot + 16] = (0x800 * (slot + 1)).to_bytes(16, "little")

    try:
        with recorded(file, blocks=16) as nic:
            nic.memory.lend(0, memory)
            nic["RXCTRL"], nic["FCTRL"] = 1, 1 << 9
            nic["RDLEN[0]"], nic["SRRCTL[0]"], nic["RXDCTL[0]"] = 128, 0x0200_0002, 1 << 25
            give(*range(7))
            nic["RDT[0]"] = 7
            nic.settle(1)
            for _ in range(3):
                nic.arrive(bytes([2]) + bytes(59))
            nic.settle(1)
            give(7, 0, 1)
            nic["RDT[0]"] = 2
    except places.Missing:
        return None
    return file


def check_in_place(folder: Path, expect: Expect) -> None:
    """Checks that the views show what the device read and wrote in memory lent in place, and that the rest is
    unknown."""
    file = in_place_recording(folder)
    expect("#: in place 0 to 15\n" in Path(str(file)).read_text(), "a recording doesn't mark memory in place")
    waits = ["read format"] * 4 + ["not read"]
    for limit in (4_096, 2):
        run = of_recording(str(file), limit)
        state, forms = State(run), []
        for step in run.steps:
            state.make(step)
            ring = next(iter(state.rings()), None)
            forms.append([state.said(ring, slot).form for slot in range(8)] if ring and ring.slots else [])
        expect(forms[-2] == ["written back"] * 3 + waits, f"{limit} events in place: before the tail {forms[-2]}")
        expect(forms[-1] == ["not read"] * 2 + ["written back", *waits], f"{limit} events in place: {forms[-1]}")
        strip = ring_lines(next(iter(state.rings())), state)[2].strip()
        expect(strip == "dd+DDDDd", f"{limit} events in place: the strip is {strip}")
    one = folder / "one_block.recording"
    with recorded(one, blocks=16) as nic:
        nic.memory.lend(0x2800, bytearray(2_048))
    blocks = in_place(read(str(one), one.read_bytes()))
    expect(blocks == {5}, f"a range of one block in place is {blocks}")
    check_tool(["nicview", one, "--text"], "", 0, ["lend 5"], expect)
    file = folder / "bad.recording"
    file.write_text(HEAD + "#: in place 5 to 4\nrx # idle\n")
    check_tool(["nicview", file, "--text"], "", 2, [":2: this line of a recording"], expect)


def cut_recording(folder: Path) -> Path | None:
    """Records a cause's vector and a queue's cause that are set up long before the last events. Returns None if
    there is no library."""
    file = folder / "cut.recording"
    try:
        with recorded(file) as nic:
            nic["GPIE"], nic["IVAR_MISC"], nic["IVAR[1]"], nic["EIMS"] = 0x10, 0x8200, 0x83, 1 << 20
            nic["RDLEN[2]"] = 128
            for _ in range(5):
                nic.read32(0x00008)
            nic.link(False)
            nic.int_step()
    except places.Missing:
        return None
    return file


def check_cut(folder: Path, expect: Expect) -> None:
    """Checks that a page of a recording's last events starts with the routes, vectors and interrupt groups as they
    were."""
    run = of_recording(str(cut_recording(folder)), 2)
    data = Data(run).whole()
    routes, vectors = data["routes"]
    texts = [data["texts"][number] for number in routes]
    expect(texts == ["rx 2 raises cause 3 of pf (IVAR[1] INT_Alloc[0])"], f"a cut recording: routes {texts}")
    expect(vectors == [2, None], f"a cut recording: vectors {vectors}")
    expect([group["name"] for group in data["groups"]] == ["pf"], "a cut recording: no group of interrupts")
    expect(run.steps[-1].reply == "message pf vector 2", f"a cut recording: {run.steps[-1]}")
    quiet = Data(of_recording(str(folder / "cut.recording"), 1)).whole()
    expect(len(quiet["groups"]) == 1, "a cut recording in which no group changes: no group of interrupts")


def check_opening(folder: Path, expect: Expect) -> None:
    """Checks where a page opens: at the first step in trouble; otherwise at an idle step, which is the first for a
    script and the last for a recording; otherwise at the first access to a register that doesn't exist."""
    file = folder / "idle.recording"
    for steps, script_at, recorded_at in (
        ("r STATUS\nrx\nr STATUS\nint pf\nr STATUS", 1, 3),
        ("r 0x10140\nrx\nr STATUS\nint pf\nr STATUS", 1, 3),
        ("r 0x10140\nrx\nr STATUS\nint pf\npeek 0x0 1", 4, 4),
        ("r STATUS\nr 0x10140\nr STATUS\nr 0x10140\nr STATUS", 1, 1),
    ):
        (folder / "idle.nic").write_text(f"{steps}\nr STATUS\n")
        record(folder / "idle.nic", None, file)
        places_of = of_script(Bench(), str(folder / "idle.nic")).opening, of_recording(str(file)).opening
        expect(places_of == (script_at, recorded_at), f"with {steps.split()} the pages open at {places_of}")
def check_place(script: Path, vfs: int | None, chance: random.Random, expect: Expect) -> None:
    """Checks that the debugger's replies for a recording equal the replies of nicbench's debugger for its script."""
    bench = Bench(vfs)
    read = load(bench, str(script))
    count, commands = len(read.instructions), []
    addresses = [one.a for one in read.instructions if one.op in (Op.READ, Op.WRITE)] or [0]
    for _ in range(120):
        word = chance.choice(["step", "back", "continue", "break", "clear", "show", "show", "showvf"])
        number = chance.choice(addresses) if word == "show" else chance.randint(0, count // 2)
        offset = f"showvf {chance.randint(0, 2)} {4 * chance.randint(0, 80)}"
        commands.append(offset if word == "showvf" else f"{word} {number}")
    want = bench.debug(read.text(), commands)
    with nic82599.Nic(vfs or 0) as nic:
        kept = nic.snapshot()
        replies = [played(nic, one, read.data) for one in read.instructions]
        got = Place(nic, kept, read, replies).answers(commands)
    odd = [one for one in zip(commands, want, got, strict=True) if one[1] != one[2]]
    expect(not odd, f"{script.name}, debugged: {odd[:3]}")


def mutated(lines: list[str], chance: random.Random) -> bytes:
    """Returns a recording with some lines removed, moved, changed, or inserted from elsewhere."""
    made = list(lines)
    for _ in range(chance.randint(1, 4)):
        at, way = chance.randrange(1, len(made)), chance.randint(0, 3)
        line = made[at]
        if way == 0:
            made[at] = chance.choice(STRANGE)
        elif way == 1:
            made.insert(chance.randrange(1, len(made)), made.pop(at))
        elif way == 2 and line:
            place = chance.randrange(len(line))
            made[at] = line[:place] + chance.choice("0x9 #:-_\u00fc") + line[place + chance.randint(0, 3) :]
        else:
            made.insert(at, chance.choice(STRANGE))
    return "\n".join(made).encode("latin-1")


def check_hostile(folder: Path, chance: random.Random, expect: Expect) -> None:
    """Checks that a tampered recording is shown or reported in one line, and crashes no tool."""
    file = cut_recording(folder)
    assert file is not None
    lines = [*file.read_text().split("\n"), *HOSTILE]
    for _ in range(60):
        raw = mutated(lines, chance)
        try:
            made = read("changed", raw)
            Advice(made.script()).all()
            run = of_recording("changed", chance.choice((3, 4_096)), raw)
            Data(run).whole()
            perfetto.trace(run)
            as_script.script(made) if chance.randrange(8) == 0 else None
        except (Fault, Refused):
            continue
        except Exception as fault:  # noqa: BLE001
            expect(False, f"a changed recording raises {fault!r}: {raw!r}")


def check_recordings(scripts: dict[Path, int | None], folder: Path, seed: int, expect: Expect) -> None:
    """Checks recordings of scripts without jumps, if the library is built."""
    try:
        places.library()
    except places.Missing as missing:
        print(f"no recording was checked: {missing}")
        return
    chance = random.Random(seed)
    for script, vfs in scripts.items():
        recording = folder / f"{script.stem}.recording"
        if load(Bench(vfs), str(script)).has_jumps:
            continue
        script = of_library(script, vfs, folder)
        if not any(one.is_local for one in load(Bench(vfs), str(script)).instructions):
            check_place(script, vfs, chance, expect)
        record(script, vfs, recording)
        compare(script, vfs, recording, expect)
        whole = of_recording(str(recording))
        count = len(whole.steps)
        for limit in {chance.randint(1, count - 1), count // 2} if count > 2 else ():
            compare_end(script.name, recording, whole, limit, expect)
    check_ends(folder, expect)
    check_refused(folder, expect)
    check_restored(folder, expect)
    checks = check_long, check_lent, check_no_bytes, check_notes, check_names, check_history, check_cut, check_opening
    checks += (check_in_place, check_memory)
    for check in checks:
        check(folder, expect)
    check_hostile(folder, chance, expect)
    print(f"{len(scripts)} scripts, recorded, with seed {seed}")
