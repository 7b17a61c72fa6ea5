"""Shows a run of a script on the bench: as one page for a browser, as lines of text, or one step of it as a picture.

    tools/nicview SCRIPT -o run.html            a page, which needs no network
    tools/nicview SCRIPT --text                 the same as lines, with the rings drawn in characters
    tools/nicview SCRIPT --svg STEP -o it.svg   a picture of the machine after a step
    tools/nicview SCRIPT --perfetto -o it.json  a trace for Perfetto: steps, their actors, messages, frames
    tools/nicview RECORDING --script            the recording as a script, as far as nicbench can read it
    tools/nicview SCRIPT --test c               the same calls as a test: in C, or in Python (--test python)
    tools/nicview --live FILE                   a page that follows a recording as it grows; prints its address
    tools/nicview --live SOCKET                 the same for a guest's card, through the server's control socket

SCRIPT is a register script, a debugger session (only the part before the `%` line is used), or - for standard input.
It may also be a recording made by the C library (NIC82599_RECORD); its last N events are then replayed on the library
and shown (--limit N).

A page opens at the first step that failed, faulted, dropped a frame or was refused. If there is none, it opens at the
first idle step (for a recording, the last one), otherwise at the first stray access, otherwise at the last step. The
explorer's script of a failure opens at the step that failed. With #152 after the page's name, it opens at step 152.
Steps count from 0. Everything shown for a script comes from ./nicbench.

With --live the page is served until ctrl-C, on 127.0.0.1 only, to clients that know its address. FILE need not exist
yet. A script is shown again when it is rewritten. The last N events of a recording are shown (--limit N, default
1,024), and earlier ones when the page requests them. The page of a guest's card has buttons: hold, step, go, due, why,
link up and link down.

Exit status: 0 the run is shown, or ctrl-C ended --live; 1 it is shown, but the script failed or didn't end within
--limit steps; 2 the script is refused or can't be read; 3 the arguments are invalid; 4 ./nicbench can't be
started or has failed.
"""

from __future__ import annotations

import argparse
import sys
from pathlib import Path

import nic82599

from ..version import VERSION
from . import as_test, control, draw, live, page, perfetto
from .as_script import script
from .follow import Following
from .lines import Source
from .printable import printable
from .recording import is_recording, read, refuse_sizes, run_of
from .run import bench_of
from .script import Bench, Fault, of_text, read_bytes, script_part, text_of
from .tool import MOST_STEPS, Parser, called, ended, limit, limit_of_script, number, sizes

# The default numbers of steps to show. With --live they are redrawn repeatedly.
STEPS, LIVE_STEPS = 4_096, 1_024


def words() -> argparse.Namespace:
    parser = Parser(description=called(__doc__ or ""), formatter_class=argparse.RawDescriptionHelpFormatter)
    parser.add_argument("script", metavar="SCRIPT")
    sizes(parser)
    limit(parser, STEPS, "the maximum number of steps to show")
    parser.add_argument("-o", metavar="FILE", help="the output file (standard output)")
    form = parser.add_mutually_exclusive_group()
    made = "the recording as a script, as far as nicbench can read it"
    form.add_argument("--script", action="store_true", dest="script_of", help=made)
    form.add_argument("--perfetto", action="store_true", help="a trace for Perfetto, in JSON")
    form.add_argument("--text", action="store_true", help="lines of text instead of a page")
    step = number(0, MOST_STEPS)
    form.add_argument("--svg", type=step, metavar="STEP", help="a picture of the machine after this step")
    form.add_argument("--test", choices=("c", "python"), help="a test in C or in Python that makes the same calls")
    form.add_argument("--live", action="store_true", help="a page that follows the file as it grows, until ctrl-C")
    parser.add_argument("--control", metavar="SOCKET", help="with --live: the control socket of the guest's card")
    parser.add_argument("--port", type=number(1, 65_535), metavar="N", help="with --live: the port (any free one)")
    given = parser.parse_args()
    if not given.live and (given.control or given.port):
        parser.error("--control and --port need --live")
    if given.live and (given.o or given.script == "-"):
        parser.error("--live takes a file or a socket and serves a page; don't give -o")
    return given


def write(path: str | None, text: str) -> None:
    """Writes to a file, or to standard output."""
    if path is None:
        sys.stdout.write(text)
        return
    text = printable(text)
    try:
        Path(path).write_text(text)
    except OSError as error:
        raise Fault(f"{path} can't be written ({error.strerror}): give another file with -o") from None
    print(f"{path}: {len(text.encode()):,} bytes", file=sys.stderr)


def as_script(asked: argparse.Namespace) -> int:
    """Writes a recording as a script."""
    source = Source(asked.script)
    if not is_recording(source):
        raise Fault(f"{asked.script} isn't a recording, so --script doesn't apply")
    refuse_sizes(asked.script, asked.vfs, asked.fifo)
    text, ended = script(read(asked.script, source))
    write(asked.o, text)
    if ended:
        print(f"{asked.script}: the script ends at {ended}", file=sys.stderr)
    return 1 if ended else 0


def as_a_test(asked: argparse.Namespace) -> int:
    """Writes a script's run as a test."""
    raw = read_bytes(asked.script)
    text = text_of(asked.script, raw)
    own = bench_of(Bench(asked.vfs, asked.fifo), text)
    part = script_part(text)
    printed = own.run(part, limit_of_script(asked.limit))
    write(asked.o, as_test.written(asked.test, of_text(own, asked.script, part), printed, own))
    return 0 if printed[-1].startswith("ok") else 1


def foot(is_recorded: bool) -> str:
    """Returns the foot of a page. It names what ran the steps: the library for a recording, otherwise `nicbench` with
    its edition."""
    if is_recorded:
        return f"Replies from libnic82599 {nic82599.library_version()}, {nic82599.edition()} edition"
    edition = Bench.edition()
    return "Replies from nicbench" + (f", {edition} edition" if edition else "")


def followed(asked: argparse.Namespace) -> int:
    """Serves a page that follows a file, or the recording of a guest's card."""
    path, controlled = asked.script, asked.control
    if control.is_socket(path):
        path, controlled = control.recording_of(path), path
    asked_for = LIVE_STEPS if asked.limit == STEPS else asked.limit
    following = Following(path, limit_of_script(asked_for), (asked.vfs, asked.fifo))
    return live.serve(following, controlled, asked.port or 0, f"Served by nicview {VERSION}")


def main() -> int:
    asked = words()
    if asked.live:
        return followed(asked)
    if asked.script_of:
        return as_script(asked)
    if asked.test:
        return as_a_test(asked)
    if asked.o is None and asked.svg is None and not asked.text and sys.stdout.isatty():
        raise Fault("can't print a page to the terminal: give a file with -o run.html, or use --text")
    run = run_of(asked.script, asked.vfs, asked.fifo, asked.limit)
    if asked.text:
        write(asked.o, "".join(line + "\n" for line in draw.text(run)))
    elif asked.perfetto:
        write(asked.o, perfetto.trace(run))
    elif asked.svg is not None:
        if asked.svg >= len(run.steps):
            raise Fault(f"no step {asked.svg}: the run has {len(run.steps)} steps, counted from 0")
        write(asked.o, draw.picture(run, asked.svg))
    else:
        write(asked.o, page.page(page.Data(run).whole(), foot(run.is_recorded)))
    return 0 if run.last.startswith("ok") else 1


def command() -> int:
    """The `nicview` command."""
    return ended(main, "nicview")
