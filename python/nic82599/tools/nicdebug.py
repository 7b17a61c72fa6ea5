"""A prompt for `nicbench debug`: runs a script step by step, forwards and backwards, and shows the machine's state.

    tools/nicdebug SCRIPT [--vfs N] [--fifo N]

SCRIPT is a register script, or a debugger session (only the part before the `%` line is used). It may also be a
recording made by the C library (NIC82599_RECORD), of any length; its last N events are then debugged (--limit N).
`help` lists the commands. An invalid command doesn't end the session. If standard input isn't a terminal, each command
is printed after its prompt.

Exit status: 0 the session ended; 2 the script is refused or can't be read; 3 the arguments are invalid; 4 ./nicbench
can't be started or has failed.
"""

from __future__ import annotations

import argparse

from .lines import Source
from .prompt import of_bench, of_made, prompt
from .recording import is_recording, read, refuse_sizes, traced
from .script import Bench, Fault, text_of
from .tool import Parser, called, ended, limit, limit_of_script, sizes


def words() -> argparse.Namespace:
    parser = Parser(description=called(__doc__ or ""), formatter_class=argparse.RawDescriptionHelpFormatter)
    parser.add_argument("script", metavar="SCRIPT")
    sizes(parser)
    limit(parser, 10_000, "the maximum number of steps")
    return parser.parse_args()


def main() -> int:
    asked = words()
    if asked.script == "-":
        raise Fault("the prompt reads standard input, so the script must be a file")
    source = Source(asked.script)
    if not is_recording(source):
        bench, most = Bench(asked.vfs, asked.fifo), limit_of_script(asked.limit)
        prompt(of_bench(bench, asked.script, text_of(asked.script, source.whole()), most))
        return 0
    refuse_sizes(asked.script, asked.vfs, asked.fifo)
    with traced(read(asked.script, source), asked.limit) as made:
        prompt(of_made(made))
    return 0


def command() -> int:
    """The `nicdebug` command."""
    return ended(main, "nicdebug")
