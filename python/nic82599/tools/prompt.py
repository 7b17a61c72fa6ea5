"""The commands of tools/nicdebug: a `nicbench debug` session, one command at a time.

The debugger reads all its commands in one go. So a session stores the commands so far and runs them again before each
new one. They always move the machine to the same position.
"""

from __future__ import annotations

import re
import sys
from collections.abc import Callable

from . import regs
from .draw import State, ring_lines
from .forms import number_of
from .memory import Replay
from .run import Run, of_trace
from .script import Bench, Fault, Refused, Script, of_text
from .trace import Step, Trace, made, trace_of

HELP = """\
step [N], s        N steps forward (1)                  back [N], b        N steps back (1)
continue [N], c    to the next breakpoint, a change of a watched register, or the end; at most N steps
continue fault     the same, but also stops after a fault, a dropped frame or a failed expect; then try `why`
break WHERE        sets a breakpoint: a label, a line as `line 14`, or an instruction's number; clear WHERE removes it
breaks             lists the breakpoints                list [LINE], l     the script around here, or around a line
show TARGET, r     a register: RDT[3], GPRC, 0x01018    watch TARGET       shows it when it changes; unwatch TARGET
showvf N OFFSET    an offset of virtual function N      offsets N          each of its offsets: register, value
peek ADDRESS [N]   N 16-byte units of lent memory       rings              the rings in use
why                why the last step was idle, dropped a frame or faulted
restart            to the start; keeps the breakpoints  where, w           the current position
help, h            these lines                          quit, q            ends the session (also ^D)
An empty line repeats the last `step`, `back` or `continue`."""
SHORT = {
    "s": "step",
    "b": "back",
    "c": "continue",
    "r": "show",
    "p": "show",
    "print": "show",
    "l": "list",
    "w": "where",
}
SHORT |= {"h": "help", "?": "help", "q": "quit", "exit": "quit", "n": "step", "next": "step", "x": "peek"}
MEANINGS = {"NoSuchPc": ": no such instruction, or no breakpoint there", "TooManyBreaks": ": 32 breakpoints are set"}
SHOWN = 12
# The kinds of steps at which `continue fault` stops.
FAULTS = ("fault", "dropped", "failed")


class Wrong(Exception):
    """A command fails; the message is one line that says why."""


def of_bench(bench: Bench, path: str, text: str, limit: int) -> Session:
    """Returns a session for a script."""
    script = of_text(bench, path, text)
    steps, last = made(bench, script, bench.run(text, limit), limit)
    return Session(bench, script, steps, last, limit, lambda: of_trace(trace_of(bench, script, text, limit)))


def of_made(trace: Trace) -> Session:
    """Returns a session for a run that already exists."""
    steps = trace.steps
    return Session(trace.bench, trace.script, steps, trace.last, len(steps), lambda: of_trace(trace), trace)


class Session:
    """The commands so far, and the position that they reach. `whole` returns the run with its rings and reasons.
    `trace` is the run's trace if it already exists."""

    def __init__(
        self, bench: Bench, script: Script, steps: list[Step], last: str, limit: int, whole: Callable[[], Run],
        trace: Trace | None = None,
    ) -> None:  # fmt: skip
        self.bench, self.script, self.steps, self.last, self.limit = bench, script, steps, last, limit
        self.trace = trace or Trace(bench, script, steps, {}, last)
        self.look = whole
        self.numbers = "" if trace else script.text()
        self.commands: list[str] = []
        self.breaks: set[int] = set()
        self.watched: dict[int, int] = {}
        self.at, self.view = 0, f"at 0 pc 0 acc 0x00000000 {'running' if script.instructions else 'ended'}"
        self.whole: Run | None = None

    def ask(self, more: list[str], count: int = 1) -> list[str]:
        """Runs the commands so far and `more`, and returns the last lines that the debugger prints."""
        return self.bench.debug(self.numbers, self.commands + more)[-count:]

    def take(self, command: str) -> str:
        """Runs a debugger command and adds it to the session. Raises Wrong if it is refused."""
        answer = self.ask([command])[0]
        if answer.startswith("refused"):
            raise Wrong(answer + MEANINGS.get(answer.split()[-1], ""))
        self.commands.append(command)
        if answer.startswith("at "):
            self.view, self.at = answer, int(answer.split()[1])
        return answer

    @property
    def pc(self) -> int:
        return int(self.view.split()[3])

    def run(self) -> Run:
        """Returns the whole run with its rings and reasons; computed once."""
        if self.whole is None:
            self.whole = self.look()
        return self.whole


def line_at(session: Session, pc: int) -> str:
    """Returns an instruction as a line of the listing."""
    if pc >= len(session.script.line_of):
        return "the end of the script"
    number = session.script.line_of[pc]
    return f"{session.script.before + number:5}  {session.script.lines[number - 1].strip()[:100]}"


def view_line(session: Session) -> str:
    """Describes the machine's position and the next instruction."""
    status = session.view.split()[-1]
    return (
        f"{session.view}\n{line_at(session, session.pc)}" if status == "running" else f"{session.view}: {session.last}"
    )


def place(session: Session, words: list[str]) -> int:
    """Returns the instruction that the words name: a label, `line N`, or a number."""
    script = session.script
    if len(words) == 2 and words[0] == "line" and (number := number_of(words[1])) is not None:
        found = [pc for pc, line in enumerate(script.line_of) if script.before + line >= number]
        if not found or number < 1:
            raise Wrong(f"no instruction at or after line {number}")
        return found[0]
    if len(words) != 1:
        raise Wrong("break needs a label, `line 14`, or an instruction's number")
    if words[0] in script.labels:
        return script.labels[words[0]]
    if (pc := number_of(words[0])) is not None:
        return pc
    raise Wrong(f"no label {words[0]}; labels: {', '.join(script.labels) or 'none'}; for a line, write `line 14`")


def target(word: str) -> int:
    """Returns the address of a register from its name, or the number itself."""
    if (address := number_of(word)) is not None:
        return address
    found = re.fullmatch(r"(\w+)(?:\[(\w+)\])?", word)
    name, index = (found[1].upper(), number_of(found[2] or "0")) if found else ("", None)
    row = regs.ROWS.get(name)
    if row is None:
        close = ", ".join(regs.near(name, list(regs.ROWS)))
        raise Wrong(f"no register {word}" + (f"; near: {close}" if close else ""))
    if index is None or index >= row.count:
        raise Wrong(f"{name} has {row.count} register{'s' if row.count > 1 else ''}, from [0] to [{row.count - 1}]")
    return regs.first(name, index)


def count_of(words: list[str], default: int) -> int:
    """Returns a number of steps, or the default if none is given."""
    value = number_of(words[0]) if words else default
    if value is None or len(words) > 1:
        raise Wrong("expected a number of steps")
    return value


def word_line(address: int, answer: str) -> str:
    """Formats the debugger's reply to `show`, with the register's name and fields."""
    register, word = regs.register_at(address), answer.split()[1]
    if register is None or word == "stray":
        return answer
    fields = regs.fields_text(register.row, int(word, 16))
    return f"{register.name}  {answer}" + (f"  {fields}" if fields else "")


def moved(session: Session, before: int) -> list[str]:
    """Returns what the steps between two positions did."""
    lines = []
    if session.at > before:
        steps = session.steps[before : session.at]
        earlier = len(steps) - SHOWN
        lines += [f"({earlier} earlier step{'s' if earlier > 1 else ''})"] if earlier > 0 else []
        for step in steps[-SHOWN:]:
            lines.append(f"{line_at(session, step.pc)}    -> {step.answer or 'no event'}")
    lines += watched(session)
    return lines + [view_line(session)]


def watched(session: Session) -> list[str]:
    """Returns the watched registers that changed."""
    lines = []
    words = _words(session, [], list(session.watched))
    for (address, old), new in zip(list(session.watched.items()), words):
        if old != new:
            fields = regs.fields_text(regs.REGISTERS[address].row, new)
            lines.append(f"watch {regs.name_at(address)}: 0x{old:08x} -> 0x{new:08x}  {fields}".rstrip())
            session.watched[address] = new
    return lines


def _words(session: Session, more: list[str], addresses: list[int]) -> list[int]:
    """Returns the values of registers after further commands."""
    shown = session.ask(more + [f"show 0x{address:x}" for address in addresses], len(addresses)) if addresses else []
    return [int(line.split()[1], 16) for line in shown]


def do_step(session: Session, words: list[str]) -> list[str]:
    before = session.at
    session.take(f"step {count_of(words, 1)}")
    return moved(session, before)


def do_back(session: Session, words: list[str]) -> list[str]:
    try:
        session.take(f"back {count_of(words, 1)}")
    except Wrong as wrong:
        raise Wrong(f"{wrong}: only {session.at} steps were taken") from None
    return watched(session) + [view_line(session)]


def do_continue(session: Session, words: list[str]) -> list[str]:
    """Continues to a breakpoint, or to the first fault before it."""
    if words != ["fault"]:
        return _continued(session, count_of(words, session.limit))
    faults = [step.number for step in session.steps[session.at :] if step.kind in FAULTS]
    if faults:
        return _continued(session, faults[0] + 1 - session.at)
    within = f" within {len(session.steps)} steps; raise --limit for more" if session.last.startswith("limit") else ""
    return [f"no fault, dropped frame or failed expect follows{within}"] + _continued(session, session.limit)


def _continued(session: Session, count: int) -> list[str]:
    """Continues to a breakpoint. If registers are watched, checks every step before it."""
    before = session.at
    end = int(session.ask([f"continue {count}"])[0].split()[1])
    addresses = list(session.watched)
    if addresses and end > before:
        each = ["step 1"] + [f"show 0x{address:x}" for address in addresses]
        lines = session.ask(each * (end - before), (end - before) * len(each))
        for k in range(end - before):
            shown = [int(line.split()[1], 16) for line in lines[k * len(each) + 1 : (k + 1) * len(each)]]
            if shown != list(session.watched.values()):
                session.take(f"step {k + 1}")
                return moved(session, before)
    session.take(f"continue {count}")
    return moved(session, before)


def do_break(session: Session, words: list[str]) -> list[str]:
    pc = place(session, words)
    session.take(f"break {pc}")
    session.breaks.add(pc)
    return [f"breakpoint at instruction {pc}", line_at(session, pc)]


def do_clear(session: Session, words: list[str]) -> list[str]:
    pc = place(session, words)
    session.take(f"clear {pc}")
    session.breaks.discard(pc)
    return [f"instruction {pc} no longer has a breakpoint"]


def do_breaks(session: Session, words: list[str]) -> list[str]:
    return [f"{pc:5}: {line_at(session, pc).strip()}" for pc in sorted(session.breaks)] or ["no breakpoint is set"]


def do_list(session: Session, words: list[str]) -> list[str]:
    script = session.script
    here = script.line_of[session.pc] if session.pc < len(script.line_of) else len(script.lines)
    middle = count_of(words, script.before + here) - script.before
    begin = max(0, min(middle - 6, len(script.lines) - 11))
    lines = enumerate(script.lines[begin : begin + 11], begin + 1)
    return [f"{'>' if at == here else ' '}{script.before + at:4}  {line[:110]}" for at, line in lines]


def do_show(session: Session, words: list[str]) -> list[str]:
    if not words:
        raise Wrong("show needs a register or an address")
    addresses = [target(word) for word in words]
    shown = session.ask([f"show 0x{address:x}" for address in addresses], len(addresses))
    return [word_line(address, answer) for address, answer in zip(addresses, shown)]


def do_showvf(session: Session, words: list[str]) -> list[str]:
    numbers = [number_of(word) for word in words]
    if len(numbers) != 2 or None in numbers:
        raise Wrong("showvf needs a function's number and an offset")
    function, offset = int(numbers[0] or 0), int(numbers[1] or 0)
    register = regs.function_register(_queues(session), function, offset)
    answer = session.ask([f"showvf {function} {offset}"])[0]
    name = f"{register.name}  " if register and not answer.endswith("stray") else ""
    return [name + answer]


def _queues(session: Session) -> int:
    """Returns the current number of queues per pool."""
    return regs.queues_of_pool(_words(session, [], [regs.first("GCR_EXT")])[0])


def do_offsets(session: Session, words: list[str]) -> list[str]:
    function, k = count_of(words, 0), _queues(session)
    if function >= session.bench.vfs or not k:
        raise Wrong(
            f"no virtual function {function}: the device has {session.bench.vfs} (--vfs), "
            f"and GCR_EXT.VT_Mode selects {128 // k if k else 'no'} pools"
        )
    named = regs.function_offsets(k, function)
    shown = session.ask([f"showvf {function} {offset}" for offset, _ in named], len(named))
    return [
        f"0x{offset:04x}  {register.name:12} {answer.split()[1]}" for (offset, register), answer in zip(named, shown)
    ]


def do_watch(session: Session, words: list[str]) -> list[str]:
    if not words:
        return [regs.name_at(address) for address in session.watched] or ["no register is watched"]
    for word in words:
        register = regs.register_at(target(word))
        if register is None:
            raise Wrong(f"{word} isn't a register")
        session.watched[register.address] = _words(session, [], [register.address])[0]
    return do_show(session, words)


def do_unwatch(session: Session, words: list[str]) -> list[str]:
    for word in words:
        if session.watched.pop(target(word), None) is None:
            raise Wrong(f"{word} isn't watched")
    return []


def do_peek(session: Session, words: list[str]) -> list[str]:
    numbers = [number_of(word) for word in words]
    if not 1 <= len(numbers) <= 2 or None in numbers:
        raise Wrong("peek needs an address, and may have a count")
    begin, count = int(numbers[0] or 0) & ~15, min(int(numbers[1] or 1) if len(numbers) == 2 else 1, 128)
    addresses = [begin + 16 * k for k in range(count)]
    replay = Replay(session.trace)
    steps = replay.up_to(session.at, count)
    if steps is None:
        raise Wrong("no room for a peek after that many steps: a script has at most 4096 instructions")
    answers = (replay.run(steps, {}, [f"peek 0x{address:x} 0" for address in addresses]) or [[]])[-1]
    return [f"0x{address:05x}  {answer.removeprefix('bytes ')}" for address, answer in zip(addresses, answers)]


def do_rings(session: Session, words: list[str]) -> list[str]:
    run = session.run()
    state = State(run)
    for step in run.steps[: session.at]:
        state.make(step)
    return [line for ring in state.rings() for line in ring_lines(ring, state)] or ["no ring has a length"]


def do_why(session: Session, words: list[str]) -> list[str]:
    if not session.at:
        raise Wrong("no step has been taken yet")
    if session.at > len(session.steps):
        raise Wrong(f"only the first {len(session.steps)} steps can be explained; raise --limit for more")
    step, reasons = session.steps[session.at - 1], session.run().reasons[session.at - 1]
    head = f"{line_at(session, step.pc)}    -> {step.answer or 'no event'}"
    return (
        [head] + [f"  {'*' if one.held else ' '} {one.text}" for one in reasons]
        if reasons
        else [head + ": it did what was requested"]
    )


def do_restart(session: Session, words: list[str]) -> list[str]:
    session.commands = [f"break {pc}" for pc in sorted(session.breaks)]
    session.at, session.view = 0, session.ask(["back 0"])[0]
    return watched(session) + [view_line(session)]


def do_where(session: Session, words: list[str]) -> list[str]:
    return [view_line(session)]


def do_help(session: Session, words: list[str]) -> list[str]:
    return HELP.splitlines()


COMMANDS: dict[str, Callable[[Session, list[str]], list[str]]] = {
    name.removeprefix("do_"): act for name, act in list(globals().items()) if name.startswith("do_")
}


def answer(session: Session, line: str) -> list[str]:
    """Runs a command and returns the lines that it prints. For an invalid command it returns the reason, and changes
    nothing."""
    words = line.split()
    name = SHORT.get(words[0].lower(), words[0].lower())
    begun = [one for one in COMMANDS if one.startswith(name)]
    name = name if name in COMMANDS or len(begun) != 1 else begun[0]
    if name not in COMMANDS:
        close = ", ".join(regs.near(name, [one.upper() for one in COMMANDS])).lower()
        return [f"no command {words[0]}" + (f"; near: {close}" if close else "") + "; help lists them"]
    try:
        return COMMANDS[name](session, words[1:])
    except Wrong as wrong:
        return [str(wrong)]
    except Refused as refused:
        return [f"{refused.name}: the debugger refuses this; help lists the commands"]
    except Fault as fault:
        return [str(fault)]


def completer(names: list[str]) -> Callable[[str, int], str | None]:
    """Completes the last word to one of these names."""

    def complete(text: str, number: int) -> str | None:
        begun = [name for name in names if name.lower().startswith(text.lower())]
        return begun[number] if number < len(begun) else None

    return complete


def prompt(session: Session) -> None:
    """Reads commands until the session ends."""
    import readline

    readline.set_completer(completer([*COMMANDS, "quit", "fault", *regs.ROWS, *session.script.labels]))
    readline.set_completer_delims(" ")
    readline.parse_and_bind("tab: complete")
    is_terminal = sys.stdin.isatty()
    print(f"{session.script.path}: {len(session.script.instructions)} instructions; help lists the commands")
    for note in session.trace.notes:
        print(f"note: {note}")
    print(view_line(session))
    again = ""
    while True:
        try:
            given = input("(nic) ")
            # A terminal echoes what is typed. Commands from a pipe are echoed here, so that the output is readable.
            print(given) if not is_terminal else None
            line = given.split("#")[0].strip() or again
        except EOFError:
            print()
            return
        except KeyboardInterrupt:
            print()
            continue
        if not line:
            continue
        if SHORT.get(line.split()[0].lower(), line.lower()) == "quit":
            return
        name = SHORT.get(line.split()[0].lower(), line.split()[0].lower())
        again = line if name in ("step", "back", "continue") else ""
        print("\n".join(answer(session, line)), flush=True)
