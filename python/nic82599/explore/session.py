"""Runs a scenario in the engine of c/explore. c/explore/python runs the engine's stacks as threads and calls the
scenario's functions through ctypes.

A process has one open scenario. Each task, handler and timer is a thread that the library created, and only one of them
runs at any time. If the schedule ends during a call, the call raises `Over`, which unwinds the driver's function. A
search runs in its own processes, forked after the device is up.
"""

from __future__ import annotations

import ctypes
import gc
import io
import mmap
import os
import signal
import sys
import threading
import warnings
from collections.abc import Callable, Iterator
from contextlib import contextmanager
from dataclasses import dataclass
from functools import cache
from typing import TYPE_CHECKING, Any

from .. import LibraryMissing, Nic, _Handle, _library, dma, places, stacks
from ..keeping import Lent
from ..sources import Source, put_lines
from ..stacks import BEGIN_THREAD, CALL, LINES, OVER, RAISED, Conditions, Over, calls_of
from .result import OUTCOMES, Result

if TYPE_CHECKING:
    from . import Scenario

MOST_TRACEBACK = 16_384
KINDS = ("", "strong", "weak", "tso")  # enum given_memory
# The functions that the engine calls, in the order of c/explore/python/explore.c.
FUNCTIONS = ("bring_up", "begin", "always", "end", "thread", "condition", "choose", "begin_line", "wait_lines")
ANYWHERE, BESIDE_ALL = -1, -2
MOST_TASKS, MOST_HANDLERS, MOST_FRAMES = 16, 32, 256

_U8, _U16, _U32, _U64, _SIZE = ctypes.c_uint8, ctypes.c_uint16, ctypes.c_uint32, ctypes.c_uint64, ctypes.c_size_t
_AT, _BOOL, _INT, _TEXT = ctypes.c_void_p, ctypes.c_bool, ctypes.c_int, ctypes.c_char_p
_CALLS: dict[str, list[Any]] = {
    "fail": [_U8, _TEXT],
    "lend": [_U32],
    "take": [_U32],
    "settle": [],
    "arm": [_INT],
    "disarm": [_INT],
}
_source = Source(os.path.dirname(__file__) + os.sep, dma.__file__, stacks.__file__)


class _Scenario(ctypes.Structure):
    _fields_ = [
        ("name", _TEXT), ("blocks", _U32), ("points", _U32), ("allowed", _U32), ("memory", _U32), ("fifo", _U16),
        ("queues", _U16), ("vfs", _U8), ("given", _U8), ("has_always", _BOOL), ("call", CALL),
        ("begin_thread", BEGIN_THREAD), ("lines", LINES),
    ]  # fmt: skip


class _Outcome(ctypes.Structure):
    _fields_ = [("outcome", _U8), ("points", _U32), ("switches", _U32), ("words", ctypes.c_char * 256)]


class _Made(ctypes.Structure):
    _fields_ = [("text", _TEXT), ("is_cut", _BOOL), ("result", _Outcome)]


class Found(ctypes.Structure):
    """The result of a search, in memory shared with its process. `traceback` is the traceback of the last exception in
    any process of the search."""

    _fields_ = [
        ("distinct", _U64), ("faults", _U64), ("is_there", _BOOL), ("outcome", _U8), ("words", ctypes.c_char * 256),
        ("where", ctypes.c_char * 80), ("fault", ctypes.c_char * 256), ("never", ctypes.c_char * 16_384),
        ("traceback", ctypes.c_char * MOST_TRACEBACK),
    ]  # fmt: skip

    def text(self, name: str) -> str:
        return _text(getattr(self, name))

    def lines(self) -> list[str]:
        """Returns a line for everything that the scenario names but that never happened."""
        return self.text("never").splitlines()


class Misused(ValueError):
    """The scenario can't be opened, searched or replayed; the message says why."""


def _text(data: bytes) -> str:
    return data.decode("utf-8", "replace")


def _bytes(words: str) -> bytes:
    return words.encode("utf-8", "replace").replace(b"\0", b"?")


class _Engine:
    """The functions of the engine's library and of the controller, by name."""

    def __init__(self) -> None:
        try:
            path = places.engine()
        except places.Missing as missing:
            raise LibraryMissing(str(missing)) from None
        self.device_calls = _library(path)
        self.library = it = ctypes.CDLL(path)
        self.calls = calls_of(it, _CALLS)
        for name, takes, gives in (
            ("nicp_open_scenario", [_AT], _TEXT),
            ("nicp_device", [], _AT),
            ("nicp_task", [_TEXT, _U64, _BOOL], None),
            ("nicp_handler", [_TEXT, _U64, _U16, _U8, _INT], None),
            ("nicp_timer", [_TEXT, _U64, _U32], _INT),
            ("nicp_failed", [_U8, _TEXT], None),
            ("nicp_is_in_thread", [], _BOOL),
            ("nicp_run", [_U32, _AT], _TEXT),
            ("nicp_replay", [_TEXT, _BOOL, _U32, _AT], _TEXT),
            ("nicp_free_text", [_AT], None),
            ("nicp_search", [_INT, _AT, _AT], None),
            ("nicx_frame", [_TEXT, _SIZE], None),
            ("nicx_link_change", [_BOOL], None),
            ("nicx_came", [], _U32),
            ("nicx_arm", [_INT], None),
            ("nicx_actor_name", [_U16, _AT], _TEXT),
            ("nicx_close", [], None),
        ):
            call = getattr(it, name)
            call.argtypes, call.restype = takes, gives
        self.given = CALL(_asked), BEGIN_THREAD(_begin_thread), LINES(_lines)


@cache
def engine() -> _Engine:
    return _Engine()


class Device(Nic):
    """A scenario's controller, which the engine opens and closes."""

    def __init__(self, scenario: Scenario) -> None:
        it = engine()
        self._library = it.device_calls
        self._handle = _Handle.from_address(it.library.nicp_device())
        self._lent = Lent(self._is_closed)
        self._before_lending = scenario._refuse_memory
        self._note_sizes(scenario.vfs, scenario.fifo, scenario.blocks)

    def close(self) -> None:
        """Does nothing: the engine closes the controller."""


# --- callbacks of the engine: no exception leaves them ---

_open: Session | None = None
_turn = threading.RLock()


def _asked(function: int, a: int, b: int, _c: int) -> int:
    session = _open
    if session is None:
        return OVER
    try:
        return session.asked[function](a, b)
    except Over:
        return OVER
    except BaseException as fault:  # noqa: BLE001
        session.raised(FUNCTIONS[function], a, fault)
        return RAISED


def _begin_thread(host: int) -> None:
    sys.settrace(threading.gettrace())
    sys.setprofile(threading.getprofile())
    engine().library.nicp_live(host)


def _lines(place: int, most: int) -> int:
    return put_lines(place, _source.lines_to(sys._getframe()), most)


@dataclass(eq=False)
class Thread:
    """A task, a handler or a timer that `begin` names. `where` is the task that a handler interrupts, None to interrupt
    any task or run concurrently, or "" to run concurrently with all."""

    name: str
    function: Callable[[], object]
    kind: str
    is_service: bool = False
    group: int = 0
    vector: int = 0
    where: str | None = None
    within: int = 0
    number: int | None = None  # a timer's number in the engine
    is_armed: bool = False  # armed in `begin`


class Session:
    """A scenario that is open in the engine, after `bring_up`. The constructor raises what `bring_up` raises."""

    def __init__(self, scenario: Scenario, hang: float, memory: str | None) -> None:
        self.scenario, self.hang = scenario, max(1, int(-(-hang // 1)))
        self.engine = engine()
        self.calls = self.engine.calls
        self.library = self.engine.library
        self.conditions = Conditions()
        self.threads: list[Thread] = []
        self.frames: list[bytes] = []
        self.links: list[bool] = []
        self.locks: set[stacks.Mutex] = set()
        self.maker = threading.get_ident()
        self.running: dict[int, int] = {}  # thread ID -> index in `threads` of the thread that it runs
        self.fault: BaseException | None = None
        self.traceback = ""
        self.shared: Found | None = None
        self.is_up = self.is_bringing_up = self.is_beginning = False
        self.choose: Callable[[list[str]], str | None] = lambda _can: None
        self.asked: list[Callable[[int, int], int]] = [getattr(self, f"_{name}") for name in FUNCTIONS]
        self._names: dict[str, bytes] = {}
        self._open_scenario(memory)

    def _open_scenario(self, memory: str | None) -> None:
        """Opens the scenario. Raises Misused if another one is open."""
        global _open
        it = self.scenario
        it._refuse_wrong()
        device = Device(it)
        given = _Scenario(
            _bytes(it.name), it.blocks, it.points, it._allowed_bits(), it._memory_bits(), it.fifo, it.queues, it.vfs,
            KINDS.index(memory or ""), it._looks_always(), *self.engine.given,
        )  # fmt: skip
        if _open is not None and _open.thread_here():
            raise Misused(f"scenario {it.name} can't be searched within scenario {_open.scenario.name}")
        _turn.acquire()
        if _open is not None:
            _turn.release()
            raise Misused(f"scenario {_open.scenario.name} is still open: close it first")
        _open, it._session = self, self
        it._nic = device
        fault = self.library.nicp_open_scenario(ctypes.byref(given))
        if fault is not None:
            self._leave()
            raise self.fault or Misused(_text(fault))
        self.is_up = True

    def _leave(self) -> None:
        global _open
        _open, self.scenario._session = None, None
        _turn.release()

    def close(self) -> None:
        if _open is self:
            self.library.nicx_close()
            self._leave()

    def __enter__(self) -> Session:
        return self

    def __exit__(self, *_fault: object) -> None:
        self.close()

    def call(self, name: str, *words: object) -> int:
        """Calls a library function for the driver. Raises Over if the schedule is over."""
        answer = self.calls[name](*words)
        if answer == OVER:
            if threading.get_ident() in (self.maker, *self.running):
                raise Over
            raise RuntimeError(f"{name} is called by a thread that isn't a task of scenario {self.scenario.name}")
        return answer

    # --- the engine's calls ---

    def _bring_up(self, _a: int, _b: int) -> int:
        self.is_bringing_up = True
        try:
            self.scenario.bring_up()
        finally:
            self.is_bringing_up = False
        return 0

    def _begin(self, _a: int, _b: int) -> int:
        self.threads, self.frames, self.links = [], [], []
        self.conditions.clear()
        self.locks.clear()
        self.is_beginning = True
        try:
            self.scenario.begin()
        finally:
            self.is_beginning = False
        self._name_all()
        return 0

    def _name(self, name: str) -> bytes:
        """Returns the encoded name, always the same object, because the engine keeps its address."""
        return self._names.setdefault(name, name.encode())

    def _where(self, thread: Thread, tasks: list[str]) -> int:
        """Returns the index of the task that a handler interrupts, ANYWHERE, or BESIDE_ALL."""
        if not thread.where:
            return ANYWHERE if thread.where is None else BESIDE_ALL
        if thread.where not in tasks:
            raise ValueError(f"handler {thread.name} runs on a task that doesn't exist: {thread.where}")
        return tasks.index(thread.where)

    def _name_all(self) -> None:
        """Registers what `begin` named with the engine, tasks first."""
        numbered = list(enumerate(self.threads))
        tasks = [(number, one) for number, one in numbered if one.kind == "task"]
        names = [one.name for _, one in tasks]
        if not tasks:
            raise ValueError("begin creates no task")
        if len(tasks) > MOST_TASKS or len(numbered) - len(tasks) > MOST_HANDLERS or len(self.frames) > MOST_FRAMES:
            most = f"{MOST_TASKS} tasks, {MOST_HANDLERS} handlers or {MOST_FRAMES} frames"
            raise ValueError(f"begin creates more than {most}")
        for number, one in tasks:
            self.library.nicp_task(self._name(one.name), number, one.is_service)
        for number, one in numbered:
            if one.kind == "handler":
                where = self._where(one, names)
                self.library.nicp_handler(self._name(one.name), number, one.group, one.vector, where)
            elif one.kind == "timer":
                one.number = self.library.nicp_timer(self._name(one.name), number, one.within)
        for frame in self.frames:
            self.library.nicx_frame(frame, len(frame))
        for up in self.links:
            self.library.nicx_link_change(up)
        for one in self.threads:
            if one.is_armed:
                self.library.nicx_arm(one.number)

    def _judged(self, words: str | None) -> int:
        if not words:
            return 0
        self.library.nicp_set_words(_bytes(str(words)))
        return 1

    def _always(self, _a: int, _b: int) -> int:
        return self._judged(self.scenario.always())

    def _end(self, _a: int, _b: int) -> int:
        return self._judged(self.scenario.end())

    def _thread(self, number: int, _b: int) -> int:
        self.running[threading.get_ident()] = number
        self.threads[number].function()
        return 0

    def _condition(self, number: int, _b: int) -> int:
        return self.conditions.holds(number)

    def _choose(self, place: int, count: int) -> int:
        room = ctypes.create_string_buffer(96)
        can = [_text(self.library.nicx_actor_name(one, room)) for one in (_U16 * count).from_address(place)]
        name = self.choose(can)
        return count if name is None else can.index(name)

    def _begin_line(self, number: int, place: int) -> int:
        code = getattr(self.threads[number].function, "__code__", None)
        return put_lines(place, [(code.co_filename, code.co_firstlineno)]) if code else 0

    def _wait_lines(self, number: int, place: int) -> int:
        """Writes the source lines where a thread waits forever."""
        frames = sys._current_frames()
        found = [frames[it] for it, runs in self.running.items() if runs == number and it in frames]
        return put_lines(place, _source.lines_to(found[-1])) if found else 0

    def _fails(self, outcome: str, words: str) -> None:
        self.library.nicp_failed(OUTCOMES.index(outcome), _bytes(words))

    def raised(self, function: str, number: int, fault: BaseException) -> None:
        """Turns an exception of a scenario's function into the schedule's failure."""
        self._keep_traceback(fault)
        if not self.is_up or function == "choose" or not isinstance(fault, Exception):
            self.fault = self.fault or fault
        name = self.threads[number].name if function == "thread" else function
        if isinstance(fault, AssertionError) and function in ("thread", "end", "always"):
            outcome = "check" if function == "thread" else function
            self._fails(outcome, str(fault) or f"{name}: an assertion doesn't hold")
        else:
            self._fails("crash", f"{name}: {type(fault).__name__}: {fault}")

    def _keep_traceback(self, fault: BaseException) -> None:
        self.traceback = _source.traceback_of(fault)
        if self.shared is not None:
            self.shared.traceback = _bytes(self.traceback)[-MOST_TRACEBACK + 1 :]

    def came(self) -> int:
        """Returns the number of frames that have arrived so far."""
        return int(self.library.nicx_came())

    def thread_here(self) -> Thread | None:
        """Returns the calling task or handler, or None if the caller is neither."""
        if not self.library.nicp_is_in_thread():
            return None
        return self.threads[self.running[threading.get_ident()]]

    # --- schedules in this process ---

    @contextmanager
    def _made(self) -> Iterator[_Made]:
        made = _Made()
        self.traceback, self.fault = "", None
        try:
            yield made
        finally:
            self.library.nicp_free_text(ctypes.byref(made))

    def _result(self, made: _Made) -> Result:
        if self.fault is not None:
            raise self.fault
        outcome = made.result
        return Result(OUTCOMES[outcome.outcome], _text(outcome.words), traceback=self.traceback)

    def run(self, choose: Callable[[list[str]], str | None]) -> tuple[Result, bool]:
        """Runs a schedule. `choose` picks the next actor by name, or returns None to end it. Returns the result, and
        whether `choose` ended it."""
        self.choose = choose
        with self._made() as made:
            fault = self.library.nicp_run(self.hang, ctypes.byref(made))
            if fault is not None:
                raise MemoryError(_text(fault))
            result = self._result(made)
            result.read_run(_text(made.text or b"").splitlines())
            return result, made.is_cut

    def replay(self, path: str, is_lenient: bool) -> Result:
        """Replays a schedule's file. Raises Misused if it doesn't fit."""
        with self._made() as made:
            fault = self.library.nicp_replay(os.fsencode(path), is_lenient, self.hang, ctypes.byref(made))
            if fault is not None:
                raise Misused(_text(fault))
            result = self._result(made)
            result.read_replay(_text(made.text or b"").splitlines(), path)
            return result

    # --- a search ---

    def _search_here(self, words: list[str], pipe: int) -> None:
        """Runs a search in the forked process and doesn't return. Only the parent process ends it early."""
        try:
            signal.signal(signal.SIGINT, signal.SIG_IGN)
            if isinstance(sys.stdout, io.TextIOWrapper):
                sys.stdout.reconfigure(line_buffering=True)  # the processes exit without flushing
            argv = (_TEXT * (len(words) + 1))(*(os.fsencode(word) for word in words), None)
            gc.freeze()
            self.library.nicp_search(len(words), argv, ctypes.byref(self.shared))
            os.write(pipe, b".")
        finally:
            os._exit(0)

    def search(self, words: list[str]) -> Found:
        """Runs a search with these arguments for nicx_main and returns its result."""
        self.shared = found = Found.from_buffer(mmap.mmap(-1, ctypes.sizeof(Found)))
        reads, writes = os.pipe()
        sys.stdout.flush()
        with warnings.catch_warnings():
            warnings.simplefilter("ignore", DeprecationWarning)  # the child doesn't use the other threads
            process = os.fork()
        if process == 0:
            self._search_here(words, writes)
        os.close(writes)
        is_done = b""
        try:
            is_done = os.read(reads, 1)
        finally:
            os.close(reads)
            if not is_done:
                os.kill(process, signal.SIGKILL)
            _, status = os.waitpid(process, 0)
        if not is_done:
            raise RuntimeError(f"the search process exited with status {os.waitstatus_to_exitcode(status)}")
        if found.fault:
            raise Misused(found.text("fault"))
        return found


