"""Talks to the control socket of nic82599-vfio-user, for a page that follows a guest: sends the page's requests, and
finds the guest's recording."""

from __future__ import annotations

import contextlib
import os
import re
import socket
import struct
from collections.abc import Iterator
from pathlib import Path

from .printable import shortened
from .script import Fault

# The allowed requests: none of them names a file, sends frames or stores much.
MAY_ASK = re.compile(
    r"hold|go|due|why|counts|rx|int|eestep|link (?:up|down)|tx [0-9]{1,3}|qstep [rt]x [0-9]{1,3}", re.ASCII
)
# Runs the first step that is due, according to the lines of `due`: `tx 0: head 3, tail 5`, `rx: ..`, `int: ..`.
STEP = "step"
DUE = re.compile(r"(tx [0-9]{1,3}|rx|int|eestep):", re.ASCII)
# The timeout in seconds. `why` takes several seconds if all rings are full.
PATIENCE = 30.0
MOST_BYTES, MOST_SHOWN = 1 << 18, 2_000


def is_socket(path: str) -> bool:
    """Returns whether there is a socket at this path."""
    with contextlib.suppress(OSError):
        return Path(path).is_socket()
    return False


@contextlib.contextmanager
def connected(path: str) -> Iterator[socket.socket]:
    """Connects to the server. Raises Fault."""
    if not hasattr(socket, "AF_UNIX"):
        raise Fault(f"{path}: this system doesn't support UNIX sockets")
    with socket.socket(socket.AF_UNIX) as it:
        it.settimeout(PATIENCE)
        try:
            it.connect(path)
        except OSError as error:
            raise Fault(f"no server at {path} ({error.strerror or error})") from None
        yield it


def recording_of(path: str) -> str:
    """Returns the recording that the server at a control socket writes, according to its command line."""
    with connected(path) as it:
        credentials = it.getsockopt(socket.SOL_SOCKET, getattr(socket, "SO_PEERCRED", 17), struct.calcsize("3i"))
    process = Path(f"/proc/{struct.unpack('3i', credentials)[0]}")
    try:
        words = (process / "cmdline").read_bytes().split(b"\0")
        names = [os.fsdecode(word[9:]) for word in words if word.startswith(b"--record=")]
        if names and not os.path.isabs(names[-1]):
            names = [os.path.join(os.readlink(process / "cwd"), names[-1])]
    except OSError:
        names = []
    if not names:
        raise Fault(
            f"can't find the recording of the server at {path}: start it with --record=FILE, "
            f"then: nicview --live FILE --control {path}"
        )
    return names[-1]


def ask(path: str, request: str) -> tuple[list[str], str]:
    """Sends a request. Returns the lines of the reply, and the server's error message, or "" if there is none. Raises
    Fault."""
    with connected(path) as it, it.makefile("rb") as lines:
        return _asked(path, it, lines, request)


def _asked(path: str, it: socket.socket, lines: object, request: str) -> tuple[list[str], str]:
    """Sends a request over a connection."""
    answer: list[str] = []
    room = MOST_BYTES
    try:
        it.sendall(f"{request}\n".encode("ascii"))
        while room > 0:
            raw: bytes = lines.readline(room)  # type: ignore[attr-defined]
            room -= len(raw)
            line = raw.decode("ascii", "replace").rstrip("\n")
            if not raw.endswith(b"\n"):
                break
            if line == "ok":
                return answer, ""
            if line.startswith("error: "):
                return answer, line.removeprefix("error: ")
            answer.append(shortened(line, MOST_SHOWN))
    except OSError as error:
        raise Fault(f"the server at {path} doesn't reply ({error.strerror or error})") from None
    raise Fault(f"the server at {path} closed the connection, or its reply is too long")


def asked(path: str, request: str) -> dict[str, object]:
    """Sends a page's request. Returns the reply as the page expects it: the request, the lines, and the error
    message."""
    if request == STEP:
        due, wrong = ask(path, "due")
        found = next((it[1] for line in due if (it := DUE.match(line))), None)
        if wrong or found is None:
            return {"asked": "due", "lines": due or ["no step is due"], "wrong": wrong}
        request = found
    if not MAY_ASK.fullmatch(request):
        return {"asked": "", "lines": [], "wrong": "a page may not send this request"}
    lines, wrong = ask(path, request)
    return {"asked": request, "lines": lines or ["nothing"] if request in ("due", "why") else lines, "wrong": wrong}
