"""Serves a page that follows a growing file: nicview --live.

The page is served only on 127.0.0.1, to clients that know the address, which contains a token. The page requests a part
of the run after it has drawn the previous one, and server-sent events report when there is more. So no data piles up
for a page that doesn't read.
"""

from __future__ import annotations

import base64
import hashlib
import hmac
import json
import re
import secrets
import signal
import socket
import sys
import threading
import time
from http import HTTPStatus
from http.server import BaseHTTPRequestHandler, ThreadingHTTPServer
from pathlib import PurePath
from typing import Any
from urllib.parse import parse_qs, urlsplit

from . import control, page
from .follow import Following
from .memory import Seen
from .run import Run
from .script import Fault, Refused

ADDRESS = "127.0.0.1"
HOST = re.compile(r"(?:127\.0\.0\.1|localhost)(?::[0-9]{1,5})?", re.ASCII | re.IGNORECASE)
# Seconds between checks of the file; the longest time without an event to an open page; the shortest between two
# events.
PAUSE, SILENCE, BETWEEN = 0.2, 10.0, 0.25
# The maximum number of concurrent connections, and how many seconds each may wait for its peer.
MOST_CONNECTIONS, PATIENCE = 16, 20.0
MOST_ASKED = 200
MOST_EVENT = 15


def no_run(name: str) -> dict[str, Any]:
    """Returns a page's data before there is a step."""
    return page.Data(Run(name, [], [], [], {}, Seen([], [], [], [0], []), [], "", [], 0, 64, [])).whole()


class Live:
    """The followed file, and the part of it that pages receive."""

    def __init__(self, following: Following, controlled: str | None) -> None:
        self.following, self.controlled = following, controlled
        self.lock, self.changed, self.version = threading.Lock(), threading.Condition(), 0
        self.last: tuple[tuple[int, int, str, int | None], bytes] | None = None

    def follow(self) -> None:
        """Polls the file as long as the program runs."""
        while True:
            with self.lock:
                more = self.following.look()
            if more:
                self.tell()
            else:
                time.sleep(PAUSE)

    def tell(self) -> None:
        with self.changed:
            self.version += 1
            self.changed.notify_all()

    def state(self) -> dict[str, Any]:
        state = self.following.state
        return {"number": state.number, "total": state.total, "said": state.said, "guest": self.controlled is not None}

    def wait(self, version: int) -> int:
        """Waits up to SILENCE seconds while the state's version is still this one. Returns the version."""
        with self.changed:
            self.changed.wait_for(lambda: self.version != version, SILENCE)
            return self.version

    def part(self, end: int | None) -> bytes:
        """Returns what a page shows, as JSON."""
        with self.lock:
            state = self.following.state
            if self.last and self.last[0] == (state.number, state.total, state.said, end):
                return self.last[1]
            made, said = None, ""
            try:
                made = self.following.part(end)
            except (Fault, Refused) as fault:
                said = str(fault)
            answer: dict[str, Any] = {**self.state(), "data": None}
            if made:
                answer |= {"data": made.data, "before": made.before, "until": made.until}
            answer["said"] = said or answer["said"]
            text = json.dumps(answer, separators=(",", ":")).encode()
            self.last = (state.number, state.total, state.said, end), text
            return text


class Server(ThreadingHTTPServer):
    """Serves the page to this machine only."""

    daemon_threads = True
    block_on_close = False
    allow_reuse_address = False
    is_over = False

    def __init__(self, live: Live, name: str, foot: str, port: int) -> None:
        self.live, self.token = live, secrets.token_urlsafe(24)
        self.room = threading.BoundedSemaphore(MOST_CONNECTIONS)
        code = page.code_of((*page.SCRIPTS, "nicview_live.js"))
        self.page = page.page(no_run(name), foot, code).encode()
        digest = base64.b64encode(hashlib.sha256(f"\n{code}\n".encode()).digest()).decode()
        self.policy = (
            f"default-src 'none'; script-src 'sha256-{digest}'; style-src 'unsafe-inline'; connect-src 'self'; "
            "img-src data:; base-uri 'none'; form-action 'none'; frame-ancestors 'none'"
        )
        super().__init__((ADDRESS, port), Handler)

    @property
    def url(self) -> str:
        return f"http://{ADDRESS}:{self.server_address[1]}/{self.token}/"

    def end(self, *_: object) -> None:
        """Makes the server stop soon. An exception raised by a signal handler might be lost in one of Python's
        callbacks."""
        self.is_over = True

    def service_actions(self) -> None:
        if self.is_over:
            raise KeyboardInterrupt

    def process_request(self, request: Any, client_address: Any) -> None:
        if not self.room.acquire(blocking=False):
            self.shutdown_request(request)
            return
        try:
            super().process_request(request, client_address)
        except BaseException:
            self.room.release()
            raise

    def process_request_thread(self, request: Any, client_address: Any) -> None:
        try:
            super().process_request_thread(request, client_address)
        finally:
            self.room.release()

    def handle_error(self, request: Any, client_address: Any) -> None:
        """Ignores a page that disconnects or doesn't read."""
        fault = sys.exc_info()[1]
        if not isinstance(fault, OSError):
            super().handle_error(request, client_address)


class Handler(BaseHTTPRequestHandler):
    """Answers a request."""

    server: Server
    timeout = PATIENCE
    server_version, sys_version = "nicview", ""

    def setup(self) -> None:
        super().setup()
        # limits the data that is buffered for a page that doesn't read
        self.connection.setsockopt(socket.SOL_SOCKET, socket.SO_SNDBUF, 1 << 18)

    def log_message(self, format: str, *args: Any) -> None:
        """Logs nothing."""

    def do_GET(self) -> None:
        """Answers with the page, its events, or a part of the run."""
        asked = urlsplit(self.path)
        if (name := self._name(asked.path)) is None:
            return
        if name == "":
            self._send("text/html; charset=utf-8", self.server.page)
        elif name == "events":
            self._events()
        elif name == "part":
            end = parse_qs(asked.query).get("end", [""])[0]
            is_number = end.isascii() and end.isdigit() and len(end) <= MOST_EVENT
            self._send("application/json", self.server.live.part(int(end) if is_number else None))
        else:
            self._refuse(HTTPStatus.NOT_FOUND)

    def do_POST(self) -> None:
        """Passes a request to the guest's card."""
        name, live = self._name(urlsplit(self.path).path), self.server.live
        if name is None:
            return
        length = self.headers.get("Content-Length", "")
        is_short = length.isascii() and length.isdigit() and len(length) < 4 and int(length) <= MOST_ASKED
        if name != "ask" or live.controlled is None or self.headers.get("Content-Type") != "text/plain;charset=UTF-8":
            self._refuse(HTTPStatus.NOT_FOUND)
        elif not is_short:
            self._refuse(HTTPStatus.REQUEST_ENTITY_TOO_LARGE)
        else:
            request = self.rfile.read(int(length)).decode("ascii", "replace")
            try:
                answer = control.asked(live.controlled, request)
            except Fault as fault:
                answer = {"asked": request, "lines": [], "wrong": str(fault)}
            self._send("application/json", json.dumps(answer).encode())

    def _name(self, path: str) -> str | None:
        """Returns what is requested, if that is allowed: the Host header names this machine, no other site's page makes
        the request, and the token is right. Otherwise refuses it and returns None."""
        hosts: list[str] = self.headers.get_all("Host", [])
        is_here = len(hosts) == 1 and HOST.fullmatch(hosts[0])
        origin = self.headers.get("Origin")
        is_own = origin is None or (is_here and origin == f"http://{hosts[0]}")
        if not is_here or not is_own or self.headers.get("Sec-Fetch-Site", "none") not in ("none", "same-origin"):
            self._refuse(HTTPStatus.FORBIDDEN)
            return None
        token, slash, name = path.removeprefix("/").partition("/")
        if not hmac.compare_digest(token.encode("utf-8", "replace"), self.server.token.encode()) or not slash:
            self._refuse(HTTPStatus.NOT_FOUND)
            return None
        return name

    def _refuse(self, status: HTTPStatus) -> None:
        self.send_response(status)
        self._headers("text/plain; charset=utf-8", len(status.phrase) + 1)
        self.wfile.write(f"{status.phrase}\n".encode())

    def _headers(self, kind: str, length: int | None) -> None:
        self.send_header("Content-Type", kind)
        if length is not None:
            self.send_header("Content-Length", str(length))
        for name, value in {
            "Content-Security-Policy": self.server.policy, "Cache-Control": "no-store",
            "X-Content-Type-Options": "nosniff", "Referrer-Policy": "no-referrer", "X-Frame-Options": "DENY",
            "Cross-Origin-Resource-Policy": "same-origin", "Cross-Origin-Opener-Policy": "same-origin",
        }.items():  # fmt: skip
            self.send_header(name, value)
        self.end_headers()

    def _send(self, kind: str, content: bytes) -> None:
        self.send_response(HTTPStatus.OK)
        self._headers(kind, len(content))
        self.wfile.write(content)

    def _events(self) -> None:
        """Sends the file's state whenever it changes, and a comment every SILENCE seconds otherwise."""
        self.send_response(HTTPStatus.OK)
        self._headers("text/event-stream; charset=utf-8", None)
        version, live = -1, self.server.live
        while True:
            now = live.wait(version)
            text = ": still here\n\n" if now == version else f"data: {json.dumps(live.state())}\n\n"
            self.wfile.write(text.encode())
            self.wfile.flush()
            version = now
            time.sleep(BETWEEN)


def serve(following: Following, controlled: str | None, port: int, foot: str) -> int:
    """Serves the page until Ctrl-C, and prints its address. Raises Fault if the port is taken."""
    live = Live(following, controlled)
    try:
        server = Server(live, PurePath(following.path).name, foot, port)
    except OSError as error:
        raise Fault(f"port {port} isn't available ({error.strerror}): choose another one, or omit --port") from None
    threading.Thread(target=live.follow, daemon=True).start()
    if signal.getsignal(signal.SIGINT) is signal.default_int_handler:
        signal.signal(signal.SIGINT, server.end)
    with server:
        print(server.url, flush=True)
        try:
            server.serve_forever(0.2)
        except KeyboardInterrupt:
            print("\nnicview has exited", file=sys.stderr)
    return 0
