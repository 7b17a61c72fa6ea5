"""Firefox, driven by WebDriver BiDi: JSON messages over a websocket (`--remote-debugging-port`). This module implements
the part of RFC 6455 that a client with unfragmented messages needs."""

from __future__ import annotations

import base64
import json
import os
import shutil
import socket
import subprocess
import tempfile
import time
from pathlib import Path
from typing import Any

from browser import Browser, browser_program

# The seconds that a start may take on a busy machine.
PATIENCE = 300.0
TEXT, CLOSE, PING, PONG, LAST = 0x1, 0x8, 0x9, 0xA, 0x80
MASK = b"mask"
# WebDriver's character codes of keys.
KEYS = {"Tab": "\ue004", "Enter": "\ue006", "Escape": "\ue00c", "PageUp": "\ue00e", "PageDown": "\ue00f"}
KEYS |= {"End": "\ue010", "Home": "\ue011", "ArrowLeft": "\ue012", "ArrowUp": "\ue013", "ArrowRight": "\ue014"}
KEYS |= {"ArrowDown": "\ue015"} | {f"F{number}": chr(0xE030 + number) for number in range(1, 13)}
SETTINGS = {
    # (it downloads nothing except the page, and shows no prompts)
    "app.normandy.enabled": False,
    "app.update.auto": False,
    "browser.safebrowsing.downloads.enabled": False,
    "browser.safebrowsing.malware.enabled": False,
    "browser.safebrowsing.phishing.enabled": False,
    "browser.shell.checkDefaultBrowser": False,
    "datareporting.policy.dataSubmissionEnabled": False,
    "extensions.systemAddon.update.enabled": False,
    "network.captive-portal-service.enabled": False,
    "network.connectivity-service.enabled": False,
    "services.settings.server": "",
}


class WebSocket:
    """The client's end of a websocket."""

    def __init__(self, host: str, port: int, path: str) -> None:
        self.socket = socket.create_connection((host, port))
        self.file = self.socket.makefile("rb")
        key = base64.b64encode(os.urandom(16)).decode()
        head = {"Host": f"{host}:{port}", "Upgrade": "websocket", "Connection": "Upgrade", "Sec-WebSocket-Key": key}
        lines = [f"{name}: {word}" for name, word in head.items()]
        lines = [f"GET {path} HTTP/1.1", *lines, "Sec-WebSocket-Version: 13", "", ""]
        self.socket.sendall("\r\n".join(lines).encode())
        answer = self.file.readline()
        assert b" 101 " in answer, answer
        while self.file.readline().strip():
            pass

    def send(self, data: bytes, kind: int = TEXT) -> None:
        """Sends a message in one frame, masked as a client's frames must be."""
        count = len(data)
        # (the length takes one byte, two more, or eight; bit 7 of the first byte marks a mask)
        length = bytes([count | 0x80]) if count < 126 else b"\xff" + count.to_bytes(8, "big")
        if 126 <= count < 1 << 16:
            length = b"\xfe" + count.to_bytes(2, "big")
        masks = int.from_bytes((MASK * (count // 4 + 1))[:count], "big")
        masked = (int.from_bytes(data, "big") ^ masks).to_bytes(count, "big")
        self.socket.sendall(bytes([LAST | kind]) + length + MASK + masked)

    def receive(self) -> bytes:
        """Returns the next message, from one or more frames."""
        whole = b""
        while True:
            first, count = self._read(2)
            if count >= 126:
                count = int.from_bytes(self._read(2 if count == 126 else 8), "big")
            data, kind = self._read(count), first & 0xF
            if kind == PING:
                self.send(data, PONG)
            elif kind == CLOSE:
                raise ConnectionError("Firefox exited")
            elif kind != PONG:
                whole += data
                if first & LAST:
                    return whole

    def _read(self, count: int) -> bytes:
        data = self.file.read(count)
        if len(data) < count:
            raise ConnectionError("Firefox exited")
        return data


def plain(value: dict[str, Any]) -> Any:
    """Converts a value from the page to Python."""
    inner = value.get("value")
    if value["type"] == "array":
        return [plain(it) for it in inner or []]
    if value["type"] == "object":
        return {key if isinstance(key, str) else plain(key): plain(it) for key, it in inner or []}
    if value["type"] == "number" and isinstance(inner, str):
        return float(inner.replace("Infinity", "inf"))
    return inner


class Firefox(Browser):
    def __init__(self) -> None:
        found = browser_program("firefox")
        assert found is not None
        self.folder = tempfile.mkdtemp()
        lines = [f"user_pref({json.dumps(name)}, {json.dumps(value)});\n" for name, value in SETTINGS.items()]
        Path(self.folder, "user.js").write_text("".join(lines))
        flags = ["--headless", "--no-remote", "--profile", self.folder, "--remote-debugging-port", "0"]
        flags += ["--remote-allow-system-access", "about:blank"]
        # (the browser exits when the check does, however the check exits)
        command = ["setpriv", "--pdeathsig", "TERM", found, *flags]
        self.process = subprocess.Popen(command, stdout=subprocess.DEVNULL, stderr=subprocess.DEVNULL)
        self.count, self.errors = 0, []
        self.socket = WebSocket(*self._place(), "/session")
        self.ask("session.new", {"capabilities": {}})
        self.ask("session.subscribe", {"events": ["log.entryAdded"]})
        self.tab = self._contexts({})[0]
        self.window = self._contexts({"moz:scope": "chrome"})[0]

    def _place(self) -> tuple[str, int]:
        """Waits until Firefox listens, and returns the host and the port."""
        server, began = Path(self.folder, "WebDriverBiDiServer.json"), time.monotonic()
        while time.monotonic() - began < PATIENCE and self.process.poll() is None:
            if server.exists() and (text := server.read_text()).rstrip().endswith("}"):
                it = json.loads(text)
                return it["ws_host"], it["ws_port"]
            time.sleep(0.05)
        raise ConnectionError("Firefox didn't start listening")

    def _contexts(self, words: dict[str, Any]) -> list[str]:
        return [it["context"] for it in self.ask("browsingContext.getTree", {"maxDepth": 0, **words})["contexts"]]

    def ask(self, method: str, words: dict[str, Any]) -> dict[str, Any]:
        """Sends a message and waits for the reply."""
        self.count += 1
        self.socket.send(json.dumps({"id": self.count, "method": method, "params": words}).encode())
        while True:
            answer = json.loads(self.socket.receive())
            if answer.get("method") == "log.entryAdded" and answer["params"]["level"] in ("error", "warn"):
                self.errors.append(answer["params"]["text"])
            if answer.get("id") == self.count:
                assert answer["type"] == "success", answer
                return answer["result"]

    def size(self, width: int, height: int, dark: bool) -> None:
        of = {"viewport": {"width": width, "height": height}, "devicePixelRatio": 1}
        self.ask("browsingContext.setViewport", {"context": self.tab, **of})
        scheme = f"setIntPref('layout.css.prefers-color-scheme.content-override', {0 if dark else 1})"
        self._evaluated(f"Services.prefs.{scheme}, 0", self.window)

    def open(self, url: str) -> None:
        self.ask("browsingContext.navigate", {"context": self.tab, "url": url, "wait": "complete"})

    def _perform(self, kind: str, actions: list[dict[str, Any]]) -> None:
        source = {"type": kind, "id": kind, "actions": actions}
        self.ask("input.performActions", {"context": self.tab, "actions": [source]})

    def press(self, key: str) -> None:
        self._perform("key", [{"type": kind, "value": KEYS.get(key, key)} for kind in ("keyDown", "keyUp")])

    def type(self, text: str) -> None:
        letters = [KEYS["Enter"] if letter == "\n" else letter for letter in text]
        self._perform("key", [{"type": kind, "value": it} for it in letters for kind in ("keyDown", "keyUp")])

    def click(self, x: float, y: float) -> None:
        move = {"type": "pointerMove", "x": round(x), "y": round(y)}
        self._perform("pointer", [move, *({"type": kind, "button": 0} for kind in ("pointerDown", "pointerUp"))])

    def _evaluated(self, expression: str, context: str) -> Any:
        words = {"expression": expression, "target": {"context": context}, "awaitPromise": True}
        answer = self.ask("script.evaluate", words)
        assert answer["type"] == "success", answer["exceptionDetails"]["text"]
        return plain(answer["result"])

    def value(self, expression: str) -> Any:
        return self._evaluated(expression, self.tab)

    def picture(self, path: Path, whole: bool = False) -> None:
        words = {"context": self.tab, "origin": "document" if whole else "viewport"}
        path.write_bytes(base64.b64decode(self.ask("browsingContext.captureScreenshot", words)["data"]))

    def close(self) -> None:
        self.ask("browser.close", {})
        self.process.wait()
        shutil.rmtree(self.folder, ignore_errors=True)
