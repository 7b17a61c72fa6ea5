"""A headless browser for checks: it loads a page, presses keys, evaluates expressions and takes screenshots.

Chromium is controlled over two pipes, with JSON messages that end in a zero byte (`--remote-debugging-pipe`). For
Firefox see firefox.py. dev/get_browser finds the browsers.
"""

from __future__ import annotations

import abc
import base64
import json
import os
import shutil
import subprocess
import tempfile
from pathlib import Path
from typing import Any

GET = Path(__file__).resolve().parent / "get_browser"
BROWSERS = {"chromium": "Chromium", "firefox": "Firefox"}
# Windows virtual-key codes of keys that aren't letters.
KEYS = {"Tab": 9, "Enter": 13, "Escape": 27, "PageUp": 33, "PageDown": 34, "End": 35, "Home": 36, "ArrowLeft": 37}
KEYS |= {"ArrowUp": 38, "ArrowRight": 39, "ArrowDown": 40} | {f"F{number}": 111 + number for number in range(1, 13)}
TYPED = {"Enter": "\r"}


def browser_program(name: str = "chromium") -> str | None:
    """Returns the path of a browser that is installed or was fetched, or None."""
    found = subprocess.run([GET, "--there", name], stdout=subprocess.PIPE, text=True, check=False)
    return found.stdout.strip() or None


def fetched(name: str) -> bool:
    """Returns whether a browser is available, fetching it if it isn't installed."""
    return subprocess.run([GET, name], stdout=subprocess.DEVNULL, check=False).returncode == 0


class Browser(abc.ABC):
    """A browser tab. `errors` contains the errors and warnings of its console."""

    errors: list[str]

    @abc.abstractmethod
    def size(self, width: int, height: int, dark: bool) -> None:
        """Sets the window's size, and whether the reader prefers dark pages."""

    @abc.abstractmethod
    def open(self, url: str) -> None:
        """Loads an address and waits until it has loaded."""

    @abc.abstractmethod
    def press(self, key: str) -> None:
        """Presses a key: a letter, or a key's name in JavaScript, such as `ArrowLeft` or `F10`."""

    @abc.abstractmethod
    def click(self, x: float, y: float) -> None:
        """Clicks at a position in the window."""

    @abc.abstractmethod
    def value(self, expression: str) -> Any:
        """Returns the value of an expression in the page, awaiting promises."""

    @abc.abstractmethod
    def picture(self, path: Path, whole: bool = False) -> None:
        """Takes a screenshot of the window, or of the whole page."""

    @abc.abstractmethod
    def close(self) -> None:
        """Closes the browser, and removes its files."""

    def load(self, path: Path, place: str = "") -> None:
        """Loads a page from scratch and waits until it has loaded."""
        for url in ("about:blank", path.resolve().as_uri() + place):
            self.open(url)

    def type(self, text: str) -> None:
        """Types a string letter by letter."""
        for letter in text:
            self.press("Enter" if letter == "\n" else letter)


def new_browser(name: str = "chromium") -> Browser:
    """Starts the browser with this name, which must be available."""
    if name == "chromium":
        return Chromium()
    from firefox import Firefox

    return Firefox()


class Chromium(Browser):
    def __init__(self) -> None:
        found = browser_program()
        assert found is not None
        self.folder = tempfile.mkdtemp()
        read_in, self.write = os.pipe()
        self.read, write_out = os.pipe()
        flags = [
            "--headless=new",
            "--no-sandbox",
            "--disable-gpu",
            "--remote-debugging-pipe",
            f"--user-data-dir={self.folder}",
            "about:blank",
        ]
        # Chromium reads file descriptor 3 and writes to 4. The pipes' own numbers are higher, so neither is
        # overwritten.
        starter = f"exec 3<&{read_in} 4>&{write_out}; exec {found} " + " ".join(flags)
        self.process = subprocess.Popen(
            ["bash", "-c", starter], pass_fds=(read_in, write_out), stdout=subprocess.DEVNULL, stderr=subprocess.DEVNULL
        )
        os.close(read_in)
        os.close(write_out)
        self.rest, self.count, self.loaded = b"", 0, False
        self.errors = []
        target = self.ask("Target.createTarget", {"url": "about:blank"}, "")["targetId"]
        self.session = self.ask("Target.attachToTarget", {"targetId": target, "flatten": True}, "")["sessionId"]
        for domain in ("Page", "Runtime", "Log"):
            self.ask(f"{domain}.enable")

    def ask(self, method: str, words: dict[str, Any] | None = None, session: str | None = None) -> dict[str, Any]:
        """Sends a message and waits for the reply."""
        self.count += 1
        message: dict[str, Any] = {"id": self.count, "method": method, "params": words or {}}
        if (named := self.session if session is None else session) != "":
            message["sessionId"] = named
        os.write(self.write, json.dumps(message).encode() + b"\0")
        while True:
            answer = self._message()
            if answer.get("id") == self.count:
                assert "error" not in answer, answer
                return answer["result"]

    def _message(self) -> dict[str, Any]:
        while b"\0" not in self.rest:
            more = os.read(self.read, 1 << 20)
            assert more, "Chromium exited"
            self.rest += more
        text, _, self.rest = self.rest.partition(b"\0")
        message = json.loads(text)
        method = message.get("method")
        if method == "Page.loadEventFired":
            self.loaded = True
        elif method == "Runtime.exceptionThrown":
            self.errors.append(
                message["params"]["exceptionDetails"].get("exception", {}).get("description", "an exception")
            )
        elif method == "Log.entryAdded" and message["params"]["entry"]["level"] in ("error", "warning"):
            self.errors.append(message["params"]["entry"]["text"])
        return message

    def size(self, width: int, height: int, dark: bool) -> None:
        self.ask(
            "Emulation.setDeviceMetricsOverride",
            {"width": width, "height": height, "deviceScaleFactor": 1, "mobile": False},
        )
        scheme = {"name": "prefers-color-scheme", "value": "dark" if dark else "light"}
        self.ask("Emulation.setEmulatedMedia", {"features": [scheme]})

    def open(self, url: str) -> None:
        self.loaded = False
        self.ask("Page.navigate", {"url": url})
        while not self.loaded:
            self._message()

    def press(self, key: str) -> None:
        code, text = KEYS.get(key, ord(key[0].upper())), TYPED.get(key, key if len(key) == 1 else "")
        words = {"key": key, "windowsVirtualKeyCode": code}
        self.ask("Input.dispatchKeyEvent", {"type": "keyDown", **words} | ({"text": text} if text else {}))
        self.ask("Input.dispatchKeyEvent", {"type": "keyUp", **words})

    def click(self, x: float, y: float) -> None:
        for kind in ("mousePressed", "mouseReleased"):
            place = {"type": kind, "x": x, "y": y, "button": "left", "clickCount": 1}
            self.ask("Input.dispatchMouseEvent", place)

    def value(self, expression: str) -> Any:
        answer = self.ask("Runtime.evaluate", {"expression": expression, "returnByValue": True, "awaitPromise": True})
        assert "exceptionDetails" not in answer, answer
        return answer["result"].get("value")

    def picture(self, path: Path, whole: bool = False) -> None:
        answer = self.ask("Page.captureScreenshot", {"format": "png", "captureBeyondViewport": whole})
        path.write_bytes(base64.b64decode(answer["data"]))

    def close(self) -> None:
        self.ask("Browser.close", session="")
        self.process.wait()
        shutil.rmtree(self.folder, ignore_errors=True)
