"""dev/check_views's checks of pages that follow a file (nicview --live). They need the library of `make -C c`."""

from __future__ import annotations

import contextlib
import http.client
import json
import re
import signal
import socket
import subprocess
import sys
import time
from collections.abc import Callable, Iterator
from pathlib import Path
from typing import Any

from browser import Browser
from nic82599 import places
from nic82599.tools import control, follow
from nic82599.tools.page import Data
from nic82599.tools.recording import of_recording
from nic82599.tools.script import Fault
from view_recordings import busy_recording

ROOT = Path(__file__).resolve().parents[1]
Expect = Callable[[bool, str], None]
# Timeout in seconds, on a busy machine, for what otherwise takes a second.
PATIENCE = 120.0
LIMIT = 64
HEAD = b"#: nic vfs 0 fifo 64 blocks 256\n"
TAGS = b"<script>window.hacked = 1</script>"
# A million events, and nicview's memory limit for them.
MANY, MOST_MIB = 1_000_000, 500


def heeding_interrupts() -> None:
    """Lets interrupts end a process. A shell's background job ignores them, and so would everything that it starts."""
    signal.signal(signal.SIGINT, signal.SIG_DFL)


class Served:
    """A running nicview --live."""

    def __init__(self, *words: str | Path) -> None:
        command = [ROOT / "tools/nicview", "--live", "--limit", str(LIMIT), *words]
        how: dict[str, Any] = {"stdout": subprocess.PIPE, "stderr": subprocess.PIPE, "text": True}
        self.process = subprocess.Popen(command, preexec_fn=heeding_interrupts, **how)
        assert self.process.stdout is not None
        self.url = self.process.stdout.readline().strip()
        found = re.fullmatch(r"http://127\.0\.0\.1:(\d+)(/[\w-]{20,}/)", self.url)
        assert found, (self.url, self.process.stderr and self.process.stderr.read())
        self.port, self.base = int(found[1]), found[2]

    def ask(
        self, name: str, method: str = "GET", body: str | None = None, base: str | None = None, **headers: str
    ) -> tuple[int, bytes, Any]:
        """Returns the status, content and headers of a response."""
        with contextlib.closing(http.client.HTTPConnection("127.0.0.1", self.port, timeout=PATIENCE)) as it:
            named = {key.replace("_", "-"): value for key, value in headers.items()}
            if body is not None:
                named.setdefault("Content-Type", "text/plain;charset=UTF-8")
            it.request(method, (self.base if base is None else base) + name, body, named)
            answer = it.getresponse()
            return answer.status, answer.read(), answer.headers

    def part(self, end: int | None = None) -> dict[str, Any]:
        part: dict[str, Any] = json.loads(self.ask("part" if end is None else f"part?end={end}")[1])
        return part

    def until(self, holds: Callable[[dict[str, Any]], bool]) -> dict[str, Any]:
        """Polls until a part satisfies the condition, and returns it; after PATIENCE, returns the last part."""
        began = time.monotonic()
        while not holds(part := self.part()) and time.monotonic() - began < PATIENCE:
            time.sleep(0.1)
        return part

    def peak(self) -> int:
        """Returns its peak memory in MiB."""
        status = Path(f"/proc/{self.process.pid}/status").read_text()
        found = re.search(r"VmHWM:\s*(\d+) kB", status)
        return int(found[1]) >> 10 if found else 0

    def end(self) -> tuple[int, float, str]:
        """Ends it with ctrl-C. Returns its status, the seconds until it ended, and its output."""
        began = time.monotonic()
        self.process.send_signal(signal.SIGINT)
        _, said = self.process.communicate(timeout=PATIENCE)
        return self.process.returncode, time.monotonic() - began, said


@contextlib.contextmanager
def served(*words: str | Path) -> Iterator[Served]:
    it = Served(*words)
    try:
        yield it
    finally:
        if it.process.poll() is None:
            it.end()


def alike(part: dict[str, Any], file: Path, events: int, expect: Expect, what: str) -> None:
    """Checks that a part equals nicview's page for a file that ends at the same event."""
    if not part.get("data"):
        expect(False, f"live, {what}: no part, but the message {part.get('said')!r}")
        return
    want = json.loads(json.dumps(Data(of_recording(str(file), part["until"] - part["before"])).whole()))
    got = part["data"] | {"name": file.name}
    parts = sorted(key for key in want if want[key] != got.get(key))
    said = f"live, {what}: up to event {part['until']} of {events}; parts that differ: {parts}"
    expect(part["until"] == events and not parts, said)


def is_event(line: bytes) -> bool:
    return not line.startswith((b"#", b"data "))


def check_earlier(it: Served, end: int, lines: list[bytes], cut: Path, expect: Expect) -> None:
    """Checks that the part up to an event equals the page of a file that ends at that event."""
    numbers = [number for number, line in enumerate(lines, 1) if is_event(line)]
    cut.write_bytes(b"".join(lines[: numbers[end - 1]]))
    part, want = it.part(end), Data(of_recording(str(cut), LIMIT)).whole()
    same = all(json.loads(json.dumps(want[key])) == part["data"][key] for key in ("steps", "lines", "start"))
    expect(same and part["until"] == end, f"live: the part up to event {end} differs")


def check_growing(folder: Path, expect: Expect) -> None:
    """Follows a file that doesn't exist yet, grows by partial lines, stops in the middle, and is written again from the
    beginning."""
    whole, file = folder / "whole.rec", folder / "live.rec"
    busy_recording(whole, 30)
    lines = whole.read_bytes().splitlines(keepends=True)
    with served(file) as it:
        expect("waiting for" in it.part()["said"], "live: a missing file isn't reported")
        at = 0
        for end in (1, 5, len(lines) // 3, len(lines) // 2, len(lines)):
            head, last = b"".join(lines[at : end - 1]), lines[end - 1]
            with open(file, "ab") as to:
                to.write(head + last[: len(last) // 2])
            time.sleep(0.3)
            with open(file, "ab") as to:
                to.write(last[len(last) // 2 :])
            at = end
            events = sum(map(is_event, lines[:end]))
            part = it.until(lambda it, events=events: it.get("until") == events)  # type: ignore[misc]
            alike(part, file, events, expect, f"{end} lines")
        for end in (events // 2, 70, 3, 1):
            check_earlier(it, end, lines, folder / "cut.rec", expect)
        with open(file, "ab") as to:
            to.write(b"r 0x00008     # wor")
        expect(it.part()["until"] == events, "live: an incomplete line is shown")
        with open(file, "ab") as to:
            to.write(b"d 0x00080000\nr sideways # word 1\nr 0x00008 # word 0x00080000\n")
        part = it.until(lambda it: it["said"] != "")
        expect(f":{len(lines) + 2}: this line of a recording" in part["said"], f"live: a broken line: {part['said']!r}")
        expect(part["until"] == events + 1, f"live: {part['until']} events are shown before it")
        file.write_bytes(b"".join(lines[:40]))
        part = it.until(lambda it: it["number"] > 1 and it.get("until", 0) > 0)
        alike(part, file, sum(map(is_event, lines[:40])), expect, "written again")
        file.unlink()
        said = it.until(lambda it: "any longer" in it["said"])["said"]
        expect("no longer exists" in said, f"live: a removed file: {said!r}")
        status, seconds, said = it.end()
        expect(status == 0 and seconds < 20, f"live: ctrl-C: status {status} after {seconds:.0f} s, {said!r}")


def check_who(folder: Path, expect: Expect) -> None:
    """Checks that requests without the token, for another host's name or from another site are refused, and that
    no response lets other sites read it."""
    file = folder / "live.rec"
    busy_recording(file, 2)
    with served(file) as it:
        own, host = f"http://127.0.0.1:{it.port}", f"127.0.0.1:{it.port}"
        changed = it.base[:-2] + ("A" if it.base[-2] != "A" else "B") + "/"
        rows: list[tuple[int, dict[str, Any]]] = [
            (200, {}), (200, {"Origin": own}), (200, {"Host": f"localhost:{it.port}"}), (403, {"Host": "evil.example"}),
            (403, {"Host": f"127.0.0.1.evil.example:{it.port}"}), (403, {"Host": f"{host}@evil.example"}),
            (403, {"Host": ""}), (403, {"Origin": "http://evil.example"}), (403, {"Origin": "null"}),
            (403, {"Sec_Fetch_Site": "cross-site"}), (403, {"Sec_Fetch_Site": "same-site"}), (404, {"base": "/"}),
            (404, {"base": changed}), (404, {"base": it.base[:-1]}), (404, {"base": "//"}), (404, {"base": "/é/"[:1]}),
        ]  # fmt: skip
        for name in ("", "part", "events"):
            for wanted, how in rows:
                if name != "events" or wanted != 200:
                    status, text, headers = it.ask(name, **how)
                    expect(status == wanted, f"live: {name!r} with {how}: status {status} instead of {wanted}")
                    allowed = [key for key in headers if key.lower().startswith("access-control")]
                    is_closed = not allowed and (status == 200 or len(text) < 100)
                    expect(is_closed, f"live: {name!r} with {how} lets other sites read it")
        for method in ("POST", "PUT", "OPTIONS", "HEAD"):
            expect(it.ask("ask", method, "hold")[0] >= 400, f"live: {method} without a guest isn't refused")
        policy = it.ask("")[2]["Content-Security-Policy"]
        expect("default-src 'none'" in policy and "script-src 'sha256-" in policy, f"live: the policy is {policy!r}")
        with socket.socket() as others:
            others.settimeout(2)
            outside = [it for it in addresses() if not it.startswith("127.")]
            for address in outside:
                expect(others.connect_ex((address, it.port)) != 0, f"live: nicview also listens at {address}")


def addresses() -> list[str]:
    """Returns this machine's addresses."""
    with contextlib.suppress(OSError):
        return [str(it[4][0]) for it in socket.getaddrinfo(socket.gethostname(), None, socket.AF_INET)]
    return []


def check_hostile(folder: Path, expect: Expect) -> None:
    """Tries tags in names and comments, lines that are megabytes long, clients that never read, and more clients than
    allowed."""
    file = folder / "<img src=x onerror=hacked=1>.rec"
    busy_recording(file, 2)
    long = b"r 0x00008 # word 0x00080000  # " + b"x" * 3_000_000 + b"\n"
    with open(file, "ab") as to:
        to.write(b"# note: " + TAGS + b"\nr 0x00008 # word 0x00080000  # " + TAGS + b"\n" + long)
    with served(file) as it:
        part = it.until(lambda it: "until" in it)
        expect(TAGS.decode() in json.dumps(part["data"]["comments"]), "live: the comment isn't shown")
        expect(len(json.dumps(part)) < 1_000_000, "live: a part contains lines of several megabytes")
        page = it.ask("")[1]
        expect(b"<img" not in page and TAGS not in page, "live: a file's name is markup in the page")
        silent = [socket.create_connection(("127.0.0.1", it.port)) for _ in range(40)]
        for number, one in enumerate(silent):
            name = ("events", "part", "")[number % 3]
            whole = f"GET {it.base}{name} HTTP/1.0\r\nHost: 127.0.0.1\r\n\r\n".encode()
            with contextlib.suppress(OSError):
                one.sendall(whole if number % 4 else b"GET ")
        with open(file, "ab") as to:
            to.writelines(long for _ in range(5))
        for one in silent[::2]:
            one.close()
        part = until_served(it)
        expect(part is not None, "live: clients that never read block others")
        for one in silent:
            one.close()
        with open(file, "ab") as to:
            to.writelines(b"x" * 1_000_000 for _ in range(30))
        said = it.until(lambda it: it["said"] != "")["said"]
        expect("recording lines are at most" in said, f"live: an endless line: {said!r}")
        expect(it.peak() < 200, f"live: nicview used {it.peak()} MiB")
        status, seconds, _ = it.end()
        expect(status == 0 and seconds < 20, f"live: ctrl-C: status {status} after {seconds:.0f} s")


def until_served(it: Served) -> dict[str, Any] | None:
    began = time.monotonic()
    while time.monotonic() - began < PATIENCE:
        with contextlib.suppress(OSError, http.client.HTTPException, ValueError):
            return it.part()
        time.sleep(0.2)
    return None


# --- a guest's card ---

# A control socket like the one of nic82599-vfio-user: it replies with these lines, and prints each request.
SERVER = """
import socket, sys
answers = {"hold": "", "due": "tx 3: head 1, tail 4\\n", "tx 3": "3 descriptors\\n", "why": "CTRL.Master 0 <b>\\n",
    "link down": "done\\n"}
server = socket.socket(socket.AF_UNIX)
server.bind(sys.argv[1])
server.listen()
print("ready", flush=True)
while True:
    one, _ = server.accept()
    with one, one.makefile("rw") as lines:
        for line in lines:
            request = line.rstrip("\\n")
            print(request, flush=True)
            lines.write(answers[request] + "ok\\n" if request in answers else "error: unknown request\\n")
            lines.flush()
"""


@contextlib.contextmanager
def card(path: Path, *words: str) -> Iterator[subprocess.Popen[str]]:
    """Starts a card's server with these additional arguments."""
    command = [sys.executable, "-c", SERVER, str(path), *words]
    with subprocess.Popen(command, stdout=subprocess.PIPE, text=True, cwd=path.parent) as it:
        assert it.stdout is not None and it.stdout.readline() == "ready\n"
        try:
            yield it
        finally:
            it.kill()


def check_guest(folder: Path, expect: Expect) -> None:
    """Checks that nicview finds the recording of a guest's card through its control socket, that the page's buttons
    send requests to the card, and that nothing else can be requested."""
    path, file = folder / "control", folder / "card.rec"
    busy_recording(file, 2)
    with card(path, "--record=card.rec") as server, served(path) as it:
        expect(it.until(lambda it: "until" in it)["until"] > 0, "live: the card's recording isn't shown")
        rows = {
            "hold": ("hold", [], ""), "step": ("tx 3", ["3 descriptors"], ""),
            "why": ("why", ["CTRL.Master 0 <b>"], ""),
            "link down": ("link down", ["done"], ""), "rx": ("rx", [], "unknown request"),
            "frames 5 60": ("", [], "a page may not send this request"),
            "hold\ngo": ("", [], "a page may not send this request"),
            "snapshot x": ("", [], "a page may not send this request"),
            "tx ٣": ("", [], "a page may not send this request"),
        }  # fmt: skip
        for request, wanted in rows.items():
            made = json.loads(it.ask("ask", "POST", request.encode().decode("latin-1"))[1])
            got = (made["asked"], made["lines"], made["wrong"])
            expect(got == wanted, f"live: the request {request!r} to the card: {got}")
        expect(it.ask("ask", "POST", "x" * 500)[0] == 413, "live: a long request isn't refused")
        status = it.ask("ask", "POST", "hold", Content_Type="text/html")[0]
        expect(status == 404, f"live: a form's request has status {status}")
        status = it.ask("ask", "POST", "hold", Origin="http://evil.example")[0]
        expect(status == 403, f"live: another site's request has status {status}")
        server.kill()
        assert server.stdout is not None
        asked = server.stdout.read().splitlines()
        expect(asked == ["hold", "due", "tx 3", "why", "link down", "rx"], f"live: the card received {asked}")
        made = json.loads(it.ask("ask", "POST", "hold")[1])
        expect("no server at" in made["wrong"], f"live: after the card exited: {made}")
    path.unlink()
    with card(path):
        try:
            control.recording_of(str(path))
            expect(False, "live: a card that doesn't record isn't refused")
        except Fault as fault:
            expect("--record=FILE" in str(fault), f"live: a card that doesn't record: {fault}")


def check_script(folder: Path, expect: Expect) -> None:
    """Checks that a script is shown again after it is rewritten, and that a refused one is reported."""
    file = folder / "found.nic"
    file.write_text("r STATUS\n")
    with served(file) as it:
        expect(it.until(lambda it: "until" in it)["until"] == 1, "live: a script isn't shown")
        file.write_text("r NOSUCH\n# longer\n")
        part = it.until(lambda it: it["said"] != "")
        expect("UnknownName" in part["said"] and part["data"] is None, f"live: a refused script: {part['said']!r}")
        file.write_text("r STATUS\nr CTRL\n")
        expect(it.until(lambda it: it.get("until") == 2)["until"] == 2, "live: a corrected script isn't shown")


def check_many(folder: Path, expect: Expect, many: int = MANY) -> None:
    """Checks that nicview follows this many events and shows any part of them, in little memory."""
    file = folder / "many.rec"
    busy_recording(file, 20)
    head, *cycle = file.read_bytes().splitlines(keepends=True)
    again = [line for line in cycle if is_event(line) and not line.startswith((b"poke", b"arrive"))]
    with open(file, "ab") as to:
        for _ in range(many // len(again) + 1):
            to.writelines(again)
    with served(file) as it:
        part = it.until(lambda it: it["total"] >= many and it.get("until") == it["total"])
        are_few = len(part["data"]["steps"]) <= LIMIT + 1
        expect(part["total"] >= many and are_few, f"live: {part['total']} of {many} events")
        for end in (many // 2, 1_000, many):
            part = it.part(end)
            expect(part["until"] == end, f"live: the part up to event {end} ends at {part['until']}")
        peak = it.peak()
    expect(peak < MOST_MIB, f"live: {peak} MiB for {many:,} events")
    print(f"live: {many:,} events in {peak} MiB", flush=True)


def check_marks(folder: Path, expect: Expect) -> None:
    """Checks that with few marks, and with dropped snapshots, each part equals the one made from the beginning."""
    file = folder / "marks.rec"
    busy_recording(file, 30)
    lines = file.read_bytes().splitlines(keepends=True)
    at = [number for number, line in enumerate(lines) if is_event(line)]
    for number, text in ((at[150], b"#: drop 1\n"), (at[100], b"#: snapshot 2\n"), (at[40], b"#: snapshot 1\n")):
        lines.insert(number, text)
    file.write_bytes(b"".join(lines))
    follow.APART, follow.ROOM, former = 16, 1 << 20, (follow.APART, follow.ROOM)
    try:
        one = follow.Following(str(file), 20)
        while one.look():
            pass
        for end in (None, 60, 190, 45, 120, 21, None, 170):
            many, few = one.part(end), follow.Following(str(file), 20)
            while few.look():
                pass
            assert many and (made := few.part(many.until))
            same = all(many.data[key] == made.data[key] for key in ("steps", "start", "lines"))
            expect(same or many.before != made.before, f"live: the part up to event {end}, made from marks, differs")
    finally:
        follow.APART, follow.ROOM = former


# --- in a browser ---


class Seen:
    """A live page in a browser."""

    def __init__(self, browser: Browser, it: Served, expect: Expect) -> None:
        self.browser, self.report = browser, expect
        browser.size(1_280, 900, False)
        browser.open(it.url)

    def until(self, what: str, holds: str) -> None:
        began = time.monotonic()
        while not (is_so := self.browser.value(f"typeof live === 'object' && ({holds})")):
            if time.monotonic() - began > PATIENCE:
                break
            time.sleep(0.05)
        shown = "typeof live === 'object' && document.getElementById('events').textContent + JSON.stringify(live)"
        self.report(bool(is_so), f"live page: {what}: {holds} doesn't hold; {self.browser.value(shown)}")

    def click(self, name: str) -> None:
        self.browser.value(f"document.getElementById({name!r}).click(), 0")


def check_following(browser: Browser, folder: Path, expect: Expect) -> None:
    """Checks that steps appear as the file grows, that an earlier step keeps its place, and that earlier parts are
    found again."""
    file = folder / "seen.rec"
    busy_recording(folder / "whole.rec", 60)
    lines = (folder / "whole.rec").read_bytes().splitlines(keepends=True)

    def grow(begin: int, end: int | None) -> int:
        with open(file, "ab") as to:
            to.writelines(lines[begin:end])
        return sum(map(is_event, lines[:end]))

    with served(file) as it:
        seen = Seen(browser, it, expect)
        seen.until("the page waits", "element('notice').textContent.includes('waits for')")
        events = grow(0, 60)
        seen.until("the first steps appear", f"live.until === {events} && position === count && count > 0")
        events = grow(60, 110)
        seen.until("further steps appear", f"live.until === {events} && position === count")
        browser.press("ArrowLeft")
        here = browser.value("position")
        more = grow(110, 150)
        seen.until("the page reports further events", f"live.total === {more} && live.until === {events}")
        expect(browser.value("position") == here, "live page: an earlier step loses its place")
        said = str(browser.value("element('events').textContent"))
        expect(f"{more - events} more since" in said, f"live page: {said!r}")
        seen.click("pause")
        seen.until("the page follows again", f"live.until === {more} && position === count")
        browser.press("p")
        events = grow(150, None)
        seen.until("the page is paused", f"live.total === {events} && live.until === {more} && position === count")
        before = browser.value("live.before")
        seen.click("older")
        seen.until("earlier events are shown", f"live.until === {before} && !live.isLast")
        browser.value("element('past').value = 3, element('past').dispatchEvent(new Event('change')), 0")
        seen.until("the first events are shown", "live.until === 3 && live.before === 0 && count === 3")
        seen.click("pause")
        seen.until("the last events are shown", f"live.until === {events} && position === count")
        check_widths(browser, expect)
        it.end()
        seen.until("the page reports that nicview has exited", "element('notice').textContent.includes('has ended')")
    browser.errors = [it for it in browser.errors if "net::ERR" not in it]
    expect(not browser.errors, f"live page: the browser's console shows {browser.errors}")
    browser.errors.clear()


def check_widths(browser: Browser, expect: Expect) -> None:
    for width, is_dark in ((400, True), (1_280, False), (560, False)):
        browser.size(width, 900, is_dark)
        wide = browser.value("document.documentElement.scrollWidth - document.documentElement.clientWidth")
        expect(wide <= 0, f"live page: it is {wide} pixels wider than a window of {width} pixels")


def check_buttons(browser: Browser, folder: Path, expect: Expect) -> None:
    """Checks the buttons of a guest's card, and hostile strings in a recording and in the card's replies."""
    path, file = folder / "control", folder / "card.rec"
    busy_recording(file, 2)
    with open(file, "ab") as to:
        to.write(b"# note: " + TAGS + b"<img src=x onerror=hacked=1>\nr 0x00008 # word 0x00080000  # " + TAGS + b"\n")
    with card(path, "--record=card.rec"), served(path) as it:
        seen = Seen(browser, it, expect)
        seen.until("the card has buttons", "live.until > 0 && !element('guest').hidden")
        buttons = {"Step": "tx 3\n3 descriptors", "Why": "why\nCTRL.Master 0 <b>", "Link down": "link down"}
        for name, said in buttons.items():
            button = f"[...element('guest').querySelectorAll('button')].find((it) => it.textContent === {name!r})"
            browser.value(f"{button}.click(), 0")
            seen.until(f"the reply to {name} is shown", f"element('said').textContent.includes({json.dumps(said)})")
        seen.until("nothing was injected", "window.hacked === undefined && !document.querySelector('img, main script')")
    browser.errors.clear()


def check_in_browser(browser: Browser, folder: Path, expect: Expect) -> None:
    folder.mkdir()
    check_following(browser, folder, expect)
    check_buttons(browser, folder, expect)
    print("live pages: steps as they arrive, pause, earlier parts, a card's buttons", flush=True)


def check_live(folder: Path, expect: Expect, is_quick: bool) -> None:
    """Runs all checks if the library is built."""
    try:
        places.library()
    except places.Missing as missing:
        print(f"no live page was checked: {missing}")
        return
    parts = [check_growing, check_who, check_hostile, check_guest, check_script, check_marks]
    for part in parts if is_quick else [*parts, check_many]:
        (folder / part.__name__).mkdir(parents=True)
        part(folder / part.__name__, expect)
    print("live pages: a growing file, permitted requests, hostile input, a card, a script, earlier parts", flush=True)
