"""Drives the bench's page in a headless browser, for dev/check_web."""

from __future__ import annotations

import base64
import contextlib
import json
import re
import time
import zlib
from collections.abc import Callable, Iterator
from pathlib import Path
from typing import Any

import browser

# Timeout in seconds, on a busy machine, for what otherwise takes a second.
PATIENCE = 300
BATCH = 50
WIDTHS = (400, 560, 800, 1001, 1280, 1600)
TABS = ("work", "lessons", "packets", "hash", "eeprom", "objects")
HOSTILE = """# </script><script>window.hacked = 1</script>
# <img src=x onerror=window.hacked=1>
r STATUS # <b onclick='x'>
"""
# Matches browsers' reports of accesses that the page's policy blocks.
POLICY = re.compile("Content.Security.Policy")
# Elements that have no name for a screen reader.
NAMELESS = """[...document.querySelectorAll('button, input, select, textarea, iframe, [role=tabpanel]')].filter((it) =>
!(it.textContent.trim() || it.ariaLabel || it.title || it.labels?.length || it.getAttribute('aria-labelledby')))
.map((it) => it.outerHTML)"""


class Wrong(Exception):
    """A check of the page failed."""


class Page:
    """The page in a browser."""

    def __init__(self, path: Path, name: str) -> None:
        self.path, self.browser = path, browser.new_browser(name)
        self.value = self.browser.value
        self.browser.size(1400, 900, False)

    def load(self, place: str = "") -> float:
        """Loads the page, and returns the seconds until it shows a first result."""
        began = time.monotonic()
        self.browser.load(self.path, place)
        self.until("typeof latest === 'number' && document.getElementById('state').textContent !== ''")
        return time.monotonic() - began

    def until(self, holds: str) -> None:
        """Waits until a condition holds. The page evaluates it every few milliseconds."""
        looks = f"({holds}) ? done(true) : performance.now() > end ? done(false) : setTimeout(look, 4)"
        promise = f"new Promise((done) => {{ const look = () => {looks}; look(); }})"
        if not self.value(f"((end) => {promise})(performance.now() + {1000 * PATIENCE})"):
            raise Wrong(f"not true after {PATIENCE} s: {holds}; errors: {self.browser.errors[:3]}")

    def holds(self, what: str, expression: str) -> None:
        if not (got := self.value(expression)):
            raise Wrong(f"{what}: {expression} is {got!r}")

    def put(self, text: str) -> None:
        """Replaces the script in the editor, and waits until its run or its refusal is shown."""
        self.value(f"showTab('work'), shown = null, putText({json.dumps(text)}, 'it.nic', false), 0")
        self.until("shownText.refused.size > 0 || shown !== null")

    def click(self, selector: str) -> None:
        self.value(f"document.querySelector({json.dumps(selector)}).click(), 0")


def first_answer(page: Page) -> None:
    """Prints how long the first result takes in a running browser."""
    print(f"browser: first result after {page.load():.1f} s elapsed")


def typing(page: Page) -> None:
    """Checks completions by keys, the reply next to its line, and a refusal at its line while the last run stays
    visible."""
    page.put("")
    page.value("element('text').focus(), 0")
    page.browser.type("w CTRL_E")
    page.until("!element('choices').hidden")
    page.holds("a register is completed", "element('choices').textContent.includes('CTRL_EXT')")
    page.browser.press("Enter")
    page.browser.type(" DRV")
    page.until("!element('choices').hidden")
    page.browser.press("Enter")
    page.holds("a bit is completed", "element('text').value === 'w CTRL_EXT 0x10000000'")
    page.until("shownText.replies.get(1)?.[0] === 'done'")
    page.holds("the line is explained", "element('about').textContent.includes('DRV_LOAD 1')")
    page.value("element('text').setSelectionRange(0, 0), 0")
    about = "element('about').textContent.endsWith(' w TARGET VALUE: writes the word V to a register.')"
    page.until(about)
    page.browser.press("End")
    page.browser.type("\nr CTRL_EXX")
    page.browser.press("Escape")
    page.until("element('state').textContent.includes('no register CTRL_EXX')")
    page.holds("the refusal is at its line", "shownText.refused.has(2)")
    page.holds("a similar name is suggested", "element('state').textContent.includes('near: CTRL_EXT')")
    page.holds("the last run stays visible", "element('views').classList.contains('old') && shownText.replies.has(1)")
    page.value("typed(0, 0, '# another line\\n'), 0")
    page.until("shownText.refused.has(3)")
    page.holds("a reply stays at its line", "!shownText.replies.has(1) && shownText.replies.has(2)")
    page.value("goTo(3), 0")
    page.until("element('about').textContent.startsWith('Line 3 is refused')")
    page.value("typed(0, 15, ''), 0")
    page.until("shownText.refused.has(2)")
    page.value("goTo(1), 0")
    page.browser.press("F4")
    page.holds("F4 moves to the refused word", "cursor().line === 2 && cursor().column === 2")


def other_text(page: Page) -> None:
    """Checks that after an edit the previous text's run isn't shown, whether or not the new text is refused."""
    page.put("r STATUS\n")
    page.until("drawn.length > 0")
    page.value("putText('r NOTHING\\n'), 0")
    page.until("shownText.refused.size > 0")
    page.holds("no run is shown", "!drawn.length && element('views').classList.contains('none')")
    page.holds("no reply is shown", "!shownText.replies.size")


def stepping(page: Page) -> None:
    """Checks steps and breakpoints, and the line that follows them."""
    page.put(next(text for name, text in example_texts(page) if name == "receive.nic"))
    page.value("show(0), shownText.stops = new Set(), goTo(30), 0")
    page.until("step === 0")
    page.browser.press("F9")
    page.browser.press("F8")
    page.until("step > 0")
    is_there = "shownText.here === 30 && element('gutter').querySelector('.stop.here') !== null"
    page.holds("F8 stops at the breakpoint", is_there)
    page.browser.press("F10")
    page.until("shownText.here === 31")
    page.value("toggleStop(30), 0")


def example_texts(page: Page) -> list[tuple[str, str]]:
    return [(name, text) for name, text in page.value("given.examples.map((it) => [it.name, it.text])")]


def all_examples(page: Page) -> None:
    """Runs each example from the list to its last step, and checks that there is no error."""
    for name, _ in example_texts(page):
        page.value(f"shown = null, element('examples').value = {json.dumps(name)}, 0")
        page.value("element('examples').dispatchEvent(new Event('change')), 0")
        page.until("shownText.refused.size > 0 || shown !== null")
        page.value("shown && show(shown.steps.length), 0")
        page.holds(f"{name} runs", f"shownText.refused.size === 0 || {json.dumps(name)} === 'fault.nic'")


def all_lessons(page: Page) -> None:
    """Clicks the check button to verify that each lesson's answer solves it and its initial script doesn't."""
    for number in range(1, page.value("given.lessons.length") + 1):
        page.value(f"openLesson({number}), 0")
        for name, wanted in (("start", False), ("answer", True)):
            page.value(f"putText(given.lessons[{number - 1}].{name}, null, false), 0")
            page.value("element('lesson').querySelector('button').click(), 0")
            page.until("element('lesson-said').textContent !== ''")
            is_so = f"(element('lesson-said').textContent === 'Solved.') === {str(wanted).lower()}"
            page.holds(f"lesson {number}'s {name}", is_so)
            page.value("element('lesson-said').textContent = '', 0")
    page.value("showTab('lessons'), 0")
    is_kept = "Object.values(kept('lessons')).filter((it) => it.solved).length === given.lessons.length"
    page.holds("progress is kept", is_kept)
    page.value("backToScript(), 0")


def deflated(data: bytes) -> str:
    packer = zlib.compressobj(9, zlib.DEFLATED, -15)
    return base64.urlsafe_b64encode(packer.compress(data) + packer.flush()).decode().rstrip("=")


def links(page: Page) -> None:
    """Checks that a link loads its script, and that for a hostile link, the page reports the fault and loads
    nothing."""
    page.put(HOSTILE)
    page.value("setSizes(2, null), 0")
    page.click("#share")
    page.until("/^The link is .* characters/.test(element('notice').textContent)")
    link = page.value("location.hash")
    page.put("r CTRL\n")
    page.load(link)
    page.until(f"element('text').value === {json.dumps(HOSTILE)}")
    page.holds("the link restores its sizes", "element('vfs').value === '2'")
    bad = {
        "AAAA": "cut off, or was changed",
        "%3Cb%3E": "never has",
        deflated(bytes(50_000_000)): "longer than 1,048,576",
        deflated(b"\xff\xfe"): "can't be read",
        "": "never has",
    }
    for packed, why in bad.items():
        page.value("element('notice').textContent = '', setSizes(null, null), 0")
        page.load(f"#script={packed}&vfs=99999999")
        page.until("element('notice').textContent !== ''")
        page.holds(f"a bad link says {why}", f"element('notice').textContent.includes({json.dumps(why)})")
        page.holds("a bad link's sizes are ignored", "element('vfs').value === ''")


def hostile(page: Page) -> None:
    """Checks that text that looks like markup stays text, in the page and in its view."""
    page.put(HOSTILE)
    page.until("drawn.length > 0")
    page.value("show(1), 0")
    page.holds("nothing was injected", "window.hacked === undefined && drawn[0].contentWindow.hacked === undefined")
    documents = "[document, drawn[0].contentDocument]"
    page.holds("no element was created", f"{documents}.every((it) => !it.querySelector('img'))")
    # (even a script that the page wrongly inserts doesn't run, because the policy lists the permitted scripts)
    tried = "Object.assign(document.createElement('script'), { textContent: 'window.hacked = 1' })"
    page.value(f"document.body.append({tried}), 0")
    page.holds("the policy blocks a script", "window.hacked === undefined")
    page.browser.errors = [it for it in page.browser.errors if not POLICY.search(it)]


def kept_text(page: Page) -> None:
    """Checks that the editor's text survives closing the page."""
    page.put("# kept\nr STATUS\n")
    page.load()
    page.until("element('text').value === '# kept\\nr STATUS\\n'")


def stopped(page: Page) -> None:
    """Checks that a long run can be stopped, and that the next one works."""
    long = "".join(f"w RDT[{k % 128}] {k % 8}\n" for k in range(4096))
    ended = ".catch((it) => (window.ended = it.message))"
    page.value(f"window.ended = '', ask('view', 'x', {json.dumps(long)}, {{}}){ended}, 0")
    page.value("endRun(), 0")
    page.until("window.ended === 'stopped'")
    page.put("r STATUS\n")
    page.holds("the next run has a reply", "shownText.replies.get(1)[0].startsWith('word')")


def packets(page: Page) -> None:
    """Checks that the form's frame becomes a line, and that a capture becomes lines."""
    page.value("showTab('packets'), element('packet-kind').value = 'udp', 0")
    page.value("element('packet').dispatchEvent(new Event('input')), 0")
    page.until("element('packet-said').textContent.includes('UDP 1000 to 80')")
    page.put("r STATUS")
    page.click("#packet-arrive")
    page.until("element('text').value.endsWith('\\narrive frame\\n')")
    header = bytes.fromhex("d4c3b2a1020004000000000000000000ffff000001000000")
    record = bytes.fromhex("00000000000000003c0000003c000000") + bytes(60)
    octets = base64.b64encode(header + record + record).decode()
    page.put("r STATUS")
    page.value(f"dropped(new File([octetsOf('{octets}')], 'a.pcap')), 0")
    page.until("element('text').value.endsWith('arrive frame1\\narrive frame2\\n')")
    page.value("dropped(new File([octetsOf('d4c3b2a100')], 'b.pcap')), 0")
    page.until("element('notice').textContent.includes('b.pcap')")
    page.value("notice(), 0")


def by_keys(page: Page) -> None:
    """Checks that arrow keys move between tabs, that every control has a name, and that Tab leaves the editor."""
    page.value("document.getElementById('tab-work').focus(), 0")
    page.browser.press("ArrowRight")
    is_next = "document.activeElement.id === 'tab-lessons' && !element('lessons').hidden"
    page.holds("an arrow key moves to the next tab", is_next)
    page.browser.press("Home")
    page.value("element('text').focus(), 0")
    page.browser.press("Tab")
    page.holds("Tab leaves the editor", "document.activeElement !== element('text')")
    for tab in TABS:
        page.value(f"showTab('{tab}'), 0")
        if nameless := page.value(NAMELESS):
            raise Wrong(f"these controls have no name: {nameless[:3]}")


def focus(page: Page) -> None:
    """Checks that a selected lesson gets the focus, that control and Enter check it, and that closing the help restores
    the focus."""
    page.value("showTab('lessons'), element('lessons').querySelector('li button').focus(), 0")
    # (Firefox under remote control presses no button on Enter)
    page.value("document.activeElement.click(), 0")
    page.until("element('lesson').contains(document.activeElement)")
    page.value("putText(given.lessons[0].answer, null, false), element('text').focus(), 0")
    pressed = "new KeyboardEvent('keydown', { key: 'Enter', ctrlKey: true, bubbles: true, cancelable: true })"
    page.value(f"element('text').dispatchEvent({pressed}), 0")
    page.until("element('lesson-said').textContent === 'Solved.'")
    page.holds("it is shown as a success", "element('lesson-said').className === 'solved'")
    page.value("typed(0, 0, 'r '), 0")
    page.holds("a changed script isn't solved", "element('lesson-said').textContent === ''")
    for place in ("element('text')", "element('check')", "element('vfs')"):
        page.value(f"{place}.focus(), 0")
        page.browser.press("F1")
        page.until("element('helping').open")
        page.browser.press("Escape")
        page.until("!element('helping').open")
        page.until(f"document.activeElement === {place}")
    page.value("leaveForScript(), 0")
    page.holds("leaving the lesson moves the focus to the editor", "document.activeElement === element('text')")


def narrow_choices(page: Page) -> None:
    """Checks that the list of completions is entirely inside the editor, at any line of a narrow window."""
    page.browser.size(400, 900, False)
    inside = "((list, code) => list.top >= code.top && list.bottom <= code.bottom)"
    boxes = "(...['choices', 'code'].map((id) => element(id).getBoundingClientRect()))"
    for line in (1, 6, 12, 18, 40):
        page.put("r STATUS\n" * 40)
        page.value(f"goTo({line}), 0")
        page.value("typed(element('text').selectionStart, element('text').selectionStart, 'w T\\n'), 0")
        page.value(f"goTo({line}, 3), showChoices(true), 0")
        page.until("!element('choices').hidden")
        page.holds(f"the list is inside the editor at line {line}", inside + boxes)
    page.browser.press("Escape")
    page.browser.size(1400, 900, False)


def fits(page: Page, folder: Path | None) -> None:
    """Checks that nothing is cut off at any width, in either theme."""
    if folder:
        folder.mkdir(parents=True, exist_ok=True)
    page.put(next(text for name, text in example_texts(page) if name == "receive.nic"))
    page.until("drawn.length > 0")
    page.value("show(13), 0")
    for width, is_dark in ((width, is_dark) for width in WIDTHS for is_dark in (False, True)):
        page.browser.size(width, 900, is_dark)
        for tab in TABS:
            page.value(f"showTab('{tab}'), 0")
            wide = "[document.documentElement, document.querySelector('main')].map((it) => it.scrollWidth)"
            page.holds(f"{tab} fits into {width}", f"Math.max(...{wide}) <= {width}")
            if folder and width in (400, 1280):
                time.sleep(0.3)
                name = f"{tab}-{width}{'-dark' if is_dark else ''}.png"
                page.browser.picture(folder / name)
    page.browser.size(1400, 900, False)
    page.value("showTab('work'), 0")


def answers(page: Page, inputs: list[Any]) -> Iterator[tuple[int, bytes]]:
    """Yields the results from the page's worker, with their statuses."""
    for at in range(0, len(inputs), BATCH):
        asked = [[words, base64.b64encode(data).decode()] for words, data in inputs[at : at + BATCH]]
        every = f"{json.dumps(asked)}.map(([words, data]) => ask('bench', words, octetsOf(data)))"
        packed = "made.map(({ status, bytes }) => [status, hexOf(bytes)])"
        for status, out in page.value(f"Promise.all({every}).then((made) => {packed})"):
            yield status, bytes.fromhex(out)


@contextlib.contextmanager
def opened(checks: Any) -> Iterator[Page]:
    """Opens the page in a separate browser."""
    page = Page(checks.page.path, checks.given.browser)
    try:
        page.load()
        yield page
    finally:
        page.browser.close()


def tried(checks: Any, what: str, parts: list[Callable[[Page], None]]) -> None:
    """Runs these checks in one page. Each reports its fault, and the next one continues."""
    with opened(checks) as page:
        faults = []
        for part in parts:
            try:
                part(page)
            except (Wrong, AssertionError) as fault:
                faults.append(f"{part.__name__}: {fault}")
        faults += [f"the browser's console shows: {it}" for it in page.browser.errors]
        checks.tell(what, len(parts), faults)


def use(checks: Any) -> None:
    parts = [first_answer, typing, other_text, stepping, links, hostile, kept_text, stopped, packets, by_keys]
    tried(checks, "browser", [*parts, focus, narrow_choices])


def lessons(checks: Any) -> None:
    tried(checks, "lessons in the browser", [all_lessons])


def looks(checks: Any) -> None:
    def at_all_widths(page: Page) -> None:
        fits(page, checks.given.pictures)

    tried(checks, "examples and looks in the browser", [all_examples, at_all_widths])


# The guide's picture of the page: a script of examples/, and one of its lines, whose step is shown.
SHOWN = ("queue.nic", "rx")


def draw(path: Path, folder: Path) -> None:
    """Writes the guide's pictures of the page, light and dark, in the greatest width that is readable when scaled
    down."""
    page, (name, line) = Page(path, "chromium"), SHOWN
    page.load()
    page.put(next(text for it, text in example_texts(page) if it == name))
    page.until("drawn.length > 0")
    page.value(f"show(shown.steps.findIndex(([pc]) => shownText.lines[shown.line_of[pc] - 1] === '{line}') + 1), 0")
    for picture, is_dark in (("playground.png", False), ("playground-dark.png", True)):
        page.browser.size(1120, 800, is_dark)
        page.value("new Promise((done) => requestAnimationFrame(() => requestAnimationFrame(done)))")
        page.browser.picture(folder / picture)
        print(f"{picture}: {(folder / picture).stat().st_size:,} bytes")
    page.browser.close()


# Groups of checks that run concurrently, each in a separate browser.
JOBS = [use, lessons, looks]
