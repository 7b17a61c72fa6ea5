"""dev/check_views's checks of a page in a browser: it loads, shows the bench's replies, and can be used."""

from __future__ import annotations

import re
from collections.abc import Callable
from pathlib import Path
from typing import Any

from browser import Browser
from nic82599.tools.regs import OFFSETS
from nic82599.tools.run import OFFSET

Expect = Callable[[bool, str], None]
TROUBLE = ("failed", "fault", "dropped", "refused")


def words(selector: str) -> str:
    """Returns an expression for the text of each element that a selector finds."""
    return f"[...document.querySelectorAll({selector!r})].map((one) => one.textContent)"


class Look:
    """A page in the browser, with its data and the function that reports a fault."""

    def __init__(self, browser: Browser, file: Path, name: str, data: dict[str, Any], expect: Expect) -> None:
        self.browser, self.file, self.name, self.data, self.report = browser, file, name, data, expect
        self.count = len(data["steps"])

    def expect(self, holds: bool, text: str) -> None:
        self.report(holds, f"{self.name}: {text}")

    def text(self, name: str) -> str:
        return str(self.browser.value(f"document.getElementById({name!r}).textContent"))

    def kind(self, number: int) -> str:
        return str(self.data["steps"][number][4].get("k", ""))

    def is_at(self, number: int | None, way: str) -> None:
        """Checks that the page is at a step, according to its header, its title and its URL; None is the start."""
        place = "start" if number is None else str(number)
        shown = (self.text("at"), self.browser.value("location.hash"), self.text("now-title").split(",")[0])
        title = "At the start" if number is None else f"Step {number}"
        self.expect(shown == (f"{place} / {self.count - 1}", f"#{place}", title), f"{way}: the page shows {shown}")


def check_walk(look: Look, rings: list[str], pictures: Path | None) -> None:
    """Steps by key from the start to the end, in both widths and themes. The rings must then match the bench, and the
    page must be as wide as the window."""
    browser = look.browser
    for width, dark in ((1_280, False), (400, True)):
        browser.size(width, 900, dark)
        browser.load(look.file, "#start")
        look.is_at(None, "#start")
        for _ in range(look.count):
            browser.press("ArrowRight")
        look.is_at(look.count - 1, "the arrow")
        titles = browser.value("[...document.querySelectorAll('#grid .line')].map((one) => one.title)")
        look.expect(sorted(titles) == sorted(rings), f"the page's rings are {titles}")
        wide = browser.value("document.documentElement.scrollWidth - document.documentElement.clientWidth")
        look.expect(wide <= 0, f"the page is {wide} pixels wider than a window of {width} pixels")
        if pictures:
            browser.picture(pictures / f"{look.file.stem}-{width}-{'dark' if dark else 'light'}.png", True)
    browser.press("Home")
    look.is_at(None, "Home")
    look.expect(not browser.errors, f"the browser's console shows {browser.errors}")
    browser.errors.clear()


def check_opening(look: Look) -> None:
    """Checks that the page opens at the first failing step, and that the URL's number matches the header. If no step
    fails, it must open at the first step that did nothing; if there is none, at the first stray access; otherwise at
    the last step."""
    numbers = [number for number in range(look.count) if look.kind(number) in TROUBLE]
    for kind in ("idle", "stray"):
        numbers = numbers or [number for number in range(look.count) if look.kind(number) == kind]
    look.browser.size(1_280, 800, False)
    look.browser.load(look.file)
    look.is_at(numbers[0] if numbers else look.count - 1, "opening it")
    look.browser.load(look.file, f"#{look.count // 2}")
    look.is_at(look.count // 2, f"#{look.count // 2}")


def check_finding(look: Look) -> None:
    """Checks that an explorer's script opens at the step of its finding, with its message on top, and shows the
    actors."""
    found = look.data["finding"]
    look.browser.size(1_280, 800, False)
    look.browser.load(look.file)
    look.is_at(found["step"], "opening a finding")
    shown = look.browser.value("document.getElementById('finding').innerText")
    look.expect(found["words"] in shown and found["outcome"] in shown, f"the finding isn't at the top: {shown}")
    title = look.browser.value("document.getElementById('now-title').innerText")
    look.expect("task poll" in title, f"the title doesn't name the actor: {title}")
    look.browser.load(look.file, "#start")
    look.browser.value("document.querySelector('#finding button').click()")
    look.is_at(found["step"], "the finding's button")


def check_next(look: Look) -> None:
    """Checks that `f` stops at exactly the failing steps, and that each has a mark that a click hits."""
    browser, numbers = look.browser, [number for number in range(look.count) if look.kind(number) in TROUBLE]
    browser.load(look.file, "#start")
    for number in numbers:
        browser.press("f")
        look.is_at(number, "next fault")
    if numbers:
        browser.press("f")
        look.is_at(numbers[-1], "next fault after the last")
    boxes = browser.value(
        "[...document.querySelectorAll('#marks button')].map((one) => { const box = one.getBoundingClientRect();"
        " return [box.x, box.y, box.width, box.height, one.className, one.title]; })"
    )
    look.expect(all(box[2] >= 12 and box[3] >= 12 for box in boxes), "a mark is too narrow to hit")
    places = sorted(box[0] for box in boxes)
    look.expect(all(b - a >= 11.9 for a, b in zip(places, places[1:])), "marks overlap")
    named = {int(found[1]): box for box in boxes if (found := re.match(r"step (\d+): ", box[5]))}
    look.expect(bool(numbers) <= any(box[4] == "fault" for box in boxes), "no fault has a mark")
    for number, (x, y, wide, high, *_) in list(named.items())[:8]:
        browser.click(x + wide / 2, y + high / 2)
        look.is_at(number, "a click on its mark")


def has_comment(line: str) -> bool:
    """Returns whether a line has a comment, or the page adds one with the name of a virtual function's register."""
    found = OFFSET.match(line)
    return "#" in line or (found is not None and int(found[1], 0) in OFFSETS)


def check_words(look: Look) -> None:
    """Checks that buttons, the key and the help have text, and that comments wrap and can be hidden."""
    browser = look.browser
    look.expect([one.strip() for one in browser.value(words("[data-next]"))]
                == ["Next fault", "Next message", "Next idle", "Next warning"], "wrong button labels")  # fmt: skip
    look.expect("Key:" in browser.value(words(".legend b")), "the key has no title")
    look.expect({"Keys", "Rings"} <= set(browser.value(words("#keys h2"))), "the help has no titles")
    wide = "[...document.querySelectorAll('#lines .said')].filter((one) => one.scrollWidth > one.clientWidth).length"
    look.expect(browser.value(wide) == 0, "a line of the script is cut off")
    shown = "[...document.querySelectorAll('#lines .comment')].filter((one) => one.offsetHeight).length"
    comments = sum(map(has_comment, look.data["lines"]))
    look.expect(browser.value(shown) == comments, "comments aren't shown")
    browser.press("c")
    look.expect(browser.value(shown) == 0, "comments aren't hidden")
    browser.press("c")


def check_lit(look: Look) -> None:
    """Checks for each step that exactly the changed digits are highlighted, and that the rows show the step's own
    changes. The ring in front must be the one that the step concerns."""
    browser, data = look.browser, look.data
    known = {int(address): word for address, word in data["start"]}
    browser.load(look.file, "#start")
    for number, (_, _, _, changes, more) in enumerate(data["steps"]):
        browser.press("ArrowRight")
        both = [f"{known[address]:08x}{word:08x}" for address, word in changes]
        known.update(changes)
        digits = [sum(a != b for a, b in zip(one[:8], one[8:])) for one in both]
        lit = browser.value(
            "[...document.querySelectorAll('#changes .change')].filter((one) => one.querySelector('code.old'))"
            ".map((one) => one.querySelectorAll('code .lit').length)"
        )
        look.expect(lit == digits, f"step {number}: {lit} digits are highlighted; {digits} changed")
        rows = browser.value("document.querySelectorAll('#changes .change').length")
        expected = len(changes) + sum(len(one) > 2 for one in more.get("m", [])) + len(more.get("l", []))
        look.expect(rows == expected, f"step {number}: {rows} changes are shown; expected {expected}")
        side = data["sides"][more["g"]] if "g" in more else None
        if side and (known.get(side["length"], 0) >= 16 or known.get(side["control"], 0) >> 25 & 1):
            front = browser.value(words("#front .slots > p"))
            is_it = front and front[0].startswith(f"{side['side']} {side['queue']}: ")
            look.expect(bool(is_it), f"step {number}: the ring in front is {front}")


def check_when(look: Look) -> None:
    """Checks the wording of each step: its conditions describe the state before the step, everything else the state
    after it. Both must show the same number of waiting frames."""
    browser, waiting = look.browser, 0
    browser.load(look.file, "#start")
    for number, (*_, more) in enumerate(look.data["steps"]):
        browser.press("ArrowRight")
        before = waiting
        waiting += sum((1 if sign == "+" else -1) * len(frames) for sign, frames in more.get("w", []))
        when = set(browser.value(words(".when")))
        look.expect(when == {f"after step {number}"}, f"step {number}: its panels say {when}")
        why, conditions = browser.value(words("#now > p:has(+ .why)")), browser.value(words("#now .why li"))
        look.expect(not conditions or why == ["Before this step:"], f"step {number}: its conditions are under {why}")
        counts = [found[1] for one in conditions if (found := re.match(r"(\w+) frames? waits?\b", one))]
        look.expect(
            counts in ([], [str(before or "no")]), f"step {number}: {counts} frames waiting before; expected {before}"
        )
        panel = f"{(browser.value(words('#frames > p')) or [''])[0]};"
        parts = re.match(r"(\w+) frames? (?:is|are) waiting to be received[^;]*;(?: before this step (\w+))?", panel)
        shown = (parts[1], parts[2]) if parts else ("No", None)
        wanted = (str(waiting or "No"), None if waiting == before else str(before or "none"))
        look.expect(shown == wanted, f"step {number}: frames are shown as {panel}; expected {wanted}")


def check_outside(look: Look, number: int) -> None:
    """Checks that at this step a tail outside the ring is drawn, in the ring shown and on its card."""
    look.browser.load(look.file, f"#{number}")
    for selector in ("#front polygon.tail.outside", "#grid .pointer.tail.outside"):
        found = look.browser.value(f"document.querySelectorAll({selector!r}).length")
        look.expect(found == 1, f"step {number}: {found} elements match {selector}")
    texts = look.browser.value(words("#front svg text.bad"))
    look.expect(texts == ["tail 16: no slot"], f"step {number}: the tail is shown as {texts}")


def check_slots(look: Look, number: int, wanted: list[str]) -> None:
    """Checks that at this step the slots of the ring shown have these descriptor types."""
    look.browser.load(look.file, f"#{number}")
    forms = sorted(set(look.browser.value(words(".descriptors td b"))))
    look.expect(forms == wanted, f"step {number}: slots are shown as {forms}; expected {wanted}")


def check_warnings(look: Look, warned: dict[int, str]) -> None:
    """Checks that exactly these steps have a warning: a marker at the line, a mark on the bar, and a message."""
    browser = look.browser
    browser.size(1_280, 800, False)
    browser.load(look.file, "#start")
    for number, text in warned.items():
        browser.press("w")
        look.is_at(number, "next warning")
        warnings = browser.value(words("#now .warned li"))
        look.expect(any(text in one for one in warnings), f"step {number}: its warnings are {warnings}")
        is_marked = browser.value(words("#lines li.here .sign")) == ["\u26a0"]
        look.expect(is_marked, f"step {number}: its line has no marker")
    browser.press("w")
    look.is_at(list(warned)[-1], "next warning after the last")
    is_off = "document.querySelector('[data-next=warning]').getAttribute('aria-disabled')"
    look.expect(browser.value(is_off) == "true", "Next warning isn't dimmed after the last warning")
    marked = browser.value("document.querySelectorAll('#lines .sign').length")
    look.expect(marked == len(warned), "other lines have markers")
    browser.load(look.file, "#start")
    look.expect(not browser.value(words(".warned li")), "there is a warning at the start")
    look.expect(browser.value(is_off) == "false", "Next warning is dimmed before a warning")


def check_narrow(look: Look, number: int) -> None:
    """Checks that a step's line stays visible when the window gets narrow, and when it gets wide again."""
    browser = look.browser
    for wide, high in ((1_280, 800), (400, 800), (1_280, 500), (500, 500)):
        browser.size(wide, high, False)
        if wide == 1_280 and high == 800:
            browser.load(look.file, f"#{number}")
            browser.value("scrollTo(0, document.body.scrollHeight)")
        browser.value("new Promise((done) => requestAnimationFrame(() => requestAnimationFrame(done)))")
        seen = browser.value(
            "(() => { const line = document.querySelector('#lines li.here').getBoundingClientRect(),"
            " box = document.getElementById('lines').getBoundingClientRect(),"
            " top = document.querySelector('header').getBoundingClientRect().bottom;"
            " return [line.top, line.bottom, Math.max(box.top, top), Math.min(box.bottom, innerHeight)]; })()"
        )
        is_seen = seen[0] >= seen[2] - 1 and seen[1] <= seen[3] + 1
        look.expect(is_seen, f"in a window {wide} pixels wide, the line is at {seen[:2]}, outside {seen[2:]}")


def check_vector(look: Look, name: str, vector: str) -> None:
    """Checks that the Interrupts panel shows a cause's vector already at the page's start."""
    look.browser.size(1_280, 800, False)
    for place in ("", "#0"):
        look.browser.load(look.file, place)
        rows = look.browser.value(
            "[...document.querySelectorAll('#interrupts tr')]"
            ".map((one) => [...one.children].map((it) => it.textContent))"
        )
        vectors = {row[0]: row[-1] for row in rows}
        look.expect(vectors.get(name) == vector, f"{place}: a wrong vector for {name} in {rows}")


def check_mailboxes(look: Look) -> None:
    """Checks at each step that the panel shows the mailbox signals and words of the device's virtual functions."""
    browser = look.browser
    browser.size(1_280, 800, False)
    browser.load(look.file, "#start")
    mailboxes = set()
    for _ in range(look.count):
        browser.press("ArrowRight")
        rows = browser.value(
            "[...document.querySelectorAll('#mailboxes tr')].map((one) => [...one.children].map((it) => it.innerText))"
        )
        look.expect([row[0] for row in rows[1:]] == ["0", "1"], f"the mailboxes are {rows}")
        mailboxes.add(tuple(text.strip() for text in rows[1]))
    asked = ("0", "VFU 1", "VFU 1", "0: 0x00000002 1: 0x00000100")
    look.expect(asked in mailboxes, f"no step has the mailbox {asked}: {sorted(mailboxes)}")
    look.expect("# VFMAILBOX" in browser.value("document.getElementById('lines').innerText"), "an offset has no name")


def check_unread(look: Look, number: int) -> None:
    """Checks that slots that the device hasn't read are striped, in the ring and in its strip, and that the key
    explains the stripes. Also checks that no row of the script or of the descriptors is clipped by its box."""
    browser = look.browser
    for wide in (1_280, 400):
        browser.size(wide, 800, wide == 400)
        browser.load(look.file, f"#{number}")
        slots = browser.value("[...document.querySelectorAll('#front path.slot')].map((one) => one.className.baseVal)")
        want = ["unread device"] * 2 + ["done"] + ["device"] * 4 + ["unread device"]
        look.expect([it.removeprefix("slot ") for it in slots] == want, f"the slots of step {number} are {slots}")
        strip = browser.value("document.querySelectorAll('#grid .line.front .unread').length")
        look.expect(strip == 3, f"the strip has {strip} striped slots")
        look.expect(browser.value("!document.getElementById('unread-key').hidden"), "the key has no striped slot")
        cut = browser.value(
            "[[document.getElementById('lines'), '#lines li', 0], [document.querySelector('.descriptors'),"
            " '.descriptors tr:not(:first-child)', document.querySelector('.descriptors tr').offsetHeight]].map("
            "([box, rows, under]) => Math.min(...[...document.querySelectorAll(rows)].map((one) =>"
            " one.offsetTop - under - box.scrollTop).filter((at) => at > -15).map(Math.abs)))"
        )
        look.expect(all(at <= 1 for at in cut), f"in a window {wide} pixels wide, the first rows are {cut} pixels off")


def check_fits(look: Look) -> None:
    """Checks that at each step, from the first ring on, the step and the rings fit on a screen of 1,280 by 800."""
    browser = look.browser
    browser.size(1_280, 800, False)
    browser.load(look.file, "#start")
    most, where, cards = 0, 0, 0
    for number in range(look.count):
        browser.press("ArrowRight")
        end = browser.value("document.getElementById('rings-part').getBoundingClientRect().bottom + scrollY")
        most, where = max((most, where), (end, number))
        cards = max(cards, browser.value("document.querySelectorAll('#grid .line').length"))
    look.expect(cards == 32, f"{cards} rings are shown; sixteen queues have 32")
    look.expect(most <= 800, f"the rings end at pixel {most} at step {where}; at most 800 are allowed")
