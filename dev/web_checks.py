"""The checks of dev/check_web."""

from __future__ import annotations

import argparse
import base64
import contextlib
import io
import json
import multiprocessing
import os
import random
import re
import shutil
import subprocess
import sys
import tempfile
from collections.abc import Callable, Iterable
from concurrent.futures import Future, ProcessPoolExecutor, ThreadPoolExecutor, as_completed
from pathlib import Path
from typing import Any, NamedTuple

import campaign_inputs
import web_browser
from browser import BROWSERS, browser_program, fetched
from generated import ROOT
from two_editions import Broken, Input, Missing, answer_of, link, plain_made

sys.path[:0] = [str(ROOT / "python"), str(ROOT / "web")]
os.environ["NICBENCH_QUIET"] = "1"
import assemble  # noqa: E402
import lessons  # noqa: E402
from nic82599.tools import as_test, page, refusals, run, script  # noqa: E402
from nic82599.tools.forms import explained  # noqa: E402

MOST_BYTES, SHOWN, LIMIT = 4_000_000, 5, 4_096
# Three times the duration on a machine on which it takes 65 ms.
MOST_MS = 200
COMMANDS = ("run", "run", "run", "debug", "asm", "dis", "eeprom", "hash")


class Failed(Exception):
    """Something doesn't compile or doesn't run."""


class Made(NamedTuple):
    """The page, and the reason if its module is missing."""

    path: Path
    why: str = ""


class Checks:
    """The findings, and the page, the program and the random source that the parts share."""

    def __init__(self, given: argparse.Namespace, folder: Path) -> None:
        self.given, self.folder, self.faults = given, folder, 0
        with ThreadPoolExecutor() as pool:
            page, program = pool.submit(made_page, given, folder), pool.submit(plain_made, "program")
        self.page = page.result()
        self.program = link(program.result(), str(folder / "nicbench"))
        os.environ["NICBENCH"] = str(self.program)

    def source(self) -> campaign_inputs.Inputs:
        return campaign_inputs.Inputs(
            random.Random(self.given.seed), ROOT, lambda words, data: answer_of(self.program, words, data).out
        )

    def tell(self, what: str, count: int, faults: list[str]) -> None:
        """Prints how many items were checked and the first faults."""
        print(f"{what}: {count} checked, {len(faults)} faults", flush=True)
        for line in faults[:SHOWN]:
            print(f"  {line}")
        self.faults += len(faults)


def made_page(given: argparse.Namespace, folder: Path) -> Made:
    """Returns the page. If the module can't be compiled, nicbench itself is used instead."""
    if given.page:
        return Made(given.page)
    path, why, make = folder / "bench.html", "", [ROOT / "web/make", "-o"]
    made = subprocess.run([*make, path], capture_output=True, text=True, check=False)
    if made.returncode == 2:
        why = made.stderr.strip().splitlines()[-1].partition(": ")[2]
        words = [*make, path, "--module", ROOT / "VERSION"]
        made = subprocess.run(words, capture_output=True, text=True, check=False)
    if made.returncode:
        raise Failed(f"web/make exited with status {made.returncode}\n{made.stderr.strip()}")
    return Made(path, why)


# --- requests to the page's worker in Node ---


def outward(value: Any) -> Any:
    return {"base64": base64.b64encode(value).decode()} if isinstance(value, bytes) else value


def asked_in_node(page: Made, messages: list[tuple[str, list[Any]]]) -> list[dict[str, Any]]:
    """Returns the worker's replies to these messages, in one process."""
    words = [page.path, *([os.environ["NICBENCH"]] if page.why else [])]
    lines = "".join(json.dumps({"what": what, "given": list(map(outward, given))}) + "\n" for what, given in messages)
    command = ["node", ROOT / "web/node.mjs", *words]
    made = subprocess.run(command, input=lines, capture_output=True, text=True, check=False)
    answers = made.stdout.split("\n")[:-1]
    if made.returncode or len(answers) != len(messages):
        raise Failed(f"node exited with status {made.returncode} after {len(answers)} replies\n{made.stderr.strip()}")
    return [json.loads(it) for it in answers]


def examples() -> list[Input]:
    """Returns the inputs of examples/."""
    found: list[Input] = []
    for it in assemble.examples():
        words = ["--vfs", str(it["vfs"])] if it["vfs"] else []
        found += [(["run", *words], it["text"].encode()), (["asm"], it["text"].encode())]
    folder = ROOT / "examples"
    found += [(["debug"], path.read_bytes()) for path in sorted(folder.glob("*.debug"))]
    found += [(["hash"], path.read_bytes()) for path in sorted(folder.glob("*.txt"))]
    found += [(["eeprom"], path.read_bytes()) for path in sorted(folder.glob("*.eeprom"))]
    found += [(["eeprom", "--load"], bytes.fromhex(path.read_text())) for path in sorted(folder.glob("*.hex"))]
    return found + [(["dis"], bytes.fromhex(path.read_text())) for path in sorted(folder.glob("*.object"))]


def by_chance(checks: Checks) -> list[Input]:
    source = checks.source()
    return [source.of(COMMANDS[number % len(COMMANDS)]) for number in range(checks.given.inputs)]


def compared(checks: Checks, what: str, inputs: list[Input], got: Iterable[tuple[int, bytes]]) -> None:
    """Compares the page's statuses and output bytes with nicbench's."""
    faults = []
    for (words, data), (status, out) in zip(inputs, got, strict=True):
        want = answer_of(checks.program, words, data)
        if (status, out) != (want.status, want.out):
            faults.append(f"nicbench {' '.join(words)} on {len(data)} bytes: {status} {out[-80:]!r}; expected {want}")
    checks.tell(what, len(inputs), faults)


def speed(checks: Checks) -> None:
    """Checks that 4,096 lines run quickly after the page's code has been compiled. It uses the least CPU time of six
    runs, because other processes are running too."""
    lines = "".join(f"w RDT[{k % 128}] {k % 8}\n" for k in range(LIMIT))
    found = asked_in_node(checks.page, [("answers", ["it.nic", lines, {}])] * 6)
    took = min(it["ms"] for it in found)
    faults = [] if took <= MOST_MS else [f"{took:.0f} ms CPU; at most {MOST_MS} are allowed"]
    checks.tell(f"speed: {LIMIT:,} lines ran in {took:.0f} ms CPU", 1, faults)


def answers(checks: Checks) -> None:
    inputs = examples() + by_chance(checks)
    found = asked_in_node(checks.page, [("bench", [words, data]) for words, data in inputs])
    got = ((it["made"]["status"], base64.b64decode(it["made"]["bytes"]["base64"])) for it in found)
    compared(checks, "answers", inputs, got)


# --- the tools, in Python and in the page ---


def sizes_of(words: list[str]) -> dict[str, int]:
    """Returns the sizes in a command's arguments."""
    pairs = dict(zip(words, words[1:]))
    given = {name: pairs.get(f"--{name}", "") for name in ("vfs", "fifo")}
    return {name: int(word) for name, word in given.items() if word.isdigit() and int(word) <= 63 and int(word) > 0}


def scripts(checks: Checks) -> list[tuple[str, dict[str, int]]]:
    """Returns the scripts of examples/ and of dev/views/, and some random ones."""
    found = [(it["text"], {"vfs": it["vfs"]} if it["vfs"] else {}) for it in assemble.examples()]
    found += [(path.read_text(), {}) for path in sorted((ROOT / "dev/views").glob("*.nic"))]
    source = checks.source()
    for _ in range(checks.given.scripts):
        words, data = source.of("run")
        found.append((data.decode(errors="ignore"), sizes_of(words)))
    return found


def by_python(text: str, sizes: dict[str, int]) -> Any:
    """Returns the tools' output for a script: the data of nicview's page, or the refusals."""
    bench = script.Bench(sizes.get("vfs"), sizes.get("fifo"))
    try:
        return page.Data(run.of_script(bench, "it.nic", LIMIT, text.encode())).whole()
    except script.Refused as first:
        shown = script.script_part(text)
        places = [(it.name, explained(other, it)) for it, other in refusals.refusals(bench, shown, first)]
        return sorted(([it.line, name, it.text, list(it.near)] for name, it in places[:20]), key=lambda it: it[0])
    except script.Fault as fault:
        return str(fault)


def by_page(view: dict[str, Any], answered: dict[str, Any]) -> Any:
    """Returns the same data as `by_python`, from the page's replies."""
    if "fault" not in view:
        return view["made"]
    if refused := answered.get("made", {}).get("refused"):
        return [[it["line"], it["name"], it["words"], it["near"]] for it in refused]
    return view["fault"]["message"]


def tests(checks: Checks) -> None:
    """Checks that the tests that the page saves equal the tests that nicview writes."""
    given = [it for it in scripts(checks)[: len(assemble.examples())] if not isinstance(by_python(*it), list)]
    asked = [(language, text, sizes) for text, sizes in given for language in ("c", "python")]
    found = asked_in_node(checks.page, [("test", [language, "it.nic", *it]) for language, *it in asked])
    faults = []
    for (language, text, sizes), got in zip(asked, found):
        own = run.bench_of(script.Bench(sizes.get("vfs"), sizes.get("fifo")), text)
        part = script.script_part(text)
        want = as_test.written(language, script.of_text(own, "it.nic", part), own.run(part, LIMIT), own)
        if got.get("made") != want:
            faults.append(f"{text[:60]!r} in {language}: {str(got)[:200]}")
    checks.tell("tests in C and Python", len(asked), faults)


def tools(checks: Checks) -> None:
    given, faults = scripts(checks), []
    messages = [(what, ["it.nic", *it]) for it in given for what in ("view", "answers")]
    found = asked_in_node(checks.page, messages)
    for (text, sizes), view, answered in zip(given, found[::2], found[1::2]):
        want, got = json.loads(json.dumps(by_python(text, sizes))), by_page(view, answered)
        if want != got:
            parts = sorted(it for it in want if want[it] != got.get(it)) if isinstance(got, dict) else [str(got)[:300]]
            faults.append(f"{text[:60]!r} {sizes}: {', '.join(parts)}; Python: {str(want)[:300]}")
    checks.tell("tools", len(given), faults)


# --- the page as a file, and the lessons ---


def file_faults(text: str) -> list[str]:
    """Returns the faults of the page's file: its size, references to other files, and a policy that isn't strict."""
    faults = [] if len(text.encode()) <= MOST_BYTES else [f"it has {len(text.encode()):,} bytes, too many"]
    outside = re.findall(r"""(?:src|href|action)\s*=\s*["'](?!data:,)[^"']*["']|@import|url\(\s*["']?http""", text)
    faults += [f"it refers to {it}" for it in outside]
    policy = re.search(r'http-equiv="Content-Security-Policy" content="([^"]*)"', text)
    scripts = policy[1].partition("script-src")[2].partition(";")[0] if policy else "'unsafe-inline'"
    if not policy or "default-src 'none'" not in policy[1] or "'unsafe-inline'" in scripts:
        return [*faults, "its policy permits scripts other than its own"]
    own = re.findall(r"<script>([\s\S]*?)</script>", text)
    return faults + ["its policy doesn't name its script" for it in own if assemble.hash_of(it) not in policy[1]]


# The parts of the page, and of nicview's pages, as the browser combines them.
TYPED = [
    ["web/globals.d.ts", *(f"web/{name}" for name in assemble.PARTS)],
    [f"python/nic82599/tools/{name}" for name in (*page.SCRIPTS, "nicview_live.js")],
]
TSC = "--allowJs --checkJs --noEmit --pretty false --target es2022 --lib es2022,dom,dom.iterable".split()


def types(checks: Checks) -> None:
    """Checks that tsc finds no fault in the types of the JavaScript."""
    faults = []
    for files in TYPED:
        made = subprocess.run(["tsc", *TSC, *files], cwd=ROOT, capture_output=True, text=True, check=False)
        faults += made.stdout.splitlines() if made.returncode else []
    checks.tell("types", sum(map(len, TYPED)), faults)


def page_part(checks: Checks) -> None:
    checks.tell("page", 1, file_faults(checks.page.path.read_text(encoding="utf-8")))


def graded(folder: Path) -> list[str]:
    """Returns the faults in the grading of four submissions: a correct file, a wrong file, a hostile file and a missing
    file."""
    known = lessons.read()
    answered = {str(it.number): {"script": it.parts["answer"], "outcome": "open"} for it in known}
    claimed = {str(it.number): {"script": it.parts["start"], "outcome": "solved"} for it in known}
    files = {
        "right.json": json.dumps({"student": "Ada", "lessons": answered}),
        "false.json": json.dumps({"student": "=1+1", "lessons": claimed}),
        "hostile.json": json.dumps({"student": "x", "lessons": {"1": {"script": 5}, "2": {"script": "w " * 200_000}}}),
        "none.json": "[" * 100_000,
    }
    for name, text in files.items():
        (folder / name).write_text(text)
    command = [ROOT / "web/lessons.py", "grade", *(folder / name for name in files)]
    made = subprocess.run(command, capture_output=True, text=True, check=False)
    rows = [line.split(",") for line in made.stdout.splitlines()[1:]]
    of = {name: [row for row in rows if row[0] == name] for name in files}
    faults = [f"right: {row}" for row in of["right.json"] if row[-1] != "solved"]
    faults += [f"false: {row}" for row in of["false.json"] if row[-1] == "solved" or row[1] != "'=1+1"]
    faults += [f"hostile: {row}" for row in of["hostile.json"] if row[-1] == "solved"]
    lengths = [len(it) for it in of.values()]
    wanted = [len(known)] * 3 + [1]
    return faults if lengths == wanted and made.returncode == 1 else [*faults, f"{lengths}, status {made.returncode}"]


def lessons_part(checks: Checks) -> None:
    known, faults = lessons.read(), []
    for it in known:
        for name, wanted in (("answer", True), ("start", False)):
            said = lessons.outcome(it, it.parts[name])
            if (said == "solved") != wanted:
                faults.append(f"lesson {it.number}: the result of its {name} is: {said}")
    checks.tell("lessons", 2 * len(known), faults)
    checks.tell("grading", 4, graded(checks.folder))
    if shutil.which("node"):
        messages = [("solved", [it.parts[name], lessons.as_data(it)]) for it in known for name in ("answer", "start")]
        found = [it["made"]["is"] for it in asked_in_node(checks.page, messages)]
        wrong = [f"message {k}: a wrong result" for k, it in enumerate(found) if it != (k % 2 == 0)]
        checks.tell("lessons in the page", len(found), wrong)


def answers_in_browser(checks: Checks) -> None:
    inputs = examples() + by_chance(checks)
    with web_browser.opened(checks) as page:
        compared(checks, f"answers in {BROWSERS[checks.given.browser]}", inputs, web_browser.answers(page, inputs))


# The parts, each with its checks, which may run concurrently; the longest come first.
PARTS: dict[str, list[Callable[[Checks], None]]] = {
    "browser": [*web_browser.JOBS, answers_in_browser],
    "tools": [tools, tests],
    "answers": [answers, speed],
    "types": [types],
    "lessons": [lessons_part],
    "page": [page_part],
}
WITHOUT_MODULE, IN_NODE = ("lessons", "tools", "types"), ("tools", "answers")


def missing(part: str, checks: Checks) -> str | None:
    """Returns why a part is skipped, or None."""
    name = checks.given.browser
    if part == "types":
        return None if shutil.which("tsc") else "tsc isn't installed (Debian: node-typescript)"
    if checks.page.why and part not in WITHOUT_MODULE:
        return checks.page.why
    if part in IN_NODE and not shutil.which("node"):
        return "node isn't installed"
    if part == "browser" and not browser_program(name):
        return f"{BROWSERS[name]} isn't installed: run dev/get_browser {name}"
    return None


def done(checks: Checks, job: Callable[[Checks], None]) -> tuple[str, int]:
    """Returns a job's output, and the number of faults that it finds."""
    checks.faults, said = 0, io.StringIO()
    with contextlib.redirect_stdout(said):
        try:
            job(checks)
        except (web_browser.Wrong, AssertionError, OSError) as fault:
            checks.tell(job.__name__, 1, [str(fault)])
    return said.getvalue(), checks.faults


def look(checks: Checks, parts: Iterable[str]) -> None:
    """Runs these parts, several concurrently, and prints the output of each as soon as it ends."""
    jobs: list[Callable[[Checks], None]] = []
    for part in parts:
        if why := missing(part, checks):
            print(f"{part}: skipped: {why}", flush=True)
        else:
            jobs += PARTS[part]
    with ProcessPoolExecutor(checks.given.jobs, multiprocessing.get_context("fork")) as pool:
        running: list[Future[tuple[str, int]]] = [pool.submit(done, checks, job) for job in jobs]
        for ended in as_completed(running):
            said, faults = ended.result()
            print(said, end="", flush=True)
            checks.faults += faults


def drawn(given: argparse.Namespace, folder: Path) -> int:
    """Draws the guide's pictures again."""
    made = made_page(given, folder)
    is_there = browser_program() is not None
    if why := made.why or ("" if is_there else "Chromium isn't installed: run dev/get_browser chromium"):
        print(f"dev/check_web: the page isn't drawn: {why}", file=sys.stderr)
        return 2
    web_browser.draw(made.path, ROOT / "docs/pictures")
    return 0


def arguments(doc: str) -> argparse.Namespace:
    parser = argparse.ArgumentParser(description=doc, formatter_class=argparse.RawDescriptionHelpFormatter)
    parser.add_argument("parts", nargs="*", metavar="PART")
    parser.add_argument("--inputs", type=int, default=1000, metavar="N")
    parser.add_argument("--scripts", type=int, default=40, metavar="N")
    parser.add_argument("--seed", type=int, default=82599, metavar="S")
    parser.add_argument("--jobs", type=int, default=len(os.sched_getaffinity(0)), metavar="N")
    parser.add_argument("--page", type=lambda it: Path(it).resolve(), metavar="FILE")
    parser.add_argument("--browser", choices=BROWSERS)
    parser.add_argument("--pictures", type=Path, metavar="FOLDER")
    parser.add_argument("--draw", action="store_true")
    given = parser.parse_args()
    if unknown := set(given.parts) - set(PARTS):
        parser.error(f"no part named {' '.join(sorted(unknown))}; the parts are {', '.join(PARTS)}")
    if given.browser and not fetched(given.browser):
        raise Failed(f"{BROWSERS[given.browser]} isn't installed and can't be fetched")
    given.browser = given.browser or "chromium"
    return given


def main(doc: str) -> int:
    try:
        with tempfile.TemporaryDirectory() as folder:
            given = arguments(doc)
            if given.draw:
                return drawn(given, Path(folder))
            checks = Checks(given, Path(folder))
            look(checks, [it for it in PARTS if it in (given.parts or PARTS)])
    except SystemExit as end:
        return 3 if end.code else 0
    except Missing as why:
        print(f"web: skipped: {why}")
        return 0
    except (Failed, Broken) as why:
        print(f"dev/check_web: {why}", file=sys.stderr)
        return 1
    print(f"web: {checks.faults} faults")
    return 1 if checks.faults else 0
