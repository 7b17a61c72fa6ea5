"""Checks the course: the answers pass all milestones, and each milestone needs the code in its own holes. The skeletons
compile and lose rows with named causes. `nicdrive --require` counts points and refuses malformed lists. The pages state
the lists' totals, `course/mark` hides the answers from hand-ins, and the students' page works in a student's copy.
`c/test` calls these checks.

    python3 course/check.py     checks only the totals; status 0: they agree; 1: a line for each that differs
"""

from __future__ import annotations

import csv
import os
import re
import shutil
import subprocess
import sys
import xml.etree.ElementTree as ElementTree
from collections.abc import Callable
from dataclasses import dataclass
from importlib.machinery import SourceFileLoader
from importlib.util import module_from_spec, spec_from_loader
from pathlib import Path
from types import ModuleType

sys.dont_write_bytecode = True
HERE = Path(__file__).resolve().parent
ROOT = HERE.parent
sys.path += [str(ROOT / "c"), str(ROOT / "dev")]
from course_skeletons import ANSWERS, SKELETONS, at  # noqa: E402
from explore.check import STRICT, Wrong, ran  # noqa: E402

MILESTONES = sorted((HERE / "milestones").glob("*.rows"))
# Causes for which a skeleton must not lose a row.
NO_NAME = re.compile(r"crash|hang|exit|raised|panic|Error|Exception|traceback|deadlock")

# Lists that are refused: their contents, and the message after the file's name.
REFUSALS = {
    "receive-one 2\nreceive-on 1\n": r":2: unknown row: the card contains no row receive-on; did you mean receive-one",
    "receive-one two\n": r":1: malformed line: 'receive-one two': a line is a row's name and its points, 1 to 1,000",
    "# a list\nreceive-one 0\n": ":2: malformed line: ",
    "receive-one 1001\n": ":1: malformed line: ",
    "receive-one 1 2\n": ":1: malformed line: ",
    "receive-one\nsend-one\nreceive-one 3\n": ":3: duplicate row: receive-one is already on line 1",
    "# nothing\n\n": ": no rows: ",
    "\x1b]0;title\x07\n": r":1: malformed line: .*\\x1b",
}
# With 20 random schedules, there may be none in which a frame is being sent during a reset.
ENOUGH: list[object] = ["--runs", 100]
PATIENT: list[object] = ["--seconds", 1800, "--hang", 600]
SOME = ["--memory", "weak", "--runs", 20, "--every", 20, *PATIENT, "--no-pages", "--jobs", 2]


@dataclass
class Kit:
    """The folders of programs and cards, and the C compiler."""

    folder: Path
    compiler: str
    is_full: bool = False

    def card(self, name: str, driver: Path, wanted: int | None, *words: object) -> tuple[str, Path]:
        """Returns nicdrive's output for a driver, and the card's folder."""
        out = self.folder / f"card-{name}"
        return ran([sys.executable, ROOT / "c/drive/nicdrive", driver, *SOME, *words, "-o", out], wanted), out


def lists(*milestones: Path) -> list[object]:
    return [word for path in milestones for word in ("--require", path)]


def points(out: Path) -> dict[str, tuple[int, int]]:
    """Returns each list's points and its maximum."""
    suites = ElementTree.parse(out / "points.xml").getroot().findall("testsuite")
    found = {}
    for suite in suites:
        values = {one.get("name"): int(one.get("value", "")) for one in suite.findall("properties/property")}
        found[suite.get("name", "")] = values["points"], values["points_of"]
    return found


def earned(out: Path) -> list[str]:
    """Returns the rows of all lists that earned their points."""
    cases = ElementTree.parse(out / "points.xml").getroot().iter("testcase")
    return [f"{it.get('name')} of {it.get('classname')}" for it in cases if it.find("failure") is None]


def expect_points(out: Path, full: list[Path], none: list[Path]) -> None:
    """Raises Wrong unless the lists in `full` have all points and the lists in `none` have none."""
    for name, (got, most) in points(out).items():
        if name in [it.stem for it in full] and got != most:
            raise Wrong(f"{out.name}: {name} has {got} of {most} points, not all:\n{said(out)}")
        if name in [it.stem for it in none] and got:
            rows = ", ".join(it for it in earned(out) if it.endswith(f" of {name}"))
            why = f"passes without the code of {name}, so it belongs to an earlier list"
            raise Wrong(f"{out.name}: {name} has {got} of {most} points, not 0: {rows}: {why}")


def said(out: Path) -> str:
    return (out / "points.txt").read_text()


def check_stages(kit: Kit) -> str:
    """Checks the answer in C with its holes filled up to each milestone: this milestone has all points, and the next
    has none."""
    text = (ANSWERS / "driver.c").read_text()
    for stage in range(len(MILESTONES) + 1):
        source = kit.folder / f"stage{stage}.c"
        source.write_text(at(text, stage))
        ran([kit.compiler, "-std=c99", *STRICT, f"-I{ROOT}/c/include", "-fsyntax-only", source])
        is_last = stage == len(MILESTONES)
        tried = MILESTONES if is_last else MILESTONES[max(stage - 1, 0) : stage + 1]
        _, out = kit.card(f"stage{stage}", source, int(not is_last), *lists(*tried), *ENOUGH)
        expect_points(out, MILESTONES[:stage], MILESTONES[stage:])
    few = last_rows(kit)
    _, out = kit.card("c-skeleton", kit.folder / "stage0.c", 1, *lists(*few))
    expect_points(out, [], few)
    check_causes("driver.c", out, len(few))
    return f"{len(MILESTONES)} milestones, each earned by its own holes"


def rows_of(milestone: Path) -> list[str]:
    return re.findall(r"^[a-z][a-z0-9-]*", milestone.read_text(), re.MULTILINE)


def check_causes(name: str, out: Path, wanted: int) -> None:
    """Checks that the skeleton loses the expected number of rows, none of them because of a crash, a hang or another
    unnamed cause."""
    causes = re.findall(r"^  (\S+) +\d+ points? lost: (.+)$", said(out), re.MULTILINE)
    for row, cause in causes:
        if NO_NAME.search(cause):
            raise Wrong(f"the skeleton {name} loses {row} because of: {cause}")
    if len(causes) != wanted:
        raise Wrong(f"the skeleton {name} loses {len(causes)} rows, not {wanted}:\n{said(out)}")


def last_rows(kit: Kit) -> list[Path]:
    """Writes a list for each milestone that contains only its last row."""
    made = []
    for path in MILESTONES:
        made.append(kit.folder / path.name)
        made[-1].write_text(f"{rows_of(path)[-1]}\n")
    return made


def check_other(kit: Kit, name: str, program: Callable[[str], Path]) -> None:
    """Checks an answer and its skeleton in another language: one row of each milestone, or all rows of the answer with
    --corpus-full."""
    kind = Path(name).suffix[1:]
    few = last_rows(kit)
    milestones = MILESTONES if kit.is_full else few
    _, out = kit.card(f"{kind}-answer", program((ANSWERS / name).read_text()), 0, *lists(*milestones), *ENOUGH)
    expect_points(out, milestones, [])
    _, out = kit.card(f"{kind}-skeleton", program(SKELETONS[name].read_text()), 1, *lists(*few))
    expect_points(out, [], few)
    check_causes(name, out, len(few))


def check_python(kit: Kit) -> str:
    def program(text: str) -> Path:
        source = kit.folder / "driver.py"
        source.write_text(text)
        return source

    check_other(kit, "driver.py", program)
    return "in Python"


def check_rust(kit: Kit) -> str:
    """Runs only if cargo is installed."""
    if not shutil.which("cargo"):
        return "in Rust not tried: cargo isn't installed"
    folder, target = kit.folder / "rust", kit.folder / "target"
    shutil.copytree(HERE / "rust", folder, dirs_exist_ok=True, ignore=shutil.ignore_patterns("target"))
    manifest = folder / "Cargo.toml"
    manifest.write_text(manifest.read_text().replace("../../rust/nic82599", str(ROOT / "rust/nic82599")))

    def program(text: str) -> Path:
        (folder / "src/main.rs").write_text(text)
        words = ["cargo", "build", "--offline", "--quiet", "--manifest-path", str(manifest)]
        how = {**os.environ, "CARGO_TARGET_DIR": str(target), "RUSTFLAGS": "-D warnings -C debuginfo=0"}
        made = subprocess.run(words, env=how, capture_output=True, text=True, check=False)
        if made.returncode:
            raise Wrong(f"the course in Rust doesn't compile: {made.stderr}")
        shutil.copy(target / "debug/course", kit.folder / "course-in-rust")
        return kit.folder / "course-in-rust"

    check_other(kit, "driver.rs", program)
    return "in Rust"


def check_refusals(kit: Kit) -> str:
    """Checks that malformed lists are refused with file and line, that their control characters aren't printed, and
    that reading never blocks on a pipe."""
    driver, path, pipe = SKELETONS["driver.c"], kit.folder / "bad.rows", kit.folder / "pipe"
    cases = [(path, text.encode(), f"bad.rows{wanted}") for text, wanted in REFUSALS.items()]
    cases += [(path, b"\xff\n", "bad.rows: unreadable: "), (path, b"#" * (1 << 20) + b"\n", "bad.rows: too long: ")]
    cases += [(kit.folder / "nowhere", b"", "nowhere: no file: "), (pipe, b"", "pipe: no file: ")]
    if not pipe.exists():
        os.mkfifo(pipe)
    for place, text, wanted in cases:
        if place == path:
            path.write_bytes(text)
        printed, _ = kit.card("refused", driver, 2, "--require", place)
        if not re.search(f"nicdrive: .*{wanted}", printed) or "\x1b" in printed or len(printed.splitlines()) > 1:
            raise Wrong(f"--require with {text[:40]!r}: nicdrive doesn't print \"{wanted}\":\n{printed}")
    return f"{len(cases)} refusals"


def check_points(kit: Kit) -> str:
    """Checks the points in text and JUnit, for rows that pass, fail or aren't applicable, and for rows that aren't in a
    list."""
    small, path = ROOT / "c/drive/examples/small.c", kit.folder / "some.rows"
    path.write_text("receive-one 3 # one frame\n\nsetup-crc\nsend-one 1000\n")
    printed, out = kit.card("points", small, 1, "--require", path, "--rows", "receive-empty")
    for wanted in (
        "some: 3 of 1,004 points\n",
        "  setup-crc                  1 point lost: check: RDRXCTL.CRCSTRIP differs",
        "  send-one                   1,000 points lost: not applicable: no send\n",
        "receive-empty ",
    ):
        if wanted not in printed:
            raise Wrong(f'--require: the output lacks "{wanted}":\n{printed}')
    suites = ElementTree.parse(out / "points.xml").getroot()
    found = [(it.get("name"), it.find("failure") is None) for it in suites.iter("testcase")]
    if found != [("receive-one", True), ("setup-crc", False), ("send-one", False)]:
        raise Wrong(f"points.xml has {found}")
    path.write_text("receive-one 3\n")
    kit.card("points", small, 0, "--require", path)
    listed, _ = kit.card("points", small, 0, "--require", path, "--list")
    if len(listed.splitlines()) != 1 or not listed.startswith("receive-one"):
        raise Wrong(f"--list --require prints:\n{listed}")
    return "points as text and JUnit"


# A driver that explores its sandbox and records what it finds in the only folder that it can write to.
PRIES = """#include <stdio.h>
#include <unistd.h>
__attribute__((constructor)) static void pry(void)
{
    static const char *const paths[] = {PATHS};
    FILE *file = fopen("/out/found", "w");
    for (unsigned i = 0; i < sizeof paths / sizeof *paths; i++)
        if (!access(paths[i], F_OK))
            fprintf(file, "%s ", paths[i]);
    if (!access("/bench/course/milestones", W_OK))
        fputs("the lists can be written", file);
    fclose(file);
}
"""
ABSENT = ["/etc/passwd", "/home", "/bench/.git", "/bench/c/drive/tests", "/bench/c/drive/corpus", "/bench/c/out/course"]
# The hand-ins that earn nothing: the first two copy the answer, the third another hand-in.
EARN_NOTHING = {
    "ada.py": 'exec(open("/bench/c/drive/tests/course/driver.py").read())\n',
    "eve.c": '#include "/bench/c/drive/tests/course/driver.c"\n',
    "mallory/driver.c": '#include "GIVEN/ada.c"\n',
    "mallory/other.c": "",
    "Gus Name_17_file/gus.c": '#include "GIVEN/ada.c"\n',
    "Gus Name_17_file/._gus.c": "",
    "=1+1.c": "int main(void) { return nothing; }\n",
}
# Their notes, by the suffix of the hand-in's name. Without a suffix, the hand-in is a folder with a driver in C.
IN_C = r"not marked: the driver doesn't compile: /in/driver\.c:1:\d+: (fatal )?error: "
NOTES = {".c": IN_C, "": IN_C, ".py": "not marked: /in/driver.py: can't load it: FileNotFoundError: "}
# What isn't a hand-in: an entry, its files, and the reason that the table gives.
IGNORED = {
    "notes.txt": ([""], "a driver's name ends in"),
    "empty": (["notes.txt"], "it contains no driver"),
    "two": (["a.c", "b.PY"], "it contains 2 drivers, and must contain one: a.c, b.PY"),
    "both": (["driver.c", "main.rs", "other.c"], "it contains 2 drivers, and must contain one: driver.c, main.rs"),
    "._ada.c": ([""], "it is hidden"),
    "points.csv.new": (["driver.c"], "rename it: the names points.csv, "),
    "settings.txt": (["driver.c"], "rename it: the names points.csv, "),
}


def hand_in_all(given: Path, out: Path) -> None:
    """Writes the hand-ins: a copy of the answer that pries, the ones that earn nothing, and what isn't a hand-in."""
    shutil.rmtree(given, ignore_errors=True)
    shutil.rmtree(out, ignore_errors=True)
    paths = ", ".join(f'"{it}"' for it in [*ABSENT, given, out, ROOT / "course"])
    texts = {"ada.c": PRIES.replace("PATHS", paths) + (ANSWERS / "driver.c").read_text(), **EARN_NOTHING}
    texts |= {str(Path(entry, name)): "" for entry, (names, _) in IGNORED.items() for name in names}
    for name, text in texts.items():
        (given / name).parent.mkdir(parents=True, exist_ok=True)
        (given / name).write_text(text.replace("GIVEN", str(given)))


def check_marks(given: Path, out: Path, printed: str) -> None:
    """Checks the table: the answer has all points, the others have a reason, and what was ignored has one, too."""
    with open(out / "points.csv", newline="") as file:
        lines = {line[0]: line for line in csv.reader(file)}
    most = [total(path) for path in MILESTONES]
    names = {"name", "ada.c", "ada.py", "eve.c", "mallory", "Gus Name_17_file", "'=1+1.c"}
    for name, (_, why) in IGNORED.items():
        if f"ignored: '{name}': {why}" not in printed:
            raise Wrong(f"course/mark doesn't print why it ignores {name} of {given}:\n{printed}")
        made = lines.pop(name, [""])
        if not made[-1].startswith(f"ignored: {why}") or any(made[1:-1]):
            raise Wrong(f"course/mark: the line of {name}, which is ignored, is {made}")
    if set(lines) != names or lines["ada.c"][1 : len(most) + 2] != [*map(str, most), str(sum(most))]:
        raise Wrong(f"course/mark: points.csv has {lines}")
    for name in names - {"name", "ada.c"}:
        if lines[name][len(most) + 1] != "0" or not re.match(NOTES[Path(name).suffix], lines[name][-1]):
            raise Wrong(f"course/mark: the hand-in {name} must earn nothing, but has {lines[name]}")
    if float(lines["ada.c"][-2]) < 1:
        raise Wrong(f"course/mark: the driver used {lines['ada.c'][-2]} s of CPU time")
    if found := (out / "ada.c/card/found").read_text():
        raise Wrong(f"a driver in its sandbox finds {found}")


def check_help() -> None:
    """Checks that --help prints the values that its text names, with status 0."""
    for name, values in {"mark": ("OPTIONS", "SECONDS", "LIMITS"), "copy": ("WITHHELD",)}.items():
        printed = ran([sys.executable, HERE / name, "--help"], 0)
        if missing := [it for it in values if not re.search(rf"^{it}( \(.*\))?: \w", printed.replace("--", ""), re.M)]:
            raise Wrong(f"course/{name} --help lacks {', '.join(missing)}:\n{printed}")
        last = ran([sys.executable, HERE / name], 2).splitlines()[-1]
        if not last.startswith(f"course/{name}: "):
            raise Wrong(f"course/{name} without arguments: its last line doesn't say what is wrong: {last}")


def check_refused(mark: ModuleType, folder: Path) -> None:
    """Checks that course/mark refuses a wrong option and a wrong list before it marks anything, and says why."""
    path = folder / "wrong.rows"
    path.write_text("receive-one\nreceive-on\n")
    mark.MILESTONES = [path]
    for words, wanted in (([], f"{path}:2: unknown row: "), (["--runs"], "argument --runs: ")):
        if wanted not in (made := mark.refused(words)):
            raise Wrong(f'course/mark {words} with a wrong list: the reason is "{made}", not "{wanted}"')
    mark.MILESTONES = MILESTONES
    if made := mark.refused([]):
        raise Wrong(f"course/mark refuses the lists: {made}")


def check_notes(kit: Kit) -> str:
    """Checks the notes of course/mark: why a driver has no points, and how many of its rows hung."""
    loader = SourceFileLoader("course_mark", str(HERE / "mark"))
    spec = spec_from_loader(loader.name, loader)
    assert spec
    mark = sys.modules[loader.name] = module_from_spec(spec)
    loader.exec_module(mark)
    sums = "".join(f"{path.stem}: 0 of 9 points\n" for path in MILESTONES)
    row = "  {:26} 1 point lost: {}\n".format
    cargo = "warning: unused\nerror[E0308]: mismatched types\n --> src/main.rs:1:29\n"
    cases = {
        (".rs", "status 101", cargo): "not marked: the driver doesn't compile: error[E0308]: mismatched types; see ",
        (".rs", "status 127", ""): "not marked: cargo isn't installed",
        (".c", "signal 9", sums[:9]): "not marked: signal 9; see ",
        (".c", "status 2", "nicdrive: \x1b]0;title\n"): "not marked: ?]0;title; see ",
        (".c", "status 1", sums + row("receive-one", "check: hang")): "",
        (".c", "status 1", sums + row("send-one", "hang: no result in 60 s")): "1 row hung (send-one): the machine ",
        (".c", "status 1", sums + row("a", "hang: no") + row("b", "hang: no")): "2 rows hung (a, b): ",
        (".c", "status 1", sums + "".join(row(it, "hang: a") for it in "abcd")): "4 rows hung (a, b, c, ..): ",
    }
    for (kind, ending, printed), wanted in cases.items():
        made = mark.line(mark.HandIn("ada", Path("ada"), kind), mark.Ended(ending, printed))[-1]
        if not made.startswith(wanted) or bool(made) != bool(wanted):
            raise Wrong(f"course/mark: {ending} and {printed!r}: the note is {made!r}, not {wanted!r}")
    check_help()
    check_refused(mark, kit.folder)
    return f"{len(cases)} notes"


def check_mark(kit: Kit) -> str:
    """If bubblewrap can run, checks that a driver is marked in its sandbox, and that copies of answers earn nothing.
    Every hand-in gets a line, and a second run marks only what is left."""
    tried = ["bwrap", "--unshare-all", "--ro-bind", "/", "/", "true"]
    if not shutil.which("bwrap") or subprocess.run(tried, capture_output=True, check=False).returncode:
        return "the sandbox not tried: bubblewrap isn't installed, or may not run"
    given, out, none = kit.folder / "submissions", kit.folder / "marked", kit.folder / "no-submissions"
    hand_in_all(given.resolve(), out.resolve())
    words = [sys.executable, HERE / "mark", given, out, *ENOUGH, "--every", 10, *PATIENT]
    check_marks(given, out, ran(words, 1))
    printed = ran(words, 1)
    if printed.count("is already marked") != 1 or "ada.c is already marked" not in printed:
        raise Wrong(f"course/mark: a second run must skip ada.c, and only ada.c:\n{printed}")
    ran([*words, "--seed", 2], 2)  # another card than the ones in OUT
    none.mkdir(exist_ok=True)
    shutil.rmtree(kit.folder / "unmarked", ignore_errors=True)
    ran([sys.executable, HERE / "mark", none, kit.folder / "unmarked"], 1)
    return "marked in a sandbox"


def total(path: Path) -> int:
    """Returns the points of a list."""
    lines = re.findall(r"^[a-z][a-z0-9-]*(?:[ \t]+(\d+))?", path.read_text(), re.MULTILINE)
    return sum(int(it or 1) for it in lines)


def wrong_totals() -> list[str]:
    """Returns where the pages or the lists' first lines state another total than the lists have."""
    totals, found = {path: total(path) for path in MILESTONES}, []
    students, teachers = ((HERE / name).read_text() for name in ("README.md", "TEACHERS.md"))
    for path, most in totals.items():
        if f"\n| [{path.stem}](milestones/{path.name}) | {most} | " not in students:
            found.append(f"course/README.md: the list {path.name} has {most} points, but the table doesn't say so")
        if not path.read_text().partition("\n")[0].endswith(f" {most} points."):
            found.append(f"course/milestones/{path.name}:1: the list has {most} points, but its comment doesn't say so")
    if f"with points, {sum(totals.values())} in all" not in teachers:
        found.append(f"course/TEACHERS.md: the lists have {sum(totals.values())} points, but the page doesn't say so")
    return found


def check_totals(_kit: Kit) -> str:
    """Checks that the pages and the lists' first lines state the totals of the lists."""
    if found := wrong_totals():
        raise Wrong("\n".join(found))
    return f"{sum(map(total, MILESTONES))} points"


def check_barriers(kit: Kit) -> str:
    """Checks that the marking options find a driver without barriers, in both directions."""
    source, received, sent = (kit.folder / name for name in ("no-barriers.c", "received.rows", "sent.rows"))
    source.write_text(re.sub(r"\n *nicx_[rw]mb\(\);", "", (ANSWERS / "driver.c").read_text()))
    received.write_text("receive-wrap\n")
    sent.write_text("send-one\n")
    _, out = kit.card("no-barriers", source, 1, *lists(received, sent), *ENOUGH)
    if any(got for got, _ in points(out).values()):
        raise Wrong(f"a driver without barriers isn't found:\n{said(out)}")
    return "barriers"


def page_blocks() -> tuple[list[str], list[str]]:
    """Returns the commands of the students' page for C, and the lines that it shows as their output."""
    page = (HERE / "README.md").read_text()
    first, _, rest = page.partition("\n## Begin\n")[2].partition("\n```text\n")
    return re.findall(r"^    (\S.*)$", first, re.MULTILINE), rest.partition("\n```\n")[0].splitlines()


def is_shown(shown: list[str], printed: list[str]) -> bool:
    """Whether a page shows what is printed. A line `..` stands for any lines, and `..` in a line for any text."""
    parts = [r"(?:.*\n)*" if line.strip() == ".." else f"{re.escape(line)}\n".replace(r"\.\.", ".*") for line in shown]
    return re.fullmatch("".join(parts), "".join(f"{line}\n" for line in printed)) is not None


def check_copy(kit: Kit) -> str:
    """Runs the commands of the students' page in a student's copy, which contains nothing for teachers, and checks that
    they print what the page shows."""
    is_clone = (ROOT / ".git").exists() and shutil.which("git")
    if not is_clone or not shutil.which("rustc") or not shutil.which("make"):
        return "the students' copy not tried: it needs a git clone, make and rustc"
    copy, out, printed = kit.folder / "students", kit.folder / "page", ""
    for it in (copy, out):
        shutil.rmtree(it, ignore_errors=True)
    out.mkdir()
    ran([HERE / "copy", copy])
    for name in ("TEACHERS.md", "mark"):
        if (copy / "course" / name).exists():
            raise Wrong(f"course/copy: the copy contains course/{name}, which is for teachers")
    answers = [it for it in ANSWERS.iterdir() if it.is_file()]
    texts = [path.read_text() for answer in answers for path in copy.rglob(f"driver{answer.suffix}")]
    if (copy / ".git").exists() or any(answer.read_text() in texts for answer in answers):
        raise Wrong("course/copy: the copy contains an answer or the history")
    commands, shown = page_blocks()
    for line in commands:
        wanted = 1 if "nicdrive" in line else 0
        printed = ran(["sh", "-c", line.replace("/tmp/", f"{out}/")], wanted, cwd=copy)
    if not is_shown(shown, printed.replace(f"{out}/", "/tmp/").splitlines()):
        raise Wrong(f"course/README.md doesn't show what `{commands[-1]}` prints:\n{printed}")
    ran([copy / "c/drive/nicdrive", "--list"])
    return "a student's copy"


def check_all(kit: Kit) -> list[str]:
    checks = (check_totals, check_refusals, check_points, check_stages, check_barriers)
    return [check(kit) for check in (*checks, check_python, check_rust, check_notes, check_mark, check_copy)]


if __name__ == "__main__":
    faults = wrong_totals()
    print(*(faults or [f"the pages and lists agree: {sum(map(total, MILESTONES))} points"]), sep="\n")
    sys.exit(1 if faults else 0)
