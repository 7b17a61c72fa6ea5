"""Tests of the installed package: the wheel's bytes, how it finds the library and the program, and its commands. The
wheel contains the binaries that NIC82599_LIBRARY and NICBENCH name."""

from __future__ import annotations

import base64
import csv
import hashlib
import io
import os
import shutil
import subprocess
import sys
import tempfile
import tomllib
import unittest
import zipfile
from importlib.util import find_spec
from pathlib import Path
from unittest import mock

ROOT = Path(__file__).resolve().parents[2]
sys.path += [str(ROOT / "python"), str(ROOT / "python/backend")]
import nic82599_wheel as backend  # noqa: E402
from nic82599 import places  # noqa: E402

SCRIPT = ROOT / "examples/queue.nic"


def plain_environment(**more: str) -> dict[str, str]:
    """Returns the environment without the variables that name a library or a program."""
    kept = {name: value for name, value in os.environ.items() if name not in ("NIC82599_LIBRARY", "NICBENCH")}
    return {**kept, "PYTHONDONTWRITEBYTECODE": "1", **more}


def program_itself() -> Path:
    """Returns the program under test, or the one that it would start if it is the clone's launcher."""
    program = Path(places.program())
    if program != ROOT / "nicbench":
        return program
    subprocess.run([program, "--version"], capture_output=True, check=True)
    made = backend.built_program()
    assert made, "there is no program"
    return made[0]


def files_kept() -> list[str]:
    """Returns the package's files according to git or a source archive; none if there is neither."""
    archive = ROOT / "COMMIT"
    if archive.exists():
        listed = archive.read_text().splitlines()[1:]
    elif shutil.which("git"):
        listed = subprocess.run(["git", "-C", ROOT, "ls-files"], capture_output=True, text=True).stdout.splitlines()
    else:
        listed = []
    return [it.removeprefix("python/") for it in listed if it.startswith("python/nic82599/")]


SEARCH = """
from nic82599.explore import Scenario, search

class One(Scenario):
    def begin(self):
        self.task("one", self.point)

print(search(One(), 5).distinct)
"""


class Wheel(unittest.TestCase):
    """A wheel with the library and the program, unpacked into a folder outside any clone."""

    @classmethod
    def setUpClass(cls) -> None:
        cls.kept = tempfile.TemporaryDirectory()
        cls.folder = Path(cls.kept.name)
        library, program, engine = Path(places.library()), program_itself(), Path(places.engine())
        cls.binaries = {f"nic82599/{places.SONAME}": library.read_bytes(), "nic82599/nicbench": program.read_bytes()}
        cls.binaries[f"nic82599/{places.ENGINE}"] = engine.read_bytes()
        cls.wheel = cls.folder / cls.written("first")
        cls.installed = cls.folder / "installed"
        with zipfile.ZipFile(cls.wheel) as archive:
            archive.extractall(cls.installed)
        (cls.installed / "nic82599/nicbench").chmod(0o755)

    @classmethod
    def tearDownClass(cls) -> None:
        cls.kept.cleanup()

    @classmethod
    def written(cls, folder: str) -> str:
        (cls.folder / folder).mkdir()
        name = backend.write_wheel(cls.folder / folder, backend.version(), backend.modules(), cls.binaries)
        return f"{folder}/{name}"

    def python(self, code: str, *words: str) -> subprocess.CompletedProcess[str]:
        """Runs code with only the unpacked package, and returns its output."""
        environment = plain_environment(PYTHONPATH=str(self.installed))
        call = [sys.executable, "-c", code, *words]
        return subprocess.run(call, env=environment, capture_output=True, text=True, cwd=self.folder)

    def test_same_bytes(self) -> None:
        again = self.folder / self.written("second")
        self.assertEqual(again.read_bytes(), self.wheel.read_bytes())

    def test_record(self) -> None:
        with zipfile.ZipFile(self.wheel) as archive:
            names = archive.namelist()
            record = next(name for name in names if name.endswith("/RECORD"))
            rows = list(csv.reader(io.StringIO(archive.read(record).decode())))
            self.assertEqual([row[0] for row in rows], names)
            for name, digest, length in rows[:-1]:
                data = archive.read(name)
                sum_of = base64.urlsafe_b64encode(hashlib.sha256(data).digest()).rstrip(b"=").decode()
                self.assertEqual((digest, int(length)), (f"sha256={sum_of}", len(data)), name)
            self.assertEqual(archive.getinfo("nic82599/nicbench").external_attr >> 16, 0o100755)

    def test_all_that_is_kept(self) -> None:
        """Each tracked file of the package is in the wheel."""
        with zipfile.ZipFile(self.wheel) as archive:
            self.assertLessEqual(set(files_kept()), set(archive.namelist()))

    def test_page_for_browsers(self) -> None:
        """The wheel contains the page if it can be built; without rustc it is left out."""
        for page, names in ((b"<!doctype html>", ["nic82599/bench.html"]), (None, [])):
            with mock.patch.object(backend, "browser_page", lambda page=page: page):
                self.assertEqual([*backend.page_files()], names)
        with mock.patch.dict(os.environ, RUSTC="/nowhere/rustc"):
            self.assertIsNone(backend.browser_page.__wrapped__())

    def test_library_beside(self) -> None:
        made = self.python("import nic82599 as n; nic = n.Nic(); print(hex(nic['SRRCTL[3]']), n.places.library())")
        self.assertEqual(made.stdout, f"0x402 {self.installed}/nic82599/{places.SONAME}\n", made.stderr)

    def test_explorer_beside(self) -> None:
        """The package contains everything that a search needs."""
        made = self.python(SEARCH)
        self.assertEqual(made.stdout, "1\n", made.stderr)

    def test_commands(self) -> None:
        """Each command of the package exists, and its help doesn't mention a clone."""
        for name, place in tomllib.loads((ROOT / "python/pyproject.toml").read_text())["project"]["scripts"].items():
            module, function = place.split(":")
            code = f"import sys; sys.argv[0] = '{name}'; from {module} import {function} as it; sys.exit(it())"
            made = self.python(code, "--help")
            self.assertEqual(made.returncode, 0, made.stderr)
            self.assertNotRegex(made.stdout, r"tools/|\./nicbench", name)

    def test_every_tool_is_a_command(self) -> None:
        scripts = tomllib.loads((ROOT / "python/pyproject.toml").read_text())["project"]["scripts"]
        self.assertEqual({it.name for it in (ROOT / "tools").iterdir()}, {*scripts} - {"nicbench"})

    def test_view_is_that_of_the_clone(self) -> None:
        code = "import sys; from nic82599.tools.nicview import command; sys.exit(command())"
        made = self.python(code, str(SCRIPT), "--text")
        clone = subprocess.run([ROOT / "tools/nicview", SCRIPT, "--text"], capture_output=True, text=True)
        self.assertEqual((made.returncode, made.stdout), (0, clone.stdout), made.stderr)

    def test_pointer_to_what_is_missing(self) -> None:
        (self.installed / "nic82599/nicbench").rename(self.installed / "kept")
        try:
            code = f"import sys; sys.argv[1:] = ['{SCRIPT}', '--text']; import os; os.environ['PATH'] = ''\n"
            made = self.python(code + "from nic82599.tools.nicview import command; sys.exit(command())")
            self.assertEqual(made.returncode, 4)
            self.assertRegex(made.stderr, r"^nicview: no program nicbench in .* or on the PATH: [^\n]*\n$")
            made = self.python("import sys; from nic82599.places import nicbench; sys.exit(nicbench())")
            self.assertEqual((made.returncode, made.stderr.count("\n")), (127, 1))
        finally:
            (self.installed / "kept").rename(self.installed / "nic82599/nicbench")


PROGRAM = b"""#!/bin/sh
echo "nicbench 1.2.3"
echo "words: $*" >&2
cat
exit ${#}
"""


class Edition(unittest.TestCase):
    """A program that isn't proved names its edition at the end of its version, and otherwise acts the same."""

    def setUp(self) -> None:
        kept = tempfile.TemporaryDirectory()
        self.addCleanup(kept.cleanup)
        self.folder = Path(kept.name) / "a folder"
        for name, data in backend.program_files(PROGRAM, "plain").items():
            file = self.folder / name
            file.parent.mkdir(parents=True, exist_ok=True)
            file.write_bytes(data)
            file.chmod(0o755)
        (self.folder / "link").symlink_to("nic82599/nicbench")

    def started(self, *words: str) -> tuple[int, str, str]:
        made = subprocess.run([self.folder / words[0], *words[1:]], input="given\n", capture_output=True, text=True)
        return made.returncode, made.stdout, made.stderr

    def test_version(self) -> None:
        program = self.folder / "nic82599/plain/nicbench"
        program.write_bytes(b'#!/bin/sh\necho "nicbench 1.2.3"\n')
        for way in ("nic82599/nicbench", "link"):
            for word in ("--version", "-V"):
                self.assertEqual(self.started(way, word), (0, "nicbench 1.2.3+plain\n", ""))
        program.write_bytes(b"#!/bin/sh\nexit 2\n")
        self.assertEqual(self.started("link", "--version"), (2, "", ""))

    def test_all_else(self) -> None:
        for words in ([], ["run"], ["run", "--vfs", "2"], ["help"], [""]):
            want = (len(words), "nicbench 1.2.3\ngiven\n", f"words: {' '.join(words)}\n")
            for way in ("nic82599/nicbench", "link"):
                self.assertEqual(self.started(way, *words), want)

    def test_proved(self) -> None:
        self.assertEqual(backend.program_files(PROGRAM, "proved"), {"nic82599/nicbench": PROGRAM})


class Clone(unittest.TestCase):
    def test_pip_installs_it(self) -> None:
        """pip installs the clone's folder without an index, with the library that `make -C c` builds."""
        if not find_spec("pip"):
            self.skipTest("this Python has no pip")
        with tempfile.TemporaryDirectory() as folder:
            call = [sys.executable, "-m", "pip", "install", "--no-index", "--target", folder, str(ROOT / "python")]
            made = subprocess.run(call, env=plain_environment(), capture_output=True, text=True)
            self.assertEqual(made.returncode, 0, made.stdout + made.stderr)
            code = "import nic82599; print(nic82599.places.library(), hex(nic82599.Nic()['SRRCTL[3]']))"
            environment = plain_environment(PYTHONPATH=folder)
            said = subprocess.run([sys.executable, "-c", code], env=environment, capture_output=True, text=True)
            self.assertEqual(said.stdout, f"{folder}/nic82599/{places.SONAME} 0x402\n", said.stderr)


class Places(unittest.TestCase):
    def test_variables_decide(self) -> None:
        kept = {name: os.environ.get(name) for name in ("NIC82599_LIBRARY", "NICBENCH")}
        os.environ |= {"NIC82599_LIBRARY": "/nowhere/it.so", "NICBENCH": "/nowhere/nicbench"}
        try:
            self.assertEqual(places.program(), "/nowhere/nicbench")
            with self.assertRaisesRegex(places.Missing, "no C library at /nowhere/it.so: "):
                places.library()
        finally:
            for name, value in kept.items():
                os.environ.pop(name) if value is None else os.environ.update({name: value})

    def test_clone(self) -> None:
        self.assertEqual(places.clone(), ROOT)

    def test_sonames_agree(self) -> None:
        """The packer and the package agree on the libraries' names; the name of the device's library contains the major
        version."""
        self.assertEqual((places.SONAME, places.ENGINE), (backend.SONAME, backend.ENGINE))
        self.assertEqual(places.SONAME, f"libnic82599.so.{backend.version().split('.')[0]}")


if __name__ == "__main__":
    unittest.main()
