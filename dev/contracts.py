"""Reads what a crate's sources promise: each public contract with the sentences of its comments.

A contract is a public function with its `ensures` clauses, or a public type with its invariants. Its sentences are its
doc comment. A clause has a separate sentence if a `//` comment is right above it, or if the clause only applies a
definition of specs/ that has a comment. For a record, the comments of its fields follow.
"""

from __future__ import annotations

import re
from collections.abc import Iterator
from dataclasses import dataclass, field
from functools import cache, cached_property
from pathlib import Path

from generated import ROOT

IMPL = re.compile(r"(?:unsafe )?impl(?:<[^{]*?>)? +(?:(?P<trait>[\w:]+)(?:<[^{]*?>)? +for +)?(?P<name>&?\[?\w+)")
FUNCTION = re.compile(r" *(?P<pub>pub )?(?:unsafe )?(?:const )?(?:extern \"C\" )?fn (?P<name>\w+)")
TYPE = re.compile(r"pub (?P<kind>struct|enum|trait) (?P<name>\w+)")
CLAUSE = re.compile(r" *ensures\*? (?:(?P<name>\w+) )?\{(?P<body>.*)")
GHOST = re.compile(r"    ghost (?P<name>\w+)(?: = |: )\{")
MODULE = re.compile(r"^pub mod (\w+);", re.M)
PASSED_ON = re.compile(r"^pub use (?:crate::)?(\w+)(?:::\w+)*::(?:\{([^}]*)\}|(\w+));", re.M)
IMPORT = re.compile(r"ghost use Rattle\.([\w.]+?)(?:\.\{(.*)\})?(?: as (\w+))?;")
DEFINITION = re.compile(r"(?:(?:pub|abbrev|record|data|unfoldable) )+(\w+)")
# Wrappers that only select the part of a result that a clause describes.
PARTS = {"IfOk", "IfErr", "IfSome", "IfNone", "OnOk", "OnErr", "OnSome", "OnNone", "WhereUp"}
# The parts of a type's contract that promise nothing: its view in contracts, and what the proofs of std's traits need.
NO_PROMISE = {"Value", "view", "coded", "inverse", "inverse_ok", "from_gives"}


@dataclass
class Clause:
    """A clause of a contract: its name (empty if it has none), its body, and the comment right above it."""

    name: str
    body: str
    comment: str = ""


@dataclass
class Contract:
    """A function or a type, with its promises."""

    file: Path
    owner: str
    name: str
    sentences: str
    is_public: bool
    clauses: list[Clause] = field(default_factory=list)
    is_of_c: bool = False
    trait: str = ""

    @property
    def path(self) -> str:
        """The item's path in its crate, without modules."""
        return f"{self.owner}::{self.name}" if self.owner else self.name

    @property
    def module(self) -> str:
        """The item's file, relative to the crate's src/."""
        return self.file.relative_to(ROOT / "crates").with_suffix("").as_posix().partition("/src/")[2]

    @property
    def place(self) -> str:
        return f"{self.file.relative_to(ROOT)}: {self.path}"


def joined(lines: list[str]) -> str:
    """Returns the text of comment lines, without their markers."""
    plain = [re.sub(r"^ *(?:///?!?|--) ?", "", line).strip() for line in lines]
    return " ".join(line for line in plain if line)


def above(lines: list[str], at: int, mark: str) -> str:
    """Returns the comment right above a line, skipping attributes."""
    found: list[str] = []
    while at and (lines[at - 1].lstrip().startswith((mark, "#["))):
        at -= 1
        if lines[at].lstrip().startswith(mark):
            found.insert(0, lines[at])
    return joined(found)


class Reader:
    """Reads the contracts of one file."""

    def __init__(self, file: Path) -> None:
        self.file = file
        self.lines = file.read_text(encoding="utf-8").split("\n")
        self.owner = self.trait = ""
        self.types: dict[str, Contract] = {}
        self.found: list[Contract] = []

    def contracts(self) -> list[Contract]:
        for at, line in enumerate(self.lines):
            self.take(at, line)
        return [*(it for it in self.types.values() if it.clauses), *self.found]

    def take(self, at: int, line: str) -> None:
        if line.startswith(("impl", "unsafe impl")) and (found := IMPL.match(line)):
            self.owner, self.trait = found["name"].lstrip("&["), found["trait"] or ""
        elif line.startswith("}"):
            self.owner = self.trait = ""
        elif found := TYPE.match(line):
            name = found["name"]
            self.types[name] = Contract(self.file, "", name, above(self.lines, at, "///"), True)
            if found["kind"] == "trait":
                self.owner = self.trait = name
        elif found := FUNCTION.match(line):
            self.take_function(at, found)
        elif (found := GHOST.match(line)) and self.owner in self.types and found["name"] not in NO_PROMISE:
            self.types[self.owner].clauses.append(Clause(found["name"], "", above(self.lines, at, "//")))

    def take_function(self, at: int, found: re.Match[str]) -> None:
        said = above(self.lines, at, "///")
        contract = Contract(self.file, self.owner, found["name"], said, bool(found["pub"]) or bool(self.trait))
        contract.is_of_c = 'extern "C"' in found[0]
        contract.clauses = list(self.clauses(at))
        contract.trait = self.trait
        self.found.append(contract)

    def end_of_head(self, at: int) -> int:
        """Returns the line where a function's body begins, or its declaration ends."""
        indent = re.match(" *", self.lines[at])
        assert indent
        depth = 0
        for k in range(at, len(self.lines)):
            line = self.lines[k]
            if re.match(indent[0] + r"[{}]", line) or (k == at and re.search(r"\{(.*\})?$", line)):
                return k
            depth += line.count("{") - line.count("}")
            if line.endswith(";") and not depth:
                return k
        return len(self.lines) - 1

    def clauses(self, at: int) -> Iterator[Clause]:
        for k in range(at + 1, self.end_of_head(at) + 1):
            if found := CLAUSE.match(self.lines[k]):
                body, end = found["body"], k
                while body.count("{") >= body.count("}"):
                    end += 1
                    body += " " + self.lines[end].strip()
                yield Clause(found["name"] or "", body.rpartition("}")[0].strip(), above(self.lines, k, "// "))

    @cached_property
    def imports(self) -> dict[str, tuple[str, str]]:
        """Returns the definitions that the file's clauses use, by local name: the module and the name in that
        module."""
        known: dict[str, tuple[str, str]] = {}
        for path, names, alias in IMPORT.findall("\n".join(self.lines)):
            for name in filter(None, names.split(", ")):
                first, _, new = name.partition(" as ")
                known[new or first] = path, first
            if alias:
                known[alias] = path, ""
        return known


class Crate:
    """The contracts of a crate that a program can name."""

    def __init__(self, name: str) -> None:
        self.name, self.folder = name, ROOT / "crates" / name / "src"
        self.readers = {it: Reader(it) for it in sorted(self.folder.rglob("*.rt"))}
        self.all = [it for reader in self.readers.values() for it in reader.contracts()]
        self.types = {name for reader in self.readers.values() for name in reader.types}
        for it in self.all:
            it.sentences = it.sentences or self.of_trait(it)
        root = (self.folder / "lib.rt").read_text(encoding="utf-8") if (self.folder / "lib.rt").exists() else ""
        self.modules = {"lib", *MODULE.findall(root)}
        self.names = {name for _, some, one in PASSED_ON.findall(root) for name in re.findall(r"\w+", some or one)}

    def of_trait(self, it: Contract) -> str:
        """Returns the sentences of the trait function that a contract implements, if the trait is in the crate."""
        return next((one.sentences for one in self.all if one.path == f"{it.trait}::{it.name}"), "")

    def is_public(self, it: Contract) -> bool:
        """Returns whether a program that uses the crate can name it."""
        if it.is_of_c:
            return True
        return it.is_public and (it.module.partition("/")[0] in self.modules or (it.owner or it.name) in self.names)

    def public(self) -> list[Contract]:
        return [it for it in self.all if it.clauses and self.is_public(it)]

    def definition(self, contract: Contract, clause: Clause) -> tuple[str, str] | None:
        """Returns the only definition that a clause applies, as its path and its comment, or None if it has no
        comment."""
        head = head_of(clause.body)
        imports = self.readers[contract.file].imports
        first, _, rest = head.partition(".")
        if first not in imports:
            return None
        path, name = imports[first]
        said = comment_of(path, name or rest)
        return (f"{path}.{name or rest}", said) if said else None


def head_of(body: str) -> str:
    """Returns the definition that a clause's body applies; an empty string if the body says more."""
    while found := re.match(r"(\w+)(?: [\w.]+)* \((?:λ [^.]*\. *)?(.*)\)$", body):
        if found[1] not in PARTS:
            break
        body = found[2].strip()
    rest = body.replace("[]", "")
    while (less := re.sub(r"\([^()]*\)", "", rest)) != rest:
        rest = less
    found = re.match(r"[\w.]+$|[\w.]+(?= )", rest)
    return found[0] if found and not re.search(r"[^\w\s.'«»]", rest) else ""


@cache
def comments() -> dict[tuple[str, str], dict[str, str]]:
    """Returns the comments of the definitions in specs/, by module and name, then by crate."""
    known: dict[tuple[str, str], dict[str, str]] = {}
    for file in sorted((ROOT / "crates").glob("*/specs/**/*.antt")):
        lines = file.read_text(encoding="utf-8").split("\n")
        for at, line in enumerate(lines):
            if (found := DEFINITION.match(line)) and (said := above(lines, at, "-- ")):
                crate = file.relative_to(ROOT / "crates").parts[0]
                more = fields_of(lines, at) if " record " in f" {line}" else []
                known.setdefault((file.stem, found[1]), {})[crate] = " ".join(map(sentence, [said, *more]))
    return known


def fields_of(lines: list[str], at: int) -> list[str]:
    """Returns the comments of a record's fields."""
    found: list[str] = []
    for k in range(at + 1, len(lines)):
        if not lines[k].startswith(" "):
            break
        if lines[k].startswith("  pub ") and (said := above(lines, k, "-- ")):
            found.append(said)
    return found


def sentence(text: str) -> str:
    """Returns the comment of a definition, a field or a clause as a sentence."""
    return text[:1].upper() + text[1:].rstrip(",") + ("" if text.endswith((".", "?")) else ".")


def comment_of(path: str, name: str) -> str:
    """Returns the comment of a definition, by the path with which a source imports its module."""
    parts = path.split(".")
    found = comments().get((parts[-1], name), {})
    camel = {"".join(word.capitalize() for word in crate.split("_")): crate for crate in found}
    named = [camel[part] for part in reversed(parts) if part in camel] or [it for it in found if it == parts[0]]
    return found[named[0]] if named else ""
