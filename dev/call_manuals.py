"""Generates the section 3 manual pages for the C calls from the comments in the headers: one page for each group of
functions that share a comment, and one for each header. dev/manuals writes them."""

from __future__ import annotations

import re
from dataclasses import dataclass, field

from generated import text_of

HEADERS = {
    "nic82599.h": "a model of the Intel 82599 10 GbE controller, to run driver code on",
    "nic82599_desc.h": "descriptors of the Intel 82599, as drivers pack and read them",
    "nic82599_pcap.h": "captures of Ethernet frames",
    "nic82599_explore.h": "search for the order of steps that breaks a driver",
    "nic82599_drive.h": "a report card for a driver",
}
# The archives that a program links before libnic82599.a.
PARTS = {
    "nic82599_explore.h": ["nic82599_explore"],
    "nic82599_drive.h": ["nic82599_drive", "nic82599_explore"],
}
COMMENT = re.compile(r"/\*(?P<words>.*?)\*/", re.S)
# A declaration, or the head of an inline function, at the start of a line.
FUNCTION = re.compile(
    r"^(?:static inline )?(?P<type>(?:const |enum )*\w+ \**)(?P<name>\w+)\((?P<words>(?:[^()]|\([^()]*\))*)\)"
    r"(?P<end>;|\n\{)[ ]*(?P<note>/\*[^\n]*\*/)?",
    re.M,
)
SECTION = re.compile(r"/\* --- (?P<title>.*?) --- \*/")
STATUS = re.compile(r"^    NIC_(?P<name>\w+) = \d+,?(?: +/\* (?P<words>.*?) \*/)?", re.M | re.S)


@dataclass(frozen=True)
class Function:
    """A function: its result type, its name, its parameters, and the rest of its line."""

    type: str
    name: str
    words: list[str]
    note: str


@dataclass
class Group:
    """The functions that share one comment, in a section of a header."""

    section: str
    comment: str
    functions: list[Function] = field(default_factory=list)


def plain(comment: str) -> str:
    """Returns a comment's text. Empty lines and the lines of examples are kept."""
    lines = [line.strip() if not line.startswith(" " * 6) else line for line in comment.strip("\n").split("\n")]
    return "\n".join(lines).strip()


def split_words(words: str) -> list[str]:
    """Splits a parameter list. A function pointer may itself contain commas."""
    parts, depth, begin = [], 0, 0
    for at, letter in enumerate(words + ","):
        depth += (letter == "(") - (letter == ")")
        if letter == "," and not depth:
            parts.append(" ".join(words[begin:at].split()))
            begin = at + 1
    return parts


def function_of(found: re.Match[str]) -> Function:
    note = (found["note"] or "").removeprefix("/*").removesuffix("*/").strip()
    return Function(found["type"].strip(), found["name"], split_words(found["words"]), note)


def groups_of(header: str) -> list[Group]:
    """Returns the functions in a header, grouped by the comments that they follow."""
    text, groups, section, at = text_of(f"c/include/{header}"), [], "", 0
    group = Group("", "")
    marks = sorted([*COMMENT.finditer(text), *FUNCTION.finditer(text)], key=lambda it: it.start())
    for mark in marks:
        if mark.start() < at:
            continue
        at = mark.end()
        if mark.re is FUNCTION:
            group.functions.append(function_of(mark))
            continue
        is_first_on_line = text.rfind("\n", 0, mark.start()) + 1 == mark.start()
        # (functions after an enum without a comment aren't meant for callers)
        is_of_enum = text[mark.end() :].lstrip().startswith("enum")
        titled = SECTION.fullmatch(mark[0])
        section = titled["title"] if titled else section
        if is_first_on_line:
            group = Group(section, "" if titled or is_of_enum else plain(mark["words"]))
            groups.append(group)
    for before, group in zip(groups, groups[1:]):
        if group.comment.startswith("The same "):
            group.comment = f"{before.comment}\n\n{group.comment}"
    return [it for it in groups if it.functions and it.comment]


def about(header: str) -> str:
    """Returns a header's description: its first comment."""
    found = COMMENT.search(text_of(f"c/include/{header}"))
    assert found
    return plain(found["words"])


def statuses() -> dict[str, str]:
    """Returns the meaning of each status."""
    text = text_of("c/include/nic82599.h").partition("enum nic_status {")[2].partition("};")[0]
    found = {it["name"]: " ".join((it["words"] or "").split()) for it in STATUS.finditer(text)}
    return {name: words for name, words in found.items() if name not in ("IMAGE", "TEXT")}


def escaped(line: str) -> str:
    """Escapes a line of text for roff."""
    text = line.replace("\\", "\\e").replace("-", "\\-")
    return "\\&" + text if text.startswith((".", "'")) else text


def body(text: str) -> str:
    """Returns paragraphs as roff; the lines of examples are kept."""
    parts = []
    for part in re.split(r"\n\s*\n", text):
        lines = part.split("\n")
        is_plain = not lines[0].startswith(" ")
        rendered = "".join(escaped(line) + "\n" for line in lines)
        parts.append(rendered if is_plain else f".Bd -literal\n{rendered}.Ed\n")
    return ".Pp\n".join(parts)


def word(text: str) -> str:
    """Returns a word quoted as an argument of a roff macro."""
    return '"' + escaped(text).replace('"', '""') + '"'


def synopsis(header: str, functions: list[Function]) -> str:
    lines = [f".In {header}"]
    for it in functions:
        lines += [f".Ft {word(it.type)}", f".Fo {it.name}", *(f".Fa {word(one)}" for one in it.words), ".Fc"]
    return "\n".join(lines) + "\n"


def first_sentence(group: Group) -> str:
    """Returns a summary of the functions in one line, from the paragraph about them."""
    sentence = re.split(r"[.:;] ", " ".join(group.comment.split("\n\nThe same ")[-1].split()) + " ", maxsplit=1)[0]
    is_same = "\n\nThe same " in group.comment
    return ("the same " if is_same else "") + sentence.strip().rstrip(".")


def values(group: Group) -> str:
    """Returns the meaning of each status that the comment names, and of the status for a controller that isn't open."""
    means, wanted = statuses(), re.findall(r"\b[A-Z][A-Z_]{3,}\b", group.comment)
    if "NIC_IMAGE_.." in group.comment:
        wanted += [name for name in means if name.startswith(("IMAGE_", "TEXT_"))]
    if any(one.startswith(("nic *", "nic_kept", "const nic_kept")) for it in group.functions for one in it.words):
        wanted.append("CLOSED")
    named = [name for name in means if name in wanted]
    if not named or not any(it.type == "uint8_t" for it in group.functions):
        return ""
    lines = "".join(f".It Dv NIC_{name}\n{escaped(means[name] or name.lower().replace('_', ' '))}\n" for name in named)
    width = max(named, key=len)
    return f".Sh RETURN VALUES\nAs numbers of type uint8_t:\n.Bl -tag -width NIC_{width} -compact\n{lines}.El\n"


def head(header: str, names: list[str], says: str, version: str, date: str) -> str:
    name, parts = names[0], PARTS.get(header, []) + ["nic82599"]
    library = f"lib{parts[0]} (" + " ".join(escaped(f"-l{it}") for it in parts) + ")"
    return (
        f".\\\" Generated by dev/manuals from the headers.\n.Dd {date}\n.Dt {name.upper()} 3\n.Os nic82599 {version}\n"
        ".Sh NAME\n" + " ,\n".join(f".Nm {it}" for it in names) + f"\n.Nd {escaped(says)}\n"
        f".Sh LIBRARY\n{library}\n"
    )


def page(header: str, group: Group, others: list[str], version: str, date: str) -> str:
    """Returns the page of a group."""
    names = [it.name for it in group.functions]
    notes = "".join(f".Pp\n.Fn {it.name} :\n{escaped(it.note)}\n" for it in group.functions if it.note)
    near = " ,\n".join(f".Xr {it} 3" for it in [header.removesuffix(".h"), *others])
    return (
        head(header, names, first_sentence(group), version, date)
        + f".Sh SYNOPSIS\n{synopsis(header, group.functions)}"
        + f".Sh DESCRIPTION\n{body(group.comment)}{notes}{values(group)}.Sh SEE ALSO\n{near}\n"
    )


def overview(header: str, groups: list[Group], version: str, date: str) -> str:
    """Returns the page of a header: its description, and its functions by section."""
    name = header.removesuffix(".h")
    sections: dict[str, list[str]] = {}
    for group in groups:
        sections.setdefault(group.section or "functions", []).extend(it.name for it in group.functions)
    listed = "".join(
        f".It {escaped(title)}\n" + " ,\n".join(f".Xr {it} 3" for it in names) + "\n"
        for title, names in sections.items()
    )
    others = " ,\n".join(f".Xr {it.removesuffix('.h')} 3" for it in HEADERS if it != header)
    return (
        head(header, [name], HEADERS[header], version, date)
        + f".Sh SYNOPSIS\n.In {header}\n.Sh DESCRIPTION\n{body(about(header))}"
        + f".Sh FUNCTIONS\n.Bl -tag -width 4n\n{listed}.El\n.Sh SEE ALSO\n.Xr nicbench 1 ,\n{others}\n"
    )


def pages(version: str, date: str) -> dict[str, str]:
    """Returns the pages of section 3 by name. A page has the name of its first function. The
    names of its other functions redirect to it."""
    made = {}
    for header in HEADERS:
        groups = groups_of(header)
        made[header.removesuffix(".h")] = overview(header, groups, version, date)
        for group in groups:
            first, *rest = [it.name for it in group.functions]
            near = [it.functions[0].name for it in groups if it.section == group.section and it is not group]
            made[first] = page(header, group, near[:12], version, date)
            made |= dict.fromkeys(rest, f".so man3/{first}.3\n")
    return made
