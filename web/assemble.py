"""Assembles the parts of the page: the tools in JavaScript, the module, tables, examples, lessons."""

from __future__ import annotations

import ast
import base64
import hashlib
import json
import re
import sys
from pathlib import Path
from typing import Any

import translate

ROOT = Path(__file__).resolve().parent.parent
WEB = ROOT / "web"
TOOLS = ROOT / "python/nic82599/tools"
sys.path.insert(0, str(ROOT / "python"))
# Each module follows the ones that it needs. The package's own frames.py is named `packets` here, because a tool's
# module is named `frames`.
OF_TOOLS = (
    "known fields tables regs frames printable script trace memory reason_table advice reasons about forms refusals "
    "run page as_test"
).split()
MODULES = {name: TOOLS / f"{name}.py" for name in OF_TOOLS} | {
    "descriptor_fields": TOOLS.parent / "descriptor_fields.py",
    "packets": TOOLS.parent / "frames.py",
    "pcap": TOOLS.parent / "pcap.py",
}
LEFT_OUT = {
    "packets": {"Address"},
    "pcap": {"read_pcap", "write_pcap", "bytes_of", "HasBytes"},
    "script": {"Bench.call", "Bench._call", "Bench.edition", "_talk", "_hear", "read_bytes", "read_text", "load"},
    "printable": {"Printable"},
    "page": {"page", "code_of"},
}


def node(it: Any) -> Any:
    """Returns a node of an expression as data."""
    if isinstance(it, list):
        return [node(one) for one in it]
    if isinstance(it, ast.AST):
        return {"node": type(it).__name__} | {name: node(value) for name, value in ast.iter_fields(it) if name != "ctx"}
    return it


def expressions() -> dict[str, Any]:
    """Returns the expressions of reasons.txt, parsed by Python."""
    from nic82599.tools import reason_table

    texts: set[str] = set()
    for row in reason_table.rows().values():
        texts |= {text for text in (row.condition, row.value) if text}
        for part in (row.statement, row.why, row.otherwise):
            places = (place.partition(":") for place in reason_table.PLACE.findall(part))
            texts |= {text for text, _, form in places if form != "s"}
    return {text: node(ast.parse(text, mode="eval").body) for text in sorted(texts)}


def in_script(value: Any) -> str:
    """Returns a value as JSON without `<`, which could end the script element around it."""
    return json.dumps(value, separators=(",", ":")).replace("<", "\\u003c")


def nicbench() -> str:
    """Returns the module's interface as an object."""
    text = (ROOT / "plain/wasm/nicbench.mjs").read_text().replace("export ", "")
    names = "Calls, lineOf, bytesOf, WORDS, INPUT, PRINTED"
    return f"const NICBENCH = (() => {{\n{text}\nreturn {{ {names} }};\n}})();\n"


def model() -> str:
    """Returns the tools, and the model that answers their requests, as one script for a worker."""
    reasons = in_script((TOOLS / "reasons.txt").read_text(encoding="utf-8"))
    trees = f"new Map(Object.entries({in_script(expressions())}))"
    given = f'P.files.set("reasons.txt", {reasons});\nP.modules.ast.trees = {trees};\n'
    tools = translate.written(MODULES, LEFT_OUT)
    first, last = ((WEB / name).read_text() for name in ("python.js", "model.js"))
    return "\n".join([first, 'const __file__ = "";', given, tools, nicbench(), last])


# --- what the page knows: registers, operations, replies, examples, lessons ---


def registers() -> dict[str, Any]:
    """Returns the registers by name, from the register table, with their fields."""
    from nic82599.tools.fields import FIELDS
    from nic82599.tools.tables import TABLE

    return {
        row.name: {
            "count": row.count,
            "meaning": row.meaning,
            "address": row.runs[0].first,
            "reset": row.reset,
            "fields": [[it.name, it.high, it.low, it.acts] for it in FIELDS.get(row.name, [])],
        }
        for row in TABLE
    }


def rows_of(page: str, title: str) -> list[list[str]]:
    """Returns the rows of a page's table with this title."""
    lines = (ROOT / "docs" / page).read_text(encoding="utf-8").splitlines()
    at = lines.index(title) + 2
    end = next(k for k in range(at, len(lines)) if not lines[k].startswith("|"))
    return [[cell.strip() for cell in line.strip("|").split(" | ")] for line in lines[at:end]]


def plain(text: str) -> str:
    """Returns a page's text without its markup."""
    return re.sub(r"\[([^\]]*)\]\([^)]*\)", r"\1", text).replace("`", "")


def operations() -> dict[str, list[str]]:
    """Returns each operation with its form and its description in docs/script.md. A row with two operations
    describes them in order."""
    from nic82599.tools.forms import FORMS

    meanings: dict[str, str] = {}
    for line, does in rows_of("script.md", "| Line | Effect |"):
        words, parts = [one.split()[0] for one in re.findall(r"`([^`]+)`", line)], plain(does).split("; ")
        are_own = len(set(words)) == len(words) == len(parts)
        for word, own in zip(words, parts if are_own else [plain(does)] * len(words)):
            meanings.setdefault(word, own)
    return {word: [form, meanings[word]] for word, form in FORMS.items()}


def replies() -> dict[str, str]:
    """Returns the meaning of a reply's first word, from docs/script.md."""
    found: dict[str, list[str]] = {}
    for printed, _, means in rows_of("script.md", "| Printed | After | Means |"):
        for word in dict.fromkeys(one.split()[0] for one in re.findall(r"`([^`]+)`", printed)[:1]):
            found.setdefault(word, []).append(plain(means).removesuffix(": see below"))
    return {word: means[0] for word, means in found.items() if len(means) == 1}


def examples() -> list[dict[str, Any]]:
    """Returns all scripts of examples/, the introductory one first."""
    two = {"virtual", "mailbox"}
    files = sorted((ROOT / "examples").glob("*.nic"), key=lambda it: (it.stem != "first", it.stem))
    return [{"name": it.name, "text": it.read_text(), "vfs": 2 if it.stem in two else None} for it in files]


# Hides what the view in the page doesn't need: the script is in the editor. (The step isn't written to the URL, which
# belongs to the page.)
EMBEDDED = """<style>
#script, #theme, h1 { display: none; }
main { grid-template-columns: minmax(0, 1fr); }
header { padding-top: 3px; }
</style>
</head>"""
QUIET = "history.replaceState = () => {};\n"


def view() -> tuple[str, str, str]:
    """Returns a nicview page without its data: the text before and after the data, and its code."""
    code = QUIET + "".join((TOOLS / name).read_text() for name in ("nicview_rings.js", "nicview.js"))
    text = (TOOLS / "nicview.html").read_text().replace("</head>", EMBEDDED)
    text = text.replace("{{TITLE}}", "the run").replace("{{FOOT}}", "").replace("{{CODE}}", code)
    before, after = text.split("{{DATA}}")
    return before, after, f"\n{code}\n"


def given() -> dict[str, Any]:
    import lessons

    start, end, _ = view()
    files = {"hash": "hash.txt", "eeprom": "setting.eeprom"}
    return {
        "registers": registers(),
        "forms": operations(),
        "replies": replies(),
        "examples": examples(),
        "lessons": [lessons.as_data(it) for it in lessons.read()],
        "starts": {name: (ROOT / "examples" / file).read_text() for name, file in files.items()},
        "view": [start, end],
    }


# --- the page ---

PARTS = ("base.js", "editor.js", "run.js", "parts.js", "main.js")


def hash_of(script: str) -> str:
    """Returns a script's hash as the page's policy names it."""
    return f"'sha256-{base64.b64encode(hashlib.sha256(script.encode()).digest()).decode()}'"


def page(module: bytes, foot: str) -> str:
    """Returns the whole page. Its policy allows only these two scripts to run, and no network access."""
    code = "".join((WEB / name).read_text() for name in PARTS)
    worker = model() + (WEB / "worker.js").read_text()
    if "</script" in worker + code or "<!--" in worker + code:
        raise ValueError("a part of the page contains `</script` or `<!--`, which would end the inline script")
    scripts = " ".join(map(hash_of, (f"\n{code}\n", view()[2])))
    policy = (
        f"default-src 'none'; script-src {scripts} 'wasm-unsafe-eval' blob:; worker-src blob:; "
        "style-src 'unsafe-inline'; img-src data: blob:; form-action 'none'; base-uri 'none'"
    )
    parts = {
        "{{POLICY}}": policy,
        "{{STYLE}}": (WEB / "page.css").read_text(),
        "{{FOOT}}": foot,
        "{{MODEL}}": worker,
        "{{MODULE}}": base64.b64encode(module).decode(),
        "{{GIVEN}}": in_script(given()),
        "{{CODE}}": code,
    }
    return re.sub("|".join(map(re.escape, parts)), lambda mark: parts[mark[0]], (WEB / "page.html").read_text())
