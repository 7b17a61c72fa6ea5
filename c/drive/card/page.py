"""The card as a self-contained page: a row for each scenario, grouped by family."""

from __future__ import annotations

from html import escape

from .report import Card, blindness, counts, extent, unmodelled
from .rows import FAILED, NOT_APPLICABLE, NOT_REACHED, PASSED, Row

MARKS = {
    PASSED: ("ok", "pass"),
    FAILED: ("fail", "fail"),
    NOT_REACHED: ("??", "fail"),
    NOT_APPLICABLE: ("n/a", "none"),
}

STYLE = """
:root { color-scheme: light dark; --ink: #1b1f24; --dim: #59636e; --paper: #fff; --line: #d1d9e0; --box: #f6f8fa;
  --pass: #1a7f37; --fail: #cf222e; --none: #6e7781; --link: #0969da; }
@media (prefers-color-scheme: dark) { :root { --ink: #e6edf3; --dim: #9198a1; --paper: #0d1117; --line: #30363d;
  --box: #151b23; --pass: #3fb950; --fail: #f85149; --none: #9198a1; --link: #58a6ff; } }
* { box-sizing: border-box; }
body { margin: 0 auto; max-width: 76rem; padding: 1.5rem 1rem 4rem; background: var(--paper); color: var(--ink);
  font: 15px/1.5 system-ui, sans-serif; }
h1 { font-size: 1.5rem; margin: 0 0 .25rem; } h2 { font-size: 1.1rem; margin: 2rem 0 .5rem; }
p { margin: .25rem 0; } a { color: var(--link); } .dim { color: var(--dim); }
.bar { display: flex; height: .6rem; border-radius: .3rem; overflow: hidden; margin: .75rem 0; background: var(--box); }
.bar span { display: block; } .none { --tone: var(--none); }
.pass { --tone: var(--pass); } .fail { --tone: var(--fail); }
.bar span { background: var(--tone); }
.row { display: grid; grid-template-columns: 3rem 15rem 1fr; gap: .25rem .75rem; padding: .5rem 0;
  align-items: baseline; border-top: 1px solid var(--line); overflow-wrap: anywhere; }
.mark { color: var(--tone); font-weight: 600; } .name { font-family: ui-monospace, monospace; font-size: .9em; }
.cause { color: var(--fail); font-weight: 600; }
details { margin-top: .35rem; } summary { cursor: pointer; color: var(--link); }
pre { background: var(--box); border: 1px solid var(--line); border-radius: .4rem; padding: .6rem; overflow-x: auto;
  font-size: .85em; line-height: 1.4; margin: .4rem 0; }
.chips { display: flex; flex-wrap: wrap; gap: .3rem; padding: 0; list-style: none; font-size: .85em; }
.chips li { border: 1px solid var(--line); border-radius: .3rem; padding: 0 .4rem;
  font-family: ui-monospace, monospace; }
.chips li.off { color: var(--dim); border-style: dashed; }
.row:target { background: var(--box); }
@media (max-width: 40rem) { .row { grid-template-columns: 2.5rem 1fr; } .row > .what { grid-column: 1 / -1; } }
"""


def bar(card: Card) -> str:
    parts = [(state, card.count(state)) for state in MARKS]
    spans = "".join(
        f'<span class="{MARKS[state][1]}" style="flex: {count}" title="{count} {state}"></span>'
        for state, count in parts
        if count
    )
    return f'<div class="bar">{spans}</div>'


def failure(row: Row) -> str:
    parts = [f'<p class="cause">{escape(row.cause)}</p>']
    pages = [(row.page, "the schedule, point by point"), (row.run, "the device's run, step by step")]
    links = [f'<a href="{escape(page)}">{words}</a>' for page, words in pages if page]
    if links:
        parts.append(f"<p>{'; '.join(links)}</p>")
    for summary, text in (("the schedule as text", row.schedule), ("the command that replays it", row.again)):
        if text.strip():
            parts.append(f"<details><summary>{summary}</summary><pre>{escape(text.strip())}</pre></details>")
    return "".join(parts)


def reached(row: Row) -> str:
    parts = []
    if row.delivered or row.sent:
        parts.append(f"{row.delivered:,} frames delivered, {row.sent:,} sent")
    parts += [f"reached: {name}" for name, count in row.reached.items() if count]
    return "; ".join(parts)


def result(row: Row) -> str:
    if row.state == NOT_APPLICABLE:
        return f'<p class="dim">not applicable: {escape(row.lack)}</p>'
    if row.state == FAILED:
        return failure(row) + f'<p class="dim">found in {escape(extent(row))}</p>'
    if row.state == NOT_REACHED:
        return failure(row) + f'<p class="dim">nothing failed in {escape(extent(row))}</p>'
    return f'<p class="dim">{escape(extent(row))}{escape(". " + reached(row) if reached(row) else "")}</p>'


def one(row: Row) -> str:
    word, tone = MARKS[row.state]
    return (
        f'<div class="row {tone}" id="{row.name}"><div class="mark">{word}</div><div class="name">{row.name}</div>'
        f'<div class="what"><p>{escape(row.title)}</p><p class="dim">{escape(row.rule)} '
        f"<i>({escape(row.source)})</i></p>{result(row)}</div></div>"
    )


def chips(names: dict[str, int]) -> str:
    items = "".join(
        f'<li{"" if count else " class=off"} title="{count:,} times">{escape(name)}</li>'
        for name, count in names.items()
    )
    return f'<ul class="chips">{items}</ul>'


def untried(rules: list[str]) -> str:
    items = "".join(f"<li>{escape(rule)}</li>" for rule in rules)
    summary = f"{len(rules)} not tried, because their rows aren't applicable"
    return f"<details><summary>{summary}</summary><ul>{items}</ul></details>"


def coverage(card: Card) -> str:
    registers = {name: reads + writes for name, (reads, writes) in card.registers().items()}
    replies = card.replies()
    rules: dict[str, bool] = {}
    for row in card.rows:
        rules[row.rule] = rules.get(row.rule, False) or row.state != NOT_APPLICABLE
    return (
        f"<h2>Registers in the table that the driver accessed: {sum(map(bool, registers.values()))} of {len(registers)}"
        f"</h2>{chips(registers)}<h2>Distinct device replies: {sum(map(bool, replies.values()))} of "
        f"{len(replies)}</h2>{chips(replies)}<h2>Rules that were tried: {sum(rules.values())} of {len(rules)}</h2>"
        + untried([rule for rule, is_tried in rules.items() if not is_tried])
        + "".join(f"<p>{escape(line)}</p>" for line in unmodelled(card))
    )


def family_of(card: Card, family: str) -> str:
    """Shows a family's rows that passed, folds those that aren't applicable, and links to failed ones at the top of the
    page."""
    rows = card.of(family)
    failed = [row for row in rows if row.state in (FAILED, NOT_REACHED)]
    others = [row for row in rows if row.state == NOT_APPLICABLE]
    above = f'<p class="fail">failed or not reached: {links(failed)}</p>' if failed else ""
    passed = "".join(one(row) for row in rows if row.state == PASSED)
    folded = "".join(map(one, others))
    more = f"<details><summary>{len(others)} not applicable</summary>{folded}</details>" if others else ""
    return f"<h2>{escape(family)}</h2>{above}{passed}{more}"


def links(rows: list[Row]) -> str:
    return ", ".join(f'<a href="#{row.name}">{row.name}</a>' for row in rows)


def page(card: Card) -> str:
    families = "".join(family_of(card, family) for family in card.families())
    failed = [row for row in card.rows if row.state in (FAILED, NOT_REACHED)]
    first = f"<h2>failed or not reached</h2>{''.join(map(one, failed))}" if failed else ""
    return (
        '<!doctype html><html lang="en"><head><meta charset="utf-8">'
        '<meta name="viewport" content="width=device-width, initial-scale=1">'
        f"<title>{escape(card.driver)}: report card</title><style>{STYLE}</style></head><body>"
        f"<h1>{escape(card.driver)}</h1><p>{counts(card)}, in {card.seconds:.0f} s with seed {card.budget.seed}</p>"
        f"{f'<p>{escape(blindness(card.blind))}</p>' if card.blind else ''}"
        f"{bar(card)}{f'<p>failed or not reached: {links(failed)}</p>' if failed else ''}{first}{families}"
        f"{coverage(card)}"
        "</body></html>\n"
    )
