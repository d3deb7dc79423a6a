"""The page of a folder of evidence: HTML without a script, which needs no network."""

import re
from collections import Counter
from html import escape
from typing import Iterable, Sequence

from fptools.budget.files import Result
from fptools.evidence.evidence import Comparison, Evidence, Promise
from fptools.report.promises import CHECKS, TESTED
from fptools.budget.reports import without_controls
from fptools.files.setup import ThreadTable

STYLE = """
body { font: 16px/1.45 sans-serif; max-width: 60rem; margin: 2rem auto; padding: 0 1rem;
  color: #1b1f24; background: #fff }
h1 { font-size: 1.6rem }
h2 { font-size: 1.25rem; margin-top: 2.2rem; border-bottom: 1px solid #c9ced4 }
table { border-collapse: collapse; width: 100% }
td, th { text-align: left; vertical-align: top; padding: .25rem .6rem .25rem 0;
  border-bottom: 1px solid #e3e6ea }
code, pre { font: 13px/1.4 monospace }
pre { background: #f3f5f7; padding: .6rem; overflow-x: auto }
.box { border-left: 4px solid #b35900; background: #fff6ea; padding: .5rem .9rem }
.sum { word-break: break-all }
@media print { details { display: block } body { max-width: none } }
"""

IS_NOT = (
    "This page is no certificate, no qualification kit and no safety manual. No tool here is"
    " qualified by DO-330, ISO 26262, IEC 61508 or another standard. It collects what can be"
    " checked again, and says how."
)
NO_RECORD = (
    "There is no record of a whole ./test in this checkout. So this page doesn't say whether all"
    " proofs and tests pass. Call ./test, then make the page again."
)


def text(words: str) -> str:
    """Text as HTML."""
    return escape(without_controls(words), quote=True)


def code(words: str) -> str:
    return f"<code>{text(words)}</code>"


def row(*cells: str) -> str:
    return "<tr>" + "".join(f"<td>{it}</td>" for it in cells) + "</tr>"


def table(heads: Sequence[str], rows: Iterable[str]) -> str:
    head = "<tr>" + "".join(f"<th>{text(it)}</th>" for it in heads) + "</tr>"
    return "\n".join(["<table>", head, *rows, "</table>"])


def items(lines: Iterable[str], tag: str = "ul") -> str:
    return "\n".join([f"<{tag}>", *(f"<li>{it}</li>" for it in lines), f"</{tag}>"])


def html_of(evidence: Evidence, title: str) -> bytes:
    """The whole page."""
    parts = [
        f"<h1>{text(title)}</h1>",
        f'<p class="box">{text(IS_NOT)}</p>',
        *warnings(evidence),
        "<h2>1. The answers</h2>",
        *answers(evidence),
        "<h2>2. Where they come from</h2>",
        *origin(evidence),
        "<h2>3. What is proved</h2>",
        *promises(evidence.promises),
        "<h2>4. What is trusted</h2>",
        *trusted(evidence),
        "<h2>5. What these answers assume</h2>",
        *assumed(evidence),
        "<h2>6. What you must check</h2>",
        *checks(),
        "<h2>7. The last ./test</h2>",
        *gate(evidence),
        "<h2>8. Comparisons with what others made</h2>",
        *compared(evidence.comparisons),
        "<h2>9. How to repeat it</h2>",
        *repeat(evidence),
    ]
    head = (
        f'<!DOCTYPE html>\n<html lang="en"><head><meta charset="utf-8"><title>{text(title)}</title>'
    )
    return "\n".join(
        [head + f"<style>{STYLE}</style></head><body>", *parts, "</body></html>", ""]
    ).encode()


def warnings(evidence: Evidence) -> list[str]:
    """What an assessor has to know before all else."""
    origin, found = evidence.origin, []
    if not origin.is_proved:
        found.append(
            f"<b>The program isn't known to be the proved one:</b> {text(origin.program)}."
        )
    if origin.changes:
        found.append(
            f"<b>This checkout has changes</b> to {len(origin.changes)} files since its commit."
        )
    if evidence.gate is None:
        found.append(f"<b>No record of ./test.</b> {text(NO_RECORD)}")
    elif not re.fullmatch(r"\d+ passed, 0 failed(, \d+ skipped)?", str(evidence.gate.get("last"))):
        found.append(f"<b>The last ./test failed:</b> {text(str(evidence.gate.get('last')))}.")
    elif evidence.gate.get("commit") != origin.commit:
        found.append("<b>The record of ./test is of another commit</b> than this checkout's.")
    return [f'<p class="box">{it}</p>' for it in found]


def answers(evidence: Evidence) -> list[str]:
    rows = []
    for it in evidence.results:
        budget = "-" if it.budget.cycles is None else f"{it.budget.cycles:,}"
        bound = "-" if it.bound is None else f"{it.bound:,} ({it.ns:,} ns)"
        rows.append(
            row(f"<b>{text(it.word)}</b>", text(str(it.budget)), bound, budget, text(it.text))
        )
    heads = ("answer", "budget", "bound, cycles", "budget, cycles", "in full")
    stacks = [row(text(it.word), f"T{it.thread}", text(it.text)) for it in evidence.stacks]
    meaning = (
        "<p><i>holds</i>: the bound is within the budget, and the tool found no way to exceed it."
        " <i>OVER</i>: the bound is above the budget. <i>UNKNOWN</i>: an execution may take longer"
        " than the bound. The numbers are the program's. The tool in Python looks for what they"
        " leave out.</p>"
    )
    return [
        table(heads, rows),
        meaning,
        table(("answer", "stack of", "deepest, and the room"), stacks),
    ]


def origin(evidence: Evidence) -> list[str]:
    it = evidence.origin
    facts = [
        row("commit", code(it.commit) + text(f" of {it.date}" if it.date else "")),
        row("changed files", text(", ".join(it.changes)) or "none"),
        row("kit and logic", code(it.kit)),
        row("program", text(it.program)),
        row("SHA-256 of the program", f'<span class="sum">{code(it.program_sum)}</span>'),
        row(
            f"{len(it.sources):,} sources of the program here",
            (
                f'SHA-256 of their list {code("sources.sha256")}: <span'
                f' class="sum">{code(it.sources_sum)}</span>'
            ),
        ),
    ]
    files = [
        row(text(it.what), text(it.name), code(it.copy), f'<span class="sum">{code(it.sum)}</span>')
        for it in evidence.inputs
    ]
    parts = [
        table(("", ""), facts),
        "<h3>Files that were read</h3>",
        table(("file", "name", "copy here", "SHA-256"), files),
    ]
    if evidence.recorded:
        own = [
            row(text(name), f'<span class="sum">{code(total)}</span>')
            for name, total in evidence.recorded
        ]
        parts += [
            "<h3>Sources of the executable, as it records them</h3>",
            table(("source", "SHA-256"), own),
        ]
    else:
        parts.append(
            "<p>The executable has no record of its sources: nothing here says from which it was"
            " built.</p>"
        )
    return parts


def promises(found: Sequence[Promise]) -> list[str]:
    start = (
        "<p>Each promise is a contract of the program. The prover checked it for all inputs before"
        " the program was built. The clauses are shown as the sources of this checkout have them."
        " <code>definitions.txt</code> has every definition that they stand on.</p>"
    )
    return [start, *(promise(it) for it in found)]


def promise(it: Promise) -> str:
    """A promise: its sentence, its clauses, and the definitions to be read."""
    parts = [f"<h3>{text(it.name)} {text(it.says)}</h3>"]
    if it.conditions:
        parts.append(f"<p>If: {text(it.conditions)}.</p>")
    for clause in it.clauses:
        parts.append(
            f"<p>{code(f'{clause.file}:{clause.line}')}, function {code(clause.function)}:</p>"
        )
        parts.append(f"<pre>{text(clause.text)}</pre>")
        if clause.premises:
            parts.append(
                f"<p>It requires of its caller:</p><pre>{text(chr(10).join(clause.premises))}</pre>"
            )
    files: Counter[str] = Counter()
    for one in it.definitions:
        files[one.file] += one.lines
    rows = [row(code(file), str(lines)) for file, lines in sorted(files.items())]
    parts.append(
        f"<details><summary>{len(it.definitions):,} definitions in {len(files)} files:"
        f" {it.lines:,} lines to be read</summary>{table(('file', 'lines'), rows)}</details>"
    )
    return "\n".join(parts)


def trusted(evidence: Evidence) -> list[str]:
    lines = [
        f"<b>{text(what)}</b>{'' if what.endswith('.') else ':'} {text(why)}"
        for what, why in evidence.trusted
    ]
    return [items(lines), f"<p>{text(TESTED)} Speed and memory use are measured.</p>"]


def assumed(evidence: Evidence) -> list[str]:
    """What is taken for granted by these budgets, this setup and these stacks."""
    setup = evidence.setup
    permits = [f"T{it.id}" for it in setup.threads if it.permit]
    quiet = (
        f"{', '.join(permits)}: a permit. The bounds hold while no instruction writes slots or"
        " modes"
        if permits
        else "No thread has a permit, so no run writes slots, modes or regions"
    )
    lines = [
        f"A cycle takes {setup.period} ns. The slots are {text(' '.join(setup.slots))}.",
        f"{text(quiet)}.",
        *(thread(it, evidence.results, not permits) for it in setup.threads if it.mode == "hard"),
    ]
    return [items(lines), *(budget(it) for it in evidence.results), *stack_notes(evidence)]


def thread(it: ThreadTable, results: Sequence[Result], is_quiet: bool) -> str:
    """Which promises are of a hard thread, in a setup whose runs are all quiet or not."""
    budgets = sum(one.budget.thread == it.id for one in results)
    isolated = "its trace isn't isolated: it isn't confined"
    if it.confined:
        isolated = f"its trace is isolated{'' if is_quiet else ' in a quiet run'}"
    inputs = f"; {len(it.inputs)} inputs that are fixed before the run" if it.inputs else ""
    return f"T{it.id} is hard: its bounds hold (budgets here: {budgets}), and {isolated}{inputs}."


def budget(it: Result) -> str:
    """What a budget takes for granted: assumptions, and claims of loops."""
    lines = [text(note) for note in it.notes]
    lines += [
        f"stated to be assumed, and not checked: {text(one.value)}"
        for one in sorted(it.budget.assume, key=lambda a: a.value)
    ]
    for loop in it.loops:
        is_counted = loop.by.startswith("the code counts") and ";" not in loop.by
        kind = "counted in the code" if is_counted else "<b>a claim of yours</b>"
        lines.append(f"{kind}: loop {text(str(loop))}")
    lines += [f"calls {text(one)}" for one in it.functions]
    if "assumes" in it.text:
        lines.append(text(it.text))
    return f"<h3>{text(str(it.budget))}</h3>" + (
        items(lines) if lines else "<p>Nothing besides section 6.</p>"
    )


def stack_notes(evidence: Evidence) -> list[str]:
    lines = [f"T{it.thread}: {text(note)}" for it in evidence.stacks for note in it.notes]
    return ["<h3>Stacks</h3>", items(lines)] if lines else []


def checks() -> list[str]:
    lines = [f"<b>{text(what)}</b> {text(why.rstrip('.'))}." for what, why in CHECKS]
    return ["<p>The numbers are those of docs/ASSUMPTIONS.md.</p>", items(lines, "ol")]


def gate(evidence: Evidence) -> list[str]:
    """What ./test recorded."""
    it = evidence.gate
    if it is None:
        return [f"<p>{text(NO_RECORD)}</p>"]
    crates = list(it.get("crates", []))
    facts = [
        row("last line", code(str(it.get("last", "")))),
        row("ended", text(str(it.get("ended", "")))),
        row("commit", code(str(it.get("commit", "")))),
        row("changed files then", str(len(it.get("changes", [])))),
        row("kit", code(str(it.get("kit", "")))),
        row("rt ci", text(f"{it.get('ci', '')}: {it.get('well', '')}")),
        row(f"{len(crates)} crates", text(", ".join(crates))),
        row("wrong programs that the proofs refused", f"{it.get('refused', 0):,}"),
        row("skipped", text("; ".join(it.get("skipped", []))) or "nothing"),
    ]
    parts = [row(text(name), text(str(line))) for name, line in it.get("parts", {}).items()]
    return [table(("", ""), facts), "<h3>Other tests</h3>", table(("part", "tests"), parts)]


def compared(found: Sequence[Comparison]) -> list[str]:
    rows = [
        row(
            text(it.other),
            text(it.what),
            f"{it.number:,}",
            f"{text(it.date)}, {code(it.commit)}",
            code(it.repeat),
        )
        for it in found
    ]
    start = "<p>None of these differed. A mistake that both sides have isn't found by them.</p>"
    return [start, table(("compared with", "what", "how many", "made", "repeat it"), rows)]


def repeat(evidence: Evidence) -> list[str]:
    """The commands for each part, from the top of the repository."""
    lines = [
        f"{code('sha256sum -c SHA256SUMS')} in this folder: the files are those that were written.",
        (
            f"{code('sha256sum -c sources.sha256')} at the top of the repository: the sources are"
            " these."
        ),
        (
            f"{code('git checkout ' + evidence.origin.commit)} and {code('./test')}: all proofs and"
            " tests again, with the kit above."
        ),
        (
            f"{code(evidence.command)}: this folder again, with the same bytes in each file where"
            " nothing has changed."
        ),
    ]
    return [items(lines)]
