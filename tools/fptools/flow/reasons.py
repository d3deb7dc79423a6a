"""Why the marks don't bound a loop, with the lines of its source, and what to write."""

from typing import Collection, Iterable, Sequence

from fptools.files.elf import Line, Program
from fptools.flow.graph import Edge, LoopFlow
from fptools.flow.records import Claim, Kind, Marks
from fptools.code.section import Loop

MOST_LINES = 8
"""So many lines of a path are written at most."""


def lines_text(program: Program, pcs: Iterable[int]) -> str:
    """The lines of some words, in order, each once: of the first its file too; their addresses if
    they have no lines."""
    found: list[Line] = []
    known = list(pcs)
    for pc in known:
        line = program.line_of(pc)
        if line is not None and line not in found:
            found.append(line)
    if not found:
        texts = [f"{pc:#x}" for pc in dict.fromkeys(known)]
    else:
        texts = [
            str(line) if not at or line.file != found[at - 1].file else str(line.number)
            for at, line in enumerate(found)
        ]
    if len(texts) > MOST_LINES:
        texts = [*texts[: MOST_LINES // 2], "..", *texts[-MOST_LINES // 2 :]]
    return ", ".join(texts)


def span_text(program: Program, loop: Loop) -> str:
    """The lines of a loop: of its file the first to the last."""
    own = [line for pc in (*loop.backs, loop.head) if (line := program.line_of(pc)) is not None]
    if not own:
        return f"{loop.head:#x} to {loop.last:#x}"
    file = own[0].file
    numbers = sorted(
        {line.number for pc in loop.body if (line := program.line_of(pc)) and line.file == file}
    )
    first, last = numbers[0], numbers[-1]
    return f"{file.name}:{first}" + (f" to {last}" if last > first else "")


def why_unbounded(
    program: Program,
    loop: Loop,
    flow: LoopFlow,
    marks: Marks,
    used: Collection[Claim],
    called: Collection[Claim],
) -> str:
    """Why the claims `used` don't bound a loop. Those of `called` have their FP_LOOP in a function
    that it calls."""
    where = span_text(program, loop)
    if marks.fault:
        return marks.fault
    if not flow.is_left:
        return f"nothing leaves the loop in {where}: it is endless"
    unused = [it for it in flow.claims() if it in marks.unused]
    missing = flow.round_without(used)
    if unused and missing:
        return f"the claim {unused[0]} doesn't count: {marks.unused[unused[0]]}"
    if called and missing:
        why = f"calls code that may pass the FP_LOOP of {min(called)}, or that isn't known"
        return f"the loop in {where} {why}"
    if not missing:
        return _again(program, flow, used)
    path = lines_text(program, [edge.start for edge in missing])
    if not flow.claims():
        return f"no FP_ROUND is in the loop in {where}: {_helps(flow)}"
    names = " or ".join(f"FP_ROUND({it.name})" for it in used)
    inner = min(flow.entered() & set(used), default=None)
    helps = "each round has to pass one" if inner is None else _mark_around(inner)
    return f"no {names} is on the way {path}: {helps}"


def _helps(flow: LoopFlow) -> str:
    """The marks to write for a loop that has none. Where it passes the FP_LOOP of a claim, it is the
    loop around that of the claim, or a part that the compiler made of both."""
    inner = min(flow.entered(), default=None)
    if inner is None:
        return "write FP_LOOP(name, n) before it, and FP_ROUND(name) in it"
    return _mark_around(inner)


def _mark_around(inner: Claim) -> str:
    """The marks of the loop around that of a claim. gcc may make one loop of both at -O3, where it
    unrolls the inner one."""
    marks = "with FP_LOOP(name, n) before it and FP_ROUND(name) in it"
    return f"mark the loop around FP_LOOP({inner.name}) too, {marks}, or compile by -O2"


def _again(program: Program, flow: LoopFlow, used: Collection[Claim]) -> str:
    """That rounds pass the FP_LOOP of each claim again."""
    again = sorted(flow.entered() & set(used))
    edges = [
        edge
        for edge in flow.edges
        for it in edge.passes
        if it.mark.kind is Kind.LOOP and it.mark.claim in again
    ]
    if not again:
        return "no numbers of passes are possible by the claims " + ", ".join(
            map(str, sorted(used))
        )
    where = lines_text(program, _ends(edges))
    text = f"a round may pass FP_LOOP({again[0].name}) again, at {where}: write FP_LOOP before the loop"
    return f"{text}; where it is, {_mark_around(again[0])}"


def _ends(edges: Sequence[Edge]) -> list[int]:
    return [edge.end for edge in edges]
