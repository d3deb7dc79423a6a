"""Asks the program for the bounds of watched sections and functions."""
from __future__ import annotations

import tempfile
from dataclasses import replace
from pathlib import Path
from typing import Mapping, Sequence

from fptools.code.digraph import search
from fptools.files.elf import Function
from fptools.program.calls import Answer, Flexpret
from fptools.code.section import walk
from fptools.limits import DATA_START
from fptools.visits.seen import Watched
from fptools.isa.words import Word


def called_functions(
    code: Mapping[int, int], functions: Sequence[Function], start: int, end: int
) -> list[Function]:
    """The functions that a section reaches by calls that come back."""
    apart = {it.start: it for it in functions if it.end <= start or end <= it.start}
    first = walk(code, start, end, apart).callees
    heads = search(first, lambda it: walk(code, it, apart[it].end, apart).callees)
    return sorted(apart[head] for head in heads)


def _call_of(
    code: Mapping[int, int], functions: Sequence[Function], function: Function
) -> int | None:
    """A word that calls a function, and lies in none that the function reaches."""
    reached = [function, *called_functions(code, functions, function.start, function.end)]
    words = (Word(pc, bits) for pc, bits in sorted(code.items()) if pc < DATA_START)
    calls = (word.pc for word in words if word.comes_back and word.target == function.start)
    return next((pc for pc in calls if not any(it.start <= pc < it.end for it in reached)), None)


def _jump_into(
    code: Mapping[int, int], start: int, end: int, routines: Sequence[tuple[int, int]]
) -> int | None:
    """A word of a section that leads into a routine other than by a call of it, so that the bound ends
    where the execution seems to go on."""
    ways = walk(code, start, end, [head for head, _ in routines]).ways_out
    return next(
        (
            way.word.pc
            for way in ways
            if way.to is not None and any(head <= way.to < last for head, last in routines)
        ),
        None,
    )


def _ask_calls(
    flexpret: Flexpret,
    setup: Path,
    thread: int,
    start: int,
    end: int,
    routines: Sequence[tuple[int, int]],
) -> Answer:
    with tempfile.TemporaryDirectory() as folder:
        listed = Path(folder) / "routines"
        listed.write_text(
            "".join(f"{head:08x} {end - 4:08x}\n" for head, end in routines), encoding="ascii"
        )
        return flexpret.calls(setup, thread, start, end, listed)


def with_bound(
    flexpret: Flexpret,
    setup: Path,
    thread: int,
    watched: Watched,
    code: Mapping[int, int],
    functions: Sequence[Function],
) -> Watched:
    """A section or function with its bound, or with the reason why it has none. That of a function is
    the bound of a call of it: from the call's issue to that of the word after it."""
    start, end, routines = watched.start, watched.end, list(watched.routines)
    if watched.is_function:
        own = next((it for it in functions if it.start == start), None)
        call = _call_of(code, functions, own) if own else None
        if own is None or call is None:
            return replace(watched, doubt="no `jal ra` calls it")
        start, end = call, call + 4
        routines = [(it.start, it.end) for it in called_functions(code, functions, start, end)]
    jump = _jump_into(code, start, end, routines)
    if jump is not None:
        return replace(watched, doubt=f"{jump:#x} leads into a function other than by a call of it")
    if routines:
        answer = _ask_calls(flexpret, setup, thread, start, end, routines)
    else:
        answer = flexpret.bound(setup, thread, start, end)
    found = answer.bound
    if found is None:
        return replace(watched, doubt=answer.reason.split("\n")[0] or f"status {answer.status}")
    if found == 0:
        return replace(watched, doubt="a bound of 0: nothing of the section issues")
    return replace(watched, bound=found)
