"""The answers for all hard threads, as a table and as data."""
from __future__ import annotations

from collections import Counter
from typing import Iterator, Sequence

from fptools.budget.files import Result
from fptools.stack.reports import stack_fields
from fptools.stack.stacks import Stack
from fptools.budget.whole import ThreadAnswer
from fptools.untyped import Values

NONE = "-"
NO_LOOP = "no loop waits"
NO_STACK = "none"
HEAD = "thread", "answer", "slots", "load", "period, cycles", "stack, bytes", "budgets"


def table_of(threads: Sequence[ThreadAnswer]) -> Iterator[str]:
    """The lines of a table with a row for each thread."""
    rows = [HEAD, *map(_row, threads)]
    widths = [max(map(len, column)) for column in zip(*rows)]
    for row in rows:
        yield "  ".join(f"{it:<{width}}" for it, width in zip(row, widths)).rstrip()


def _row(it: ThreadAnswer) -> tuple[str, ...]:
    return (
        f"T{it.table.id}",
        it.word or it.table.mode,
        f"{it.slots} of {it.frame}",
        load_text(it.load),
        period_text(it),
        stack_text(it.stack),
        counted(it.sections),
    )


def load_text(load: float | None) -> str:
    """A load in percent, rounded up, so that 100 % isn't shown of less, nor less of more."""
    return NONE if load is None else f"{-(-int(load * 1e9) // 10**7)} %"


def period_text(it: ThreadAnswer) -> str:
    """The tightest period, or why there is none."""
    if not it.is_asked:
        return NONE
    periods = it.periods
    if not periods:
        return NO_LOOP if it.stack else NONE
    known = [one for one in periods if one.bound is not None]
    if len(known) < len(periods):
        return "UNKNOWN"
    shown = it.tightest or max(known, key=lambda one: one.bound or 0)
    of = "" if shown.budget.cycles is None else f" of {shown.budget.cycles}"
    more = f", {len(known)} loops" if len(known) > 1 else ""
    return f"{shown.bound}{of}{more}"


def stack_text(stack: Stack | None) -> str:
    """The bytes of a stack and its room."""
    if stack is None:
        return NONE
    if stack.bytes is None:
        return stack.word if stack.word != "holds" else stack.text
    if stack.room is None:
        return NO_STACK
    return f"{stack.bytes:,} of {stack.room:,}"


def counted(results: Sequence[Result]) -> str:
    """How many budgets have which answer."""
    count = Counter(it.word for it in results)
    return ", ".join(f"{number} {word}" for word, number in count.items()) or NONE


def threads_fields(threads: Sequence[ThreadAnswer]) -> list[Values]:
    """The threads as JSON has them: `slots` are its own in a frame of `frame` cycles, `load` is
    the share of them that its period's bound needs."""
    return [
        {
            "thread": it.table.id,
            "mode": it.table.mode,
            "verdict": it.word.lower() or None,
            "slots": it.slots,
            "frame": it.frame,
            "load": it.load,
            "periods": len(it.periods),
            "budgets": len(it.sections),
            "stack": stack_fields(it.stack) if it.stack else None,
        }
        for it in threads
    ]
