"""A window as a log of the Konata viewer, format `Kanata` 0004."""
from __future__ import annotations

from typing import Iterable, Iterator

from fptools.view.rows import STAGES, TURN, Row

RETIRED, FLUSHED = 0, 1
FLUSHED_IN = 2  # stages that a flushed turn is in: F and D


def log_of(rows: Iterable[Row], first: int) -> Iterator[str]:
    """The lines of a log from a cycle on."""
    yield "Kanata\t0004"
    yield f"C=\t{first}"
    count = 0
    stages: list[tuple[int, bool] | None] = [None] * len(STAGES)  # numbers, and whether flushed
    for row in rows:
        turn, own = row.turn, None
        if turn is not None:
            own, count = (count, turn.is_flushed), count + 1
        *stages, retired = own, *stages
        yield from _end(retired, RETIRED)
        if (lost := stages[FLUSHED_IN]) is not None and lost[1]:
            stages[FLUSHED_IN] = None
            yield from _end(lost, FLUSHED)
        if own is not None and turn is not None:
            yield f"I\t{own[0]}\t{own[0]}\t{turn.thread}"
            yield f"L\t{own[0]}\t0\t{row.line[TURN]}"
            yield f"L\t{own[0]}\t1\tcycle {row.cycle}, {row.time} ns"
        yield from (f"S\t{it[0]}\t0\t{name}" for it, name in zip(stages, STAGES) if it is not None)
        yield "C\t1"


def _end(turn: tuple[int, bool] | None, how: int) -> Iterator[str]:
    if turn is not None:
        yield f"R\t{turn[0]}\t{turn[0]}\t{how}"
