"""A window as text: the lines of the view, with names, source lines and marks behind them."""

from collections import defaultdict
from typing import Collection, Iterator, Sequence

from fptools.view.marks import Mark, Passage, passages_of, periods_of, points_of
from fptools.view.names import Names, cause_of
from fptools.view.rows import HEAD, Row

WIDTH = 110  # columns up to the names: of a turn with each effect but two writes
AT_WIDTH = 22


def text_of(
    rows: Sequence[Row], threads: Collection[int], marks: Sequence[Mark], names: Names
) -> Iterator[str]:
    """The lines of the cycles in which a turn of the threads begins, or something is marked."""
    notes = notes_of(marks, rows, threads)
    yield f"{HEAD:<{WIDTH}} {'at':<{AT_WIDTH}} source" if names.is_known else HEAD
    for row in rows:
        turn = row.turn if row.turn is not None and row.turn.thread in threads else None
        if turn is None and len(threads) < 8 and row.cycle not in notes:
            continue
        line = row.line
        if turn is not None and (cause := cause_of(turn)):
            line = f"{line} ({cause})"
        if turn is not None and names.is_known:
            line = f"{line:<{WIDTH}} {names.at(turn):<{AT_WIDTH}} {names.source(turn)}".rstrip()
        yield "  ".join([line, *notes.get(row.cycle, [])])


def notes_of(
    marks: Sequence[Mark], rows: Sequence[Row], threads: Collection[int]
) -> dict[int, list[str]]:
    """The texts about marks, by cycle."""
    notes: dict[int, list[str]] = defaultdict(list)
    for point in points_of(marks, rows):
        if point.thread in threads:
            notes[point.cycle].append(f"<< {marks[point.mark].text}")
    for passage in passages_of(marks, rows):
        if passage.thread in threads:
            _take(notes, passage, marks[passage.mark], rows)
    for number, at in periods_of(marks, rows[0].time, rows[-1].time + 1):
        notes[-(-at // rows[0].period)].append(f"-- {marks[number].text}: {at} ns")
    return notes


def _take(notes: dict[int, list[str]], passage: Passage, mark: Mark, rows: Sequence[Row]) -> None:
    who = f"T{passage.thread} {mark.text}"
    if passage.begin is not None:
        notes[passage.begin].append(f"<< begin {who}")
    late = ""
    if passage.deadline is not None and rows[0].cycle <= passage.deadline <= rows[-1].cycle:
        notes[passage.deadline].append(f"!! deadline {who}")
    if passage.deadline is not None and passage.end is not None:
        over = passage.end - passage.deadline
        late = f", {over} late" if over > 0 else ""
    if passage.end is not None:
        taken = "" if passage.cycles is None else f": {passage.cycles} cycles{late}"
        notes[passage.end].append(f">> end {who}{taken}")
