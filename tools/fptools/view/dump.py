"""A window as a value change dump (IEEE 1364-2005, 18.2), with texts as GTKWave reads them."""

import re
from collections import deque
from typing import Collection, Iterable, Iterator, Mapping, Sequence

from fptools.view.marks import Mark, passages_of, periods_of, points_of
from fptools.view.names import Names
from fptools.view.rows import STAGES, THREADS, Row, ThreadState, Turn

# A thread's signals: the letter in front of its number, the type, the bits, the name. A stage's
# letters are q and its own, and those of a mark are m and its number.
SIGNALS = (
    *(("p", "wire", 32, "pc"), ("t", "string", 1, "instruction")),
    *(("i", "wire", 1, "issue"), ("f", "wire", 1, "flushed"), ("s", "wire", 1, "asleep")),
    *(("a", "wire", 64, "armed"), ("l", "wire", 32, "latch"), ("n", "wire", 32, "input")),
)
OWN = (
    *(("T", "wire", 1, "trap"), ("C", "wire", 5, "cause"), ("W", "wire", 1, "store")),
    *(("A", "wire", 32, "store_address"), ("D", "wire", 32, "store_word")),
    *(("H", "wire", 1, "held"), ("U", "wire", 1, "wait")),
)
NAMED = (("Y", "string", 1, "symbol"), ("Z", "string", 1, "source"))
UNKNOWN = {"wire": "bz", "string": "s-"}
Values = dict[str, str]
Turns = Sequence[Turn | None]


class Additions:
    """Further signals of the turns in a window: effects, stages, names and marks."""

    def __init__(
        self, rows: Sequence[Row], threads: Sequence[int], marks: Sequence[Mark], names: Names
    ) -> None:
        self.threads, self._names, self._marks = threads, names, marks
        self.own = OWN + (NAMED if names.is_known else ())
        self._marked = marked_cycles(marks, rows, threads)
        self._last: Values = {}

    def declared(self) -> Iterator[str]:
        """The declarations outside of the threads."""
        yield "$scope module stages $end"
        yield from (f"$var string 1 q{stage} {stage} $end" for stage in STAGES)
        yield "$upscope $end"
        if self._marked:
            yield "$scope module marks $end"
            for number in self._marked:
                name = re.sub("[^0-9A-Za-z]", "_", self._marks[number].text)
                yield f"$var wire 1 m{number} {name} $end"
            yield "$upscope $end"

    def changes(self, cycle: int, turns: Turns) -> Iterator[str]:
        """The changes in the next cycle, with the turns in its stages."""
        last, self._last = self._last, self._values(cycle, turns)
        for letters, value in self._last.items():
            if last.get(letters) != value:
                yield f"{value} {letters}" if value[0] in "bs" else f"{value}{letters}"

    def _values(self, cycle: int, turns: Turns) -> Values:
        """The values of the signals in a cycle."""
        values = {f"q{stage}": f"s{_content(turn)}" for stage, turn in zip(STAGES, turns)}
        for thread in self.threads:
            turn = turns[0] if turns[0] is not None and turns[0].thread == thread else None
            known = self._of_turn(turn) if turn is not None else {}
            for key, kind, bits, _ in self.own:
                letters = f"{key}{thread}"
                is_pulse = bits == 1 and kind == "wire"
                kept = "0" if is_pulse else self._last.get(letters, UNKNOWN[kind])
                values[letters] = known.get(key, kept)
        for number, cycles in self._marked.items():
            values[f"m{number}"] = "1" if cycle in cycles else "0"
        return values

    def _of_turn(self, turn: Turn) -> Values:
        """The changes of a thread's signals by its turn."""
        event = turn.event
        values: Values = {}
        if event.cause is not None:
            values |= {"T": "1", "C": f"b{event.cause:b}"}
        if (stored := event.stored) is not None:
            values |= {"W": "1", "A": f"b{stored.address:b}", "D": f"b{stored.value:b}"}
        if turn.is_held:
            values["H"] = "1"
        if event.is_wait:
            values["U"] = "1"
        if self._names.is_known and not turn.is_flushed:
            values["Y"] = f"s{_joined(self._names.at(turn)) or '-'}"
            values["Z"] = f"s{_joined(self._names.source(turn)) or '-'}"
        return values


def dump_of(rows: Iterable[Row], first: int, added: Additions | None = None) -> Iterator[str]:
    """The lines of a dump from a cycle on. `rows` may have the four cycles before it."""
    threads = THREADS if added is None else added.threads
    yield from _declared(threads, added)
    turns: deque[Turn | None] = deque([None] * len(STAGES), len(STAGES))
    last: Row | None = None
    for row in rows:
        turns.appendleft(row.turn)
        if row.cycle >= first:
            yield f"#{row.time}"
            yield from _changes(row, last, threads)
            yield from added.changes(row.cycle, turns) if added is not None else ()
            last = row
    if last is not None:
        yield f"#{last.time + last.period}"


def _declared(threads: Iterable[int], added: Additions | None) -> Iterator[str]:
    yield from ("$timescale 1 ns $end", "$scope module flexpret $end")
    yield from ("$var string 1 S slot $end", "$var wire 16 M modes $end")
    for thread in threads:
        yield f"$scope module T{thread} $end"
        for key, kind, bits, name in (*SIGNALS, *(added.own if added is not None else ())):
            yield f"$var {kind} {bits} {key}{thread} {name} $end"
        yield "$upscope $end"
    yield from added.declared() if added is not None else ()
    yield from ("$upscope $end", "$enddefinitions $end")


def _changes(row: Row, last: Row | None, threads: Collection[int]) -> Iterator[str]:
    """The changes of the machine's signals in a cycle; at the first one, all are changes."""
    if last is None:
        yield from (f"0{letter}{thread}" for thread in threads for letter in "if")
    if last is None or last.slot != row.slot:
        yield f"s{row.slot} S"
    if last is None or last.state.modes != row.state.modes:
        yield f"b{row.state.modes:b} M"
    yield from _turn_changes(row.turn, last.turn if last is not None else None, threads)
    if last is None or last.state is not row.state:
        for thread in threads:
            before = _signals(last.state.threads[thread]) if last is not None else {}
            for key, value in _signals(row.state.threads[thread]).items():
                if before.get(key) != value:
                    yield f"{value}{key}{thread}"


def _turn_changes(turn: Turn | None, last: Turn | None, threads: Collection[int]) -> Iterator[str]:
    """The pulses of a turn and of the one before, and the instruction of an issue."""
    for key, is_flushed in (("i", False), ("f", True)):
        before, now = (
            it.thread if it is not None and it.is_flushed == is_flushed else None
            for it in (last, turn)
        )
        for bit, thread in ((0, before), (1, now)):
            if before != now and thread in threads:
                yield f"{bit}{key}{thread}"
    if turn is not None and not turn.is_flushed and turn.thread in threads:
        yield f"b{turn.event.pc:b} p{turn.thread}"
        yield f"s{_joined(turn.text)} t{turn.thread}"


def _signals(state: ThreadState) -> Values:
    """The values of a thread's state, by letters."""
    words = {"a": state.armed, "l": state.latch, "n": state.input}
    values = {key: "bz " if it is None else f"b{it:b} " for key, it in words.items()}
    return {"s": str(int(state.asleep)), **values}


def marked_cycles(
    marks: Sequence[Mark], rows: Sequence[Row], threads: Collection[int]
) -> Mapping[int, set[int]]:
    """The cycles in which a thread is in a marked section or at a marked address, or that are the
    first behind a periodic moment, by marks."""
    found: dict[int, set[int]] = {number: set() for number in range(len(marks))}
    for number, at in periods_of(marks, rows[0].time, rows[-1].time + 1):
        found[number].add(-(-at // rows[0].period))
    for point in points_of(marks, rows):
        if point.thread in threads:
            found[point.mark].add(point.cycle)
    for it in passages_of(marks, rows):
        if it.thread in threads and it.begin is not None:
            end = it.end if it.end is not None else rows[-1].cycle + 1
            found[it.mark].update(range(it.begin, end))
    return found


def _content(turn: Turn | None) -> str:
    """The content of a stage."""
    return "-" if turn is None else f"T{turn.thread}_{_joined(turn.text)}"


def _joined(text: str) -> str:
    """A text as a dump can have it: printable ASCII without spaces."""
    return "".join(it if "!" <= it <= "~" else "_" for it in text)
