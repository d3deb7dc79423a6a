"""A window as a picture: a row for each thread that is asked for, a column for each cycle.

A column has 12 pixels times the zoom. With stages, a row has five lines, from F to W."""

from dataclasses import dataclass
from typing import Iterator, Sequence

from fptools.svg import picture, titled, written
from fptools.view.marks import Mark, Passage, passages_of, periods_of, points_of
from fptools.view.names import Names, cause_of
from fptools.view.rows import STAGES, Row, Turn

MOST_COLUMNS = 4000  # cycles times zoom
MOST_ZOOM = 20
COLUMN, LEFT, TIME_WIDTH, LEAST_WIDTH = 12, 52, 84, 640  # pixels, as all that follow
TOP = 52  # where the first row begins
CELL, HIGH_CELL, LINE, STRIP = 16, 38, 11, 13
LETTER = 6.05  # the width of a letter in a cell, at most
HIGH_ZOOM = 3  # from which on a cell has three lines of text
LEGEND = (
    *(("i", "issue"), ("i d", "in a donated slot"), ("f", "flushed"), ("t", "trap")),
    *(("h", "held"), ("w", "goes to sleep"), ("z", "asleep")),
)
STYLE = """<style>
text{font:10px monospace;fill:#222}
rect{stroke:#fff}
.g{fill:#fff;stroke:none}
.i{fill:#4c78a8}
.f{fill:#bbb}
.t{fill:#c4201f}
.h{fill:#e8b800}
.w{fill:#7d55a8}
.z{fill:#e2e2f0}
.d{stroke:#2ca02c;stroke-width:2}
.l{stroke:#ddd}
.p{stroke:#0a7d8c;stroke-dasharray:4 3;stroke-width:1.5}
.e{stroke:#c4201f;stroke-width:2}
.k{stroke:#2f7d3b;stroke-width:3}
.s{fill:#bfe3c4;stroke:#2f7d3b}
.m{fill:#2f7d3b}
.c{fill:#fff}
.b{fill:#222}
.n{fill:#14451c;font-size:9px}
@media (prefers-color-scheme:dark){
text{fill:#ddd}
rect{stroke:#1b1e23}
.g{fill:#1b1e23}
.f{fill:#8a8d93}
.z{fill:#343a4d}
.d{stroke:#5fd35f}
.l{stroke:#444}
.p{stroke:#4fc3d3}
.e{stroke:#ff6b61}
.k{stroke:#6fc27c}
.s{fill:#1f4d29;stroke:#6fc27c}
.m{fill:#6fc27c}
.c{fill:#fff}
.b{fill:#111}
.n{fill:#cfeed4}
}
</style>
"""


@dataclass(frozen=True)
class Shape:
    """How a picture is drawn."""

    threads: Sequence[int]
    zoom: int = 1
    has_stages: bool = False

    @property
    def column(self) -> int:
        return COLUMN * self.zoom

    @property
    def cell(self) -> int:
        """The height of a cell, or of the lines of the stages."""
        if self.has_stages:
            return len(STAGES) * (LINE + 1)
        return HIGH_CELL if self.zoom >= HIGH_ZOOM else CELL


class Picture:
    """Draws a window, whose first cycle is `first`. `rows` has up to four cycles before it."""

    def __init__(
        self, rows: Sequence[Row], first: int, shape: Shape, marks: Sequence[Mark], names: Names
    ) -> None:
        self._all, self._rows = rows, [row for row in rows if row.cycle >= first]
        self._first, self._shape, self._marks, self._names = first, shape, marks, names
        self._passages = [it for it in passages_of(marks, self._rows) if it.thread in shape.threads]
        self._points = [it for it in points_of(marks, self._rows) if it.thread in shape.threads]
        # Below a thread's cells each mark that it may meet has a strip of its own.
        marked = sorted({it.mark for it in self._passages} | {it.mark for it in self._points})
        self._strips = {mark: place * STRIP for place, mark in enumerate(marked)}
        self._strip = STRIP * len(marked)
        self._bottom = TOP + len(shape.threads) * (shape.cell + 2 + self._strip)

    def text(self) -> str:
        columns = self._shape.column * len(self._rows)
        width, height = max(LEAST_WIDTH, LEFT + columns + TIME_WIDTH), self._bottom + 44
        return picture(
            STYLE,
            titled("rect", "", class_="g", width="100%", height="100%"),
            *self._frame(),
            *self._sleeps(),
            *self._times(),
            *self._turns(),
            *self._marked(),
            *self._deadlines(),
            *self._legend(),
            width=width,
            height=height,
        )

    # ------------------------------------------------------------ places

    def _x(self, cycle: float) -> float:
        return LEFT + (cycle - self._first) * self._shape.column

    def _strip_y(self, thread: int, mark: int) -> int:
        """Where the strip of a mark begins."""
        return self._y(thread) + self._shape.cell + 3 + self._strips[mark]

    def _y(self, thread: int) -> int:
        place = list(self._shape.threads).index(thread)
        return TOP + place * (self._shape.cell + 2 + self._strip)

    # ------------------------------------------------------------ the frame

    def _frame(self) -> Iterator[str]:
        for y, name in ((11, "cycle"), (24, "ns"), (47, "slot")):
            yield _text(4, y, name)
        for thread in self._shape.threads:
            y = self._y(thread)
            yield _text(4, y + 13, f"T{thread}")
            if self._shape.has_stages:
                for number, stage in enumerate(STAGES):
                    yield _text(LEFT - 14, y + 10 + number * (LINE + 1), stage)

    def _times(self) -> Iterator[str]:
        """Numbers and times above columns, as many as there is room for, and each cycle's slot."""
        step = next(it for it in (1, 2, 5, 10) if it * self._shape.column >= TIME_WIDTH or it == 10)
        for row in self._rows:
            x = self._x(row.cycle)
            yield _text(x + 3, 47, row.slot.removeprefix("T"))
            if row.cycle != self._first and (row.cycle % step or x < LEFT + TIME_WIDTH):
                continue
            yield _path("l", x, 28, self._bottom)
            yield _text(x, 11, str(row.cycle)) + _text(x, 24, str(row.time))

    def _sleeps(self) -> Iterator[str]:
        for row in self._rows:
            for thread in self._shape.threads:
                if row.state.threads[thread].asleep:
                    box = (self._x(row.cycle), self._y(thread), self._shape.column)
                    yield _box("z", *box, self._shape.cell + 2)

    def _legend(self) -> Iterator[str]:
        x, y = LEFT, self._bottom + 18
        for kind, name in LEGEND:
            yield _box(kind, x, y, COLUMN, CELL) + _text(x + 16, y + 12, name)
            x += 26 + round(LETTER * len(name))

    # ------------------------------------------------------------ turns

    def _turns(self) -> Iterator[str]:
        for row in self._all:
            if row.turn is None or row.turn.thread not in self._shape.threads:
                continue
            if self._shape.has_stages:
                yield from self._staged(row, row.turn)
            elif row.cycle >= self._first:
                y = self._y(row.turn.thread) + 1
                yield self._cell(row, row.turn, row.cycle, y, self._shape.cell, self._title(row))
                yield from self._cell_lines(row.turn, self._x(row.cycle), y)

    def _staged(self, row: Row, turn: Turn) -> Iterator[str]:
        """The cells of a turn in its stages, as far as they are in the window."""
        for number, stage in enumerate(STAGES):
            cycle = row.cycle + number
            if not self._first <= cycle <= self._rows[-1].cycle:
                continue
            y = self._y(turn.thread) + 1 + number * (LINE + 1)
            yield self._cell(
                row, turn, cycle, y, LINE, f"{stage} in cycle {cycle}\n{self._title(row)}"
            )
            for text in (turn.text, turn.text.split()[0]):
                if self._fits(text):
                    yield _text(self._x(cycle) + 2, y + 9, text, _ink(turn))
                    break

    def _cell(self, row: Row, turn: Turn, cycle: int, y: int, height: int, title: str) -> str:
        donated = " d" if row.slot not in ("S", f"T{turn.thread}") else ""
        kind = _kind(turn) + donated
        return _box(kind, self._x(cycle), y, self._shape.column, height, title)

    def _cell_lines(self, turn: Turn, x: float, y: int) -> Iterator[str]:
        """The texts that a cell has room for: the instruction in a line or two, and the effect."""
        if self._shape.cell < HIGH_CELL:
            return
        mnemonic, _, operands = turn.text.partition(" ")
        lines = [turn.text, "", turn.event.effect]
        if not self._fits(turn.text):
            lines = [mnemonic, operands, turn.event.effect]
        if turn.is_flushed or turn.event.effect == "-":
            lines.pop()
        for number, line in enumerate(lines):
            if line and self._fits(line):
                yield _text(x + 2, y + 10 + number * LINE, line, _ink(turn))

    def _fits(self, text: str) -> bool:
        return LETTER * len(text) + 3 <= self._shape.column

    def _title(self, row: Row) -> str:
        """The text that the pointer shows for a turn."""
        assert row.turn is not None
        turn, event = row.turn, row.turn.event
        what = f"{event.pc:08x} {event.bits:08x} {turn.text}  {event.effect}"
        cause = f" ({cause_of(turn)})" if cause_of(turn) else ""
        said = "flushed" if turn.is_flushed else what + cause
        lines = [f"cycle {row.cycle}, {row.time} ns: T{turn.thread} {said}"]
        return "\n".join([*lines, *filter(None, (self._names.at(turn), self._names.source(turn)))])

    # ------------------------------------------------------------ marks

    def _marked(self) -> Iterator[str]:
        period = self._rows[0].period
        for number, at in periods_of(self._marks, self._rows[0].time, self._rows[-1].time + 1):
            title = f"{self._marks[number].text}: {at} ns"
            yield _path("p", self._x(at / period), 28, self._bottom, title)
        for point in self._points:
            y = self._strip_y(point.thread, point.mark)
            title = f"{self._marks[point.mark].text}, cycle {point.cycle}"
            yield _box("m", self._x(point.cycle), y, self._shape.column, STRIP - 3, title)
        for passage in self._passages:
            yield from self._passage(passage)

    def _passage(self, passage: Passage) -> Iterator[str]:
        """The bar of an execution under its thread's cells, and its deadline."""
        name, y = self._marks[passage.mark].text, self._strip_y(passage.thread, passage.mark)
        if passage.begin is None:
            assert passage.end is not None
            title = f"{name}: its end, cycle {passage.end}"
            yield _path("k", self._x(passage.end), y, y + STRIP - 2, title)
            return
        end = passage.end if passage.end is not None else self._rows[-1].cycle + 1
        taken = f"{passage.cycles} cycles" if passage.cycles is not None else "it goes on"
        x, width = self._x(passage.begin), (end - passage.begin) * self._shape.column
        yield _box("s", x, y, width, STRIP - 2, f"{name}: {taken}, from cycle {passage.begin} on")
        label = f"{name}: {taken}"
        if 5.5 * len(label) + 4 <= width:
            yield _text(x + 3, y + 8, label, "n")
        if passage.deadline is not None and passage.deadline <= self._rows[-1].cycle:
            top, title = self._y(passage.thread), f"deadline of {name}: cycle {passage.deadline}"
            yield _path("e", self._x(passage.deadline), top, y + STRIP - 1, title)

    def _deadlines(self) -> Iterator[str]:
        """The moments that threads have armed, as far as they are in the window."""
        first, last, period = self._rows[0].time, self._rows[-1].time, self._rows[0].period
        for thread in self._shape.threads:
            armed = {row.state.threads[thread].armed for row in self._rows}
            for at in sorted(it for it in armed if it is not None and first <= it <= last):
                top, title = self._y(thread), f"T{thread} has armed {at} ns"
                yield _path("e", self._x(at / period), top, top + self._shape.cell + 2, title)


def _kind(turn: Turn) -> str:
    """The class of a turn's cells."""
    if turn.is_flushed:
        return "f"
    if turn.event.cause is not None:
        return "t"
    return "h" if turn.is_held else "w" if turn.event.is_wait else "i"


def _ink(turn: Turn) -> str:
    """The class of a text in a turn's cells."""
    return "b" if turn.is_flushed or turn.is_held else "c"


def _text(x: float, y: float, text: str, kind: str = "") -> str:
    style = {"class_": kind} if kind else {}
    return written(text, **style, x=x, y=y)


def _box(kind: str, x: float, y: float, width: float, height: float, title: str = "") -> str:
    return titled("rect", title, class_=kind, x=x, y=y, width=width, height=height)


def _path(kind: str, x: float, top: float, bottom: float, title: str = "") -> str:
    return titled("path", title, class_=kind, d=f"M{x:g} {top:g}V{bottom:g}")
