"""How long the executions of a section took, as bars."""

from dataclasses import dataclass

from fptools.visits.seen import Executions, Tally

MOST_BINS = 40
FEWEST_VALUES = 12  # cycles that a scale has at least, so that a bar isn't the whole picture
FURTHEST = (
    4  # a bound or budget further off than so many times the executions' range isn't on the scale
)
LEAST_HEIGHT = 1.5  # percent: one execution of a million is seen too
KINDS = (
    ("whole", "without a trap"),
    ("interrupted", "with a trap"),
    ("detours", "left the section and came back"),
)


@dataclass(frozen=True)
class Bar:
    """A part of a column: the executions of one kind. Places are percent, from the top left on."""

    kind: str
    x: float
    y: float
    width: float
    height: float
    text: str


@dataclass(frozen=True)
class Mark:
    """A bound or budget, or a tick of the scale, by its place in percent."""

    name: str
    cycles: int
    x: float


@dataclass(frozen=True)
class Histogram:
    """Columns of equal width, in cycles, and the most executions that one has."""

    bars: list[Bar]
    kinds: list[tuple[str, str]]
    ticks: list[Mark]
    marks: list[Mark]
    beyond: list[Mark]  # those that aren't on the scale
    width: int  # cycles
    most: int  # executions


@dataclass(frozen=True)
class _Scale:
    """The cycles of the columns: from `first` on, `width` in each, `count` columns."""

    first: int
    width: int
    count: int

    def x(self, cycles: int) -> float:
        """The middle of a number of cycles, in percent."""
        return round(100 * (cycles - self.first + 0.5) / (self.width * self.count), 3)

    def has(self, cycles: int) -> bool:
        return self.first <= cycles < self.first + self.width * self.count

    def column(self, cycles: int) -> int:
        return (cycles - self.first) // self.width


def histogram_of(seen: Executions) -> Histogram | None:
    """The executions of a section; None where there are none."""
    tallies = [(name, text, tally) for name, text in KINDS if (tally := _tally(seen, name)).count]
    if not tallies:
        return None
    limits = [("bound", seen.watched.bound), ("budget", seen.watched.budget)]
    known = [(name, number) for name, number in limits if number is not None]
    scale = _scale(
        min(it.least for *_, it in tallies),
        max(it.most for *_, it in tallies),
        [number for _, number in known],
    )
    columns = [_column(tally, scale) for *_, tally in tallies]
    most = max(sum(column[at] for column in columns) for at in range(scale.count))
    marks = [Mark(name, number, scale.x(number)) for name, number in known]
    return Histogram(
        list(
            _bars(
                [name for name, *_ in tallies],
                [text for _, text, _ in tallies],
                columns,
                scale,
                most,
            )
        ),
        [(name, text) for name, text, _ in tallies],
        _ticks(scale),
        [it for it in marks if scale.has(it.cycles)],
        [it for it in marks if not scale.has(it.cycles)],
        scale.width,
        most,
    )


def _tally(seen: Executions, name: str) -> Tally:
    tally: Tally = getattr(seen, name)
    return tally


def _scale(least: int, most: int, limits: list[int]) -> _Scale:
    """A scale for the executions, and for the limits that are near to them."""
    reach = FURTHEST * max(most - least, FEWEST_VALUES)
    near = [it for it in limits if least - reach <= it <= most + reach]
    first, last = min([least, *near]), max([most, *near])
    spare = max(FEWEST_VALUES - (last - first + 1), 2)
    first, last = max(0, first - spare // 2), last + (spare + 1) // 2
    width = -(-(last - first + 1) // MOST_BINS)
    return _Scale(first, width, -(-(last - first + 1) // width))


def _column(tally: Tally, scale: _Scale) -> list[int]:
    """How many executions of a kind each column has."""
    counts = [0] * scale.count
    for cycles, times in tally.counts.items():
        counts[scale.column(cycles)] += times
    return counts


def _bars(
    names: list[str], texts: list[str], columns: list[list[int]], scale: _Scale, most: int
) -> list[Bar]:
    """The bars of all kinds, those of a column on top of each other."""
    bars, wide = [], 100 / scale.count
    for at in range(scale.count):
        bottom, first = 100.0, scale.first + at * scale.width
        last = first + scale.width - 1
        cycles = f"{first:,} cycles" if first == last else f"{first:,} to {last:,} cycles"
        for name, text, counts in zip(names, texts, columns):
            if not counts[at]:
                continue
            height = max(LEAST_HEIGHT, 96 * counts[at] / most)
            bottom -= height
            said = f"{cycles}: {counts[at]:,} execution{'s' * (counts[at] != 1)}, {text}"
            bars.append(
                Bar(
                    name,
                    round(at * wide, 3),
                    round(bottom, 3),
                    round(0.86 * wide, 3),
                    round(height, 3),
                    said,
                )
            )
    return bars


def _ticks(scale: _Scale) -> list[Mark]:
    """About five round numbers of cycles."""
    last = scale.first + scale.width * scale.count - 1
    step = next(
        it for power in range(12) for it in (10**power, 2 * 10**power, 5 * 10**power)
        if (last - scale.first) / it <= 5
    )  # fmt: skip
    first = -(-scale.first // step) * step
    return [Mark("", at, scale.x(at)) for at in range(first, last + 1, step)]
