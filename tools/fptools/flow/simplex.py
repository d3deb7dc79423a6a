"""The simplex method in fractions, for small linear programs."""

from collections import defaultdict
from dataclasses import dataclass
from fractions import Fraction
from typing import Collection, Mapping, Sequence

Line = dict[int, Fraction]


@dataclass(frozen=True)
class Constraint:
    """A sum of variables, each with a factor, that is at most a limit from 0 on, or exactly it."""

    factors: Mapping[int, int]
    limit: int
    is_exact: bool


def largest(
    wanted: Mapping[int, int], count: int, constraints: Sequence[Constraint]
) -> list[Fraction] | None:
    """The dual solution for the constraints that aren't exact, where a sum of `count` variables
    from 0 on is largest. None where the constraints exclude each other, or nothing limits the
    sum."""
    return _Table(count, constraints).solved(wanted)


class _Table:
    """The rows of a program in the form of its basis. Columns are the variables, a slack for each
    constraint that isn't exact, an artificial variable for each one that is, and the limits."""

    def __init__(self, count: int, constraints: Sequence[Constraint]) -> None:
        self.slack = {
            at: count + k
            for k, at in enumerate(at for at, it in enumerate(constraints) if not it.is_exact)
        }
        first = count + len(self.slack)
        self.limits = first + len(constraints)
        self.lines: list[Line] = []
        self.basis: list[int] = []
        for at, it in enumerate(constraints):
            own = self.slack.get(at, first + at)
            line = {k: Fraction(v) for k, v in it.factors.items() if v}
            line[own] = Fraction(1)
            if it.limit:
                line[self.limits] = Fraction(it.limit)
            self.lines.append(line)
            self.basis.append(own)
        self.artificial = {it for it in self.basis if it >= first}

    def solved(self, wanted: Mapping[int, int]) -> list[Fraction] | None:
        cost: Line = defaultdict(Fraction)
        for line, own in zip(self.lines, self.basis):
            if own in self.artificial:
                _add(cost, line, Fraction(1))
        for own in self.artificial:
            cost.pop(own, None)
        if not self._improved(cost) or cost.get(self.limits, Fraction(0)):
            return None
        cost = defaultdict(Fraction, {k: Fraction(v) for k, v in wanted.items()})
        for line, own in zip(self.lines, self.basis):
            if factor := cost.get(own, Fraction(0)):
                _add(cost, line, -factor)
        if not self._improved(cost):
            return None
        return [-cost.get(own, Fraction(0)) for own in self.slack.values()]

    def _improved(self, cost: Line) -> bool:
        """Changes the basis until no column improves it, by Bland's rule. False where nothing
        limits a column."""
        while True:
            closed = self.artificial
            columns = (k for k, v in cost.items() if v > 0 and k != self.limits and k not in closed)
            column = min(columns, default=None)
            if column is None:
                return True
            at = self._leaving(column, closed)
            if at is None:
                return False
            by = self.lines[at][column]
            line = self.lines[at] = {k: v / by for k, v in self.lines[at].items()}
            for other in [*(it for k, it in enumerate(self.lines) if k != at), cost]:
                if factor := other.get(column):
                    _add(other, line, -factor)
            self.basis[at] = column

    def _leaving(self, column: int, closed: Collection[int]) -> int | None:
        """The line whose variable leaves the basis for a column. One that is artificial is 0, and
        stays so."""
        best: tuple[Fraction, int, int] | None = None
        for at, line in enumerate(self.lines):
            value, limit = line.get(column, Fraction(0)), line.get(self.limits, Fraction(0))
            if self.basis[at] in closed and value and not limit:
                ratio = (Fraction(0), -1, at)
            elif value > 0:
                ratio = (limit / value, self.basis[at], at)
            else:
                continue
            best = ratio if best is None or ratio < best else best
        return None if best is None else best[2]


def _add(line: Line, other: Mapping[int, Fraction], factor: Fraction) -> None:
    """Adds a line times a factor."""
    for k, v in other.items():
        new = line.get(k, 0) + factor * v
        if new:
            line[k] = Fraction(new)
        else:
            line.pop(k, None)
