"""The linear program of a loop: the largest flow back to its head, while claims hold.

Only the factors of the claims in its dual solution leave this module. Whoever takes them shows that
they are some: no number depends on a solver, or on how the program is made smaller here."""

from collections import defaultdict
from dataclasses import dataclass
from fractions import Fraction
from typing import Iterator, Sequence

from fptools import has
from fptools.flow.simplex import Constraint, largest

MOST_EXACT = 40_000
"""The exact method is slow: it is used for so many edges times constraints at most."""


@dataclass(frozen=True)
class Row:
    """An edge of the flow: how often it leads back to the head, and what it adds to each claim's
    left side."""

    start: int
    end: int
    backs: int
    weights: tuple[int, ...]

    @property
    def gain(self) -> tuple[int, tuple[int, ...]]:
        return self.backs, self.weights


Gain = tuple[int, tuple[int, ...]]


class Network:
    """The edges between places, where several edges between two places are kept only if none of
    them is better."""

    def __init__(self, rows: Sequence[Row]) -> None:
        self.onward: dict[int, dict[int, set[Gain]]] = defaultdict(dict)
        self.before: dict[int, set[int]] = defaultdict(set)
        for row in rows:
            self.add(row.start, row.end, row.gain)

    def add(self, start: int, end: int, gain: Gain) -> None:
        if start == end and not _gains(gain):
            return
        gains = self.onward[start].setdefault(end, set())
        if not any(_is_better(it, gain) for it in gains):
            gains -= {it for it in gains if _is_better(gain, it)}
            gains.add(gain)
        self.before[end].add(start)

    def remove(self, place: int) -> None:
        """Joins the edges to a place with those from it."""
        ends = self.onward.pop(place, {})
        for start in self.before.pop(place, set()):
            for first in self.onward[start].pop(place):
                for end, gains in ends.items():
                    for gain in gains:
                        self.add(start, end, _sum(first, gain))
        for end in ends:
            self.before[end].discard(place)

    def reduced(self, kept: set[int]) -> None:
        """Removes places as long as that makes no more edges."""
        ahead = sorted({*self.onward, *self.before} - kept)
        queued = set(ahead)
        while ahead:
            place = ahead.pop()
            queued.discard(place)
            ends = self.onward.get(place, {})
            if place in ends:
                continue
            starts = {it for it in self.before.get(place, ()) if place in self.onward.get(it, {})}
            before = sum(len(self.onward[it][place]) for it in starts)
            behind = sum(map(len, ends.values()))
            if before * behind <= before + behind:
                near = {*starts, *ends} - kept - queued - {place}
                self.remove(place)
                ahead += sorted(near)
                queued |= near

    def rows(self) -> Iterator[Row]:
        for start, ends in self.onward.items():
            for end, gains in ends.items():
                for backs, weights in sorted(gains):
                    yield Row(start, end, backs, weights)


def _sum(one: Gain, other: Gain) -> Gain:
    return one[0] + other[0], tuple(a + b for a, b in zip(one[1], other[1]))


def _is_better(one: Gain, other: Gain) -> bool:
    """Whether an edge leads back as often, and uses no claim more."""
    return one[0] >= other[0] and all(a <= b for a, b in zip(one[1], other[1]))


def _gains(gain: Gain) -> bool:
    """Whether a cycle of one edge is of use for any flow."""
    return gain[0] > 0 or any(it < 0 for it in gain[1])


def factors_of(
    rows: Sequence[Row], limits: Sequence[int], entry: int, end: int, head: int
) -> Sequence[Fraction | float] | None:
    """The factors of the claims by which the flow back is least bounded; None where no flow is
    possible, or none is the largest."""
    network = Network(rows)
    network.reduced({entry, end, head})
    small = list(network.rows())
    constraints = _constraints(small, limits, entry, end)
    wanted = {at: row.backs for at, row in enumerate(small) if row.backs}
    if has("scipy"):
        is_solved, proposed = _by_highs(wanted, len(small), constraints)
        if is_solved:
            return proposed
    if len(small) * len(constraints) > MOST_EXACT:
        return None
    return largest(wanted, len(small), constraints)


def _constraints(
    rows: Sequence[Row], limits: Sequence[int], entry: int, end: int
) -> list[Constraint]:
    """What flows to a place flows on, and one visit is begun; then the claims."""
    flows: dict[int, dict[int, int]] = defaultdict(lambda: defaultdict(int))
    for at, row in enumerate(rows):
        flows[row.start][at] += 1
        flows[row.end][at] -= 1
    found = [
        Constraint(dict(flows[place]), int(place == entry), True)
        for place in sorted(flows)
        if place != end
    ]
    for claim, limit in enumerate(limits):
        uses = {at: row.weights[claim] for at, row in enumerate(rows) if row.weights[claim]}
        found.append(Constraint(uses, limit, False))
    return found


def _by_highs(
    wanted: dict[int, int], count: int, constraints: Sequence[Constraint]
) -> tuple[bool, Sequence[float] | None]:
    """The factors as scipy's solver proposes them, and whether it has an answer."""
    from scipy.optimize import linprog
    from scipy.sparse import coo_matrix

    exact = [it for it in constraints if it.is_exact]
    others = [it for it in constraints if not it.is_exact]

    def matrix(some: Sequence[Constraint]) -> object:
        cells = [(i, k, float(v)) for i, it in enumerate(some) for k, v in it.factors.items()]
        places = [it[0] for it in cells], [it[1] for it in cells]
        return coo_matrix(([it[2] for it in cells], places), (len(some), count))

    found = linprog(
        [-float(wanted.get(at, 0)) for at in range(count)],
        A_ub=matrix(others) if others else None,
        b_ub=[float(it.limit) for it in others] or None,
        A_eq=matrix(exact),
        b_eq=[float(it.limit) for it in exact],
        method="highs",
    )
    if found.status != 0:
        return found.status in (2, 3), None
    return True, [-float(it) for it in found.ineqlin.marginals] if others else []
