"""The most that a loop goes back in one visit, by the claims of the marks FP_LOOP and FP_ROUND.

FP_LOOP(name, n) claims of a thread's run: between two passes of this FP_LOOP, and after its last
one, its FP_ROUND is passed at most n times; and at most n times before its first one. So a bound
can't be too small, if the claims are true:

1. Any stretch of a run has `rounds <= n * (loops + 1)`, by the passes of the FP_ROUND and the
   FP_LOOP of a claim. The 1 is for those before the stretch's first FP_LOOP. It is left out
   where each path surely passes the FP_LOOP first.
2. A visit of a natural loop is a stretch. How often it takes each edge is a flow from the head
   to where it may end. The bound is the largest number of back edges of such a flow that keeps
   1, rounded down.
3. Passes in functions that the loop calls are left out on the left of 1, which only weakens it.
   Where such a function may pass the FP_LOOP, or calls code that isn't known, the claim isn't
   used.
   The FP_LOOP of an inline function, or of a template, counts in each unit that compiles it.
4. Where it isn't sure that an edge passes a mark, FP_LOOP counts and FP_ROUND doesn't: both
   weaken 1.
5. Each number comes with factors of the claims, as fractions. For factors f from 0 on, no visit
   goes back more often than

       sum of f * n, for each claim with the 1 of step 1
       + the largest sum, over paths, of (back edges - f * (rounds - n * loops))

   which is computed without rounding. A solver only proposes the factors. Where a cycle adds to
   that sum, or no visit ends, there is no bound: a loop that nothing leaves has none.

An expiry may end a visit anywhere. Claims are of runs as they would go on."""

from dataclasses import dataclass
from fractions import Fraction
from math import lcm
from typing import Iterator, Sequence

from fptools.code.digraph import Graph
from fptools.flow.graph import END, ENTRY, Edge, LoopFlow
from fptools.flow.program import Row, factors_of
from fptools.flow.records import Claim, Kind

DENOMINATORS = (64, 4096, 1_000_000)
"""The largest denominators with which proposed factors are made fractions, one after the other."""
NUDGE = 1 + Fraction(1, 2**30)
"""Factors that are too small by rounding, times this, may be large enough."""


@dataclass(frozen=True)
class Fact:
    """A claim that counts in a loop: between two passes of its FP_LOOP; is it open, also before the
    first one."""

    claim: Claim
    is_open: bool

    @property
    def limit(self) -> int:
        return self.claim.most if self.is_open else 0

    def weight(self, edge: Edge) -> int:
        """What an edge adds to `rounds - n * loops`."""
        total = 0
        for it in edge.passes:
            if it.mark.kind is Kind.LOOP and self.claim.may_be(it.mark.claim):
                total -= self.claim.most
            elif it.mark.claim == self.claim and it.is_sure:
                total += 1
        return total


def facts_of(flow: LoopFlow, claims: Sequence[Claim]) -> list[Fact]:
    return [Fact(it, not flow.is_entered_first(it)) for it in claims]


def most_backs(flow: LoopFlow, facts: Sequence[Fact]) -> int | None:
    """The most that a visit goes back to the head, by claims; None where they don't bound it."""
    weights = [tuple(fact.weight(edge) for fact in facts) for edge in flow.edges]
    edges = zip(flow.edges, weights)
    rows = [Row(edge.start, edge.end, int(flow.is_back(edge)), own) for edge, own in edges]
    rows += [Row(pc, END, 0, (0,) * len(facts)) for pc in flow.ends]
    proposed = factors_of(rows, [fact.limit for fact in facts], ENTRY, END, flow.head)
    for factors in _rounded(proposed) if proposed is not None else ():
        longest = _longest(flow, weights, factors)
        if longest is not None:
            total = longest + sum(factor * fact.limit for factor, fact in zip(factors, facts))
            return int(total // 1) if total >= 0 else None
    return None


def _rounded(proposed: Sequence[Fraction | float]) -> Iterator[list[Fraction]]:
    """Factors as fractions, from 0 on."""
    exact = [max(Fraction(it), Fraction(0)) for it in proposed]
    for most in DENOMINATORS:
        yield [it.limit_denominator(most) for it in exact]
    yield [it * NUDGE for it in exact]


def _longest(
    flow: LoopFlow, weights: Sequence[Sequence[int]], factors: Sequence[Fraction]
) -> Fraction | None:
    """The largest sum of `back edges - factors * weights` of a path from the entry to where a visit
    may end; None where a cycle gains, or where there is no such path."""
    scale = lcm(*(it.denominator for it in factors))
    whole = [int(it * scale) for it in factors]
    order = _order(flow)
    steps = sorted(
        (
            order[edge.start],
            edge.start,
            edge.end,
            scale * flow.is_back(edge) - sum(a * b for a, b in zip(whole, own)),
        )
        for edge, own in zip(flow.edges, weights)
        if edge.start in order
    )
    # A path without a cycle takes one edge at most to each place that edges lead back to.
    led_back = {end for at, _, end, _ in steps if order[end] <= at}
    best = {ENTRY: 0}
    for _ in range(len(led_back) + 2):
        changed = False
        for _, start, end, gain in steps:
            if start in best and best.get(end, best[start] + gain - 1) < best[start] + gain:
                best[end], changed = best[start] + gain, True
        if not changed:
            found = [best[pc] for pc in flow.ends if pc in best]
            return Fraction(max(found), scale) if found else None
    return None


def _order(flow: LoopFlow) -> dict[int, int]:
    """The places in an order in which edges lead onward, but for those of cycles: a depth-first
    search, reversed."""
    graph = Graph(((it.start, it.end) for it in flow.edges), [ENTRY])
    return {place: at for at, place in enumerate(reversed(graph.postorder(ENTRY)))}
