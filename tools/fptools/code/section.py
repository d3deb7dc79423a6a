"""A section or a function as `bound` and `calls` go through it: the words it reaches, its loops, and where it is left."""

from collections import defaultdict
from dataclasses import dataclass, field, replace
from enum import Enum
from typing import Collection, Mapping, Protocol

from fptools.code.digraph import Dominators, Graph, search
from fptools.isa.words import RETURN, Flow, Word


class Function(Protocol):
    """The words of a function: from its first address up to below `end`."""

    @property
    def start(self) -> int:
        ...

    @property
    def end(self) -> int:
        ...


class Exit(Enum):
    """How an execution leaves a section."""

    END = "reaches the end"
    RETURN = "returns"
    CALL = "a call leaves the section: a bound ends here"
    ELSEWHERE = "leaves for another address: a bound ends here"
    INDIRECT = "an indirect jump: it has no bound"
    WAIT = "a timed wait: it has no bound"
    TRAP = "traps: a bound ends here"
    MISSING = "no code is here: a bound ends here"


@dataclass(frozen=True)
class WayOut:
    """A word that leaves the section, how, and where to, if that is in the word."""

    word: Word
    exit: Exit
    to: int | None


@dataclass(frozen=True)
class Loop:
    """A loop by its head, and the words that go back to it."""

    head: int
    backs: tuple[int, ...]
    # The words of the loop: those from which a back edge is reached without passing the head, and the head.
    body: frozenset[int] = frozenset()
    # The words of the loop with an edge out of it.
    exits: frozenset[int] = frozenset()
    # Whether each path from the first word of the section passes the head first.
    is_natural: bool = True
    # The last word of the loops inside, by address; 0 where none lies behind the last back edge.
    inner_last: int = 0

    @property
    def last(self) -> int:
        """The last word, by address. A loop inside may have a back edge behind those of the loop itself."""
        return max(*self.backs, self.inner_last)

    @property
    def is_interval(self) -> bool:
        """Whether it is only entered at its head, and no word of it is before the head."""
        return self.is_natural and min(self.body, default=self.head) == self.head


@dataclass
class Section:
    """The words from `start` up to below `end`, and what their first can reach among them."""

    start: int
    end: int
    is_function: bool = False
    reached: dict[int, Word] = field(default_factory=dict)
    loops: list[Loop] = field(default_factory=list)
    ways_out: list[WayOut] = field(default_factory=list)
    callees: set[int] = field(default_factory=set)
    graph: Graph[int] = field(default_factory=Graph[int])

    def holds(self, address: int) -> bool:
        return self.start <= address < self.end

    @property
    def way_of_end(self) -> Exit:
        """How it is left as meant: a function returns, a section reaches its end."""
        return Exit.RETURN if self.is_function else Exit.END

    @property
    def ends(self) -> bool:
        """Whether a path leads to an intended exit."""
        return any(way.exit is self.way_of_end for way in self.ways_out)


def walk(
    words: Mapping[int, int],
    start: int,
    end: int,
    routines: Collection[int] = (),
    is_function: bool = False,
) -> Section:
    """Goes through a section or a function. A call of one of the routines by x1, by their heads, comes back to the next
    word; a `ret` is what leaves a function."""
    section = Section(start, end, is_function)
    section.graph.add_node(start)
    for pc in search([start], section.graph.__getitem__):
        word = section.reached[pc] = Word(pc, words.get(pc, 0))
        for to in _steps(section, word, routines):
            section.graph.add_edge(pc, to)
    section.loops = _loops(section)
    section.ways_out.sort(key=lambda way: (way.word.pc, way.to or 0))
    return section


def walk_all(
    words: Mapping[int, int],
    start: int,
    end: int,
    functions: Collection[Function],
    is_function: bool = False,
) -> list[Section]:
    """A section or a function, and the functions that it calls, and that these call, by their addresses. A function that
    has words of the section is none of them: its call leaves the section."""
    apart = {it.start: it for it in functions if it.end <= start or end <= it.start}
    first = walk(words, start, end, apart, is_function)
    called: dict[int, Section] = {}
    for head in search(first.callees, lambda it: called[it].callees):
        called[head] = walk(words, head, apart[head].end, apart, is_function=True)
    return [first, *(called[head] for head in sorted(called))]


def _loops(section: Section) -> list[Loop]:
    """The loops by their heads: targets of edges that lead backwards by address, or to a word that dominates theirs."""
    graph = section.graph
    dominators = Dominators(graph, section.start)
    backs: dict[int, set[int]] = defaultdict(set)
    natural: dict[int, set[int]] = defaultdict(set)
    for word, to in graph.edges:
        if to <= word:
            backs[to].add(word)
        if dominators.has(to, word):
            natural[to].add(word)
    leaves = {way.word.pc for way in section.ways_out}
    loops = []
    for head in sorted(backs | natural):
        every = backs[head] | natural[head]
        body = graph.natural_loop(head, natural[head])
        exits = {word for word in body if word in leaves or not set(graph[word]) <= body}
        loops.append(
            Loop(
                head,
                tuple(sorted(every)),
                frozenset(body),
                frozenset(exits),
                every == natural[head],
            )
        )
    return _with_inner(loops)


def _with_inner(loops: list[Loop]) -> list[Loop]:
    """The loops, each with the last word of those that begin inside of it."""
    lasts = {loop.head: loop.last for loop in loops}
    changed = True
    while changed:
        changed = False
        for outer in lasts:
            for inner in lasts:
                if outer < inner <= lasts[outer] < lasts[inner]:
                    lasts[outer], changed = lasts[inner], True
    return [replace(loop, inner_last=lasts[loop.head]) for loop in loops]


def _steps(section: Section, word: Word, routines: Collection[int]) -> list[int]:
    """Where a word goes on inside the section; what leads out of it is noted as a way out."""
    ends = _ends(section, word, routines)
    if word.flow in (Flow.INDIRECT, Flow.WAIT, Flow.TRAP):
        section.ways_out.append(WayOut(word, _stop(section, word), None))
    for to in ends:
        if not section.holds(to):
            section.ways_out.append(WayOut(word, _leaving(section, word, to), to))
    return [to for to in ends if section.holds(to)]


def _ends(section: Section, word: Word, routines: Collection[int]) -> list[int]:
    """The addresses at which a thread may go on after a word, as far as they are in it."""
    flow, target = word.flow, word.target
    if flow in (Flow.INDIRECT, Flow.TRAP):
        return []
    if target is None:
        return [word.next]
    if word.comes_back and target in routines:
        section.callees.add(target)
        return [word.next]
    return [word.next, target] if flow is Flow.BRANCH else [target]


def _stop(section: Section, word: Word) -> Exit:
    """Why there is no number past a word."""
    if not word.is_code:
        return Exit.MISSING
    if section.is_function and word.bits == RETURN:
        return Exit.RETURN
    return {Flow.INDIRECT: Exit.INDIRECT, Flow.WAIT: Exit.WAIT}.get(word.flow, Exit.TRAP)


def _leaving(section: Section, word: Word, to: int) -> Exit:
    if word.flow is Flow.CALL and to == word.target:
        return Exit.CALL
    return Exit.END if to == section.end and not section.is_function else Exit.ELSEWHERE
