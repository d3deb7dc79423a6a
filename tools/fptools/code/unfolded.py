"""The words that a thread may issue from its entry on, with each call that leads to a wait put in
place, and each one of straight code that reads the time.

A place is a word together with the calls by which it is reached. Other calls are passed over: they
come back to the next word. Trap handlers are left out."""

from collections import defaultdict
from dataclasses import dataclass, field
from functools import cached_property
from typing import NamedTuple

from fptools.files.elf import Function, Program
from fptools.code.returns import wrong_return
from fptools.code.digraph import Dominators, Graph, search
from fptools.code.kept import reads_time
from fptools.code.section import Exit, Section, walk
from fptools.limits import LARGE
from fptools.code.thread import Code, reach
from fptools.code.values import clobbered_by
from fptools.isa.words import FUNCT3_WAITS, OPCODE_TIMING, RETURN, Flow, Word

FUNCT3_DELAY, FUNCT3_WAIT = FUNCT3_WAITS
MOST_CALLS = 16
MOST_PLACES = 20_000
MOST_STRAIGHT = (
    256  # words of a function without a wait, with those that it calls, to be put in place
)


class NotUnfolded(Exception):
    """Why the words of a thread aren't known: an address, and what is there."""

    def __init__(self, pc: int, text: str) -> None:
        super().__init__(text)
        self.pc, self.text = pc, text


class Place(NamedTuple):
    """A word, and the addresses of the calls that lead to it, the outermost first."""

    sites: tuple[int, ...]
    pc: int

    @property
    def key(self) -> tuple[int, ...]:
        """Sorts places as if each called function were in place of its call."""
        return (*self.sites, self.pc)


@dataclass(frozen=True)
class Step:
    """A word at a place: the next place, and the one that it jumps to, calls or returns to."""

    word: Word
    onward: Place | None = None
    target: Place | None = None

    @property
    def ends(self) -> list[Place]:
        return [it for it in dict.fromkeys((self.onward, self.target)) if it is not None]

    @property
    def passes_over(self) -> bool:
        """Whether it is a call of a function that isn't put in place."""
        return self.word.flow is Flow.CALL and self.target is None


@dataclass(frozen=True)
class Ring:
    """A natural loop of places: its head, through which alone it is entered, and all its places."""

    head: Place
    body: frozenset[Place]


def is_wait(word: Word) -> bool:
    """Whether a word is a WU."""
    is_timing = word.is_code and word.opcode == OPCODE_TIMING
    return is_timing and word.funct3 == FUNCT3_WAIT


@dataclass
class Unfolded:
    """The places that a thread reaches from its entry on. Raises NotUnfolded."""

    code: Code
    program: Program
    entry: int
    is_deep: bool = False  # whether each call of straight code is put in place
    steps: dict[Place, Step] = field(default_factory=dict)
    _reached: dict[int, list[Word]] = field(default_factory=dict)
    _straight: dict[int, bool] = field(default_factory=dict)
    _checked: set[int] = field(default_factory=set)

    def __post_init__(self) -> None:
        for place in search([self.first], lambda it: self.steps[it].ends):
            if len(self.steps) >= MOST_PLACES:
                raise NotUnfolded(place.pc, "the calls that lead to a wait are too many to look at")
            self.steps[place] = self._step(place)

    @property
    def first(self) -> Place:
        return Place((), self.entry)

    @property
    def passed_over(self) -> set[int]:
        """The functions that are called and aren't put in place."""
        found = (it.word.target for it in self.steps.values() if it.passes_over)
        return {it for it in found if it is not None}

    @property
    def waits(self) -> list[Place]:
        """The places with a WU, in order."""
        found = (place for place, step in self.steps.items() if is_wait(step.word))
        return sorted(found, key=lambda it: it.key)

    def _step(self, place: Place) -> Step:
        sites = place.sites
        word = self.code.word(place.pc) if place.pc < LARGE else Word(place.pc, 0)
        flow, onward = word.flow, Place(sites, word.next)
        if flow is Flow.TRAP:
            return Step(word)
        if flow is Flow.INDIRECT:
            return self._return(place, word)
        if flow is Flow.CALL and word.target is not None:
            if not word.comes_back:
                raise NotUnfolded(place.pc, "a call that doesn't keep its return address in x1")
            if not self._is_put_in_place(place, word.target):
                return Step(word, onward)
            return Step(word, None, self._called(place, word.target))
        target = None if word.target is None else Place(sites, word.target)
        return Step(word, None if flow is Flow.JUMP else onward, target)

    def _return(self, place: Place, word: Word) -> Step:
        """A `ret` goes back behind the call that led here. Other jumps by a register are refused."""
        if word.bits != RETURN or not place.sites:
            raise NotUnfolded(
                place.pc, "a jump to an address that isn't known: it may lead to a wait"
            )
        site = place.sites[-1]
        self._look_at_returns(self.code.word(site).target or 0)
        return Step(word, None, Place(place.sites[:-1], site + 4))

    def _called(self, place: Place, target: int) -> Place:
        outer = [self.code.word(it).target for it in place.sites]
        if target in outer or len(outer) >= MOST_CALLS:
            raise NotUnfolded(place.pc, "recursion on the path to a wait")
        return Place((*place.sites, place.pc), target)

    def _is_put_in_place(self, place: Place, target: int) -> bool:
        """Whether a call is followed: if it leads to a wait; or if it is of straight code that reads
        the time, or that `is_deep` asks for."""
        words = self._words_from(target)
        if any(it.flow is Flow.WAIT for it in words):
            return True
        is_short = len(words) <= MOST_STRAIGHT and len(place.sites) < MOST_CALLS
        return (
            is_short and (self.is_deep or any(map(reads_time, words))) and self._is_straight(target)
        )

    def _words_from(self, target: int) -> list[Word]:
        """The words of a called function and of those that it calls."""
        if target not in self._reached:
            self._reached[target] = [*reach(self.code, [target]).words.values()]
        return self._reached[target]

    def _is_straight(self, target: int) -> bool:
        """Whether a function has no loop and goes back to its call on each path, and so do those that
        it calls."""
        if target not in self._straight:
            self._straight[target] = False  # also while it is looked at, for one that calls itself
            try:
                part = self.part_of(target)
                self._look_at_returns(target)
            except NotUnfolded:
                return False
            has_loop = any(len(it) > 1 for it in part.graph.parts())
            has_loop |= any(one == other for one, other in part.graph.edges)
            callees = [self._is_straight(it) for it in sorted(part.callees)]
            self._straight[target] = all(callees) and not has_loop and part.ends
        return self._straight[target]

    def _look_at_returns(self, start: int) -> None:
        """Each `ret` of a function with a wait goes back to its call."""
        if start in self._checked:
            return
        part = self.part_of(start)
        for way in part.ways_out:
            if way.exit not in (Exit.RETURN, Exit.WAIT):
                raise NotUnfolded(
                    way.word.pc, f"a function with a wait is left here: {way.exit.value}"
                )
        wrong = wrong_return(part, lambda at: clobbered_by(self.code.words, at), self.code.words)
        if wrong is not None:
            text = "it isn't certain that this goes back to the call: x1 and x2 change"
            raise NotUnfolded(wrong.pc, text)
        self._checked.add(start)

    def function_from(self, start: int) -> Function:
        """The function that begins at an address."""
        found = self.program.function_at(start)
        if found is None or found.start != start:
            text = "it is called and is no function with a size: in assembler, .type and .size"
            raise NotUnfolded(start, text)
        return found

    def part_of(self, start: int) -> Section:
        """A called function, where the calls of others come back."""
        function = self.function_from(start)
        heads = {it.start for it in self.program.functions} - {start}
        return walk(self.code.words, start, function.end, heads, is_function=True)

    @cached_property
    def graph(self) -> Graph[Place]:
        edges = ((place, to) for place, step in self.steps.items() for to in step.ends)
        return Graph(edges, [self.first])

    @cached_property
    def order(self) -> dict[Place, int]:
        """The places by numbers: a word has a lower one than what comes behind it, but for loops."""
        last = self.graph.postorder(self.first)
        return {place: at for at, place in enumerate(reversed(last))}

    @cached_property
    def rings(self) -> list[Ring]:
        """The natural loops, the larger ones first."""
        dominators = Dominators(self.graph, self.first)
        backs: dict[Place, list[Place]] = defaultdict(list)
        for place, to in self.graph.edges:
            if dominators.has(to, place):
                backs[to].append(place)
        found = (
            Ring(head, frozenset(self.graph.natural_loop(head, lasts)))
            for head, lasts in backs.items()
        )
        return sorted(found, key=lambda it: (-len(it.body), it.head.key))

    @cached_property
    def tangled(self) -> list[Place]:
        """The waits that a cycle leads back to which isn't inside of a natural loop: one that is
        entered at several words."""
        bodies = {ring.body for ring in self.rings}
        parts = self.graph.parts()
        cycles = [frozenset(it) for it in parts if len(it) > 1]
        tangled = set().union(*(it for it in cycles if it not in bodies))
        return [it for it in self.waits if it in tangled]

    def around(self, place: Place) -> list[Ring]:
        """The loops that a place lies in, the outermost first."""
        return [it for it in self.rings if place in it.body]
