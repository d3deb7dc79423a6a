"""The bounds of a thread's paths to its next waits, by the program, with what their sections leave
out looked at."""
from __future__ import annotations

from dataclasses import dataclass, field
from typing import Any, Iterable

from fptools.program.answers import Bound, NoAnswer
from fptools.budget.files import Budget, LoopFact
from fptools.budget.judge import Asked, Judge, Unknown
from fptools.files.image import write_image
from fptools.flow.inference import StatedLoop
from fptools.budget.names import MOST_LOOPS, Names, toml_of
from fptools.budget.path_facts import PathFacts, facts_of
from fptools.budget.paths import Search
from fptools.period.placed import Placed, PlacedLoop, Placer
from fptools.code.section import Exit, Section, walk, walk_all
from fptools.files.setup import Setup
from fptools.code.unfolded import NotUnfolded, Place, Unfolded, is_wait
from fptools.period.wait_paths import Node, Paths
from fptools.isa.words import Flow

TRAPS = "it traps: a bound ends here"
LOST = "from here on no wait is reached"
REGISTER = "a jump by a register: it has no bound"
MISSING = "no code is here: a bound ends here"
DELAY = "a DU on the path takes as long as its moment says"


@dataclass
class PathBounds:
    """Asks for the cycles from a place of a thread to its next waits."""

    names: Names
    judge: Judge
    unfolded: Unfolded
    budget: Budget
    loops: dict[int, LoopFact] = field(default_factory=dict)
    notes: list[str] = field(default_factory=list)
    functions: dict[int, str] = field(default_factory=dict)
    # By the place where they begin and the next wait: paths that cost the bounds.
    witnesses: dict[tuple[Place, Place], PathFacts] = field(default_factory=dict)
    _cycles: dict[tuple[Place, bool, Node], int] = field(default_factory=dict)
    _paths: dict[tuple[Place, bool], Paths] = field(default_factory=dict)
    _parts: dict[int, tuple[Asked, dict[int, StatedLoop]]] = field(default_factory=dict)

    def paths(self, begin: Place, is_last: bool = False) -> Paths:
        """The paths from a place, or from the last time that it is passed."""
        key = begin, is_last
        if key not in self._paths:
            self._paths[key] = Paths(self.unfolded, begin, (begin,) if is_last else ())
        return self._paths[key]

    def most(self, begin: Place, wait: Place, is_last: bool = False) -> int:
        """The most cycles from the issue at a place to that of a wait, without another wait
        between. Raises Unknown."""
        paths = self.paths(begin, is_last)
        ends = [it for it in paths.ends if it.place == wait]
        return max(self._bound(paths, it, is_last) for it in ends)

    def _bound(self, paths: Paths, end: Node, is_last: bool) -> int:
        key = paths.begin, is_last, end
        if key not in self._cycles:
            try:
                self._cycles[key] = self._asked(paths, end)
            except NotUnfolded as why:
                raise Unknown(f"{self.judge.where(why.pc)}: {why.text}") from why
        return self._cycles[key]

    def _asked(self, paths: Paths, end: Node) -> int:
        """Asks for the bound of paths to one of their ends, as a section of a second image."""
        graph = paths.leading_to(end)
        self._look_at_delays(paths, graph)
        called = self._called(paths, graph)
        self._look_at_rounds(paths, graph)
        placed = Placer(paths, graph, end, self._free_from(called)).placed()
        facts = [(it, self._fact(it)) for it in placed.loops]
        tables = {(it.head, it.last, fact.bound) for it, fact in facts}
        for part in called:
            tables |= {(it.head, it.last, it.bound) for it in self._facts_of(part)}
        if len(tables) > MOST_LOOPS:
            raise Unknown(f"{len(tables)} loops, of {MOST_LOOPS} at most that a setup may have")
        bound = self._written(placed, called, sorted(tables))
        if self.judge.has_paths:
            self._keep(paths.begin, end.place, bound, placed)
        return bound

    def _look_at_delays(self, paths: Paths, graph: Iterable[Node]) -> None:
        for node in graph:
            word = paths.step(node).word
            if word.flow is Flow.WAIT and node != paths.first and not paths.is_end(node):
                raise Unknown(f"{self.judge.where(word.pc)}: {DELAY}")

    def _look_at_rounds(self, paths: Paths, graph: Any) -> None:
        """No round of the outermost loop around a wait is free of waits."""
        around = self.unfolded.around(paths.begin)
        if not around or not is_wait(paths.step(paths.first).word):
            return
        head = Node(0, around[0].head)
        if head in graph and any(
            it.level == 0 and it.place in around[0].body for it in graph.predecessors(head)
        ):
            raise Unknown(
                f"{self.judge.where(head.place.pc)}: a round from here may come back without a wait"
            )

    def _called(self, paths: Paths, graph: Iterable[Node]) -> list[Section]:
        """The functions that the paths call, and that these call."""
        steps = (paths.step(it) for it in graph if not paths.is_end(it))
        starts = sorted(
            {it.word.target for it in steps if it.passes_over and it.word.target is not None}
        )
        for start in starts:
            self.unfolded.function_from(start)
        found = {it.start: it for start in starts for it in self.called_from(start)}
        return [found[at] for at in sorted(found)]

    def look_at_returns(self, start: int) -> None:
        """A function that is called before a loop goes back to its call, or doesn't come back."""
        for part in self._parts_from(start):
            if part.ends:
                self.judge.look_at_functions([part])
                continue
            left = [it for it in part.ways_out if it.exit is not Exit.TRAP]
            if left:
                raise NotUnfolded(left[0].word.pc, f"a function is left here: {left[0].exit.value}")

    def _parts_from(self, start: int) -> list[Section]:
        function = self.unfolded.function_from(start)
        below = [it for it in self.names.program.functions if it.start != start]
        return walk_all(self.judge.image, start, function.end, below, is_function=True)

    def called_from(self, start: int) -> list[Section]:
        """A function, and those that it calls. Raises Unknown where one is left other than by
        `ret`."""
        parts = self._parts_from(start)
        self.judge.look_at_functions(parts)
        self.functions |= {it.start: self.judge.where(it.start) for it in parts}
        return parts

    def _free_from(self, called: Iterable[Section]) -> int:
        """The first address behind the functions that are called."""
        return max((it.end for it in called), default=0) + 4 & ~3

    def _written(
        self, placed: Placed, called: list[Section], tables: list[tuple[int, int, int]]
    ) -> int:
        folder, setup = self.names.folder, self.names.setup
        image, path, listed = (folder / f"period.{it}" for it in ("fpx", "toml", "routines"))
        words = {pc: bits for it in called for pc, bits in self._words_of(it)}
        image.write_bytes(write_image({**words, **placed.words}))
        threads = [
            {key: it for key, it in table.items() if key != "inputs"}
            for table in setup.values["thread"]
        ]
        values: dict[str, Any] = {
            **setup.values,
            "version": 2,
            "image": str(image),
            "thread": threads,
        }
        values["loop"] = [dict(zip(("head", "last", "bound"), it)) for it in tables]
        path.write_text(toml_of(values), encoding="utf-8")
        listed.write_text(
            "".join(f"{it.start:08x} {it.end - 4:08x}\n" for it in called), encoding="ascii"
        )
        asked = self.names.flexpret.calls(
            path, self.budget.thread, placed.start, placed.end, listed
        )
        text = f"status {asked.status}: {asked.reason}"
        try:
            found = asked.read()
        except NoAnswer:
            raise Unknown(text) from None
        if isinstance(found, Bound):
            if self.judge.has_paths:
                parts = walk_all({**words, **placed.words}, placed.start, placed.end, called)
                searched = {**words, **placed.words}
                self._search = Search(Setup(path, values, {}), self.budget.thread, searched, parts)
            return found.cycles
        place = placed.of.get(found.address or 0)
        at = place.pc if place is not None else found.address
        raise Unknown(self.judge.refusal(found, text, at))

    def _keep(self, begin: Place, wait: Place, bound: int, placed: Placed) -> None:
        """Keeps the path that costs a bound, the longest one to a wait."""
        known = self.witnesses.get((begin, wait))
        if known is None or known.cycles < bound:
            origins = {at: place.pc for at, place in placed.of.items()}
            self.witnesses[begin, wait] = facts_of(
                self._search, bound, self.names.program, self.names.sources, origins
            )

    def _words_of(self, part: Section) -> Iterable[tuple[int, int]]:
        return ((pc, bits) for pc, bits in self.judge.image.items() if part.start <= pc < part.end)

    # Loops.

    def _fact(self, loop: PlacedLoop) -> LoopFact:
        """How often a loop on the paths goes back: what is known of that of its function."""
        part, heads = self._stated(self._part_of(loop.of))
        stated = heads.get(loop.of.pc)
        if stated is None:
            raise Unknown(f"{self.judge.where(loop.of.pc)}: nothing bounds this loop")
        if not loop.backs <= {*stated.loop.backs}:
            text = "a loop in another order than its function's: lay the code out by fp_layout"
            raise Unknown(f"{self.judge.where(loop.of.pc)}: {text}")
        return self._fact_of(part, stated)

    def _part_of(self, place: Place) -> Section:
        """The function of a place, or the thread's own code, where it is in none."""
        function = self.names.program.function_at(place.pc)
        image = self.judge.image
        if function is not None:
            heads = {it.start for it in self.names.program.functions} - {function.start}
            return walk(image, function.start, function.end, heads, is_function=True)
        own = [it.pc for it in self.unfolded.steps if not it.sites]
        return walk(
            image, min(own), max(own) + 4, {it.start for it in self.names.program.functions}
        )

    def _stated(self, part: Section) -> tuple[Asked, dict[int, StatedLoop]]:
        if part.start not in self._parts:
            asked = Asked(self.budget, [part], set(), part.start)
            stated = self.judge.stated_loops(asked, self._callers(part))
            self._parts[part.start] = asked, {it.loop.head: it for _, it in stated}
        return self._parts[part.start]

    def _callers(self, part: Section) -> list[Section]:
        """The thread's code that calls a function."""
        words = self.judge.thread(self.budget.thread).without_traps.words
        is_call = (
            pc for pc, it in words.items() if it.flow is Flow.CALL and it.target == part.start
        )
        found = {it.start: it for it in (self._part_of(Place((), pc)) for pc in is_call)}
        return [found[start] for start in sorted(found)]

    def rounds(self, part: Section) -> dict[int, int]:
        """The most rounds of the loops of a function, by their heads: as its code counts or its
        marks allow."""
        _, found = self._stated(part)
        return {head: it.bound + 1 for head, it in found.items() if it.bound is not None}

    def _facts_of(self, part: Section) -> list[LoopFact]:
        """The loops of a called function."""
        asked, found = self._stated(part)
        return [self._fact_of(asked, it) for _, it in sorted(found.items())]

    def _fact_of(self, asked: Asked, stated: StatedLoop) -> LoopFact:
        fact = self.names.fact(self.judge, asked, asked.section, stated)
        self.loops[fact.head] = fact
        self.notes += [it for it in asked.notes if it not in self.notes]
        return fact
