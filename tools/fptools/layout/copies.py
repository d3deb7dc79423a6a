"""Copies of blocks: for loops with several entries, for sections that share a trap with other code, and of loops' tests."""

from collections.abc import Iterable, Iterator
from dataclasses import dataclass

from fptools.code.digraph import Graph, search
from fptools.layout.assembly import Stays
from fptools.layout.blocks import Block, Item, Part
from fptools.layout.block_order import Flows, Loop, Nest, Section

MOST_CANDIDATES = 16
"""So many entries of a loop are tried as its head."""

MOST_BACK_EDGES = 2
"""A loop's test is copied to so many ends of it at most."""


@dataclass(frozen=True)
class Entry:
    """A second entry of a loop, the loop's blocks, and those that the entry reaches before the head."""

    block: int
    inside: set[int]
    behind: list[int]


def split_entries(blocks: list[Block], most: int) -> bool:
    """Copies blocks until each loop has one entry. Returns whether it did.

    Raises Stays where the copies would have more than `most` instructions."""
    left, is_changed = most, False
    while found := list(_second_entries(flows := Flows(blocks))):
        is_changed = True
        for it in found:
            left -= sum(_length(blocks[index]) for index in it.behind)
            line = blocks[it.block].line
            if any(blocks[index].marks for index in it.behind):
                raise Stays(
                    line, "a loop is entered at two places, and a mark is behind one of them"
                )
            if left < 0:
                raise Stays(
                    line,
                    f"a loop is entered at two places, and copies of {most} instructions don't end that",
                )
            _copy(blocks, flows, it)
    return is_changed


def _length(block: Block) -> int:
    """The number of its instructions, with a branch and a jump."""
    return len(block.code) + 2


def _second_entries(flows: Flows) -> Iterator[Entry]:
    """A second entry of each outermost loop that has several."""
    ahead = [Graph(flows.edges())]
    while ahead:
        part = ahead.pop()
        for inside in sorted(part.parts(), key=min):
            if len(inside) > 1:
                entries = [it for it in sorted(inside) if not set(flows.before[it]) <= inside]
                head = _best_head(flows, inside, entries)
                others = [it for it in entries if it != head]
                if others:
                    yield Entry(
                        others[0], inside, sorted(_before_head(flows, inside, others[:1], head))
                    )
                else:
                    ahead.append(part.subgraph(inside - {head}))


def _best_head(flows: Flows, inside: set[int], entries: list[int]) -> int:
    """The entry that makes the cheapest head, among those with the most predecessors in the loop."""

    def cost(head: int) -> int:
        others = [it for it in entries if it != head]
        return sum(_length(flows.blocks[it]) for it in _before_head(flows, inside, others, head))

    def uses(entry: int) -> int:
        return sum(it in inside for it in flows.before[entry])

    likely = sorted(entries, key=uses, reverse=True)[:MOST_CANDIDATES]
    return min(sorted(likely), key=cost) if len(entries) > 1 else entries[0]


def _before_head(flows: Flows, inside: set[int], entries: list[int], head: int) -> set[int]:
    """The blocks of a loop that entries reach before a head."""
    onward = {it: [to for to in flows.next_blocks[it] if to in inside] for it in inside}
    return {*search(entries, onward.__getitem__, [head])}


def _copy(blocks: list[Block], flows: Flows, entry: Entry) -> None:
    """Copies the blocks behind an entry, for the edges that enter there from outside."""
    copies = {index: len(blocks) + k for k, index in enumerate(entry.behind)}
    blocks += [blocks[index].copied() for index in entry.behind]
    for index in copies.values():
        blocks[index].lead_to(copies)
    for index in flows.before[entry.block]:
        if index not in entry.inside:
            blocks[index].lead_to({entry.block: copies[entry.block]})


def split_ends(blocks: list[Block], section: Section, most: int) -> bool:
    """Copies the blocks of a section that don't reach its end, where other code shares them, as a trap.

    Returns whether it did. It doesn't where the copies would have more than `most` instructions."""
    flows = Flows(blocks)
    passing = flows.passing(section)
    ends = sorted(section.blocks - passing)
    is_shared = any(not set(flows.before[it]) <= section.blocks for it in ends)
    if (
        not is_shared
        or any(blocks[it].marks for it in ends)
        or sum(_length(blocks[it]) for it in ends) > most
    ):
        return False
    copies = {index: len(blocks) + k for k, index in enumerate(ends)}
    blocks += [blocks[index].copied() for index in ends]
    for index in [*copies.values(), *passing]:
        blocks[index].lead_to(copies)
    return True


@dataclass(frozen=True)
class Test:
    """A loop's test at its head: the ends of the back edges, and its successors inside and outside of the loop."""

    head: int
    ends: tuple[int, ...]
    inside: int
    outside: int

    @property
    def touched(self) -> set[int]:
        return {self.head, *self.ends, self.inside, self.outside}


def rotate(blocks: list[Block], most: int) -> bool:
    """Copies a loop's test to its ends, in place of jumps to it. Returns whether it did.

    The test has at most `most` instructions before its branch."""
    is_changed = False
    while tests := _apart(_tests(blocks, most)):
        is_changed = True
        for test in tests:
            for index in test.ends:
                _append_test(blocks[index], blocks[test.head])
    return is_changed


def _apart(tests: Iterable[Test]) -> list[Test]:
    """Those with no block in common."""
    found: list[Test] = []
    touched: set[int] = set()
    for test in tests:
        if not touched & test.touched:
            found.append(test)
            touched |= test.touched
    return found


def _tests(blocks: list[Block], most: int) -> Iterator[Test]:
    flows = Flows(blocks)
    nest = Nest(flows)
    for loop in nest.loops.values():
        head, (inside, outside) = blocks[loop.head], _sides(flows, loop)
        ends = [index for index in flows.before[loop.head] if index in loop.blocks]
        is_short = len(head.code) <= most and not head.marks
        # A single jump may be the rest of a branch that was too far.
        goes_back_by_jump = len(ends) <= MOST_BACK_EDGES and all(
            blocks[it].code and not blocks[it].branch for it in ends
        )
        if inside is not None and outside is not None and is_short and goes_back_by_jump:
            if flows.before[inside] == [loop.head]:
                yield Test(loop.head, tuple(ends), inside, outside)


def _sides(flows: Flows, loop: Loop) -> tuple[int | None, int | None]:
    """The head's successors inside and outside of a loop, if there is one each."""
    onward = flows.next_blocks[loop.head]
    inside = [it for it in onward if it in loop.blocks]
    outside = [it for it in onward if it not in loop.blocks]
    if len(inside) == len(outside) == 1 and inside[0] != loop.head:
        return inside[0], outside[0]
    return None, None


def _append_test(end: Block, head: Block) -> None:
    """Adds a copy of a loop's test to a block that jumps to it."""
    copy = head.copied()
    if copy.source:
        end.items.append(Item(Part.LINE, "", head.line, source=copy.source))
    if copy.frame:
        end.items.append(Item(Part.FRAME, "", head.line, frame=copy.frame))
    end.items += copy.items
    end.branch, end.onward, end.has_jump = copy.branch, copy.onward, False
