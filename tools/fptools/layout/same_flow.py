"""Compares two arrangements of a function's blocks by a simultaneous search through both."""

from collections.abc import Sequence
from dataclasses import dataclass

from fptools.code.digraph import search
from fptools.layout.assembly import INVERSE
from fptools.layout.blocks import Block, Branch


@dataclass(frozen=True)
class Place:
    """A place in a block: after so many of its instructions."""

    block: int
    done: int


SPINS, ENDS = Place(-1, 0), Place(-2, 0)
"""An endless loop of jumps; and the end of the function, past which control would run."""


class Code:
    """Blocks as sequences of instructions. Jumps don't count."""

    def __init__(self, blocks: Sequence[Block]) -> None:
        self.blocks = blocks
        self.texts = [[" ".join(item.text.split()) for item in block.code] for block in blocks]
        self.at = {label: index for index, block in enumerate(blocks) for label in block.labels}

    def settled(self, block: int | None, done: int = 0) -> Place:
        """The first place with an instruction, from a place on."""
        seen: set[int] = set()
        while block is not None:
            here = self.blocks[block]
            if done < len(self.texts[block]) or here.branch or here.stop:
                return Place(block, done)
            if block in seen:
                return SPINS
            seen.add(block)
            block, done = here.onward, 0
        return ENDS

    def text(self, place: Place) -> str | None:
        """The plain instruction at a place; None for a branch, return or trap."""
        texts = self.texts[place.block] if place.block >= 0 else []
        return texts[place.done] if place.done < len(texts) else None

    def branch(self, place: Place) -> Branch | None:
        return self.blocks[place.block].branch if place.block >= 0 else None

    def stop(self, place: Place) -> str:
        """The return or trap at a place. The function's end is the trap that fp_layout puts there."""
        block = self.blocks[place.block] if place.block >= 0 else None
        if block and block.stop:
            return " ".join(block.stop.text.split())
        return "spins" if place == SPINS else "ebreak"


def do_the_same(before: Sequence[Block], after: Sequence[Block]) -> bool:
    """Whether both execute the same instructions, whatever the branches decide.

    Compared are all paths from the first block, from each mark, and from each label that both have.
    """
    one, other = Code(before), Code(after)
    if any(not block.marks <= other.at.keys() for block in before):
        return False
    both = one.at.keys() & other.at.keys()
    starts = [(0, 0), *((one.at[label], other.at[label]) for label in both)]
    pairs = ((one.settled(a), other.settled(b)) for a, b in starts)
    onward: list[tuple[Place, Place]] | None = []
    for pair in search(pairs, lambda _: onward or ()):
        onward = _onward(one, other, *pair)
        if onward is None:
            return False
    return True


def _onward(one: Code, other: Code, a: Place, b: Place) -> list[tuple[Place, Place]] | None:
    """The pairs of places after two places. None where these differ."""
    text, other_text = one.text(a), other.text(b)
    if text is not None or other_text is not None:
        same = text == other_text
        return (
            [(one.settled(a.block, a.done + 1), other.settled(b.block, b.done + 1))]
            if same
            else None
        )
    branch, other_branch = one.branch(a), other.branch(b)
    if branch is None or other_branch is None:
        return [] if branch is other_branch is None and one.stop(a) == other.stop(b) else None
    if branch.compared.split() != other_branch.compared.split():
        return None
    taken, passed = one.settled(branch.to), one.settled(one.blocks[a.block].onward)
    other_taken, other_passed = other.settled(other_branch.to), other.settled(
        other.blocks[b.block].onward
    )
    if branch.name == other_branch.name:
        return [(taken, other_taken), (passed, other_passed)]
    if INVERSE[branch.name] == other_branch.name:
        return [(taken, other_passed), (passed, other_taken)]
    return None
