"""Writes blocks as assembly in a given order: inverts branches, adds and omits jumps, restates lines and frames."""

from collections.abc import Mapping, Sequence
from dataclasses import dataclass, field

from fptools.layout.assembly import APP, INVERSE, NO_APP, WORD
from fptools.layout.blocks import Block, Body, Branch, Frame, Item, Part, SourceLine
from fptools.layout.debug_ranges import NOWHERE, Origin

KEPT_OF_LOST = (".cfi_startproc", ".cfi_endproc", ".cfi_sections")
"""The frame directives that remain where the others are lost."""

BRANCH_REACH = 4094
"""A branch reaches so many bytes onward, and two more back."""


@dataclass
class Names:
    """The labels of a file, and new ones for blocks that need one."""

    taken: set[str]
    count: int = 0

    def of(self, block: Block) -> str:
        if not block.labels:
            block.labels.append(self.new())
        return block.labels[0]

    def new(self) -> str:
        while True:
            self.count += 1
            name = f".Lfp{self.count}"
            if name not in self.taken:
                self.taken.add(name)
                return name


@dataclass
class End:
    """The end of a block: a branch, which may be far; a jump; a trap where control would run past the function."""

    branch: Branch | None = None
    jump: int | None = None
    is_far: bool = False
    traps: bool = False

    @property
    def size(self) -> int:
        branch = (2 if self.is_far else 1) if self.branch else 0
        return WORD * (branch + (self.jump is not None) + self.traps)


def ends_of(blocks: Sequence[Block], order: Sequence[int]) -> list[End]:
    """The ends of blocks in an order.

    Where a block needs a branch and a jump, the branch goes to the head of the innermost loop: the jump costs one
    instruction more."""
    rank = {index: k for k, index in enumerate(order)}
    followings: list[int | None] = [*order[1:], None]
    return [_end_of(blocks[index], following, rank) for index, following in zip(order, followings)]


def _end_of(block: Block, following: int | None, rank: Mapping[int, int]) -> End:
    branch, onward = block.branch, block.onward
    if branch is None or onward is None or onward == following or onward == branch.to:
        return End(branch, None if onward == following else onward, traps=block.is_open)
    here = rank[following] - 1 if following is not None else len(rank) - 1
    goes_round = rank[onward] <= here and not rank[onward] < rank[branch.to] <= here
    if branch.to == following or goes_round:
        turned = Branch(INVERSE[branch.name], branch.compared, onward, branch.line)
        return End(turned, None if branch.to == following else branch.to)
    return End(branch, onward)


def as_compiled(blocks: Sequence[Block]) -> list[End]:
    """The ends of blocks in the compiler's order."""
    return [End(it.branch, it.onward if it.has_jump else None) for it in blocks]


def mark_far(blocks: Sequence[Block], order: Sequence[int], ends: Sequence[End]) -> bool:
    """Marks the branches whose target may be out of reach. Returns whether there are any."""
    is_changed = True
    while is_changed:
        is_changed = False
        starts, places, at = {}, [], 0
        for index, end in zip(order, ends):
            block = blocks[index]
            starts[index] = at
            at += block.size + (block.stop.size if block.stop else 0)
            places.append(at)
            at += end.size
        for place, end in zip(places, ends):
            if (
                end.branch
                and not end.is_far
                and abs(starts[end.branch.to] - place) > BRANCH_REACH - WORD
            ):
                end.is_far = is_changed = True
    return any(end.is_far for end in ends)


@dataclass
class Writer:
    """The lines of a function's body."""

    body: Body
    names: Names
    is_statement: bool  # the flag of the line table before the function
    lines: list[str] = field(default_factory=list)
    origins: dict[int, Origin] = field(
        default_factory=dict
    )  # of the instructions, by the indices of their lines
    source: SourceLine | None = None
    frame: Frame = Frame()
    by_hand: bool = False

    def write(self, order: Sequence[int], ends: Sequence[End]) -> list[str]:
        blocks = self.body.blocks
        labels = {index: self.names.of(blocks[index]) for end in ends for index in self._named(end)}
        self.lines += self.body.files
        for index, end in zip(order, ends):
            self._block(blocks[index], bool(end.size))
            self._end(blocks[index], end, labels)
            for item in blocks[index].ends:
                self._put(item.text, item.by_hand)
        for item in self.body.behind:
            if item.part is Part.NOTE:
                self._put(item.text, item.by_hand)
        self._put_line_flag()
        self._asm(False)
        return self.lines

    @staticmethod
    def _named(end: End) -> list[int]:
        """The blocks whose label an end needs."""
        return ([end.branch.to] if end.branch else []) + (
            [end.jump] if end.jump is not None else []
        )

    def _put(self, text: str, by_hand: bool = False, origin: Origin = ()) -> None:
        self._asm(by_hand)
        if origin:
            self.origins[len(self.lines)] = origin
        self.lines.append(text)

    def _asm(self, by_hand: bool) -> None:
        """Begins or ends an asm of the source."""
        if by_hand != self.by_hand:
            self.lines.append(APP if by_hand else NO_APP)
            self.by_hand = by_hand

    def _block(self, block: Block, has_end: bool) -> None:
        """Writes a block up to its branch or jump, if it has one."""
        for label in block.labels:
            if label not in block.marks:
                self._put(f"{label}:")
        for item in block.declared:
            self._put(item.text, item.by_hand)
        for label in block.labels:
            if label in block.marks:
                self._put(f"{label}:", True)
        if block.frame:
            self._to_frame(block.frame)
        is_stated = self._states_line(block)
        if block.source and not is_stated and self.source != block.source:
            self._to_line(block.source)
        last = max((k for k, item in enumerate(block.items) if item.part is Part.CODE), default=-1)
        for k, item in enumerate(block.items):
            # A line without an instruction would be that of another block's first one.
            if item.part is not Part.LINE or k < last or has_end or block.stop:
                self._item(item)
        if block.stop:
            self._put(block.stop.text, origin=(block.stop.line,))

    @staticmethod
    def _states_line(block: Block) -> bool:
        """Whether a `.loc` comes before its first instruction."""
        for item in block.items:
            if item.part in (Part.CODE, Part.LINE):
                return item.part is Part.LINE
        return False

    def _item(self, item: Item) -> None:
        if item.part is Part.LINE and item.source:
            self._to_line(item.source)
        elif item.part is Part.FRAME and item.frame:
            self._to_frame(item.frame)
        elif not (
            self.body.lost_frame
            and item.text.split()[0] not in KEPT_OF_LOST
            and ".cfi" in item.text
        ):
            self._put(item.text, item.by_hand, (item.line,) * (item.part is Part.CODE))

    def _to_line(self, source: SourceLine) -> None:
        self._put(source.directive())
        self.source = source.again
        self.is_statement = source.is_statement

    def _to_frame(self, frame: Frame) -> None:
        if not self.body.lost_frame:
            for line in frame.changed_from(self.frame):
                self._put(line)
        self.frame = frame

    def _put_line_flag(self) -> None:
        """Leaves the line table's flag as the compiler does, for the functions that follow."""
        source = self.body.source
        if source and source.is_statement != self.is_statement:
            self._to_line(source)

    def _end(self, block: Block, end: End, labels: dict[int, str]) -> None:
        branch = end.branch
        origin = (branch.line,) if branch else ()
        if branch and end.is_far:
            over = self.names.new()
            self._put(f"\t{INVERSE[branch.name]}\t{branch.compared}{over}", origin=origin)
            self._put(f"\tj\t{labels[branch.to]}", origin=origin)
            self._put(f"{over}:")
        elif branch:
            self._put(f"\t{branch.name}\t{branch.compared}{labels[branch.to]}", origin=origin)
        if end.jump is not None:
            self._jump(block, end.jump, labels[end.jump])
        if end.traps:
            self._put("\tebreak", origin=NOWHERE)

    def _jump(self, block: Block, to: int, label: str) -> None:
        """Writes a jump. Where the compiler has none, the state is that before the target's first instruction."""
        if block.has_jump:
            self._put(f"\tj\t{label}", origin=(block.jump_line,))
            return
        target = self.body.blocks[to]
        if target.frame:
            self._to_frame(target.frame)
        own = [branch.line for branch in [block.branch] if branch] or [
            it.line for it in block.code[-1:]
        ]
        self._put(f"\tj\t{label}", origin=(*own, *self._first(to)))

    def _first(self, index: int) -> Origin:
        """The line of the first instruction from a block on."""
        seen: set[int] = set()
        following: int | None = index
        while following is not None and following not in seen:
            seen.add(following)
            block = self.body.blocks[following]
            for it in (*block.code[:1], block.branch, block.stop):
                if it:
                    return (it.line,)
            if block.has_jump:
                return (block.jump_line,)
            following = block.onward
        return NOWHERE
