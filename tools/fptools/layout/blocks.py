"""Basic blocks of a compiled function, with their source lines, call frames and debugger's labels."""
from __future__ import annotations

import re
from dataclasses import dataclass, field, replace
from enum import Enum, auto
from typing import Iterable

from fptools.layout.assembly import WORD, Flow, Kind, Stays, Statement, instruction, with_names


class Part(Enum):
    """The kind of an item in a block."""

    CODE = auto()  # an instruction after which the next one follows
    NOTE = auto()  # a directive, or a label that is no jump's target
    LINE = auto()  # a `.loc`
    FRAME = auto()  # a change of the call frame


@dataclass(frozen=True)
class SourceLine:
    """A `.loc`: file, line and column; further operands; and the flag is_stmt."""

    place: str
    more: str = ""
    is_statement: bool = True

    def directive(self) -> str:
        return f"\t.loc {self.place}{self.more} is_stmt {int(self.is_statement)}"

    @property
    def again(self) -> SourceLine:
        """The same line without the operands that hold for one instruction."""
        return replace(self, more="")


@dataclass(frozen=True)
class Frame:
    """The call frame at an instruction: the register and offset of its address, and where registers are saved."""

    base: str = "2"
    offset: int = 0
    saved: tuple[tuple[str, str], ...] = ()

    def changed_from(self, before: Frame) -> list[str]:
        """The directives that change another frame into this one."""
        lines = []
        if self.base != before.base:
            lines.append(f"\t.cfi_def_cfa {self.base}, {self.offset}")
        elif self.offset != before.offset:
            lines.append(f"\t.cfi_def_cfa_offset {self.offset}")
        mine, others = dict(self.saved), dict(before.saved)
        lines += [f"\t.cfi_restore {register}" for register in others if register not in mine]
        return lines + [
            f"\t.cfi_offset {it}, {at}" for it, at in mine.items() if others.get(it) != at
        ]


@dataclass(frozen=True)
class Item:
    """An instruction, directive or label in a block, with its line in the assembly."""

    part: Part
    text: str
    line: int
    by_hand: bool = False
    size: int = 0
    source: SourceLine | None = None
    frame: Frame | None = None


@dataclass(frozen=True)
class Branch:
    """A conditional branch to a block: its mnemonic, and its operands before the label, with the comma."""

    name: str
    compared: str
    to: int
    line: int = field(default=0, compare=False)  # in the assembly


@dataclass
class Block:
    """A basic block, with the source line and the frame at its first instruction."""

    line: int = 0
    labels: list[str] = field(default_factory=list)
    marks: set[str] = field(default_factory=set)  # the labels that the source defines
    declared: list[Item] = field(default_factory=list)  # their `.globl`
    items: list[Item] = field(default_factory=list)
    branch: Branch | None = None
    onward: int | None = None  # the successor, unless the branch is taken
    stop: Item | None = None  # a return or a trap
    ends: list[Item] = field(default_factory=list)  # debugger's labels after the last instruction
    has_jump: bool = False  # a jump leads to the successor
    jump_line: int = 0
    source: SourceLine | None = None
    frame: Frame | None = None

    @property
    def is_open(self) -> bool:
        """Whether control would run past the function's end, as after a call that never returns."""
        return self.onward is None and self.stop is None

    @property
    def size(self) -> int:
        """The largest size of its items, in bytes. The branch, jump or return isn't counted."""
        return sum(item.size for item in self.items)

    @property
    def code(self) -> list[Item]:
        return [item for item in self.items if item.part is Part.CODE]

    @property
    def is_jump(self) -> bool:
        """Whether it only jumps."""
        return self.onward is not None and not (self.branch or self.marks or self.code)

    @property
    def next_blocks(self) -> list[int]:
        """The successors: the branch's target first."""
        branch = [self.branch.to] if self.branch else []
        return branch + (
            [self.onward] if self.onward is not None and self.onward not in branch else []
        )

    def lead_to(self, changed: dict[int, int]) -> None:
        """Replaces successors."""
        if self.branch:
            self.branch = replace(self.branch, to=changed.get(self.branch.to, self.branch.to))
        if self.onward is not None:
            self.onward = changed.get(self.onward, self.onward)

    def copied(self) -> Block:
        """A copy without labels."""
        items = [
            replace(it, source=it.source and _bare(it.source))
            for it in self.items
            if it.part is not Part.NOTE
        ]
        return replace(self, labels=[], marks=set(), declared=[], items=items, ends=[])


def _bare(source: SourceLine) -> SourceLine:
    return replace(source, more=re.sub(r"\s*\bview\s+\S+", "", source.more))


KEPT_IN_ASM = (".globl", ".global")
HARMLESS = (
    ".loc",
    ".file",
    ".cfi_",
    ".align",
    ".p2align",
    ".balign",
    ".globl",
    ".global",
    ".local",
    ".weak",
    ".hidden",
)
SECTION = (
    ".section",
    ".text",
    ".data",
    ".bss",
    ".pushsection",
    ".popsection",
    ".previous",
    ".subsection",
)
RANGE_END = re.compile(r"\.L(BE|BBE)\d*$")
"""Labels at the end of a range of instructions. The function's own end stays there."""

SWITCH = ": -fno-jump-tables avoids it for a switch; a computed goto has no bound"
PARTS = "-fno-reorder-blocks-and-partition keeps it in one section"
SIBLING = (
    "another function returns for it: -fno-optimize-sibling-calls keeps a last call a call, -fno-ipa-icf a function "
    "apart from another of the same code"
)


class Reader:
    """Builds blocks from statements. Raises Stays where the flow of control isn't known."""

    def __init__(self, statements: Iterable[Statement], is_statement: bool) -> None:
        self.statements = with_names(list(statements))
        self.is_statement = is_statement
        self.targets = {target for it in self.statements for target in _leads_to(it)}
        self.blocks = [Block(self.statements[0].line if self.statements else 0)]
        self.pending: list[Item] = []
        self.jumps: dict[int, tuple[int, str]] = {}  # of a block: the line and label of its jump
        self.branches: dict[int, tuple[int, str]] = {}
        self.is_ended = False
        self.source: SourceLine | None = None
        self.frame = Frame()
        self.frames: list[Frame] = []  # of `.cfi_remember_state`
        self.files: list[str] = []
        self.lost_frame = ""  # the first unknown directive of a frame
        for statement in self.statements:
            self._take(statement)

    @property
    def block(self) -> Block:
        return self.blocks[-1]

    def _take(self, it: Statement) -> None:
        if it.kind is Kind.LABEL:
            self._label(it)
        elif it.kind is Kind.DIRECTIVE:
            self._directive(it)
        elif it.by_hand:
            self._asm(it)
        else:
            self._code(it)

    def _begin(self, line: int) -> None:
        """Begins a block. It gets the pending items."""
        self.blocks.append(Block(line, source=self.source, frame=self.frame))
        self.is_ended = False

    def _settle(self, line: int) -> None:
        """Adds the pending items to the block, before an instruction."""
        if self.is_ended:
            self._begin(line)
        if not self.block.code:
            self.block.source, self.block.frame = self.source, self.frame
            self.block.line = line
        is_first = not self.block.code
        self.block.items += [it for it in self.pending if not (is_first and it.part is Part.FRAME)]
        self.pending = []

    def _label(self, it: Statement) -> None:
        is_mark = not it.name.startswith(".L")
        if it.by_hand and (not is_mark or it.name.isdigit()):
            raise Stays(it.line, f"an asm has the label `{it.name}`, to which it may jump")
        if it.name in self.targets or is_mark:
            has_code = bool(self.block.code) or self.is_ended
            if has_code or self.block.marks and not is_mark:
                self._begin(it.line)
            self.block.labels.append(it.name)
            if is_mark:
                self.block.marks.add(it.name)
                self.block.declared += [note for note in self.pending if note.by_hand]
                self.pending = [note for note in self.pending if not note.by_hand]
            return
        note = Item(Part.NOTE, it.text, it.line, it.by_hand)
        if RANGE_END.match(it.name) and self.is_ended:
            self.block.ends.append(note)
        elif RANGE_END.match(it.name) or self._is_behind_call:
            self.block.items += [*self.pending, note]
            self.pending = []
        else:
            self.pending.append(note)

    @property
    def _is_behind_call(self) -> bool:
        """Whether the last item is a call. A label after it is the return address."""
        last = self.block.items[-1:]
        return (
            bool(last)
            and not self.pending
            and not self.is_ended
            and last[0].text.split()[0] in ("call", "jal", "jalr")
        )

    def _directive(self, it: Statement) -> None:
        if it.by_hand and not it.name.startswith(KEPT_IN_ASM):
            raise Stays(it.line, f"an asm has `{it}`")
        if it.name == ".loc":
            self._line(it)
        elif it.name == ".file":
            self.files.append(it.text)
        elif it.name.startswith(".cfi_"):
            try:
                self._frame(it)
            except (ValueError, IndexError):
                self._lose_frame(it)
        elif it.name in SECTION:
            is_rare = "unlikely" in it.rest or "cold" in it.rest
            raise Stays(it.line, f"`{it}` is among its code" + (f": {PARTS}" if is_rare else ""))
        elif not it.name.startswith(HARMLESS):
            raise Stays(it.line, f"`{it}` is among its code")
        elif "align" not in it.name:
            self.pending.append(Item(Part.NOTE, it.text, it.line, it.by_hand))

    def _line(self, it: Statement) -> None:
        words = it.rest.split()
        numbers = [word for word in words[:3] if word.isdigit()]
        more = words[len(numbers) :]
        if "is_stmt" in more:
            at = more.index("is_stmt")
            self.is_statement = more[at + 1 : at + 2] == ["1"]
            del more[at : at + 2]
        if "view" in more[:-1] and not more[more.index("view") + 1].startswith("."):
            at = more.index("view")
            del more[at : at + 2]
        here = SourceLine(
            " ".join(numbers), "".join(f" {word}" for word in more), self.is_statement
        )
        self.source = here.again
        self.pending.append(Item(Part.LINE, "", it.line, source=here))

    def _frame(self, it: Statement) -> None:
        words = [word.strip() for word in it.rest.split(",")]
        saved = dict(self.frame.saved)
        if it.name == ".cfi_def_cfa":
            self.frame = replace(self.frame, base=words[0], offset=int(words[1], 0))
        elif it.name == ".cfi_def_cfa_offset":
            self.frame = replace(self.frame, offset=int(words[0], 0))
        elif it.name == ".cfi_adjust_cfa_offset":
            self.frame = replace(self.frame, offset=self.frame.offset + int(words[0], 0))
        elif it.name == ".cfi_def_cfa_register":
            self.frame = replace(self.frame, base=words[0])
        elif it.name in (".cfi_offset", ".cfi_restore"):
            saved.pop(words[0], "")
            self.frame = replace(
                self.frame, saved=(*saved.items(), *([(words[0], words[1])] if words[1:] else []))
            )
        elif it.name == ".cfi_remember_state":
            self.frames.append(self.frame)
        elif it.name == ".cfi_restore_state" and self.frames:
            self.frame = self.frames.pop()
        else:
            self._lose_frame(it)
            return
        self.pending.append(Item(Part.FRAME, "", it.line, frame=self.frame))

    def _lose_frame(self, it: Statement) -> None:
        """Keeps a directive that isn't known. The others are no longer right then."""
        if it.name not in (".cfi_startproc", ".cfi_endproc", ".cfi_sections"):
            self.lost_frame = self.lost_frame or str(it)
        self.pending.append(Item(Part.NOTE, it.text, it.line))

    def _asm(self, it: Statement) -> None:
        made = instruction(it.line, it.name, it.rest)
        if made.flow not in (Flow.ON, Flow.CALL) and it.name != "ebreak" or ".L" in it.rest:
            raise Stays(it.line, f"an asm has a jump: `{it}`")
        self._settle(it.line)
        self.block.items.append(Item(Part.CODE, it.text, it.line, True, made.size))

    def _code(self, it: Statement) -> None:
        made = instruction(it.line, it.name, it.rest)
        if made.flow is Flow.INDIRECT:
            raise Stays(it.line, f"`{it}` jumps to an address in a register{SWITCH}")
        if made.flow is Flow.TAIL:
            raise Stays(it.line, f"`{it}`: {SIBLING}")
        self._settle(it.line)
        block = self.block
        if made.flow in (Flow.ON, Flow.CALL):
            text = (
                f"\tjal\t{made.target.removesuffix('@plt')}"
                if made.target and it.name == "call"
                else it.text
            )
            block.items.append(
                Item(Part.CODE, text, it.line, size=WORD if made.target else made.size)
            )
            return
        self.is_ended = True
        if made.flow is Flow.BRANCH:
            block.branch = Branch(it.name, made.compared, -1, it.line)
            self.branches[len(self.blocks) - 1] = it.line, made.target
        elif made.flow is Flow.JUMP:
            self.jumps[len(self.blocks) - 1] = it.line, made.target
            block.has_jump, block.jump_line = True, it.line
        else:
            block.stop = Item(Part.CODE, it.text, it.line, size=made.size)


def _leads_to(it: Statement) -> list[str]:
    """The target of a branch or jump."""
    if it.kind is not Kind.CODE or it.by_hand:
        return []
    try:
        made = instruction(it.line, it.name, it.rest)
    except Stays:
        return []
    return [made.target] if made.flow in (Flow.BRANCH, Flow.JUMP) else []


@dataclass
class Body:
    """The blocks of a function, the entry first."""

    blocks: list[Block]
    behind: list[Item]  # after the last block
    source: SourceLine | None  # at the end
    lost_frame: str
    files: list[str]  # the `.file` among its code, which come before each `.loc` that uses them

    def kept(self) -> list[Block]:
        """A copy of the blocks, which later changes don't reach."""
        return [replace(it, labels=list(it.labels), items=list(it.items)) for it in self.blocks]


def body_of(statements: Iterable[Statement], is_statement: bool = True) -> Body:
    """The blocks of a function. `is_statement` is the line table's flag before it. Raises Stays."""
    reader = Reader(statements, is_statement)
    blocks = reader.blocks
    at: dict[str, int] = {}
    for index, block in enumerate(blocks):
        for label in block.labels:
            if label in at:
                raise Stays(block.line, f"label `{label}` is in it twice")
            at[label] = index
    for index, (line, label) in [*reader.branches.items(), *reader.jumps.items()]:
        if label not in at:
            raise Stays(
                line,
                f"a jump to `{label}`, which isn't in it"
                + ("" if label.startswith(".L") else f": {SIBLING}"),
            )
    for index, (_, label) in reader.branches.items():
        branch = blocks[index].branch
        assert branch
        blocks[index].branch = replace(branch, to=at[label])
    for index, block in enumerate(blocks):
        if index in reader.jumps:
            block.onward = at[reader.jumps[index][1]]
        elif block.stop is None and index + 1 < len(blocks):
            block.onward = index + 1
    behind = [it for it in reader.pending if it.part is not Part.FRAME]
    return Body(_with_entry(blocks), behind, reader.source, reader.lost_frame, reader.files)


def _with_entry(blocks: list[Block]) -> list[Block]:
    """Puts an empty block before the first where that one has predecessors."""
    if not any(0 in block.next_blocks for block in blocks):
        return blocks
    shifted = {k: k + 1 for k in range(len(blocks))}
    for block in blocks:
        block.lead_to(shifted)
    first = blocks[0]
    code = next((k for k, it in enumerate(first.items) if it.part is Part.CODE), len(first.items))
    entry = Block(first.line, items=first.items[:code], onward=1, frame=Frame())
    first.items = first.items[code:]
    return [entry, *blocks]


def skip_jumps(blocks: list[Block]) -> set[int]:
    """Removes blocks that only jump from all paths, and moves their labels to the targets. Returns these blocks."""
    changed = {}
    for index in range(len(blocks)):
        to, seen = index, {index}
        while (
            (onward := blocks[to].onward) is not None and blocks[to].is_jump and onward not in seen
        ):
            to = onward
            seen.add(to)
        changed[index] = to
    for block in blocks:
        block.lead_to(changed)
    left_out = {index for index, to in changed.items() if index not in (0, to)}
    for index in sorted(left_out):
        block, target = blocks[index], blocks[changed[index]]
        target.labels += block.labels
        target.items[:0] = [it for it in [*block.items, *block.ends] if it.part is Part.NOTE]
    return left_out
