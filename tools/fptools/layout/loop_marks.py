"""Replaces the loop marks FP_LOOP and FP_ROUND in compiled assembly by records of the section
`.fp_flow`.

A mark is a `nop` with a comment. Without the `nop` several places have one address, and a jump
may lead right behind the mark. So a record says which edges pass the mark: all that lead to its
address, or only the one from the word before. Where neither is true, the `nop` stays, and so it
does next to an asm that isn't read as plain instructions and labels.

A record has seven words and three strings, each with a zero behind it: the mark's address; its
kind, 0 for FP_LOOP or 1 for FP_ROUND, plus 0x100 if only the edge from the word before passes
it; its number, line and n; its unit and function; and its order among the marks of the unit. The
strings are its name, its file, and, with FP_FLOW_DIRECT, its unit. Here the unit is a checksum
of the assembly, in exclusive or with the function's. With FP_FLOW_DIRECT it is 0, the third
string has FP_FLOW_DIRECT and the unit's main file, and `.fp_flow_units` has that string once for
each unit: two equal ones can't be told apart. `.fp_flow_aliases` has the aliases of a unit's
functions, which a linker's folding would look like."""

import re
import zlib
from collections.abc import Iterator
from dataclasses import dataclass
from enum import Enum, auto

from fptools.layout.assembly import Fault, Flow, Kind, Statement, Stays, instruction, statements

SIGN = "@fp_flow"
"""The first word of a mark's comment."""

MARK = re.compile(rf"\s*nop\s*#\s*{SIGN} ([01]) (\d+) (\d+) (\d+) (\d+) (\S+) (.*?)\s*$")
"""A mark: its kind, number, line, n, function, name and file."""

STRING = re.compile(r'"(?:\\.|[^"\\])*"')
NAME = re.compile(r"[A-Za-z_.$][\w.$]*")
PLAIN_TARGET = re.compile(r"[A-Za-z_.$][\w.$]*|\d+[fb]")
"""The target of a jump of an asm: a label, and nothing added to it."""

VANISHES = re.compile(r"%(hi|pcrel_hi|got_pcrel_hi|tprel_hi|tprel_add|tls_\w+)\b")
"""In the operands of an instruction that a linker may delete: the places around it may get one
address."""

SILENT = re.compile(
    r"\.(loc|file|cfi_\w+|size|type|globl|global|local|weak|hidden|ident|addrsig\w*|attribute"
    r"|option|p2align|align|balign)$"
)
"""Directives without a place or a label of their own. Padding for alignment may be empty."""

SECTION = re.compile(r"\.(text|data|bss|section|pushsection|popsection|previous|subsection)$")
NO_CODE = (".debug", ".eh_frame", ".comment", ".note", ".riscv")
"""What the names of sections begin with that lead control nowhere."""

OPENS = re.compile(r"\.(if\w*|macro|rept|irpc?)$")
CLOSES = re.compile(r"\.end(if|m|r)$")
"""Directives around statements that the assembler may leave out or repeat."""

HIDES = re.compile(r"\.(if\w*|else\w*|end(if|m|r)|macro|altmacro|purgem|rept|irpc?|include)$")
"""With such a directive other statements may not be what they seem."""

UNKNOWN = "?"
"""A label that an asm may have."""


class Passes(Enum):
    """The edges that pass a mark, as a record writes them."""

    ALL = 0  # each that leads to its address
    FALL = 1  # from the word before its address


class Place(Enum):
    """What a statement is to the marks around it."""

    WORD = auto()  # an instruction that stays
    LABEL = auto()  # where control may be led
    UNKNOWN = auto()  # maybe nothing, maybe labels
    NOTHING = auto()
    END = auto()  # of a function, or a change of the section


@dataclass(frozen=True)
class Token:
    """A statement, or a mark."""

    line: int
    place: Place
    text: str = ""
    mark: re.Match[str] | None = None


@dataclass(frozen=True)
class Sight:
    """The labels beside a mark: since the instruction before it, that instruction, and up to the
    next one."""

    before: frozenset[str]
    last: str
    behind: frozenset[str]
    is_closed: bool  # an instruction of the function follows

    def keeps(self) -> bool:
        """Whether the `nop` stays: some edges to the next instruction pass it, others don't."""
        leads_there = self.behind & set(NAME.findall(self.last)) or any(
            it.isdigit() for it in self.behind
        )
        return (
            not self.is_closed
            or UNKNOWN in self.behind
            or bool(self.behind and (self.before or leads_there))
        )


class Reader:
    """The tokens of a file of assembly. Raises Fault where a mark may be hidden."""

    def __init__(self, lines: list[str]) -> None:
        self.lines = lines
        self.statements = list(statements(lines, 1))
        self.led_to = self._led_to()
        self.hides = any(
            it.kind is Kind.DIRECTIVE and HIDES.match(it.name) for it in self.statements
        ) or any("/*" in _bare(line) for line in lines)
        self.unclear = self._unclear()
        self.marks = dict(self._marks())

    def _marks(self) -> Iterator[tuple[int, re.Match[str]]]:
        """The marks by their lines."""
        depth, is_comment = 0, False
        by_line: dict[int, list[Statement]] = {}
        for it in self.statements:
            by_line.setdefault(it.line, []).append(it)
        for number, line in enumerate(self.lines, 1):
            bare = _bare(line)
            if SIGN in bare:
                mark = MARK.match(line)
                if mark is None:
                    raise Fault(number, f"a loop mark that can't be read: `{line.strip()}`")
                if depth or is_comment:
                    raise Fault(
                        number,
                        f"{mark[6]}: a directive or a comment of an asm before it isn't closed",
                    )
                yield number, mark
            for it in by_line.get(number, []):
                depth += bool(OPENS.match(it.name)) - bool(CLOSES.match(it.name))
            is_comment = _is_in_comment(bare, is_comment)

    def _led_to(self) -> frozenset[str]:
        """The names that code or data use: control may be led there."""
        found: set[str] = set()
        section = ".text"
        for it in self.statements:
            if it.kind is Kind.DIRECTIVE and SECTION.match(it.name):
                section = it.rest.split(",")[0] if it.name.endswith("section") else it.name
            elif (
                it.kind is not Kind.LABEL
                and not SILENT.match(it.name)
                and not section.startswith(NO_CODE)
            ):
                found |= set(NAME.findall(f"{it.name} {STRING.sub('', it.rest)}"))
        return frozenset(found)

    def _unclear(self) -> frozenset[int]:
        """The lines of asms that have more than plain instructions, labels, and jumps to labels."""
        found: set[int] = set()
        group: list[Statement] = []
        for it in [*self.statements, None]:
            if (
                it is not None
                and it.by_hand
                and (not group or self._are_together(group[-1].line, it.line))
            ):
                group.append(it)
                continue
            if not all(map(self._is_plain, group)):
                found |= {own.line for own in group}
            group = [it] if it is not None and it.by_hand else []
        return frozenset(found)

    def _is_plain(self, it: Statement) -> bool:
        """Whether a statement of an asm is a label, a plain instruction, or a jump to a label."""
        if "'" in self.lines[it.line - 1]:  # a character, which may be one that ends the statement
            return False
        if it.kind is Kind.LABEL:
            return True
        if it.kind is Kind.DIRECTIVE and it.name != ".insn":
            return bool(SILENT.match(it.name))
        flow = _flow(it)
        if flow in (Flow.BRANCH, Flow.JUMP):
            return bool(PLAIN_TARGET.fullmatch(it.rest.rpartition(",")[2].strip()))
        return flow in (Flow.ON, Flow.CALL)

    def _are_together(self, one: int, other: int) -> bool:
        """Whether two statements by hand may be of one asm: nothing of the compiler is between
        them."""
        return all(
            line.strip().startswith("#") or not line.strip() for line in self.lines[one : other - 1]
        )

    def tokens(self) -> list[Token]:
        """All statements and marks in order."""
        found = []
        given = iter(self.statements)
        it = next(given, None)
        for number in range(1, len(self.lines) + 1):
            mark = self.marks.get(number)
            if mark:
                found.append(Token(number, Place.NOTHING, mark=mark))
            while it is not None and it.line == number:
                if not mark:
                    found.append(Token(number, self._place(it), str(it)))
                it = next(given, None)
        return found

    def _place(self, it: Statement) -> Place:
        if it.kind is Kind.LABEL:
            is_known = (
                it.name.startswith(".L")
                and it.name not in self.led_to
                and it.line not in self.unclear
            )
            return Place.NOTHING if is_known else Place.LABEL
        if it.line in self.unclear:
            return Place.UNKNOWN
        if it.kind is Kind.DIRECTIVE:
            if it.name == ".size" or SECTION.match(it.name):
                return Place.END
            return Place.NOTHING if SILENT.match(it.name) else Place.UNKNOWN
        if _flow(it) is None:
            return Place.UNKNOWN
        return Place.NOTHING if VANISHES.search(it.rest) else Place.WORD


def _bare(line: str) -> str:
    """A line without its strings."""
    return STRING.sub('""', line)


def _is_in_comment(bare: str, is_in: bool) -> bool:
    """Whether a line ends inside of a comment that goes on."""
    for it in re.findall(r"/\*|\*/", bare):
        is_in = it == "/*"
    return is_in


def _flow(it: Statement) -> Flow | None:
    """The flow of an instruction; None for an unknown one."""
    try:
        return instruction(it.line, it.name, it.rest).flow
    except Stays:
        return None


def _sights(tokens: list[Token]) -> dict[int, Sight]:
    """What is beside each mark, by its place in the tokens. A mark that keeps its `nop` is an
    instruction for the next one."""
    found: dict[int, Sight] = {}
    before: set[str] = set()
    last = ""
    for index, token in enumerate(tokens):
        if token.mark:
            found[index] = sight = Sight(frozenset(before), last, *_behind(tokens, index))
            if sight.keeps():
                before, last = set(), "nop"
        elif token.place is Place.WORD:
            before, last = set(), token.text
        elif token.place is Place.END:
            before, last = {UNKNOWN}, ""
        elif token.place is not Place.NOTHING:
            before.add(UNKNOWN if token.place is Place.UNKNOWN else token.text)
    return found


def _behind(tokens: list[Token], index: int) -> tuple[frozenset[str], bool]:
    """The labels between a mark and the next instruction, and whether there is one."""
    found: set[str] = set()
    for token in tokens[index + 1 :]:
        if token.place in (Place.WORD, Place.END):
            return frozenset(found), token.place is Place.WORD
        if token.place is not Place.NOTHING:
            found.add(UNKNOWN if token.place is Place.UNKNOWN else token.text)
    return frozenset(found), False


def check_marks(text: str) -> None:
    """Raises Fault for marks that can't be read."""
    if SIGN in text:
        Reader(text.split("\n"))


def with_records(text: str) -> str:
    """The assembly with a record for each mark. Raises Fault."""
    if SIGN not in text:
        return text
    reader = Reader(text.split("\n"))
    tokens = reader.tokens()
    sights = {tokens[index].line: sight for index, sight in _sights(tokens).items()}
    unit = zlib.crc32(text.encode("latin-1", "replace"))
    out: list[str] = []
    for number, line in enumerate(reader.lines, 1):
        mark = reader.marks.get(number)
        if not mark:
            out.append(line)
            continue
        sight = sights[number]
        keeps = reader.hides or sight.keeps()
        out += _record(
            number, mark, Passes.FALL if sight.behind and not keeps else Passes.ALL, unit, keeps
        )
    return "\n".join([*out, *_aliases(reader.statements)])


def _aliases(given: list[Statement]) -> list[str]:
    """The lines that record the aliases of functions: global names, which no other unit defines."""
    labels = {it.name for it in given if it.kind is Kind.LABEL}
    rests: dict[str, set[str]] = {}
    for it in given:
        rests.setdefault(it.name, set()).add(it.rest.strip())
    own = rests.get(".globl", set()) - rests.get(".weak", set())
    pairs = [[it.strip() for it in rest.split(",")] for rest in sorted(rests.get(".set", set()))]
    names = [
        f'\t.asciz "{pair[0]}", "{pair[1]}"'
        for pair in pairs
        if len(pair) == 2 and pair[0] in own and pair[1] in labels
    ]
    head = '\t.pushsection .fp_flow_aliases,"",@progbits'
    return [head, *names, "\t.popsection", ""] if names else []


def _record(number: int, mark: re.Match[str], passes: Passes, unit: int, keeps: bool) -> list[str]:
    """The lines of a record, with the `nop` if it stays."""
    kind, own, line, most, function, name, file = mark.groups()
    label = f".Lfp_flow{number}"
    numbers = f"{own}, {line}, {most}, {unit ^ int(function):#x}, {number}"
    return [
        f"{label}:",
        *(["\tnop"] if keeps else []),
        # In the group and with the section of its function: a linker drops it with these.
        f'\t.pushsection .fp_flow,"?o",@progbits,{label}',
        f"\t.4byte {label}, {int(kind) | passes.value << 8}, {numbers}",
        f'\t.asciz "{name}", "{file}", ""',
        "\t.popsection",
    ]
