"""Reads the assembly that gcc and clang write for RV32IM with -S: functions, statements, and the flow of control."""

import re
from collections.abc import Iterator, Sequence
from dataclasses import dataclass, replace
from enum import Enum, auto

WORD = 4
"""The bytes of an instruction."""


class AtLine(Exception):
    """What is wrong at a line (0: in the whole file), and why."""

    def __init__(self, line: int, why: str) -> None:
        super().__init__(why)
        self.line, self.why = line, why


class Stays(AtLine):
    """A function can't be laid out, because of a line of the assembly."""


class Fault(AtLine):
    """The file is refused."""


class Flow(Enum):
    """How control goes on after an instruction."""

    ON = auto()  # at the next one
    CALL = auto()  # at the next one, after a function has returned
    BRANCH = auto()  # at the next one, or at a label
    JUMP = auto()  # at a label
    STOP = auto()  # a return or a trap: nowhere in the function
    INDIRECT = auto()  # at an address in a register
    TAIL = auto()  # at the beginning of another function, which returns for this one


OPPOSITES = (
    ("beq", "bne"), ("blt", "bge"), ("bltu", "bgeu"), ("beqz", "bnez"), ("blez", "bgtz"), ("bltz", "bgez"),
    ("bgt", "ble"), ("bgtu", "bleu"),
)  # fmt: skip
INVERSE = {one: other for pair in OPPOSITES for one, other in (pair, pair[::-1])}
"""For each conditional branch the one with the opposite condition."""

STRAIGHT = frozenset(
    """
    lui auipc lb lh lw lbu lhu sb sh sw
    add addi sub and andi or ori xor xori sll slli srl srli sra srai slt slti sltu sltiu
    mul mulh mulhsu mulhu div divu rem remu
    fence fence.i csrrw csrrs csrrc csrrwi csrrsi csrrci
    nop mv not neg seqz snez sltz sgtz sgt sgtu csrr csrw csrs csrc csrwi csrsi csrci
    """.split()
)
"""Instructions and pseudo-instructions of one word that don't change the flow of control."""

LARGER = {name: 2 * WORD for name in "li la lla sext.b sext.h zext.b zext.h".split()}
"""Pseudo-instructions of up to two words that don't change the flow of control, with their largest size in bytes."""

RETURNS = ("ret", "mret")
TRAPS = ("ebreak", "unimp")
RETURN_ADDRESS = ("ra", "x1")
ZERO = ("zero", "x0")
TIMING = re.compile(r"r\s+(0x0b|11|CUSTOM_0)\s*,\s*(0x)?[0-5]\s*,\s*(0x)?0\s*,", re.IGNORECASE)
"""The operands of `.insn` for the timing instructions GT, GTH, DU, WU, EE and DE."""

NUMBER = re.compile(r"-?(0[xX][0-9a-fA-F]+|\d+)")
SYMBOL_ACCESS = re.compile(r"[^,]+,\s*[A-Za-z_.$][^()]*$")
"""The operands of a load or store that names a symbol. It takes two words."""


@dataclass(frozen=True)
class Instruction:
    """The flow of control of an instruction."""

    flow: Flow
    size: int  # in bytes, at most
    target: str = ""  # the label of a branch, jump or call
    compared: str = ""  # the operands of a branch before its label, with the comma


def instruction(line: int, name: str, rest: str) -> Instruction:
    """Decodes a mnemonic and its operands. Raises Stays for an unknown one."""
    if name in STRAIGHT:
        is_symbol = (
            name[0] in "ls"
            and name[1:] in ("b", "h", "w", "bu", "hu")
            and SYMBOL_ACCESS.match(rest)
        )
        return Instruction(Flow.ON, 2 * WORD if is_symbol else WORD)
    if name in LARGER:
        return Instruction(Flow.ON, _size_of_li(rest) if name == "li" else LARGER[name])
    if name in INVERSE:
        compared, comma, target = rest.rpartition(",")
        return Instruction(Flow.BRANCH, WORD, target.strip(), compared + comma)
    if name in RETURNS or name in TRAPS:
        return Instruction(Flow.STOP, WORD)
    if name == "ecall" or name == ".insn" and TIMING.match(rest):
        return Instruction(Flow.ON, WORD)
    if name in ("j", "jal", "call", "jump", "tail", "jr", "jalr"):
        return _jump(line, name, [it.strip() for it in rest.split(",")])
    raise Stays(line, f"`{name}` is no instruction that fp_layout knows")


def _size_of_li(rest: str) -> int:
    """The largest size of `li`, in bytes."""
    number = NUMBER.fullmatch(rest.rpartition(",")[2].strip())
    value = int(number[0], 0) if number else 1 << 30 | 1
    return WORD if -0x800 <= value < 0x800 or value % 0x1000 == 0 else 2 * WORD


def _jump(line: int, name: str, operands: list[str]) -> Instruction:
    """Decodes a jump or a call."""
    first, last = operands[0], operands[-1]
    if name == "jr" or name == "jalr" and len(operands) > 1 and first in ZERO:
        address = last if name == "jr" or len(operands) == 2 else f"{last}({operands[1]})"
        is_return = address in RETURN_ADDRESS or address in [f"0({it})" for it in RETURN_ADDRESS]
        return Instruction(Flow.STOP if is_return else Flow.INDIRECT, WORD)
    links = first if len(operands) > 1 and name != "jump" else "ra"
    if name == "j" or name == "jump" or name == "jal" and links in ZERO:
        return Instruction(Flow.JUMP, WORD, operands[0] if name == "jump" else last)
    if name == "tail":
        return Instruction(Flow.TAIL, 2 * WORD, last)
    if links not in RETURN_ADDRESS:
        why = "a call whose return address isn't in ra; -mno-save-restore leaves out the compiler's own"
        raise Stays(line, f"`{name} {', '.join(operands)}` is {why}")
    if name == "jalr":
        return Instruction(Flow.CALL, WORD)
    return Instruction(Flow.CALL, WORD if name == "jal" else 2 * WORD, last)


class Kind(Enum):
    LABEL = auto()
    DIRECTIVE = auto()
    CODE = auto()


@dataclass(frozen=True)
class Statement:
    """A statement of the assembly. Lines count from 1."""

    line: int
    kind: Kind
    name: str  # of the label, the directive or the instruction
    rest: str  # what follows the name
    text: str  # as it is written
    by_hand: bool  # in an asm of the source

    def __str__(self) -> str:
        return f"{self.name} {self.rest}".rstrip()


IDENTIFIER = r"[A-Za-z_.$][\w.$]*"
LABEL = re.compile(rf"\s*({IDENTIFIER}|\d+)\s*:")
PIECE = re.compile(r'(?:"(?:\\.|[^"\\])*"|[^"#;])*')
NUMBERED = re.compile(r"\b(\d+)([fb])$")
"""A numbered label as the last operand of a jump: the next one, or the last one before."""

SOURCE_LINE = re.compile(r'# (\d+) "([^"]+)" 1$')
SOURCE_END = '# 0 "" 2'
"""Where an asm of the source begins and ends, by gcc's comments."""

APP, NO_APP = "#APP", "#NO_APP"
"""Markers around one or several asms of the source."""


def statements(lines: list[str], first: int) -> Iterator[Statement]:
    """The statements of some lines. The first line has the number `first`."""
    by_hand = is_app = False
    for number, line in enumerate(lines, first):
        mark = line.strip()
        if mark in (APP, NO_APP):
            by_hand = is_app = mark == APP
        elif mark == SOURCE_END or is_app and SOURCE_LINE.match(mark):
            by_hand = mark != SOURCE_END
        elif mark and not mark.startswith("#"):
            yield from _of_line(number, line, by_hand)


def with_names(given: Sequence[Statement]) -> list[Statement]:
    """Gives names to numbered labels, which gcc uses for branches over a single instruction."""
    places: dict[str, list[int]] = {}
    for index, it in enumerate(given):
        if it.kind is Kind.LABEL and it.name.isdigit() and not it.by_hand:
            places.setdefault(it.name, []).append(index)
    if not places:
        return list(given)

    def name(index: int) -> str:
        return f".L{given[index].name}of{given[index].line}"

    found = []
    for index, it in enumerate(given):
        if it.kind is Kind.LABEL and index in places.get(it.name, ()):
            it = replace(it, name=name(index), text=f"{name(index)}:")
        elif it.kind is Kind.CODE and not it.by_hand and (number := NUMBERED.search(it.rest)):
            onward = [at for at in places.get(number[1], ()) if (at > index) == (number[2] == "f")]
            if onward:
                rest = it.rest[: number.start()] + name(
                    onward[0] if number[2] == "f" else onward[-1]
                )
                it = replace(it, rest=rest, text=f"\t{it.name}\t{rest}")
        found.append(it)
    return found


def _of_line(number: int, line: str, by_hand: bool) -> Iterator[Statement]:
    """The statements of a line."""
    pieces = _pieces(line)
    found = [it for piece in pieces for it in _split_labels(piece)]
    for piece in found:
        text = line if len(found) == 1 else piece if piece.endswith(":") else f"\t{piece}"
        if piece.endswith(":") and (label := LABEL.fullmatch(piece)):
            yield Statement(number, Kind.LABEL, label[1], "", text.rstrip(), by_hand)
            continue
        name, _, rest = piece.replace("\t", " ").partition(" ")
        is_code = not name.startswith(".") or name == ".insn"
        kind = Kind.CODE if is_code else Kind.DIRECTIVE
        yield Statement(number, kind, name, rest.strip(), text.rstrip(), by_hand)


def _pieces(line: str) -> list[str]:
    """Splits a line at each `;`, without its comment."""
    found, at = [], 0
    line = re.sub(r"/\*.*?\*/", " ", line) if "/*" in line else line
    while True:
        piece = PIECE.match(line, at)
        assert piece
        if piece[0].strip():
            found.append(piece[0].strip())
        at = piece.end()
        if at >= len(line) or line[at] == "#":
            return found
        at += 1


def _split_labels(piece: str) -> list[str]:
    """Splits labels from the instruction that follows them."""
    found = []
    while label := LABEL.match(piece):
        found.append(label[1] + ":")
        piece = piece[label.end() :].strip()
    return found + [piece] if piece else found


@dataclass(frozen=True)
class Function:
    """A function, with the indices of the lines of its label and of its `.size`."""

    name: str
    first: int
    end: int


FUNCTION = re.compile(rf"\s*\.type\s+({IDENTIFIER})\s*,\s*[@%]function")
ARCH = re.compile(r'\s*\.attribute\s+(?:arch|5)\s*,\s*"([^"]*)"')
COMPILED = re.compile(r"\s*\.(attribute\s|option\s+(no)?pic)", re.MULTILINE)
FILE = re.compile(r'\s*\.file\s+(\d+)\s+(?:"[^"]*"\s+)?"([^"]*)"')
LOC = re.compile(r"\s*\.loc\s+(\d+)\s+(\d+)")
EXTENSION = re.compile(r"rv32i[\dp]*((_?(m|zicsr|zifencei|zmmul))[\dp]*)*")


class Assembly:
    """A file of assembly that gcc or clang wrote. Raises Fault for any other."""

    def __init__(self, text: str) -> None:
        self.text = text
        self.lines = text.split("\n")
        self.functions = list(self._find())
        if not self.functions:
            raise Fault(0, "there is no function: is it what gcc or clang writes with -S?")
        if not COMPILED.search(text):
            raise Fault(0, "it isn't assembly for RISC-V that gcc or clang wrote")
        for number, line in enumerate(self.lines, 1):
            if (arch := ARCH.match(line)) and not EXTENSION.fullmatch(arch[1]):
                raise Fault(
                    number, f"it is for {arch[1]}: compile with -march=rv32im_zicsr (clang: rv32im)"
                )
        self.labels = {it[1] for line in self.lines if (it := LABEL.match(line))}

    def _find(self) -> Iterator[Function]:
        typed = {it[1] for line in self.lines if (it := FUNCTION.match(line))}
        index = 0
        while index < len(self.lines):
            label = LABEL.match(self.lines[index])
            if label and label[1] in typed:
                size = re.compile(rf"\s*\.size\s+{re.escape(label[1])}\s*,")
                end = next(
                    (k for k in range(index, len(self.lines)) if size.match(self.lines[k])), None
                )
                if end is None:
                    raise Fault(
                        index + 1, f"function {label[1]} has no `.size`: is the file whole?"
                    )
                yield Function(label[1], index, end)
                index = end
            index += 1

    def body(self, function: Function) -> list[str]:
        """The lines between a function's label and its `.size`."""
        return self.lines[function.first + 1 : function.end]


def source_of(lines: list[str], line: int) -> str:
    """The place in the C source of a line of assembly, as `name:line`. Empty where it isn't known."""
    is_behind = False
    for text in reversed(lines[:line]):
        is_behind = (is_behind or text.strip() == NO_APP) and text.strip() != APP
        if (by_hand := SOURCE_LINE.match(text)) and not is_behind:
            return f"{by_hand[2]}:{by_hand[1]}"
        if found := LOC.match(text):
            files = {it[1]: it[2] for text in lines if (it := FILE.match(text))}
            return f"{files[found[1]]}:{found[2]}" if found[1] in files else ""
        if FUNCTION.match(text):
            return ""
    return ""
