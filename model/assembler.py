"""The assembler: the image of a source, or its first fault."""

from collections.abc import Callable, Iterator, Sequence
from dataclasses import dataclass, field

from model.images import DATA, MOST_SEGMENTS, Image, image_of_words

from model.instructions import (
    ARITHMETIC, AUIPC, BRANCHES, CSR_OPS, FUNCT3, FUNCT3_7, IMMEDIATES, JALR, LOAD, LOADS, LUI, MOMENTS, OP, OP_IMM,
    PRODUCTS, SHIFTS, STORES, SYSTEM, TIMES, TIMING, b_word, i_word, j_word, r_word, s_word, u_word,
)  # fmt: skip
from model.bits import LAST_WORD, signed, word
from model.refusals import SourceNo
from model.setups import SMALL
from model.tokens import Kind, LexFault, Token, tokens

MOST_BYTES = 1_048_576

REGISTERS = {
    **{f"x{k}": k for k in range(32)}, "zero": 0, "ra": 1, "sp": 2, "gp": 3, "tp": 4, "fp": 8, "s0": 8, "s1": 9,
    **{f"t{k}": 5 + k for k in range(3)}, **{f"t{k}": 25 + k for k in range(3, 7)},
    **{f"a{k}": 10 + k for k in range(8)}, **{f"s{k}": 16 + k for k in range(2, 12)},
}  # fmt: skip
CSRS = {
    "mtvec": 0x305, "mscratch": 0x340, "mepc": 0x341, "mcause": 0x342, "mhartid": 0xF14,
    "slots": 0x7C0, "modes": 0x7C1, "dregions": 0x7C2, "iregions": 0x7C3,
}  # fmt: skip

FIXED = {
    "ecall": 0x00000073, "ebreak": 0x00100073, "mret": 0x30200073, "fence": 0x0FF0000F, "fence.i": 0x0000100F,
    "de": 0x0000500B, "nop": 0x00000013, "ret": 0x00008067,
}  # fmt: skip
"""Mnemonics without operands, with their words."""


class SourceFault(Exception):
    """The first fault of a source, with its line from 1 on; 0 for the whole source."""

    def __init__(self, line: int, code: SourceNo) -> None:
        super().__init__(line, code)
        self.line, self.code = line, code


class LineFault(Exception):
    """The fault of a line."""

    def __init__(self, code: SourceNo) -> None:
        super().__init__(code)
        self.code = code


@dataclass(frozen=True)
class Operand:
    """A number, or a label and a number to add; for an offset with a base register, `base` is the register."""

    number: int
    label: str | None = None
    base: int = 0


class Cursor:
    """Reads operands from the tokens of a line."""

    def __init__(self, found: Sequence[Token]) -> None:
        self.found, self.at = found, 0

    def next(self) -> Token | None:
        return self.found[self.at] if self.at < len(self.found) else None

    def is_mark(self, mark: str) -> bool:
        token = self.next()
        return token is not None and token.is_mark(mark)

    def has(self, mark: str) -> bool:
        """Takes a mark, if it is next."""
        found = self.is_mark(mark)
        self.at += found
        return found

    def need(self, mark: str) -> None:
        if not self.has(mark):
            raise LineFault(SourceNo.Operands)

    def token(self, kind: Kind) -> Token:
        token = self.next()
        if token is None or token.kind != kind:
            raise LineFault(SourceNo.Operands)
        self.at += 1
        return token

    def named(self, names: dict[str, int]) -> Operand:
        name = self.token(Kind.NAME).text.decode()
        if name not in names:
            raise LineFault(SourceNo.Operands)
        return Operand(names[name])

    def register(self) -> Operand:
        return self.named(REGISTERS)

    def csr(self) -> Operand:
        token = self.next()
        if token is not None and token.kind == Kind.NUMBER:
            return Operand(self.token(Kind.NUMBER).value)
        return self.named(CSRS)

    def number(self) -> Operand:
        """A number, with a sign or without."""
        sign = -1 if self.has("-") else 1
        return Operand(sign * self.token(Kind.NUMBER).value)

    def value(self) -> Operand:
        """A number, or a label with a number added or subtracted."""
        token = self.next()
        if token is None or token.kind != Kind.NAME:
            return self.number()
        label = self.token(Kind.NAME).text.decode()
        sign = 1 if self.has("+") else -1 if self.has("-") else 0
        return Operand(sign * self.token(Kind.NUMBER).value if sign else 0, label)

    def memory(self) -> Operand:
        """An offset and a base register."""
        offset = self.number()
        self.need("(")
        base = self.register()
        self.need(")")
        return Operand(offset.number, base=base.number)


READERS: dict[str, Callable[[Cursor], Operand]] = {
    "r": Cursor.register, "n": Cursor.number, "v": Cursor.value, "c": Cursor.csr, "m": Cursor.memory,
}  # fmt: skip


def lower(names: Sequence[str]) -> list[str]:
    return [name.lower() for name in names]


R_TYPE, M_TYPE = lower(list(ARITHMETIC.values())), lower(list(PRODUCTS.values()))
I_TYPE, SHIFT_TYPE = lower(list(IMMEDIATES.values())), lower(list(SHIFTS.values()))
LOAD_TYPE, STORE_TYPE, BRANCH_TYPE = (
    lower(list(table.values())) for table in (LOADS, STORES, BRANCHES)
)
CSR_TYPE = {f"csr{op.lower()}": funct3 for funct3, op in CSR_OPS.items()}

FORMS = {
    **dict.fromkeys(R_TYPE + M_TYPE, "rrr"), **dict.fromkeys(I_TYPE + SHIFT_TYPE, "rrn"),
    **dict.fromkeys([*LOAD_TYPE, "jalr", *STORE_TYPE], "rm"), **dict.fromkeys(BRANCH_TYPE, "rrv"),
    "jal": "rv", "lui": "rn", "auipc": "rn",
    **{name: "rcn" if name.endswith("i") else "rcr" for name in CSR_TYPE},
    **dict.fromkeys(lower(list(TIMES.values())), "r"), **dict.fromkeys(lower(list(MOMENTS.values())), "rr"),
    **dict.fromkeys(FIXED, ""), "mv": "rr", "not": "rr", "neg": "rr", "j": "v", "jr": "r", "beqz": "rv", "bnez": "rv",
    "csrr": "rc", "csrw": "cr", "li": "rn", "la": "rv", ".org": "n", ".space": "n", ".word": "v",
}  # fmt: skip
"""The operands of a mnemonic, by the letters of READERS; `.word` may have more."""


def read_operands(name: str, found: Sequence[Token]) -> list[Operand]:
    """The operands of a mnemonic; no token is left after them."""
    cursor, operands = Cursor(found), list[Operand]()
    for kind in FORMS[name]:
        if operands:
            cursor.need(",")
        operands.append(READERS[kind](cursor))
    while name == ".word" and cursor.has(","):
        operands.append(cursor.value())
    if cursor.next() is not None:
        raise LineFault(SourceNo.Operands)
    return operands


def within(number: int, low: int, high: int) -> int:
    if not low <= number <= high:
        raise LineFault(SourceNo.OutOfRange)
    return number


def upper(number: int) -> int:
    """The upper 20 bits of a number that a lower part of 12 bits with a sign completes."""
    return word(number + 2048) >> 12


def li_words(rd: int, number: int) -> list[int]:
    value = signed(number)
    if -2048 <= value <= 2047:
        return [i_word(OP_IMM, rd, 0, 0, value)]
    low = [i_word(OP_IMM, rd, 0, rd, value)] if value % 4096 else []
    return [u_word(LUI, rd, upper(value)), *low]


def la_words(rd: int, number: int) -> list[int]:
    return [u_word(LUI, rd, upper(number)), i_word(OP_IMM, rd, 0, rd, number)]


@dataclass
class Line:
    """A mnemonic with its operands at a location."""

    number: int
    name: str
    operands: list[Operand]
    at: int

    def checked_count(self) -> int:
        """The number of words that the line places."""
        first = self.operands[0].number if self.operands else 0
        if self.name in (".org", ".space"):
            within(first, 0, SMALL if self.name == ".space" else LAST_WORD - 3)
            if first % 4:
                raise LineFault(SourceNo.Misaligned)
            return first // 4 if self.name == ".space" else 0
        if self.name == "li":
            number = within(self.operands[1].number, -(1 << 31), LAST_WORD)
            return len(li_words(first, number))
        return {".word": len(self.operands), "la": 2}.get(self.name, 1)

    def next_location(self, count: int) -> int:
        return self.operands[0].number if self.name == ".org" else word(self.at + 4 * count)


@dataclass
class Placer:
    """The first pass: labels, and the words that each line places."""

    labels: dict[str, int] = field(default_factory=dict)
    placed: set[int] = field(default_factory=set)
    lines: list[Line] = field(default_factory=list)
    location: int = 0

    def take(self, number: int, text: bytes) -> None:
        """Takes the next line."""
        try:
            found = tokens(text)
        except LexFault:
            raise LineFault(SourceNo.Lex) from None
        at = self._take_labels(found)
        if at == len(found):
            return
        if found[at].kind != Kind.NAME:
            raise LineFault(SourceNo.Operands)
        name = found[at].text.decode()
        if name not in FORMS:
            raise LineFault(SourceNo.UnknownName)
        self._place(Line(number, name, read_operands(name, found[at + 1 :]), self.location))

    def _take_labels(self, found: Sequence[Token]) -> int:
        """Stores the labels at the beginning of a line, and returns the number of their tokens."""
        at = 0
        while at + 1 < len(found) and found[at].kind == Kind.NAME and found[at + 1].is_mark(":"):
            label = found[at].text.decode()
            if label in self.labels:
                raise LineFault(SourceNo.DoubleLabel)
            self.labels[label] = self.location
            at += 2
        return at

    def _place(self, line: Line) -> None:
        count = line.checked_count()
        addresses = [word(self.location + 4 * k) for k in range(count)]
        if not all(address < SMALL or DATA <= address < DATA + SMALL for address in addresses):
            raise LineFault(SourceNo.OutsideMemory)
        if not self.placed.isdisjoint(addresses):
            raise LineFault(SourceNo.Overlap)
        self.placed.update(addresses)
        self.lines.append(line)
        self.location = line.next_location(count)


class Encoder:
    """The second pass: the words of lines, with the labels known."""

    def __init__(self, labels: dict[str, int]) -> None:
        self.labels = labels

    def words(self, line: Line) -> list[int]:
        """The words of a line. An undefined label is reported before its other faults."""
        for operand in line.operands:
            if operand.label is not None and operand.label not in self.labels:
                raise LineFault(SourceNo.NoLabel)
        return ENCODERS[line.name](self, line)

    def address(self, operand: Operand) -> int:
        base = self.labels[operand.label] if operand.label is not None else 0
        return word(base + operand.number)

    def full(self, operand: Operand) -> int:
        """A word: any address, or a number of 32 bits, with a sign or without."""
        if operand.label is None:
            within(operand.number, -(1 << 31), LAST_WORD)
        return self.address(operand)

    def offset(self, operand: Operand, line: Line, reach: int) -> int:
        """The offset of a jump; its absolute value is below `reach`."""
        offset = within(signed(self.address(operand) - line.at), -reach, reach - 2)
        if self.address(operand) % 4:
            raise LineFault(SourceNo.Misaligned)
        return offset


BRANCH_REACH, JAL_REACH = 1 << 12, 1 << 20


def small(operand: Operand) -> int:
    """An immediate of 12 bits with a sign."""
    return within(operand.number, -2048, 2047)


Encoding = Callable[[Encoder, Line], list[int]]


def of_registers(name: str) -> Encoding:
    funct3, funct7 = (
        FUNCT3_7[name.capitalize()] if name in R_TYPE else (FUNCT3[name.capitalize()], 1)
    )

    def encode(_: Encoder, line: Line) -> list[int]:
        rd, rs1, rs2 = (operand.number for operand in line.operands)
        return [r_word(OP, rd, funct3, rs1, rs2, funct7)]

    return encode


def of_immediate(name: str) -> Encoding:
    def encode(_: Encoder, line: Line) -> list[int]:
        rd, rs1, number = line.operands
        return [i_word(OP_IMM, rd.number, FUNCT3[name.capitalize()], rs1.number, small(number))]

    return encode


def of_shift(name: str) -> Encoding:
    funct3, funct7 = FUNCT3_7[name.capitalize()]

    def encode(_: Encoder, line: Line) -> list[int]:
        rd, rs1, amount = line.operands
        return [r_word(OP_IMM, rd.number, funct3, rs1.number, within(amount.number, 0, 31), funct7)]

    return encode


def of_memory(opcode: int, funct3: int) -> Encoding:
    """Loads and JALR."""

    def encode(_: Encoder, line: Line) -> list[int]:
        rd, memory = line.operands
        return [i_word(opcode, rd.number, funct3, memory.base, small(memory))]

    return encode


def of_store(name: str) -> Encoding:
    def encode(_: Encoder, line: Line) -> list[int]:
        rs2, memory = line.operands
        return [s_word(FUNCT3[name.capitalize()], memory.base, rs2.number, small(memory))]

    return encode


def of_branch(funct3: int) -> Encoding:
    """Branches with two registers, or with one and x0."""

    def encode(encoder: Encoder, line: Line) -> list[int]:
        *registers, target = line.operands
        rs1, rs2 = [register.number for register in registers] + [0] * (2 - len(registers))
        return [b_word(funct3, rs1, rs2, encoder.offset(target, line, BRANCH_REACH))]

    return encode


def of_jal(encoder: Encoder, line: Line) -> list[int]:
    *registers, target = line.operands
    rd = registers[0].number if registers else 0
    return [j_word(rd, encoder.offset(target, line, JAL_REACH))]


def of_upper(opcode: int) -> Encoding:
    def encode(_: Encoder, line: Line) -> list[int]:
        rd, number = line.operands
        return [u_word(opcode, rd.number, within(number.number, 0, (1 << 20) - 1))]

    return encode


def csr_word(rd: int, funct3: int, source: int, csr: Operand) -> list[int]:
    return [i_word(SYSTEM, rd, funct3, source, within(csr.number, 0, 4095))]


def of_csr(name: str) -> Encoding:
    def encode(_: Encoder, line: Line) -> list[int]:
        rd, csr, source = line.operands
        return csr_word(rd.number, CSR_TYPE[name], within(source.number, 0, 31), csr)

    return encode


def of_time(_: Encoder, line: Line) -> list[int]:
    return [r_word(TIMING, line.operands[0].number, FUNCT3[line.name.capitalize()])]


def of_moment(_: Encoder, line: Line) -> list[int]:
    high, low = line.operands
    return [r_word(TIMING, 0, FUNCT3[line.name.capitalize()], high.number, low.number)]


def numbers(line: Line) -> Iterator[int]:
    return (operand.number for operand in line.operands)


ENCODERS: dict[str, Encoding] = {
    **{name: of_registers(name) for name in R_TYPE + M_TYPE},
    **{name: of_immediate(name) for name in I_TYPE},
    **{name: of_shift(name) for name in SHIFT_TYPE},
    **{name: of_memory(LOAD, FUNCT3[name.capitalize()]) for name in LOAD_TYPE},
    **{name: of_store(name) for name in STORE_TYPE},
    **{name: of_branch(FUNCT3[name.capitalize()]) for name in BRANCH_TYPE},
    **{name: of_csr(name) for name in CSR_TYPE},
    **{name: lambda _, line: [FIXED[line.name]] for name in FIXED},
    **dict.fromkeys(lower(list(TIMES.values())), of_time),
    **dict.fromkeys(lower(list(MOMENTS.values())), of_moment),
    "jalr": of_memory(JALR, 0),
    "jal": of_jal,
    "j": of_jal,
    "lui": of_upper(LUI),
    "auipc": of_upper(AUIPC),
    "beqz": of_branch(FUNCT3["Beq"]),
    "bnez": of_branch(FUNCT3["Bne"]),
    "mv": lambda _, line: [i_word(OP_IMM, line.operands[0].number, 0, line.operands[1].number, 0)],
    "not": lambda _, line: [
        i_word(OP_IMM, line.operands[0].number, FUNCT3["Xori"], line.operands[1].number, -1)
    ],
    "neg": lambda _, line: [
        r_word(OP, line.operands[0].number, 0, 0, line.operands[1].number, FUNCT3_7["Sub"][1])
    ],
    "jr": lambda _, line: [i_word(JALR, 0, 0, line.operands[0].number, 0)],
    "csrr": lambda _, line: csr_word(line.operands[0].number, FUNCT3["Rs"], 0, line.operands[1]),
    "csrw": lambda _, line: csr_word(0, FUNCT3["Rw"], line.operands[1].number, line.operands[0]),
    "li": lambda _, line: li_words(*numbers(line)),
    "la": lambda encoder, line: la_words(line.operands[0].number, encoder.full(line.operands[1])),
    ".org": lambda _, line: [],
    ".space": lambda _, line: [0] * (line.operands[0].number // 4),
    ".word": lambda encoder, line: [encoder.full(operand) for operand in line.operands],
}


def lines_of(source: bytes) -> list[bytes]:
    """The lines without their ends. One carriage return before a line feed is dropped."""
    *whole, last = source.split(b"\n")
    return [line.removesuffix(b"\r") for line in whole] + ([last] if last else [])


def assemble(source: bytes) -> Image:
    """The image of a source; raises SourceFault."""
    if len(source) > MOST_BYTES:
        raise SourceFault(0, SourceNo.TooLong)
    placer, words, number = Placer(), dict[int, int](), 0
    try:
        for number, text in enumerate(lines_of(source), 1):
            placer.take(number, text)
        encoder = Encoder(placer.labels)
        for line in placer.lines:
            number = line.number
            words.update((line.at + 4 * k, value) for k, value in enumerate(encoder.words(line)))
    except LineFault as fault:
        raise SourceFault(number, fault.code) from None
    image = image_of_words(words)
    if len(image.segments) > MOST_SEGMENTS:
        raise SourceFault(0, SourceNo.TooManySegments)
    return image
