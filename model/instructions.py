"""Words as instructions and back, the results of instructions, and their lags."""

from collections.abc import Callable
from dataclasses import dataclass
from functools import lru_cache

from model.bits import LAST_WORD, bits, signed, word


@dataclass(frozen=True)
class Ins:
    """A kind of instruction, the operation within the kind, and the fields; those that a kind hasn't are 0.

    `imm` is the immediate, offset or shift amount; of Fence and Illegal it is the whole word. Of Csr, `rs1` is the
    register or the number that the operation takes."""

    kind: str
    op: str = ""
    rd: int = 0
    rs1: int = 0
    rs2: int = 0
    imm: int = 0
    csr: int = 0


LUI, AUIPC, JAL, JALR, BRANCH, LOAD, STORE = 0x37, 0x17, 0x6F, 0x67, 0x63, 0x03, 0x23
OP_IMM, OP, FENCE, SYSTEM, TIMING = 0x13, 0x33, 0x0F, 0x73, 0x0B

BRANCHES = {0: "Beq", 1: "Bne", 4: "Blt", 5: "Bge", 6: "Bltu", 7: "Bgeu"}
LOADS = {0: "Lb", 1: "Lh", 2: "Lw", 4: "Lbu", 5: "Lhu"}
STORES = {0: "Sb", 1: "Sh", 2: "Sw"}
IMMEDIATES = {0: "Addi", 2: "Slti", 3: "Sltiu", 4: "Xori", 6: "Ori", 7: "Andi"}
SHIFTS = {(1, 0): "Slli", (5, 0): "Srli", (5, 32): "Srai"}
ARITHMETIC = {
    (0, 0): "Add", (1, 0): "Sll", (2, 0): "Slt", (3, 0): "Sltu", (4, 0): "Xor",
    (5, 0): "Srl", (6, 0): "Or", (7, 0): "And", (0, 32): "Sub", (5, 32): "Sra",
}  # fmt: skip
PRODUCTS = {0: "Mul", 1: "Mulh", 2: "Mulhsu", 3: "Mulhu", 4: "Div", 5: "Divu", 6: "Rem", 7: "Remu"}
CSR_OPS = {1: "Rw", 2: "Rs", 3: "Rc", 5: "Rwi", 6: "Rsi", 7: "Rci"}
SYSTEM_WORDS = {0x00000073: "Ecall", 0x00100073: "Ebreak", 0x30200073: "Mret"}
MOMENTS = {2: "Du", 3: "Wu", 4: "Ee"}
TIMES = {0: "Gt", 1: "Gth"}
DE_FUNCT3 = 5

LOAD_SIZE = {"Lb": 1, "Lh": 2, "Lw": 4, "Lbu": 1, "Lhu": 2}
STORE_SIZE = {"Sb": 1, "Sh": 2, "Sw": 4}


class Fields:
    """The fields of a word, by the formats of the RISC-V manual."""

    def __init__(self, value: int) -> None:
        self.word = value
        self.opcode, self.rd, self.funct3 = (
            bits(value, 6, 0),
            bits(value, 11, 7),
            bits(value, 14, 12),
        )
        self.rs1, self.rs2, self.funct7 = (
            bits(value, 19, 15),
            bits(value, 24, 20),
            bits(value, 31, 25),
        )

    def i_immediate(self) -> int:
        return signed(bits(self.word, 31, 20), 12)

    def s_immediate(self) -> int:
        return signed(self.funct7 << 5 | self.rd, 12)

    def b_offset(self) -> int:
        w = self.word
        return signed(
            bits(w, 31, 31) << 12
            | bits(w, 7, 7) << 11
            | bits(w, 30, 25) << 5
            | bits(w, 11, 8) << 1,
            13,
        )

    def u_immediate(self) -> int:
        return bits(self.word, 31, 12)

    def j_offset(self) -> int:
        w = self.word
        return signed(
            bits(w, 31, 31) << 20
            | bits(w, 19, 12) << 12
            | bits(w, 20, 20) << 11
            | bits(w, 30, 21) << 1,
            21,
        )


def _upper(kind: str) -> Callable[[Fields], Ins | None]:
    return lambda f: Ins(kind, rd=f.rd, imm=f.u_immediate())


def _jal(f: Fields) -> Ins | None:
    return Ins("Jal", rd=f.rd, imm=f.j_offset())


def _jalr(f: Fields) -> Ins | None:
    return Ins("Jalr", rd=f.rd, rs1=f.rs1, imm=f.i_immediate()) if f.funct3 == 0 else None


def _branch(f: Fields) -> Ins | None:
    op = BRANCHES.get(f.funct3)
    return Ins("Branch", op, rs1=f.rs1, rs2=f.rs2, imm=f.b_offset()) if op else None


def _load(f: Fields) -> Ins | None:
    op = LOADS.get(f.funct3)
    return Ins("Load", op, rd=f.rd, rs1=f.rs1, imm=f.i_immediate()) if op else None


def _store(f: Fields) -> Ins | None:
    op = STORES.get(f.funct3)
    return Ins("Store", op, rs1=f.rs1, rs2=f.rs2, imm=f.s_immediate()) if op else None


def _immediate(f: Fields) -> Ins | None:
    if op := IMMEDIATES.get(f.funct3):
        return Ins("OpImm", op, rd=f.rd, rs1=f.rs1, imm=f.i_immediate())
    shift = SHIFTS.get((f.funct3, f.funct7))
    return Ins("Shift", shift, rd=f.rd, rs1=f.rs1, imm=f.rs2) if shift else None


def _arithmetic(f: Fields) -> Ins | None:
    if f.funct7 == 1:
        return Ins("Muldiv", PRODUCTS[f.funct3], rd=f.rd, rs1=f.rs1, rs2=f.rs2)
    op = ARITHMETIC.get((f.funct3, f.funct7))
    return Ins("Op", op, rd=f.rd, rs1=f.rs1, rs2=f.rs2) if op else None


def _fence(f: Fields) -> Ins | None:
    return Ins("Fence", imm=f.word) if f.funct3 in (0, 1) else None


def _system(f: Fields) -> Ins | None:
    if kind := SYSTEM_WORDS.get(f.word):
        return Ins(kind)
    op = CSR_OPS.get(f.funct3)
    return Ins("Csr", op, rd=f.rd, rs1=f.rs1, csr=bits(f.word, 31, 20)) if op else None


def _timing(f: Fields) -> Ins | None:
    if f.funct7 != 0:
        return None
    if f.funct3 in TIMES and f.rs1 == f.rs2 == 0:
        return Ins(TIMES[f.funct3], rd=f.rd)
    if f.funct3 in MOMENTS and f.rd == 0:
        return Ins(MOMENTS[f.funct3], rs1=f.rs1, rs2=f.rs2)
    return Ins("De") if f.funct3 == DE_FUNCT3 and f.rd == f.rs1 == f.rs2 == 0 else None


ROWS: dict[int, Callable[[Fields], Ins | None]] = {
    LUI: _upper("Lui"), AUIPC: _upper("Auipc"), JAL: _jal, JALR: _jalr, BRANCH: _branch, LOAD: _load, STORE: _store,
    OP_IMM: _immediate, OP: _arithmetic, FENCE: _fence, SYSTEM: _system, TIMING: _timing,
}  # fmt: skip


@lru_cache(maxsize=1 << 18)
def decode(value: int) -> Ins:
    """The instruction of a word; Illegal if it is none."""
    fields = Fields(value)
    row = ROWS.get(fields.opcode)
    return (row(fields) if row else None) or Ins("Illegal", imm=value)


# ---------------------------------------------------------------- encoding


def r_word(
    opcode: int, rd: int = 0, funct3: int = 0, rs1: int = 0, rs2: int = 0, funct7: int = 0
) -> int:
    """The word of fields at the bits that most formats share."""
    return funct7 << 25 | rs2 << 20 | rs1 << 15 | funct3 << 12 | rd << 7 | opcode


def i_word(opcode: int, rd: int, funct3: int, rs1: int, imm: int) -> int:
    return (imm % (1 << 12)) << 20 | r_word(opcode, rd, funct3, rs1)


def s_word(funct3: int, rs1: int, rs2: int, imm: int) -> int:
    return r_word(STORE, imm % 32, funct3, rs1, rs2, (imm % (1 << 12)) >> 5)


def u_word(opcode: int, rd: int, imm: int) -> int:
    return imm << 12 | rd << 7 | opcode


def b_word(funct3: int, rs1: int, rs2: int, offset: int) -> int:
    o = offset % (1 << 13)
    head = bits(o, 12, 12) << 31 | bits(o, 10, 5) << 25 | bits(o, 4, 1) << 8 | bits(o, 11, 11) << 7
    return head | r_word(BRANCH, 0, funct3, rs1, rs2)


def j_word(rd: int, offset: int) -> int:
    o = offset % (1 << 21)
    head = (
        bits(o, 20, 20) << 31 | bits(o, 10, 1) << 21 | bits(o, 11, 11) << 20 | bits(o, 19, 12) << 12
    )
    return head | rd << 7 | JAL


TABLES_BY_FUNCT3 = (BRANCHES, LOADS, STORES, IMMEDIATES, PRODUCTS, CSR_OPS, MOMENTS, TIMES)
FUNCT3 = {name: funct3 for table in TABLES_BY_FUNCT3 for funct3, name in table.items()}
FUNCT3_7 = {name: functs for table in (SHIFTS, ARITHMETIC) for functs, name in table.items()}
WORD_OF_SYSTEM = {name: value for value, name in SYSTEM_WORDS.items()}


def _shift_word(x: Ins) -> int:
    funct3, funct7 = FUNCT3_7[x.op]
    return r_word(OP_IMM, x.rd, funct3, x.rs1, x.imm, funct7)


def _op_word(x: Ins) -> int:
    funct3, funct7 = FUNCT3_7[x.op]
    return r_word(OP, x.rd, funct3, x.rs1, x.rs2, funct7)


ENCODINGS: dict[str, Callable[[Ins], int]] = {
    "Lui": lambda x: u_word(LUI, x.rd, x.imm),
    "Auipc": lambda x: u_word(AUIPC, x.rd, x.imm),
    "Jal": lambda x: j_word(x.rd, x.imm),
    "Jalr": lambda x: i_word(JALR, x.rd, 0, x.rs1, x.imm),
    "Branch": lambda x: b_word(FUNCT3[x.op], x.rs1, x.rs2, x.imm),
    "Load": lambda x: i_word(LOAD, x.rd, FUNCT3[x.op], x.rs1, x.imm),
    "Store": lambda x: s_word(FUNCT3[x.op], x.rs1, x.rs2, x.imm),
    "OpImm": lambda x: i_word(OP_IMM, x.rd, FUNCT3[x.op], x.rs1, x.imm),
    "Shift": _shift_word,
    "Op": _op_word,
    "Muldiv": lambda x: r_word(OP, x.rd, FUNCT3[x.op], x.rs1, x.rs2, 1),
    "Fence": lambda x: x.imm,
    "Illegal": lambda x: x.imm,
    "Csr": lambda x: i_word(SYSTEM, x.rd, FUNCT3[x.op], x.rs1, x.csr),
    "Gt": lambda x: r_word(TIMING, x.rd),
    "Gth": lambda x: r_word(TIMING, x.rd, FUNCT3["Gth"]),
    "De": lambda x: r_word(TIMING, 0, DE_FUNCT3),
    **{
        kind: lambda x: r_word(TIMING, 0, FUNCT3[x.kind], x.rs1, x.rs2) for kind in MOMENTS.values()
    },
    **{kind: lambda x: WORD_OF_SYSTEM[x.kind] for kind in SYSTEM_WORDS.values()},
}


def encode(x: Ins) -> int:
    """The word of an instruction."""
    return ENCODINGS[x.kind](x)


# ---------------------------------------------------------------- what an instruction computes


@dataclass(frozen=True)
class Outcome:
    """The result of an instruction, from its pc and operands; fields that it doesn't compute are 0. `trap` is a
    cause."""

    value: int = 0
    address: int = 0
    target: int = 0
    taken: bool = False
    trap: int | None = None


MISALIGNED_TARGET, ILLEGAL, BREAKPOINT, MISALIGNED_LOAD, MISALIGNED_STORE, ENVIRONMENT_CALL = (
    0,
    2,
    3,
    4,
    6,
    11,
)

ALU: dict[str, Callable[[int, int], int]] = {
    "Add": lambda a, b: word(a + b),
    "Sub": lambda a, b: word(a - b),
    "Sll": lambda a, b: word(a << b % 32),
    "Srl": lambda a, b: a >> b % 32,
    "Sra": lambda a, b: word(signed(a) >> b % 32),
    "Slt": lambda a, b: int(signed(a) < signed(b)),
    "Sltu": lambda a, b: int(a < b),
    "Xor": lambda a, b: a ^ b,
    "Or": lambda a, b: a | b,
    "And": lambda a, b: a & b,
}
ALU_OF_IMMEDIATE = {"Addi": "Add", "Slti": "Slt", "Sltiu": "Sltu", "Xori": "Xor", "Ori": "Or", "Andi": "And",
                    "Slli": "Sll", "Srli": "Srl", "Srai": "Sra"}  # fmt: skip

TAKEN: dict[str, Callable[[int, int], bool]] = {
    "Beq": lambda a, b: a == b,
    "Bne": lambda a, b: a != b,
    "Blt": lambda a, b: signed(a) < signed(b),
    "Bge": lambda a, b: signed(a) >= signed(b),
    "Bltu": lambda a, b: a < b,
    "Bgeu": lambda a, b: a >= b,
}


def quotient(a: int, b: int) -> int:
    """The quotient of two numbers, rounded towards 0; b isn't 0."""
    size = abs(a) // abs(b)
    return size if (a < 0) == (b < 0) else -size


def product(op: str, a: int, b: int) -> int:
    """The result of a multiplication, or of a division by another divisor than 0."""
    x, y = signed(a), signed(b)
    if op == "Mul":
        return word(a * b)
    if op in ("Mulh", "Mulhsu", "Mulhu"):
        return word({"Mulh": x * y, "Mulhsu": x * b, "Mulhu": a * b}[op] >> 32)
    if op == "Divu":
        return a // b
    if op == "Remu":
        return a % b
    return word(quotient(x, y) if op == "Div" else x - y * quotient(x, y))


def muldiv(op: str, a: int, b: int) -> int:
    """The same for any divisor."""
    if b == 0 and op in ("Div", "Divu"):
        return LAST_WORD
    if b == 0 and op in ("Rem", "Remu"):
        return a
    return product(op, a, b)


def _jump(pc: int, target: int) -> Outcome:
    trap = MISALIGNED_TARGET if target % 4 else None
    return Outcome(value=word(pc + 4), target=target, trap=trap)


def _branched(x: Ins, pc: int, a: int, b: int) -> Outcome:
    target, taken = word(pc + x.imm), TAKEN[x.op](a, b)
    return Outcome(
        target=target, taken=taken, trap=MISALIGNED_TARGET if taken and target % 4 else None
    )


def _accessed(x: Ins, a: int, size: int, cause: int) -> Outcome:
    address = word(a + x.imm)
    return Outcome(address=address, trap=cause if address % size else None)


OUTCOMES: dict[str, Callable[[Ins, int, int, int], Outcome]] = {
    "Lui": lambda x, pc, a, b: Outcome(value=x.imm << 12),
    "Auipc": lambda x, pc, a, b: Outcome(value=word(pc + (x.imm << 12))),
    "Jal": lambda x, pc, a, b: _jump(pc, word(pc + x.imm)),
    "Jalr": lambda x, pc, a, b: _jump(pc, word(a + x.imm) & ~1),
    "Branch": _branched,
    "Load": lambda x, pc, a, b: _accessed(x, a, LOAD_SIZE[x.op], MISALIGNED_LOAD),
    "Store": lambda x, pc, a, b: _accessed(x, a, STORE_SIZE[x.op], MISALIGNED_STORE),
    "OpImm": lambda x, pc, a, b: Outcome(value=ALU[ALU_OF_IMMEDIATE[x.op]](a, word(x.imm))),
    "Shift": lambda x, pc, a, b: Outcome(value=ALU[ALU_OF_IMMEDIATE[x.op]](a, x.imm)),
    "Op": lambda x, pc, a, b: Outcome(value=ALU[x.op](a, b)),
    "Muldiv": lambda x, pc, a, b: Outcome(value=muldiv(x.op, a, b)),
    "Ecall": lambda x, pc, a, b: Outcome(trap=ENVIRONMENT_CALL),
    "Ebreak": lambda x, pc, a, b: Outcome(trap=BREAKPOINT),
    "Illegal": lambda x, pc, a, b: Outcome(trap=ILLEGAL),
}


def outcome(x: Ins, pc: int, a: int, b: int) -> Outcome:
    """The result of an instruction, from its pc and the values of its source registers."""
    compute = OUTCOMES.get(x.kind)
    return compute(x, pc, a, b) if compute else Outcome()


def load_value(op: str, address: int, aligned_word: int) -> int:
    """The value of a load, from the aligned word that has its address."""
    width = 8 * LOAD_SIZE[op]
    field = (aligned_word >> 8 * (address % 4)) % (1 << width)
    return word(signed(field, width)) if op in ("Lb", "Lh") else field


def store_lanes(op: str, address: int, value: int) -> tuple[int, int]:
    """The lanes that a store writes, as a mask, and its value shifted to them."""
    size, lane = STORE_SIZE[op], address % 4
    return ((1 << size) - 1) << lane, (value % (1 << 8 * size)) << 8 * lane


LAST_LAG = 3
LAGS = {"Load": 2, "Muldiv": 2, **dict.fromkeys(
    ("Jal", "Jalr", "Mret", "Csr", "Du", "Wu", "Ee", "De", "Illegal", "Ecall", "Ebreak"), LAST_LAG)}  # fmt: skip


def lag(x: Ins, taken: bool, trapped: bool) -> int:
    """The least number of cycles to the thread's next issue."""
    return LAST_LAG if trapped or taken else LAGS.get(x.kind, 1)


def sources(x: Ins) -> tuple[int, int]:
    """The registers that an instruction reads; x0 if it reads none."""
    if x.kind == "Csr" and x.op in ("Rwi", "Rsi", "Rci"):
        return 0, 0
    return x.rs1, x.rs2
