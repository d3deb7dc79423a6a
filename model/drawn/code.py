"""Short names for instructions, and code as bytes."""

from collections.abc import Iterable

from model.instructions import Ins, encode


def immediate(op: str, rd: int, rs1: int, imm: int) -> Ins:
    return Ins("OpImm", op, rd=rd, rs1=rs1, imm=imm)


def addi(rd: int, rs1: int, imm: int) -> Ins:
    return immediate("Addi", rd, rs1, imm)


def shift(op: str, rd: int, rs1: int, amount: int) -> Ins:
    return Ins("Shift", op, rd=rd, rs1=rs1, imm=amount)


def arithmetic(op: str, rd: int, rs1: int, rs2: int) -> Ins:
    return Ins("Op", op, rd=rd, rs1=rs1, rs2=rs2)


def muldiv(op: str, rd: int, rs1: int, rs2: int) -> Ins:
    return Ins("Muldiv", op, rd=rd, rs1=rs1, rs2=rs2)


def load(op: str, rd: int, base: int, offset: int) -> Ins:
    return Ins("Load", op, rd=rd, rs1=base, imm=offset)


def store(op: str, base: int, rs2: int, offset: int) -> Ins:
    return Ins("Store", op, rs1=base, rs2=rs2, imm=offset)


def branch(op: str, rs1: int, rs2: int, offset: int) -> Ins:
    return Ins("Branch", op, rs1=rs1, rs2=rs2, imm=offset)


def jal(rd: int, offset: int) -> Ins:
    return Ins("Jal", rd=rd, imm=offset)


def jalr(rd: int, rs1: int, offset: int) -> Ins:
    return Ins("Jalr", rd=rd, rs1=rs1, imm=offset)


def csr(op: str, rd: int, number: int, source: int) -> Ins:
    return Ins("Csr", op, rd=rd, csr=number, rs1=source)


def timed(kind: str, high: int, low: int) -> Ins:
    """DU, WU or EE."""
    return Ins(kind, rs1=high, rs2=low)


def li(rd: int, value: int) -> list[Ins]:
    """Two instructions that give a register a word."""
    value %= 1 << 32
    low = (value + 2048) % 4096 - 2048
    return [Ins("Lui", rd=rd, imm=(value - low) % (1 << 32) >> 12), addi(rd, rd, low)]


def bytes_of(code: Iterable[Ins]) -> bytes:
    return b"".join(encode(x).to_bytes(4, "little") for x in code)
