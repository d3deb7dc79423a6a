"""decode.txt, gnu.txt and results.txt: the results of GNU as, GNU ld and qemu-riscv32 for drawn instructions and
lines."""

import random
import tempfile
from collections.abc import Callable, Iterator
from pathlib import Path

from model.assembler import BRANCH_TYPE, FIXED, FORMS, JAL_REACH, REGISTERS, SHIFT_TYPE
from model.bits import LAST_WORD, u32, word

from model.instructions import (
    ARITHMETIC, BRANCHES, CSR_OPS, IMMEDIATES, LOAD_SIZE, LOADS, PRODUCTS, SHIFTS, STORE_SIZE, STORES, Ins, decode,
    encode,
)  # fmt: skip
from model.tables import gnu, qemu
from model.tables.instruction_rows import run, shown
from model.tables.tools import assembled, linked, sections

EACH = 200
"""The number of rows of each instruction."""

EDGES = sorted(
    {
        word(s * (1 << k) + d)
        for k in (0, 1, 2, 5, 7, 8, 15, 16, 20, 31)
        for s in (1, -1)
        for d in (-1, 0, 1)
    }
)
"""Operands at the ends of ranges and next to them."""

Draw = Callable[[random.Random], Ins]


def register(chance: random.Random) -> int:
    return chance.randrange(32)


def small(chance: random.Random) -> int:
    """An immediate of 12 bits with a sign."""
    return chance.choice([-2048, -1, 0, 1, 2047, chance.randrange(-2048, 2048)])


def drawn_op(kind: str, op: str) -> Draw:
    """An instruction of a kind and operation with any fields."""
    limit = {"Shift": 32, "Lui": 1 << 20, "Auipc": 1 << 20}.get(kind)
    reach = {"Branch": 1 << 12, "Jal": JAL_REACH}.get(kind)

    def draw(chance: random.Random) -> Ins:
        rd, rs1, rs2, imm = register(chance), register(chance), register(chance), small(chance)
        if limit:
            imm = chance.randrange(limit)
        if reach:
            imm = 2 * chance.randrange(-reach // 2, reach // 2)
        csr = chance.randrange(4096) if kind == "Csr" else 0
        return decode(encode(Ins(kind, op, rd=rd, rs1=rs1, rs2=rs2, imm=imm, csr=csr)))

    return draw


TABLES = {
    "Branch": BRANCHES, "Load": LOADS, "Store": STORES, "OpImm": IMMEDIATES, "Muldiv": PRODUCTS, "Csr": CSR_OPS,
    "Shift": SHIFTS, "Op": ARITHMETIC,
}  # fmt: skip
OPS = [(kind, op) for kind, names in TABLES.items() for op in names.values()]  # type: ignore[attr-defined]
OPS += [(kind, "") for kind in ("Lui", "Auipc", "Jal", "Jalr")]
WITHOUT_FIELDS = (Ins("Ecall"), Ins("Ebreak"), Ins("Mret"), Ins("Fence", imm=gnu.FENCE_I))

OTHER_ARCH = "rv32imafd_zicsr_zifencei_zba_zbb_zbc_zbs_zicbom_zicboz"
OTHERS = (
    "sh1add {d},{a},{b}", "andn {d},{a},{b}", "clz {d},{a}", "rol {d},{a},{b}", "rev8 {d},{a}", "clmul {d},{a},{b}",
    "bset {d},{a},{b}", "bexti {d},{a},5", "max {d},{a},{b}", "lr.w {d},({a})", "amoadd.w {d},{b},({a})",
    "flw ft0,4({a})",
    "fsw ft0,4({a})", "fadd.s ft0,ft1,ft2", "fmadd.d ft0,ft1,ft2,ft3", "fcvt.w.s {d},ft1", "cbo.clean ({a})",
    "cbo.zero ({a})",
)  # fmt: skip
"""Instructions of other extensions."""


def words_of(texts: list[str], arch: str) -> list[int]:
    """The words that GNU as makes of texts."""
    with tempfile.TemporaryDirectory() as folder:
        name = assembled(Path(folder), gnu.sectioned(texts), arch)
        made = sections((Path(folder) / name).read_bytes())
    return [u32(made[f".r{k}"], 0) for k in range(len(texts))]


def decoded(seed: int) -> Iterator[str]:
    """The words of the text of instructions; and words of other extensions, which are none here."""
    chance = random.Random(seed)
    drawn = [draw(chance) for draw in (drawn_op(*op) for op in OPS) for _ in range(EACH)] + list(
        WITHOUT_FIELDS
    )
    texts = [text for x in drawn if (text := gnu.text_of(x)) is not None]
    for x, made in zip(drawn, words_of(texts, gnu.ARCH)):
        yield f"{made:08x} {shown(x)}\tdecode {made:#010x}"
    others = [
        form.format(**{k: f"x{register(chance)}" for k in "dab"})
        for form in OTHERS
        for _ in range(10)
    ]
    for made in words_of(others, OTHER_ARCH):
        yield f"{made:08x} {shown(Ins('Illegal', imm=made))}\tdecode {made:#010x}"


# ---------------------------------------------------------------- lines

UNKNOWN_TO_GNU = {"gt", "gth", "du", "wu", "ee", "de", "la", ".org", ".space"}
ADDRESSES = (0, 4, 0x100, 0x3FF0, 0x20003FF0)
GNU_CSRS = ("mtvec", "mscratch", "mepc", "mcause", "mhartid")
LINES_OF_EACH = 25


def number_text(chance: random.Random, value: int) -> str:
    return f"{value:#x}" if chance.random() < 0.4 else str(value)


def limits(name: str) -> tuple[int, int]:
    """The least and the largest number of a mnemonic."""
    if name in ("lui", "auipc"):
        return 0, (1 << 20) - 1
    if name in SHIFT_TYPE or name.endswith("i") and name.startswith("csr"):
        return 0, 31
    return (-(1 << 31), LAST_WORD) if name in ("li", ".word") else (-2048, 2047)


def target(chance: random.Random, name: str, at: int) -> int:
    """An address that a jump at another reaches."""
    reach = 1 << 12 if name in BRANCH_TYPE or name in ("beqz", "bnez") else JAL_REACH
    return word(
        at
        + 4
        * chance.choice(
            [-reach // 4, -1, 1, reach // 4 - 1, chance.randrange(-reach // 4, reach // 4)]
        )
    )


def operand(chance: random.Random, kind: str, name: str, at: int) -> str:
    low, high = limits(name)
    names = list(REGISTERS)
    number = number_text(chance, chance.choice([low, high, chance.randint(low, high)]))
    match kind:
        case "r":
            return chance.choice(names)
        case "c":
            return chance.choice([*GNU_CSRS, number_text(chance, chance.randrange(4096))])
        case "m":
            return f"{number}({chance.choice(names)})"
        case "v" if name != ".word":
            return number_text(chance, target(chance, name, at))
    return number


def line(chance: random.Random, name: str, at: int) -> str:
    operands = [operand(chance, kind, name, at) for kind in FORMS[name]]
    return f"{name} {', '.join(operands)}".strip()


def lines(seed: int) -> Iterator[str]:
    """Lines of each mnemonic that both assemblers know, with their images."""
    chance = random.Random(seed)
    found: list[tuple[int, str]] = []
    for name in sorted(FORMS.keys() - UNKNOWN_TO_GNU):
        for _ in range(1 if name in FIXED else LINES_OF_EACH):
            at = chance.choice(ADDRESSES)
            found.append((at, line(chance, name, at)))
    source = gnu.sectioned([gnu.near(at, text) for at, text in found])
    with tempfile.TemporaryDirectory() as folder:
        made = sections(linked(Path(folder), source, gnu.ARCH, gnu.script(found)))
    for k, (at, text) in enumerate(found):
        yield f"image {at:x}:{made[f'.r{k}'].hex()};\t.org {at:#x}\\n{text}"


# ---------------------------------------------------------------- runs

RD, RS1, RS2 = 7, 5, 6
"""The registers of the harness."""


class Runs:
    """Instructions at addresses of their own, with operands."""

    def __init__(self, chance: random.Random, count: int) -> None:
        self.chance = chance
        addresses = chance.sample(range(qemu.FIELD + 0x1000, qemu.FIELD_END - 0x1000, 8), count)
        self.free, self.taken = addresses, set(addresses)

    def value(self) -> int:
        return (
            self.chance.choice(EDGES) if self.chance.random() < 0.5 else self.chance.getrandbits(32)
        )

    def result(self, kind: str, op: str) -> qemu.Result:
        """A row, with the model's answer."""
        pc, a, b, content = self.free.pop(), self.value(), self.value(), 0
        x = decode(encode(Ins(kind, op, rd=RD, rs1=RS1, rs2=RS2, imm=small(self.chance))))
        if kind in ("Lui", "Auipc"):
            x = decode(encode(Ins(kind, rd=RD, imm=self.chance.getrandbits(20))))
        elif kind == "Shift":
            x = decode(encode(Ins(kind, op, rd=RD, rs1=RS1, imm=self.chance.randrange(32))))
        elif kind in ("Branch", "Jal", "Jalr"):
            x, a = self._jump(kind, op, pc, x.imm, a)
        elif kind in ("Load", "Store"):
            size = (LOAD_SIZE | STORE_SIZE)[op]
            content, a = self.value(), word(
                qemu.MEMORY + size * self.chance.randrange(0x1000 // size) - x.imm
            )
        a, b = a if x.rs1 else 0, b if x.rs2 else 0
        answer = tuple(int(each, 16) for each in run(x, pc, a, b, content).split())
        text = f"run {encode(x):#010x} {pc:#x} {a:#x} {b:#x} {content:#x}"
        return qemu.Result(text, encode(x), pc, a, b, content, answer)

    def _jump(self, kind: str, op: str, pc: int, imm: int, a: int) -> tuple[Ins, int]:
        """A jump to a word of the field that isn't a row's, and the operand that leads there."""
        to = self._target(pc, 1 << 12 if kind == "Branch" else 1 << 18)
        if kind == "Branch":
            return Ins(kind, op, rs1=RS1, rs2=RS2, imm=to - pc), a
        if kind == "Jal":
            return Ins(kind, rd=RD, imm=to - pc), a
        return Ins(kind, rd=RD, rs1=RS1, imm=imm), word(to - imm)

    def _target(self, pc: int, reach: int) -> int:
        low, high = max(qemu.FIELD, pc - reach), min(qemu.FIELD_END, pc + reach)
        while (address := 4 * self.chance.randrange(low // 4, high // 4)) in self.taken:
            pass
        return address


def ran(seed: int) -> Iterator[str]:
    """The results of qemu-riscv32 for each instruction."""
    chance = random.Random(seed)
    ops = [op for op in OPS if op[0] != "Csr"]
    runs = Runs(chance, EACH * len(ops))
    found = [runs.result(*op) for op in ops for _ in range(EACH)]
    told = qemu.ran(found)
    for k, row in enumerate(found):
        value, next_pc, content = (u32(told, 12 * k + 4 * j) for j in range(3))
        yield f"{value:x} {next_pc:x} {row.answer[2]:x} {content if row.answer[2] else 0:x}\t{row.text}"
