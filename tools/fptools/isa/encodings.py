"""The instructions of the core: name, fixed bits and operands of each, as words and back.

An operand is a letter: `d`, `s` and `t` are the registers rd, rs1 and rs2, `z` a number in place of rs1, `c` a CSR,
`h` a shift, `i` an immediate, `o` the offset of a store, `b` and `j` those of a branch and a jump, `u` upper bits."""

PIECES: dict[str, tuple[tuple[int, int], ...]] = {
    "d": ((7, 5),), "s": ((15, 5),), "t": ((20, 5),), "z": ((15, 5),), "c": ((20, 12),), "h": ((20, 5),),
    "i": ((20, 12),), "o": ((7, 5), (25, 7)), "u": ((12, 20),), "f": ((7, 5), (15, 17)),
    "b": ((8, 4), (25, 6), (7, 1), (31, 1)), "j": ((21, 10), (20, 1), (12, 8), (31, 1)),
}  # fmt: skip
"""Where the bits of an operand are, the lowest first: the lowest place and the width of each piece. `f` are bits that may have any value."""

SIGNED = "iobj"
EVEN = "bj"
"""Operands whose lowest bit isn't in the word."""

ECALL, EBREAK, MRET = 0x0000_0073, 0x0010_0073, 0x3020_0073
FENCE, FENCE_I = 0x0FF0_000F, 0x0000_100F
LOAD, TIMING, FENCES, IMMEDIATE, AUIPC, STORE, REGISTERS, LUI, BRANCH, JALR, JAL, SYSTEM = (
    0x03, 0x0B, 0x0F, 0x13, 0x17, 0x23, 0x33, 0x37, 0x63, 0x67, 0x6F, 0x73,
)  # fmt: skip
"""Opcodes."""


def get(letter: str, bits: int) -> int:
    """The value of an operand in a word."""
    value = width = 0
    for low, size in PIECES[letter]:
        value |= (bits >> low & (1 << size) - 1) << width
        width += size
    if letter in SIGNED and value >> width - 1:
        value -= 1 << width
    return value << (letter in EVEN)


def put(letter: str, value: int) -> int:
    """The bits of a word that hold the value of an operand."""
    value, bits = value >> (letter in EVEN), 0
    for low, size in PIECES[letter]:
        bits |= (value & (1 << size) - 1) << low
        value >>= size
    return bits


class Form:
    """An instruction: the bits that make it, which of them are fixed, and the letters of its operands."""

    __slots__ = ("name", "bits", "fixed", "operands")

    def __init__(self, name: str, bits: int, operands: str) -> None:
        self.name, self.bits, self.operands = name, bits, operands.rstrip("f")
        self.fixed = 0xFFFF_FFFF & ~sum(put(letter, -1) for letter in operands)

    def word(self, *values: int) -> int:
        """The word with these operands."""
        return self.bits | sum(map(put, self.operands, values))


def _rows(names: str, opcode: int, operands: str, functs: str = "", upper: int = 0) -> list[Form]:
    """Instructions of an opcode. `functs` are their values of funct3, which else count from 0; `upper` is their funct7."""
    numbers = map(int, functs or "01234567")
    return [
        Form(name, upper << 25 | at << 12 | opcode, operands)
        for name, at in zip(names.split(), numbers)
    ]


FORMS = (
    *_rows("lui", LUI, "du"), *_rows("auipc", AUIPC, "du"), *_rows("jal", JAL, "dj"), *_rows("jalr", JALR, "dis"),
    *_rows("beq bne blt bge bltu bgeu", BRANCH, "stb", "014567"),
    *_rows("lb lh lw lbu lhu", LOAD, "dis", "01245"), *_rows("sb sh sw", STORE, "tos"),
    *_rows("addi slti sltiu xori ori andi", IMMEDIATE, "dsi", "023467"),
    *_rows("slli srli", IMMEDIATE, "dsh", "15"), *_rows("srai", IMMEDIATE, "dsh", "5", 32),
    *_rows("add sll slt sltu xor srl or and", REGISTERS, "dst"), *_rows("sub sra", REGISTERS, "dst", "05", 32),
    *_rows("mul mulh mulhsu mulhu div divu rem remu", REGISTERS, "dst", upper=1),
    *_rows("fence fence.i", FENCES, "f"),
    *_rows("csrrw csrrs csrrc", SYSTEM, "dcs", "123"), *_rows("csrrwi csrrsi csrrci", SYSTEM, "dcz", "567"),
    Form("ecall", ECALL, ""), Form("ebreak", EBREAK, ""), Form("mret", MRET, ""),
    *_rows("gt gth", TIMING, "d"), *_rows("du wu ee", TIMING, "st", "234"), *_rows("de", TIMING, "", "5"),
)  # fmt: skip
BY_NAME = {form.name: form for form in FORMS}
BY_OPCODE = {
    opcode: [form for form in FORMS if form.bits & 0x7F == opcode]
    for opcode in {form.bits & 0x7F for form in FORMS}
}

_known: dict[int, Form | None] = {}


def decode(bits: int) -> Form | None:
    """The instruction of a word, or None."""
    if bits not in _known:
        forms = BY_OPCODE.get(bits & 0x7F, [])
        _known[bits] = next((form for form in forms if bits & form.fixed == form.bits), None)
    return _known[bits]


def target(pc: int, bits: int) -> int | None:
    """The target of a branch or of JAL."""
    letter = {BRANCH: "b", JAL: "j"}.get(bits & 0x7F)
    return None if letter is None else (pc + get(letter, bits)) % 2**32


LEAVING = {"jalr", "ecall", "ebreak", "mret", "du", "wu"}


def edges(pc: int, bits: int) -> list[int]:
    """The successors of a word as `bound` has them. Those of a call are its target; indirect jumps, traps and waits have none."""
    form = decode(bits)
    if form is None or form.name in LEAVING:
        return []
    to = target(pc, bits)
    return [pc + 4] if to is None else [to] if form.name == "jal" else [pc + 4, to]


def is_call(bits: int) -> bool:
    """Whether a word is a JAL that writes the address of the next word to a register."""
    return bits & 0x7F == JAL and get("d", bits) != 0
