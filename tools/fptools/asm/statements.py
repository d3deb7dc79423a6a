"""The mnemonics of the assembler, and the operands that they take."""

import difflib
from collections.abc import Callable, Sequence
from dataclasses import dataclass, replace

from fptools.asm.tokens import LineFault, SourceNo, Token
from fptools.isa.encodings import FENCE, FENCE_I, FORMS

REGISTERS = {
    **{f"x{k}": k for k in range(32)}, "zero": 0, "ra": 1, "sp": 2, "gp": 3, "tp": 4, "fp": 8, "s0": 8, "s1": 9,
    **{f"t{k}": 5 + k for k in range(3)}, **{f"t{k}": 25 + k for k in range(3, 7)},
    **{f"a{k}": 10 + k for k in range(8)}, **{f"s{k}": 16 + k for k in range(2, 12)},
}  # fmt: skip
CSRS = {
    "mtvec": 0x305, "mscratch": 0x340, "mepc": 0x341, "mcause": 0x342, "mhartid": 0xF14,
    "slots": 0x7C0, "modes": 0x7C1, "dregions": 0x7C2, "iregions": 0x7C3,
}  # fmt: skip

KINDS_OF = {
    "": "", "d": "r", "du": "rn", "dj": "rv", "dis": "rm", "tos": "rm", "stb": "rrv", "dsi": "rrn", "dsh": "rrn",
    "dst": "rrr", "dcs": "rcr", "dcz": "rcn", "st": "rr",
}  # fmt: skip
"""The operands of an instruction as a source has them, by those of its word: the letters of `READERS`."""

SHORT = {
    "nop": ("addi", "d=0 s=0 i=0", ""), "ret": ("jalr", "d=0 i=0 s=1", ""), "mv": ("addi", "d s i=0", "rr"),
    "not": ("xori", "d s i=-1", "rr"), "neg": ("sub", "d s=0 t", "rr"), "j": ("jal", "d=0 j", "v"),
    "jr": ("jalr", "d=0 i=0 s", "r"), "beqz": ("beq", "s t=0 b", "rv"), "bnez": ("bne", "s t=0 b", "rv"),
    "csrr": ("csrrs", "d c s=0", "rc"), "csrw": ("csrrw", "c s d=0", "cr"),
}  # fmt: skip
"""Short mnemonics: the instruction, its operands in the order of the source, those with a number given, and their kinds."""

FIXED = {"fence": FENCE, "fence.i": FENCE_I}
OTHERS = {"li": "rn", "la": "rv", ".org": "n", ".space": "n", ".word": "v"}
OPERANDS = {
    **{form.name: KINDS_OF[form.operands] for form in FORMS},
    **{name: kinds for name, (_, _, kinds) in SHORT.items()},
    **OTHERS,
}
"""The operands of each mnemonic; `.word` may have more."""

KINDS = {
    "r": "a register (x0 to x31, or a name as a0)",
    "n": "a number",
    "v": "a number, a label, or a label + or - a number",
    "c": "a CSR (a name as mtvec, or a number)",
    "m": "an offset and a base register, as 4(sp)",
}
MARK_NAMES = {",": "a comma", "(": "'(' and a base register", ")": "')'"}
MOST_NEAR = 3


def near(name: str, names: Sequence[str]) -> str:
    """A hint with the names that are similar to a name; empty if none is."""
    found = difflib.get_close_matches(name.lower(), names, MOST_NEAR, 0.6)
    return f"did you mean {' or '.join(found)}?" if found else ""


class Expected(LineFault):
    """What was expected, at a token by its index or at the line's end."""

    def __init__(self, at: int, text: str, *hints: str) -> None:
        super().__init__(SourceNo.Operands)
        self.at, self.text, self.hints = at, text, hints


@dataclass(frozen=True)
class Operand:
    """A number, or a label and a number to add; of an offset with a base register, `base` is the register.

    Its tokens are those from `first` to below `end`."""

    number: int
    label: str | None = None
    base: int = 0
    first: int = 0
    end: int = 0


class Reader:
    """Reads operands from the tokens of a line, from an index on."""

    def __init__(self, found: Sequence[Token], at: int) -> None:
        self.found, self.at = found, at

    def next(self) -> Token | None:
        return self.found[self.at] if self.at < len(self.found) else None

    def has(self, mark: str) -> bool:
        """Takes a mark, if it is next."""
        token = self.next()
        found = token is not None and token.is_mark(mark)
        self.at += found
        return found

    def need(self, mark: str) -> None:
        if not self.has(mark):
            raise Expected(self.at, MARK_NAMES[mark])

    def token(self, kind: str) -> Token:
        token = self.next()
        if token is None or token.kind != kind:
            raise Expected(self.at, "a number" if kind == "NUMBER" else "a name")
        self.at += 1
        return token

    def named(self, names: dict[str, int], what: str) -> Operand:
        token = self.next()
        if token is None or token.kind != "NAME":
            raise Expected(self.at, what)
        if token.text not in names:
            is_lower = token.text.lower() in names
            hint = "names are in lower case" if is_lower else near(token.text, list(names))
            raise Expected(self.at, what, *filter(None, [hint]))
        self.at += 1
        return Operand(names[token.text])

    def register(self) -> Operand:
        return self.named(REGISTERS, KINDS["r"])

    def csr(self) -> Operand:
        token = self.next()
        if token is not None and token.kind == "NUMBER":
            return Operand(self.token("NUMBER").value)
        return self.named(CSRS, KINDS["c"])

    def number(self) -> Operand:
        """A number, with a sign or without."""
        sign = -1 if self.has("-") else 1
        return Operand(sign * self.token("NUMBER").value)

    def value(self) -> Operand:
        """A number, or a label with a number added or subtracted."""
        token = self.next()
        if token is None or token.kind != "NAME":
            return self.number()
        label = self.token("NAME").text
        sign = 1 if self.has("+") else -1 if self.has("-") else 0
        return Operand(sign * self.token("NUMBER").value if sign else 0, label)

    def memory(self) -> Operand:
        """An offset and a base register."""
        offset = self.number()
        self.need("(")
        base = self.register()
        self.need(")")
        return Operand(offset.number, base=base.number)

    def take(self, kind: str) -> Operand:
        """An operand of a kind, with its place."""
        first = self.at
        try:
            operand = READERS[kind](self)
        except Expected as fault:
            # If an operand doesn't begin as it should, the kind says more than its first token.
            raise fault if self.at > first or fault.hints else Expected(
                first, KINDS[kind]
            ) from None
        return replace(operand, first=first, end=self.at)


READERS: dict[str, Callable[[Reader], Operand]] = {
    "r": Reader.register, "n": Reader.number, "v": Reader.value, "c": Reader.csr, "m": Reader.memory,
}  # fmt: skip


def operands_of(found: Sequence[Token], name_at: int) -> list[Operand]:
    """The operands of the mnemonic at an index, behind which no token is left. A fault is an `Expected`."""
    name, reader = found[name_at].text, Reader(found, name_at + 1)
    operands: list[Operand] = []
    for kind in OPERANDS[name]:
        if operands:
            reader.need(",")
        operands.append(reader.take(kind))
    while name == ".word" and reader.has(","):
        operands.append(reader.take("v"))
    if reader.next() is not None:
        raise Expected(reader.at, "the end of the line" if operands else "no operand")
    return operands
