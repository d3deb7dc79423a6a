"""The registers of a thread as gdb knows them, and the target description that lists them."""
from __future__ import annotations

from dataclasses import dataclass
from typing import Iterable
from xml.sax.saxutils import quoteattr

from fptools.isa.disassembly import REGISTERS as ABI_NAMES

XLEN = 32
CODE, DATA, PLAIN, BARE = "code_ptr", "data_ptr", "int", "uint32"
POINTERS = {"ra": CODE, "sp": DATA, "gp": DATA, "tp": DATA}

MTVEC, MSCRATCH, MEPC, MCAUSE, MHARTID = 0x305, 0x340, 0x341, 0x342, 0xF14
SLOTS, MODES, DREGIONS, IREGIONS = 0x7C0, 0x7C1, 0x7C2, 0x7C3


@dataclass(frozen=True)
class Register:
    """A register with its bits, and the feature of gdb's that it belongs to."""

    name: str
    feature: str
    type: str = PLAIN
    bits: int = XLEN
    csr: int | None = None  # the number of a CSR


CPU = "org.gnu.gdb.riscv.cpu"
OWN = "org.rilluqar.flexpret"
"""A feature that gdb doesn't know, whose registers `info registers` shows. It leaves out those of its
own feature for CSRs."""

PC = len(ABI_NAMES)  # the number of the pc; x0 to x31 have their own
CYCLE, TIME = "cycle", "now"

REGISTERS = (
    *(Register(name, CPU, POINTERS.get(name, PLAIN)) for name in ABI_NAMES),
    Register("pc", CPU, CODE),
    Register("mtvec", OWN, CODE, csr=MTVEC),
    Register("mscratch", OWN, csr=MSCRATCH),
    Register("mepc", OWN, CODE, csr=MEPC),
    Register("mcause", OWN, csr=MCAUSE),
    Register("mhartid", OWN, csr=MHARTID),
    Register("slots", OWN, BARE, csr=SLOTS),
    Register("modes", OWN, BARE, csr=MODES),
    Register("dregions", OWN, BARE, csr=DREGIONS),
    Register("iregions", OWN, BARE, csr=IREGIONS),
    Register(CYCLE, OWN, "uint64", 64),  # the cycle in which the machine is
    Register(TIME, OWN, "uint64", 64),  # its time in nanoseconds
)


def _feature(name: str, registers: Iterable[tuple[int, Register]]) -> str:
    lines = [
        f'<reg name={quoteattr(it.name)} bitsize="{it.bits}" type="{it.type}" regnum="{number}"/>'
        for number, it in registers
    ]
    return "\n".join([f"<feature name={quoteattr(name)}>", *lines, "</feature>"])


def target_description() -> bytes:
    """The XML document that gdb requests by `qXfer:features:read:target.xml`."""
    numbered = list(enumerate(REGISTERS))
    features = [
        _feature(name, [(at, it) for at, it in numbered if it.feature == name])
        for name in (CPU, OWN)
    ]
    head = (
        '<?xml version="1.0"?>\n<!DOCTYPE target SYSTEM "gdb-target.dtd">\n<target version="1.0">'
    )
    text = "\n".join(
        [
            head,
            "<architecture>riscv:rv32</architecture>",
            "<osabi>none</osabi>",
            *features,
            "</target>\n",
        ]
    )
    return text.encode("ascii")


def spelled(register: Register, value: int | None) -> str:
    """A value as the protocol has it: bytes in the order of memory, or `x` where it isn't known."""
    size = register.bits // 8
    return "xx" * size if value is None else value.to_bytes(size, "little").hex()
